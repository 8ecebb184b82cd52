"""What a command does with inputs and outputs that it cannot use: one line `NAME: what is wrong` on standard error, a
status that is not 0, and nothing of Python's."""
import gzip
import os
import stat
import subprocess
import sys

from given import HANGS, TOOLS, InFolder, example, text_of, with_program
from colregs.io import files

SCENARIO, LOG = example("crossing.toml"), example("crossing.log")
CLOSED = "cannot write to standard output: bad file descriptor"


class Hostile(InFolder):
    def shell(self, redirection: str, name: str, *words: str) -> tuple[int, str, str]:
        """Runs a tool with its streams as the shell's words say; returns its status, standard output and error."""
        command = ["bash", "-c", f'exec "$@" {redirection}', "-", sys.executable, os.path.join(TOOLS, name), *words]
        done = subprocess.run(command, capture_output=True, cwd=self.folder, timeout=HANGS)
        return done.returncode, done.stdout.decode(), done.stderr.decode()


@with_program
class Streams(Hostile):
    def test_a_closed_output_is_named(self) -> None:
        log = self.write("log", text_of(LOG))          # a plan stores what it reads beside the log
        for name, words in (("tagged", [LOG]), ("scenario", [LOG]), ("geojson", [SCENARIO, "--log", LOG]),
                            ("many", ["plan", SCENARIO, log]), ("case", ["--help"])):
            status, _, error = self.shell(">&-", f"colregs-{name}", *words)
            self.assertEqual((status, error.splitlines()[-1]), (1, f"{name}: {CLOSED}"), name)
            self.assertNotIn("Traceback", error)
        self.assertEqual(self.shell(">&-", "colregs-doctor", SCENARIO, LOG), (0, "", ""))   # it has nothing to write

    def test_a_closed_input_is_an_empty_one(self) -> None:
        self.assertEqual(self.shell("<&-", "colregs-tagged")[0], 1)
        for words in (["colregs-scenario"], ["colregs-follow", SCENARIO, "--days", "days"],
                      ["colregs-pilot", example("pilot.toml"), "--track", "000,14", "--replay"]):
            self.assertEqual(self.shell("<&-", *words), self.shell("</dev/null", *words), words)

    def test_without_standard_error_the_rest_is_the_same(self) -> None:
        status, out, _ = self.shell("", "colregs-tagged", LOG)
        for redirection in ("2>&-", "2>/dev/full"):
            self.assertEqual(self.shell(redirection, "colregs-tagged", LOG), (status, out, ""))

    def test_a_full_disk_is_named(self) -> None:
        if not stat.S_ISCHR(os.stat("/dev/full").st_mode):
            self.skipTest("/dev/full is no device")
        for name, words in (("tagged", [LOG]), ("geojson", [SCENARIO, "--log", LOG]), ("case", ["--help"])):
            status, _, error = self.shell(">/dev/full", f"colregs-{name}", *words)
            self.assertEqual((status, error.splitlines()[-1]),
                             (1, f"{name}: cannot write to standard output: no space left on device"))


@with_program
class Logs(Hostile):
    def test_a_log_that_the_program_reads_as_one_without_sentences_is_refused(self) -> None:
        for name, words, said in (
            ("packed", gzip.compress(b"x"), "the log is compressed by gzip: tools/colregs-tagged reads it"),
            ("empty", b"", "the log has nothing in it"),
            ("garbage", bytes(range(14, 256)) * 20, "the log has no AIVDM or AIVDO sentence"),
            ("wide", "\ufeffhello\n".encode("utf-16-le"), "the log is a text in UTF-16: tools/colregs-tagged reads it"),
        ):
            path = self.write(name, words)
            for tool, more in (("geojson", [SCENARIO]), ("draw", [SCENARIO, "out"])):
                self.assertEqual(self.within(f"colregs-{tool}", *more, "--log", path),
                                 (1, "", f"{tool}: {path}: {said}\n"))
        self.assertFalse(os.path.exists(self.path("out.svg")))

    def test_a_folder_is_no_stream(self) -> None:
        for tool, words in (("follow", [SCENARIO, "--days", "days", "--whole"]),
                            ("pilot", [example("pilot.toml"), "--track", "000,14", "--replay"])):
            self.assertEqual(self.within(f"colregs-{tool}", *words, "--log", self.folder),
                             (1, "", f"{tool}: {self.folder} is a folder, and no log\n"))

    def test_rows_for_a_command_that_cannot_be_run_are_not_lost_in_silence(self) -> None:
        status, _, error = self.tool("colregs-follow", SCENARIO, "--days", "days", "--log", LOG, "--whole", "--to",
                                     "./missing")
        self.assertEqual(status, 1)
        self.assertRegex(error.splitlines()[-1], r"^follow: `\./missing` (cannot be run, and took|takes) no rows$")


class Outputs(Hostile):
    def test_a_device_or_a_pipe_stays_what_it_is(self) -> None:
        os.mkfifo(self.path("pipe"))
        reader = os.open(self.path("pipe"), os.O_RDWR)
        self.addCleanup(os.close, reader)
        files.replace(self.path("pipe"), b"words")
        self.assertEqual(os.read(reader, 10), b"words")
        self.assertTrue(stat.S_ISFIFO(os.stat(self.path("pipe")).st_mode))
        self.assertEqual(os.listdir(self.folder), ["pipe"])

    def test_a_file_that_cannot_be_written_is_named_by_its_own_name(self) -> None:
        with self.assertRaises(FileNotFoundError) as missing:
            files.replace(self.path("none/file"), b"")
        self.assertEqual(missing.exception.filename, self.path("none/file"))

    def test_a_case_does_not_take_the_place_of_a_link(self) -> None:
        os.symlink(self.path("nothing"), self.path("link"))
        status, out, error = self.within("colregs-case", LOG, "--scenario", SCENARIO, "-o", "link")
        self.assertEqual((status, out, error), (1, "", "case: link exists already: give another folder\n"))
        self.assertEqual(os.listdir(self.folder), ["link"])
