"""The commands' pages: each manual page and completion has the options of `--help`, by the commands that users call."""
import os
import re
import subprocess
import sys
import unittest

from given import InFolder, PROGRAM, TOOLS, TOP, needs, text_of, with_program
from colregs.cli import pages

COMMANDS = sorted(name for name in os.listdir(TOOLS) if name.startswith("colregs-"))
OLD = {"draw": "colregs-draw", "geojson": "colregs-geojson", "scenario": "colregs-scenario", "tagged": "colregs-tagged"}


def options_of(text: str) -> set[str]:
    """Returns the long options that a help page lists."""
    return set(re.findall(r"(?m)^ +(?:-\w[^-]*, )?(--[a-z-]+)", text))


class Pages(InFolder):
    def help_of(self, *words: str) -> str:
        """Returns the help page of a command."""
        status, out, error = self.within(*words, "--help")
        self.assertEqual((status, error), (0, ""))
        return out

    def test_each_page_and_completion_has_every_option_of_help(self) -> None:
        made = pages.pages()
        self.assertEqual(sorted(path for path in made if path.startswith("man1/")),
                         [f"man1/{name}.1" for name in COMMANDS])
        for name in COMMANDS:
            text = self.help_of(name)
            kinds = re.findall(r"(?m)^    (\w+) +\w",
                               text.partition("positional arguments:")[2]) if name == "colregs-many" else []
            options = options_of(text).union(*(options_of(self.help_of(name, kind)) for kind in kinds))
            self.assertGreater(len(options), 1)
            for path in (f"man1/{name}.1", f"bash/{name}", f"zsh/_{name}", f"fish/{name}.fish"):
                plain = made[path].replace("\\-", "-").replace("-l ", "--")
                self.assertEqual([option for option in options if not re.search(re.escape(option) + r"\b", plain)], [],
                                 path)

    def test_each_help_page_says_what_the_command_does_and_its_statuses(self) -> None:
        for name in COMMANDS:
            text = self.help_of(name)
            self.assertTrue(text.startswith(f"usage: {name} "), text[:60])
            self.assertRegex(text, r"\n\n[A-Z]\w+s [^\n]+\.\n\n")
            self.assertRegex(text, r"(?s)\nExit status: .*\bIt needs Python 3\.11 or later\.\n")

    @with_program
    def test_a_folder_gets_the_pages_and_the_completions_of_the_program(self) -> None:
        self.assertEqual(pages.main(self.folder, PROGRAM), 0)
        made = {os.path.relpath(os.path.join(folder, name), self.folder)
                for folder, _, names in os.walk(self.folder) for name in names}
        self.assertEqual(made, {*pages.pages(), "zsh/_colregs", "fish/colregs.fish"})
        shown = subprocess.run([PROGRAM, "--help"], capture_output=True, text=True, check=True).stdout
        modes = set(re.findall(r"(?m)^ +- (\w+):", shown))
        self.assertTrue({"points", "audit", "plan"} <= modes)
        self.assertEqual(set(re.findall(r"__fish_use_subcommand -a (\w+)", text_of(self.path("fish/colregs.fish")))),
                         modes)

    def test_the_old_names_are_the_new_commands(self) -> None:
        for old, new in OLD.items():
            self.assertEqual(text_of(os.path.join(TOOLS, old)), text_of(os.path.join(TOOLS, new)))

    def test_a_wrong_command_line_is_reported_in_one_line_with_status_2(self) -> None:
        for name in COMMANDS:
            status, out, error = self.within(name, "--nothing")
            self.assertEqual((status, out, error.count("\n")), (2, "", 1), error)
            self.assertTrue(error.startswith(name.removeprefix("colregs-") + ": "), error)

    def test_a_value_that_an_option_does_not_take_is_refused_by_the_options_name(self) -> None:
        wrong: tuple[tuple[str, str, str, list[str]], ...] = (
            ("tagged", "--offset", "1", []), ("tagged", "--offset", "+25:00", []),
            ("tagged", "--date", "14.11.2023", []), ("tagged", "--mmsi", "992000001", []),
            ("case", "--jobs", "0", ["LOG", "-o", "OUT"]), ("follow", "--modes", "plan", ["S", "--days", "D"]),
            ("follow", "--modes", "audit,audit", ["S"]), ("live", "--speed", "0", ["S", "--days", "D"]),
            ("live", "--speed", "fast", ["S", "--days", "D"]),
            ("pilot", "--offsets", "0,x", ["S", "--track", "0,9"]), ("pilot", "--speed", "0", ["S", "--route", "R"]),
            ("pilot", "--every", "x", ["S", "--track", "0,9"]), ("trials", "--kinds", "ramming", ["S"]),
            ("trials", "--targets", "4..1", ["S"]), ("trials", "--targets", "few", ["S"]),
            ("trials", "--track", "north", ["S"]), ("trials", "--runs", "0", ["S"]),
        )
        for name, option, value, words in wrong:
            status, out, error = self.within(f"colregs-{name}", *words, f"{option}={value}")
            self.assertEqual((status, out, error.count("\n")), (2, "", 1), error)
            self.assertTrue(error.startswith(f"{name}: argument {option}: "), error)

    def test_each_command_has_its_tool_in_the_clone(self) -> None:
        self.assertEqual(COMMANDS, [f"colregs-{name}" for name in pages.names()])

    @with_program
    def test_zsh_and_fish_complete_the_program_by_its_help(self) -> None:
        text = subprocess.run([PROGRAM, "--help"], capture_output=True, text=True).stdout
        command = pages.program_of(text)
        usage = subprocess.run([PROGRAM], capture_output=True, text=True).stderr
        self.assertEqual([part.name for part in command.parts], usage.removeprefix("usage: ").split()[0].split("|"))
        self.assertEqual(
            {name for option in command.options for name in option.names if name.startswith("--")}, options_of(text)
        )
        self.assertIn(f"complete -c colregs -n __fish_use_subcommand -a {command.parts[0].name} ", pages.fish(command))
        self.assertIn("'--rows[The file of the rows that a recheck checks]:file:_files'", pages.zsh(command))

    def test_an_older_python_ends_with_one_sentence(self) -> None:
        script = ("import sys; sys.version_info = (3, 9, 2); sys.path.insert(0, sys.argv[1]); from colregs.start "
                  "import start; assert 'colregs.library' not in sys.modules; start('case')")
        done = subprocess.run([sys.executable, "-c", script, os.path.join(TOP, "python")], capture_output=True,
                              text=True)
        self.assertEqual((done.returncode, done.stderr), (1, "case: Python 3.11 or later is needed, and this is Python "
                                                             "3.9\n"))

    @needs("man")
    def test_the_manual_pages_have_no_warning(self) -> None:
        for path, text in pages.pages().items():
            if path.startswith("man1/"):
                done = subprocess.run(
                    ["man", "--warnings", "-E", "UTF-8", "-l", "-Tutf8", "-Z",
                     self.write("page.1", text)], capture_output=True, text=True)
                self.assertEqual((done.returncode, done.stderr), (0, ""), path)

    def test_bash_completes_options_commands_and_files(self) -> None:
        def completed(*words: str) -> list[str]:
            script = '. "$0"; COMP_WORDS=("$@"); COMP_CWORD=$(($# - 1)); _${1//-/_}; printf "%s\\n" "${COMPREPLY[@]}"'
            name = self.write("completion", pages.pages()["bash/" + words[0]])
            return subprocess.run(["bash", "-c", script, name, *words], cwd=self.folder, capture_output=True,
                                  text=True).stdout.split("\n")[:-1]

        self.write("a log", "")
        self.assertEqual(completed("colregs-case", "--ch"), ["--chart"])
        self.assertEqual(completed("colregs-case", "a"), ["a log"])
        self.assertEqual(completed("colregs-case", "--ticks", "a"), [""])
        self.assertEqual(completed("colregs-many", "sl"), ["slurm"])


if __name__ == "__main__":
    unittest.main()
