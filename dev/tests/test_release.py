"""What `.ci/release` makes: that its program and tools run where they are unpacked, and what BUILD says of them."""
from __future__ import annotations

import hashlib
import os
import re
import shutil
import subprocess
import unittest

from given import EXAMPLES, PROGRAM, TOP, InFolder, with_program, needs, text_of


@with_program
@needs("git")
@needs("rt")
@needs("dpkg-deb")
@unittest.skipUnless(os.path.exists(os.path.join(TOP, ".git")), "this is no clone")
class Release(InFolder):
    def made(self, *words: str) -> tuple[int, str]:
        """Makes a release of the program: the status and standard error."""
        done = subprocess.run([os.path.join(TOP, ".ci", "release"), *words,
                               self.path("out"), PROGRAM], capture_output=True, text=True, timeout=600)
        return done.returncode, done.stderr

    def report(self, *command: str) -> str:
        """Returns the report of the head-on encounter by a program."""
        with open(os.path.join(EXAMPLES, "head_on.log"), "rb") as log:
            return subprocess.run([*command, "audit", os.path.join(EXAMPLES, "head_on.toml")], stdin=log,
                                  capture_output=True, text=True).stdout

    def test_both_contain_the_program_the_tools_and_their_sources(self) -> None:
        self.assertEqual(self.made("--untested"), (0, ""))
        names = sorted(os.listdir(self.path("out")))
        tar, sources, deb = (
            os.path.join(self.path("out"), next(name for name in names if re.fullmatch(pattern, name)))
            for pattern in (r"colregs-[\d.]+\.tar\.gz", r"colregs-[\d.]+-source\.tar\.gz", r"colregs_.*\.deb")
        )
        os.makedirs(self.path("unpacked"))
        subprocess.run(["tar", "-xzf", tar, "-C", self.path("unpacked")], check=True)
        subprocess.run(["dpkg-deb", "-x", deb, self.path("root")], check=True)
        with open(PROGRAM, "rb") as program:
            sum_of = hashlib.sha256(program.read()).hexdigest()
        wanted = text_of(os.path.join(EXAMPLES, "head_on.csv"))
        for place in (os.path.join(self.path("unpacked"),
                                   os.listdir(self.path("unpacked"))[0]), self.path("root/usr/lib/colregs")):
            build = dict(line.split(None, 1) for line in text_of(os.path.join(place, "BUILD")).splitlines())
            self.assertEqual(build["sha256"], sum_of)
            self.assertEqual(
                build["commit"],
                subprocess.run(["git", "-C", TOP, "rev-parse", "HEAD"], capture_output=True, text=True).stdout.strip())
            self.assertEqual(build["kit"],
                             subprocess.run(["rt", "version"], capture_output=True, text=True).stdout.strip())
            self.assertEqual(self.report(os.path.join(place, "colregs")), wanted)
            doctor = subprocess.run([
                os.path.join(place, "tools", "colregs-doctor"),
                os.path.join(EXAMPLES, "head_on.toml"),
                os.path.join(EXAMPLES, "head_on.log")
            ], cwd=self.folder, capture_output=True, text=True)
            self.assertEqual((doctor.returncode, doctor.stderr), (0, ""))
        self.assertEqual(self.report(self.path("root/usr/bin/colregs")), wanted)
        self.assertEqual(
            subprocess.run([self.path("root/usr/bin/colregs-case"), "--help"], capture_output=True).returncode, 0)
        held = subprocess.run(["tar", "-tzf", sources], capture_output=True, text=True).stdout.splitlines()
        tracked = subprocess.run(["git", "-C", TOP, "ls-files"], capture_output=True, text=True).stdout.splitlines()
        self.assertEqual(sorted(name.partition("/")[2] for name in held if not name.endswith("/")), sorted(tracked))
        for name in sorted(os.listdir(os.path.join(TOP, "tools"))):
            if name.startswith("colregs-"):
                self.assertTrue(os.path.exists(self.path(f"root/usr/share/man/man1/{name}.1.gz")), name)
        if shutil.which("lintian"):
            done = subprocess.run(["lintian", "--fail-on", "error,warning", deb], capture_output=True, text=True)
            self.assertEqual(done.returncode, 0, done.stdout)

    def test_a_commit_that_the_gate_has_not_passed_is_refused(self) -> None:
        other = shutil.copy("/bin/true", self.path("other"))
        done = subprocess.run(
            [os.path.join(TOP, ".ci", "release"), self.path("out"), other], capture_output=True, text=True)
        self.assertEqual(done.returncode, 1)
        self.assertIn("has not passed this program", done.stderr)

    def test_bash_completes_modes_options_and_scenarios(self) -> None:
        def completed(*words: str) -> list[str]:
            script = '. "$0"; COMP_WORDS=("$@"); COMP_CWORD=$(($# - 1)); _colregs; printf "%s\\n" "${COMPREPLY[@]}"'
            return subprocess.run(
                ["bash", "-c", script,
                 os.path.join(TOP, "tools", "completion", "colregs.bash"), "colregs", *words], cwd=self.folder,
                capture_output=True, text=True).stdout.split("\n")[:-1]

        for name in ("a.toml", "a b.toml", "a.log"):
            self.write(name, "")
        self.assertEqual(completed("p"), ["points", "plan"])
        self.assertEqual(sorted(completed("audit", "a")), ["a b.toml", "a.toml"])
        self.assertEqual(completed("--ticks", "4", "au"), ["audit"])
        self.assertEqual(completed("audit", "a.toml", "--t"), ["--ticks"])
        self.assertEqual(completed("recheck", "a.toml", "--rows", "a.l"), ["a.log"])
