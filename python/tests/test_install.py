"""The package installs without a network into a fresh virtual environment, and its commands run there, far from the
clone."""
import os
import subprocess
import sys
import unittest

from given import HANGS, PROGRAM, TOP, InFolder, example, text_of, with_program


@with_program
class Installed(InFolder):
    def run_of(self, *words: str) -> subprocess.CompletedProcess[str]:
        """Runs a command in its own folder, without a path to the clone and without a network."""
        environment = {
            "PATH": "/usr/bin:/bin", "COLREGS_PROGRAM": PROGRAM, "HOME": self.folder, "PIP_NO_INDEX": "1",
            "PIP_FIND_LINKS": self.folder
        }
        return subprocess.run(words, capture_output=True, text=True, cwd=self.folder, env=environment, timeout=HANGS)

    def test_pip_installs_it_and_its_commands_run(self) -> None:
        if subprocess.run([sys.executable, "-m", "venv", self.path("new")], capture_output=True).returncode != 0:
            self.skipTest("python3-venv is not installed")
        done = self.run_of(self.path("new/bin/pip"), "install", "--quiet", "--disable-pip-version-check",
                           os.path.join(TOP, "python"))
        self.assertEqual(done.returncode, 0, done.stderr)
        for name in sorted(name for name in os.listdir(os.path.join(TOP, "tools")) if name.startswith("colregs-")):
            self.assertEqual(self.run_of(self.path("new/bin/" + name), "--help").returncode, 0, name)
            self.assertTrue(os.path.exists(self.path(f"new/share/man/man1/{name}.1")), name)
        done = self.run_of(self.path("new/bin/colregs-doctor"), example("crossing.toml"), example("crossing.log"))
        self.assertEqual((done.returncode, done.stdout, done.stderr), (0, "", ""))
        done = self.run_of(self.path("new/bin/colregs-case"), example("crossing.log"), "--scenario",
                           example("crossing.toml"), "-o", "case")
        self.assertEqual(done.returncode, 0, done.stderr)
        self.assertEqual(text_of(self.path("case/report.csv")), text_of(example("crossing.csv")))


if __name__ == "__main__":
    unittest.main()
