"""The choice of the program: never one in the current folder, which may be a folder of evidence."""
import os
import subprocess
import sys

from given import HANGS, HERE, InFolder
from colregs.errors import Fault
from colregs.run import program

ASK = "from colregs.run import program; program.TOP = program.BUILT = '/none'; print(program.found())"


class Found(InFolder):
    def setUp(self) -> None:
        super().setUp()
        os.mkdir(self.path("evidence"))
        self.hostile = self.write("evidence/colregs", "#!/bin/sh\necho hostile\n")
        os.chmod(self.hostile, 0o755)

    def asked(self, path: str, *words: str) -> subprocess.CompletedProcess[str]:
        """Asks a Python in the folder of evidence for the program, with this PATH."""
        environment = {"PATH": path, "PYTHONPATH": os.path.dirname(HERE), "PYTHONDONTWRITEBYTECODE": "1"}
        return subprocess.run([sys.executable, *(words or ("-P", "-c", ASK))], cwd=self.path("evidence"),
                              env=environment, capture_output=True, text=True, timeout=HANGS)

    def test_a_program_in_the_current_folder_is_not_run(self) -> None:
        for path in ("/none", ".", "", ":/none", "./", "../evidence"):
            with self.subTest(path):
                done = self.asked(path)
                self.assertEqual((done.returncode, done.stdout), (1, ""))
                self.assertIn("cannot find the program", done.stderr)

    def test_a_program_in_an_absolute_folder_of_path_is_run(self) -> None:
        os.mkdir(self.path("bin"))
        good = self.write("bin/colregs", "#!/bin/sh\n")
        os.chmod(good, 0o755)
        self.assertEqual(self.asked(f".:{self.path('bin')}").stdout.strip(), good)

    def test_a_program_next_to_the_tool_comes_before_path(self) -> None:
        os.mkdir(self.path("bin"))
        for name in ("bin/colregs", "bin/tool"):
            self.write(name, ASK)
            os.chmod(self.path(name), 0o755)
        self.assertEqual(
            self.asked(self.path("evidence"), self.path("bin/tool")).stdout.strip(),
            os.path.realpath(self.path("bin/colregs")))

    def test_a_named_file_that_is_not_a_program_is_refused(self) -> None:
        with self.assertRaisesRegex(Fault, "is not an executable file"):
            program.found(self.path("none"))
