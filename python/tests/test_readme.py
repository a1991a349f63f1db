"""The commands that README.md gives, each run as it stands there, and the pictures that it shows."""

import os
import pathlib
import re
import subprocess
import sys
import tempfile
import textwrap
import unittest

from house import PYTHON, TOP

README = (TOP / "README.md").read_text(encoding="utf-8")

#: The indented lines that call the command; two blanks or more begin what it is for.
COMMANDS = [re.split(r"  +", line)[0] for line in re.findall(r"^    (manopluea .*)$", README, re.MULTILINE)]

PICTURES = TOP / "docs" / "pictures"


class Readme(unittest.TestCase):
    def test_every_command_works_and_makes_its_files(self):
        self.assertGreater(len(COMMANDS), 5)
        path = f"{PYTHON / 'bin'}{os.pathsep}{os.environ['PATH']}"
        with tempfile.TemporaryDirectory() as folder:
            folder = pathlib.Path(folder)
            (folder / "examples").symlink_to(TOP / "examples")
            (folder / "docs" / "pictures").mkdir(parents=True)
            environment = {**os.environ, "PATH": path, "PYTHONPATH": ""}
            for command in COMMANDS:
                with self.subTest(command):
                    words = command.split()
                    ended = subprocess.run(words, cwd=folder, env=environment, capture_output=True, check=False)
                    self.assertEqual((ended.returncode, ended.stderr), (0, b""))
                    self.assertTrue(ended.stdout)
                    for option, name in zip(words, words[1:]):
                        if option in ("--svg", "--csv"):
                            self.assertGreater((folder / name).stat().st_size, 0)
            for stored in PICTURES.iterdir():
                with self.subTest(stored.name):
                    self.assertEqual((folder / "docs" / "pictures" / stored.name).read_bytes(), stored.read_bytes())

    def test_the_example_in_python_runs(self):
        (example,) = re.findall(r"^    import manopluea\n(?:    .*\n|\n(?=    ))*", README, re.MULTILINE)
        command = [sys.executable, "-c", textwrap.dedent(example)]
        environment = {**os.environ, "PYTHONPATH": "python"}
        ended = subprocess.run(command, cwd=TOP, env=environment, capture_output=True, check=False)
        printed = b"0 (0, 0) (10, 0) in reach\n1 (10, 0) (10, 10) in reach\n2 (10, 10) (0, 0) in reach\n"
        self.assertEqual((ended.returncode, ended.stdout, ended.stderr), (0, printed, b""))

    def test_the_pictures_are_shown(self):
        shown = re.findall(r"!\[[^]]*\]\(docs/pictures/([^)]*)\)", README)
        self.assertEqual(sorted(shown), sorted(stored.name for stored in PICTURES.iterdir()))


if __name__ == "__main__":
    unittest.main()
