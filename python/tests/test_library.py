"""The shared object: where it is not there, or is another one, the package says what to do."""

import _ctypes  # a shared object that is there for certain
import pathlib
import tempfile
import unittest

from house import EXAMPLES, PYTHON, start
from manopluea import library

PLAN = EXAMPLES / "plan-q.plan"


class Missing(unittest.TestCase):
    def complained(self, path):
        ended = start("list", PLAN, 6, 3, env={library.VARIABLE: str(path)})
        self.assertEqual((ended.returncode, ended.stdout), (2, b""))
        said = ended.stderr.decode()
        self.assertIn("bash python/build.sh", said)
        self.assertIn(library.VARIABLE, said)
        self.assertEqual(said.count("\n"), 1, said)
        return said

    def test_not_there(self):
        self.assertIn("the proved library is not there: /nowhere/lib.so;", self.complained("/nowhere/lib.so"))

    def test_no_shared_object(self):
        self.assertIn("the proved library cannot be loaded:", self.complained(PLAN))

    def test_another_shared_object(self):
        self.assertIn("manopluea_check", self.complained(_ctypes.__file__))

    def test_help_needs_none(self):
        ended = start("--help", env={library.VARIABLE: "/nowhere/lib.so"})
        self.assertEqual((ended.returncode, ended.stderr), (0, b""))

    def test_the_package_without_it(self):
        """A copy of the package, as it is before the build step."""
        with tempfile.TemporaryDirectory() as folder:
            copy = pathlib.Path(folder) / "manopluea"
            copy.mkdir()
            for file in (PYTHON / "manopluea").glob("*.py"):
                (copy / file.name).write_bytes(file.read_bytes())
            ended = start("check", PLAN, cwd=folder)
            self.assertEqual(ended.returncode, 2)
            self.assertIn(b"bash python/build.sh", ended.stderr)


if __name__ == "__main__":
    unittest.main()
