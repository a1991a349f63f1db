"""tools/tidy.py drops what is not mentioned, keeps what is, and fails where it finds no file."""
import contextlib
import io
import pathlib
import tempfile
import unittest

import tidy


class Tidied(unittest.TestCase):
    def test_a_name_that_is_not_mentioned_goes(self):
        text = "use lib.Nat.{one, two, one_more, ◌+◌}\nuse lib.Far as Far\n-- two\nthree : one + one.more\n"
        self.assertEqual(tidy.tidied(text), "use lib.Nat.{one, ◌+◌}\n-- two\nthree : one + one.more\n")

    def test_a_place_of_the_source_goes(self):
        text = "-- what it returns\n-- src/lib.rt:8:1\npub returns : goal.returns\n"
        self.assertEqual(tidy.tidied(text), "-- what it returns\npub returns : goal.returns\n")

    def test_one_name_that_is_called_otherwise_stays(self):
        text = "use lib.Nat.{one as unit}\ntwo : unit\n"
        self.assertEqual(tidy.tidied(text), text)

    def test_an_operator_named_as_a_function_is_kept(self):
        text = "use lib.Bool.{◌||◌}\nthree : ap ◌||◌ one\n"
        self.assertEqual(tidy.tidied(text), text)


class Checked(unittest.TestCase):
    def setUp(self):
        folder = tempfile.TemporaryDirectory()
        self.addCleanup(folder.cleanup)
        self.crates = pathlib.Path(folder.name)

    def check(self):
        with contextlib.redirect_stdout(io.StringIO()):
            return tidy.main(["tidy.py", "--check"], self.crates)

    def test_no_file_is_a_failure(self):
        with self.assertRaises(SystemExit) as ended:
            self.check()
        self.assertIn("no .antt file", ended.exception.code)

    def test_a_file_that_would_change_is_a_failure_and_stays(self):
        for name in ("one/specs/Nat.antt", "one/proofs/f/Answers.antt"):
            with self.subTest(name):
                file = self.crates / name
                file.parent.mkdir(parents=True)
                file.write_text("use lib.Nat.{one}\ntwo\n")
                self.assertEqual(self.check(), 1)
                self.assertEqual(file.read_text(), "use lib.Nat.{one}\ntwo\n")
                file.write_text("use lib.Nat.{one}\none\n")
                self.assertEqual(self.check(), 0)

    def test_what_rt_has_made_is_left_out(self):
        for name in ("one/specs/Nat.antt", "one/out/rlib/one.rlib/proofs/f/Answers.antt"):
            (self.crates / name).parent.mkdir(parents=True)
            (self.crates / name).write_text("two\n" if "specs" in name else "use lib.Nat.{one}\ntwo\n")
        self.assertEqual(self.check(), 0)

    def test_the_files_are_found_from_any_folder(self):
        self.assertTrue(any(tidy.CRATES.glob("*/specs/*.antt")))
        self.assertTrue(tidy.CRATES.is_absolute())


if __name__ == "__main__":
    unittest.main()
