"""Several stands: their file, the sheet, and the bar."""

import csv
import io
import pathlib
import tempfile
import unittest

from house import Q, Stand, run
from manopluea import stands


class Files(unittest.TestCase):
    def setUp(self):
        made = tempfile.TemporaryDirectory()
        self.addCleanup(made.cleanup)
        self.folder = pathlib.Path(made.name)

    def file(self, text, name="stands.csv"):
        path = self.folder / name
        path.write_bytes(text if isinstance(text, bytes) else text.encode())
        return path


class Read(Files):
    def test_forms(self):
        plain = [("1", Stand(6, 3)), ("2", Stand(3, 6))]
        for text in (
            "6,3\n3,6\n",
            "x,y\r\n6,3\r\n\r\n3,6",
            "\ufeffx;y\n6;3\n3;6\n",
            "y,x\n3, 6\n6,3\n",
            "x,y,corner\n6,3,\n3,6\n",
            "X,Y\n6,3\n3,6\n",
        ):
            self.assertEqual(stands.read(self.file(text)), plain, text)
        named = self.file("name,corner,x,y\ngate,2,-4,-7\n,,5,5\n")
        self.assertEqual(stands.read(named), [("gate", Stand(-4, -7, 2)), ("2", Stand(5, 5))])
        self.assertEqual(stands.read(self.file("-4,-7,2\n")), [("1", Stand(-4, -7, 2))])
        self.assertEqual(stands.read(self.file("")), [])

    def test_what_is_wrong_is_said_with_its_line(self):
        for text, said in (
            ("6,3\n6,three\n", "line 2: 'three' is no number"),
            ("x,y\n6\n", "line 2: y is missing"),
            ("x,y\n6,3,4\n", "line 2: 3 values for the columns x, y"),
            ("6," + "3" * 200_000, "field larger than field limit"),
            ("name,x,y\na\x07b,6,3\n", "line 2: the name 'a\\x07b' cannot be printed"),
            ("6,3,-1\n", "line 1: '-1' is no whole number from 0 to 65535"),
            ("6.00000000000000000001,3\n", "line 1: 6.00000000000000000001 is no double-precision number"),
        ):
            path = self.file(text)
            with self.assertRaises(ValueError) as fault:
                stands.read(path)
            self.assertTrue(str(fault.exception).startswith(str(path)))
            self.assertIn(said, str(fault.exception))
        with self.assertRaisesRegex(ValueError, "each once, not x, y, z"):
            stands.read(self.file("x,y,z\n1,2,3\n"))


class Sheet(Files):
    def setUp(self):
        super().setUp()
        self.q = self.file(Q.write(), "q.plan")

    def test_which_walls_from_which_stand(self):
        morning = self.file("name,x,y\nA,6,3\nB,5,5\nC,11,3\n")
        sheet, drawn = self.folder / "sheet.csv", self.folder / "seen.svg"
        ended = run("stands", self.q, morning, "--reach", 4, "--csv", sheet, "--svg", drawn)
        self.assertEqual(
            ended.out,
            "A (6, 3): 4 rows, 1 crossing\n"
            "B (5, 5): 4 rows, 0 crossings\n"
            "C (11, 3): refused 10\n"
            "2 of 4 walls in reach of some stand\n"
            "face  cell  side  from        to          line  in reach from  out of reach from\n"
            "   0     0     0  0 (0, 0)    1 (10, 0)   wall  A              B\n"
            "   1     0     1  1 (10, 0)   2 (10, 10)  wall  A              B\n"
            "   4     1     1  2 (10, 10)  3 (0, 10)   wall  -              A; B\n"
            "   5     1     2  3 (0, 10)   0 (0, 0)    wall  -              A; B\n",
        )
        self.assertEqual(ended.status, 1)
        self.assertRegex(ended.err, r"^manopluea: stand C: the stand \(11, 3\) is in no cell .* \(refused 10\)\n$")
        with open(sheet, newline="", encoding="ascii") as file:
            rows = list(csv.DictReader(file))
        found = [(row["face"], row["in reach from"], row["out of reach from"]) for row in rows]
        self.assertEqual(found, [("0", "A", "B"), ("1", "A", "B"), ("4", "", "A; B"), ("5", "", "A; B")])
        self.assertIn(b'<clipPath id="reach1">', drawn.read_bytes())

    def test_each_stand_has_the_ceiling_for_itself(self):
        ended = run("stands", self.q, self.file("6,3\n5,5\n"), "--ceiling", 0)
        self.assertEqual(ended.out.splitlines()[:2], ["1 (6, 3): refused 19", "2 (5, 5): 4 rows, 0 crossings"])
        self.assertEqual(ended.status, 1)
        self.assertIn("more free lines are crossed than the ceiling of 0 (refused 19)", ended.err)

    def test_both_sides_of_a_shut_door(self):
        ended = run("stands", self.q, self.file("6,3\n3,6\n"), "--shut", 0)
        self.assertIn("6 of 6 walls in reach of some stand\n", ended.out)
        self.assertIn("   2     0     2  2 (10, 10)  0 (0, 0)    door 0  1\n", ended.out)
        self.assertIn("   3     1     0  0 (0, 0)    2 (10, 10)  door 0  2\n", ended.out)

    def test_more_stands_than_a_call_has(self):
        """What single listings give, whatever the number of calls."""
        texts = [f"{x},{y}" for x in range(-1, 12) for y in range(-1, 12)]
        ended = run("stands", self.q, self.file("\n".join(texts)))
        lines = ended.out.splitlines()
        for number, text in enumerate(texts, start=1):
            alone = run("list", self.q, *text.split(","))
            said = f"{number} ({text.replace(',', ', ')}): "
            expected = alone.out.splitlines()[0].split(": ")[1] if alone.status == 0 else alone.err[-12:-2].strip("( ")
            self.assertEqual(lines[number - 1], said + expected)

    def test_no_stands(self):
        empty = self.file("x,y\n")
        self.assertEqual(run("stands", self.q, empty).status, 0)
        ended = run("stands", self.q, empty, "--shut", 1)
        self.assertEqual((ended.status, ended.out), (1, ""))

    def test_several_files(self):
        first, second = self.file("name,x,y\nA,6,3\n", "first.csv"), self.file("name,x,y\nB,5,5\n", "second.csv")
        self.assertIn("wall  A; B", run("stands", self.q, first, second).out)
        third, fourth = self.file("6,3\n", "third.csv"), self.file("5,5\n", "fourth.csv")
        self.assertIn("wall  1; 2", run("stands", self.q, third, fourth).out)
        ended = run("stands", self.q, first, first)
        self.assertEqual((ended.status, ended.out), (2, ""))
        self.assertIn("two stands have the name A", ended.err)

    def test_files_that_cannot_be_read(self):
        for path, said in (
            (self.folder / "none.csv", "No such file or directory"),
            (self.file(b"\xff\xfe6,3\n"), "can't decode byte"),
            (self.file("6,x\n", "wrong.csv"), "line 1: 'x' is no number"),
        ):
            ended = run("stands", self.q, path)
            self.assertEqual((ended.status, ended.out), (2, ""))
            self.assertIn(str(path), ended.err)
            self.assertIn(said, ended.err)


class Terminal(io.StringIO):
    def isatty(self):
        return True


class Bar(unittest.TestCase):
    def shown(self, stream, seconds):
        clock = iter([0.0, *seconds])
        progress = stands.Progress(stream, lambda: next(clock))
        named = [stands.Named(str(number), Stand(6, 3)) for number in range(70)]
        answers = list(stands.answers(Q, named, progress))
        self.assertEqual([len(answer.rows) for _, answer in answers], [4] * 70)
        return stream.getvalue()

    def test_on_a_terminal_after_a_second(self):
        bars = self.shown(Terminal(), [0.9, 1.1]).split("\r")
        half = "#" * 36 + "." * 4
        self.assertEqual(bars, ["", f"{half} 64 of 70 stands", f"{'#' * 40} 70 of 70 stands", "\x1b[K"])

    def test_not_where_it_is_quick(self):
        self.assertEqual(self.shown(Terminal(), [0.1, 0.2, 0.3]), "")

    def test_not_in_a_file(self):
        self.assertEqual(self.shown(io.StringIO(), [5.0, 6.0, 7.0]), "")


if __name__ == "__main__":
    unittest.main()
