"""The command: its lists, its refusals in words, and how it ends."""

import csv
import os
import pathlib
import tempfile
import unittest

from house import ONE_CELL, Q, TWELVE, WALL, Plan, q_with, run, start


class Folder(unittest.TestCase):
    def setUp(self):
        made = tempfile.TemporaryDirectory()
        self.addCleanup(made.cleanup)
        self.folder = pathlib.Path(made.name)
        self.q = self.stored(Q)

    def stored(self, plan) -> pathlib.Path:
        """A plan, or any bytes, as a file. The plan may be one that the library would not write."""
        if isinstance(plan, Plan):
            plan = bytes_of(plan)
        path = self.folder / f"{len(list(self.folder.iterdir()))}.plan"
        path.write_bytes(plan)
        return path


def bytes_of(plan: Plan) -> bytes:
    """The records of any lists."""
    bodies = zip((1, plan.kind, 3), map(bytes, plan.lists))
    return b"".join(len(body).to_bytes(4, "little") + kind.to_bytes(2, "little") + body for kind, body in bodies)


def asked(stand, shut):
    words = ["--rows"]
    words += ["--shut", shut] if shut else []
    words += ["--from-corner", stand.corner] if stand.corner is not None else []
    return words, ["--", stand.x, stand.y]


class Twelve(Folder):
    def test_the_twelve_examples(self):
        for letter, (plan, stand, shut, expected) in TWELVE.items():
            options, at = asked(stand, shut)
            ended = run("list", self.stored(plan), *options, *at)
            with self.subTest(letter):
                if isinstance(expected, int):
                    self.assertEqual((ended.status, ended.out), (1, f"refused {expected} 0\n"))
                    self.assertRegex(ended.err, rf"^manopluea: .* \(refused {expected}\)\n$")
                else:
                    rows, crossings = expected
                    lines = [f"rows {len(rows)} crossings {crossings}", *rows, ""]
                    self.assertEqual(ended, (0, "\n".join(lines), ""))

    def test_every_letter_is_there(self):
        self.assertEqual("".join(TWELVE), "abcdefghijkl")


class Lists(Folder):
    def test_a_line_a_wall_with_coordinates(self):
        ended = run("list", self.q, 6, 3, "--shut", 0, "--reach", 3)
        self.assertEqual(
            ended.out,
            "from (6, 3): 3 rows, 0 crossings\n"
            "face  cell  side  from        to          right limit  left limit  reach         line\n"
            "   0     0     0  0 (0, 0)    1 (10, 0)   0 (0, 0)     1 (10, 0)   in reach      wall\n"
            "   1     0     1  1 (10, 0)   2 (10, 10)  1 (10, 0)    2 (10, 10)  out of reach  wall\n"
            "   2     0     2  2 (10, 10)  0 (0, 0)    2 (10, 10)   0 (0, 0)    in reach      door 0\n",
        )
        self.assertEqual((ended.status, ended.err), (0, ""))

    def test_a_free_line_out_of_reach_is_told_from_a_wall(self):
        without = self.stored(q_with(doors=[]))
        self.assertRegex(run("list", self.q, 6, 3, "--reach", 2).out, r"\n +2 .* out of reach  open door 0\n$")
        self.assertRegex(run("list", without, 6, 3, "--reach", 2).out, r"\n +2 .* out of reach  free line\n$")

    def test_an_offset_is_the_same_stand(self):
        point, offset = (run("list", self.q, *at, "--rows") for at in ((6, 3), (-4, -7, "--from-corner", 2)))
        self.assertEqual(point, offset)

    def test_larger_cells(self):
        ended = run("list", self.stored(ONE_CELL), 5, 5)
        self.assertEqual(ended.out.splitlines()[0], "from (5, 5): 4 rows, 0 crossings")
        self.assertIn("   3     0     3  3 (0, 10)   0 (0, 0)  ", ended.out)

    def test_rows_with_a_reach_or_a_ceiling(self):
        ended = run("list", self.q, 6, 3, "--rows", "--reach", 2, "--ceiling", 0)
        self.assertEqual(ended, (0, "rows 3 crossings 0\n0 0 1 1\n1 1 2 1\n2 2 0 1\n", ""))
        ended = run("list", self.q, 6, 3, "--rows", "--ceiling", 0)
        self.assertEqual((ended.status, ended.out), (1, "refused 19 0\n"))

    def test_rows_of_an_input_that_is_too_long_to_be_printed(self):
        """The printing program refuses it for its length, whatever else is wrong with it."""
        ended = run("list", self.stored(bytes(70000)), 6, 3, "--rows")
        self.assertEqual((ended.status, ended.out), (1, "refused 2 0\n"))
        said = "the plan file has 70000 bytes; the printing program takes 65536 with the query (refused 2)"
        self.assertEqual(ended.err, f"manopluea: {said}\n")

    def test_csv_has_each_number_in_a_column(self):
        path = self.folder / "seen.csv"
        run("list", self.q, 6, 3, "--csv", path)
        with open(path, newline="", encoding="ascii") as file:
            rows = list(csv.DictReader(file))
        self.assertEqual([row["face"] for row in rows], ["0", "1", "4", "5"])
        third = {
            **{"cell": "1", "side": "1", "from corner": "2", "from x": "10", "from y": "10", "to corner": "3"},
            **{"to x": "0", "to y": "10", "right corner": "2", "right x": "10", "right y": "10", "left corner": "3"},
            **{"left x": "0", "left y": "10", "reach": "in reach", "line": "wall"},
        }
        self.assertEqual(rows[2], {"face": "4", **third})
        run("list", self.q, 6, 3, "--shut", 0, "--csv", path)
        self.assertTrue(path.read_text(encoding="ascii").endswith(",in reach,door 0\n"))


class Changes(Folder):
    def test_shutting_says_what_is_new_and_gone(self):
        out = run("change", self.q, 6, 3, "--door", 0, "--shut").out
        head, *rest = out.splitlines()
        self.assertEqual(head, "from (6, 3) with door 0 shut, 1 new and 2 gone: 3 rows, 0 crossings")
        faces = [line.split()[0] for line in rest]
        self.assertEqual(faces, ["face", "0", "1", "2", "new:", "face", "2", "gone:", "face", "4", "5"])
        self.assertTrue(rest[3].endswith("  in reach  door 0"), rest[3])

    def test_the_picture_is_of_the_new_state(self):
        path = self.folder / "seen.svg"
        for words, state in ((["--shut"], "shut"), (["--open", "--shut-before", 0], "open")):
            self.assertEqual(run("change", self.q, 6, 3, "--door", 0, *words, "--svg", path).status, 0)
            self.assertIn(f"<title>door 0, {state}: face 2, ", path.read_text(encoding="utf-8"))

    def test_opening_is_the_reverse(self):
        fresh = run("list", self.q, 6, 3, "--rows").out
        opened = run("change", self.q, 6, 3, "--door", 0, "--open", "--shut-before", 0, "--rows")
        self.assertEqual(opened, (0, fresh, ""))

    def test_what_is_gone_is_said_as_it_was(self):
        out = run("change", self.q, 6, 3, "--door", 0, "--open", "--shut-before", 0).out
        self.assertRegex(out, r"\ngone:\nface .*\n   2  .*  in reach  door 0\n$")

    def test_within_a_reach(self):
        """The list from before, the change and the list after it have the same one."""
        changed = run("change", self.q, 6, 3, "--door", 0, "--shut", "--reach", 3, "--rows")
        self.assertEqual(changed, run("list", self.q, 6, 3, "--shut", 0, "--reach", 3, "--rows"))
        self.assertEqual(changed, (0, "rows 3 crossings 0\n0 0 1 0\n1 1 2 1\n2 2 0 0\n", ""))

    def test_from_a_list_that_was_given(self):
        given = self.folder / "given"
        given.write_text(run("list", self.q, 6, 3, "--rows").out)
        words = ["change", self.q, 6, 3, "--door", 0, "--shut", "--rows", "--list", given]
        self.assertEqual(run(*words).out, run("list", self.q, 6, 3, "--shut", 0, "--rows").out)
        given.write_text("rows 4 crossings 1\n0 0 1 0\n1 1 2 0\n4 2 3 1\n5 3 0 0\n")
        ended = run(*words)
        self.assertEqual((ended.status, ended.out), (1, ""))
        said = "the list that was given is not the true one: its row 2 is 4 2 3 1, and should be 4 2 3 0 (refused 13)"
        self.assertEqual(ended.err, f"manopluea: {said}\n")

    def test_a_list_that_is_none(self):
        given = self.folder / "given"
        for text, said in (
            ("", "line 1 is not the first of a list"),
            ("refused 10 0\n", "line 1 is not the first of a list"),
            ("rows 1 crossings 0\n0 0 1\n", "line 2 is not a row"),
            ("rows 1 crossings 0\n0 0 1 65536\n", "line 2 is not a row"),
            ("rows 2 crossings 0\n0 0 1 0\n", "2 rows are said and 1 are there"),
        ):
            given.write_text(text)
            ended = run("change", self.q, 6, 3, "--door", 0, "--shut", "--list", given)
            self.assertEqual((ended.status, ended.out), (2, ""))
            self.assertIn(f"{given}: {said}", ended.err)


class Questions(Folder):
    def test_where_a_stand_is(self):
        inside = "(6, 3) is inside cell 0 with the corners 0 (0, 0), 1 (10, 0) and 2 (10, 10)\n"
        self.assertEqual(run("find", self.q, 6, 3), (0, inside, ""))
        side = "side 2 of cell 0, from corner 2 (10, 10) to corner 0 (0, 0)"
        doorway = f"(5, 5) is on {side}, open door 0 between cells 0 and 1\n"
        self.assertEqual(run("find", self.q, 5, 5), (0, doorway, ""))

    def test_whether_a_plan_is_accepted(self):
        self.assertEqual(run("check", self.q), (0, "accepted: 4 corners, 2 cells, 1 door\n", ""))

    def test_what_a_plan_has(self):
        self.assertEqual(
            run("info", self.q).out.splitlines(),
            [
                "file     76 bytes, cells of three corners (kind 2)",
                "corners  4, x from 0 to 10, y from 0 to 10, in mm",
                "cells    2",
                "lines    4 walls, 1 free line, 1 of them doors",
                "door 0   face 2, side 2 of cell 0, from corner 2 (10, 10) to corner 0 (0, 0), between cells 0 and 1",
            ],
        )
        self.assertIn("cells of 4 to 4 corners (kind 12)", run("info", self.stored(ONE_CELL)).out)


class Refused(Folder):
    """Each refusal that the command can meet, with its words. Nothing goes to standard output."""

    def expect(self, words, *command):
        ended = run(*command)
        self.assertEqual(ended, (1, "", f"manopluea: {words}\n"))

    def test_frame(self):
        good = bytes_of(Q)
        for file, said in (
            (b"\0", "the record of corners is not there: what is left has 1 byte, and a record's head takes 6"),
            (good[:9], "the record of corners is cut off: of its 32 bytes it has 3"),
            (good[:4] + b"\4" + good[5:], "where the record of corners should be, of kind 1, is one of kind 4"),
            (good[:42] + b"\3" + good[43:], "where the record of cells should be, of kind 2 or 12, is one of kind 3"),
            (good + b"\0", "the record of doors, the last of a plan, is followed by 1 byte"),
            (b"\1\0\0\0\1\0\0" + good[38:], "the record of corners has 1 byte, which is no multiple of 8"),
            (good[:-8] + b"\3\0\0\0\3\0\2\0\2", "the record of doors has 3 bytes, which is no multiple of 2"),
        ):
            self.expect(f"not a plan file: {said} (refused 1)", "check", self.stored(file))
        cut = (
            "not a plan file: the list of cells does not end with a whole cell: in cell 0 it ends after 5 of its 6 "
            "corners and neighbours (refused 1)"
        )
        lists = [number for corner in Q.corners for number in corner], [], Q.doors
        short = Plan.from_lists(lists[0], [0, 1, 2, WALL, WALL], lists[2], 2)
        self.expect(cut, "check", self.stored(short))
        nine = Plan.from_lists(lists[0], [9, *range(9), *[WALL] * 9], lists[2], 12)
        said = "not a plan file: cell 0 is said to have 9 corners; 3 to 8 are allowed (refused 1)"
        self.expect(said, "check", self.stored(nine))

    def test_size(self):
        for changed, said in (
            ({"corners": Q.corners[:2]}, "2 corners; 3 to 2048"),
            ({"cells": []}, "0 cells; 1 to 3000"),
            ({"doors": [2] * 65}, "65 doors; 0 to 64"),
        ):
            refused = self.stored(q_with(**changed))
            self.expect(f"the plan has {said} are allowed (refused 2)", "check", refused)

    def test_corner(self):
        far = self.stored(q_with(corners=[*Q.corners[:2], (10, 536870913), (0, 10)]))
        said = "corner 2 (10, 536870913) is outside: coordinates go from -536870912 to 536870912 (refused 3, place 2)"
        self.expect(said, "check", far)

    def test_cell(self):
        def cell(*corners):
            return self.stored(q_with(cells=[(corners, (WALL, WALL, 1)), Q.cells[1]]))

        self.expect(
            "cell 0 names corner 4, and the plan has corners 0 to 3 (refused 4, place 0)", "check", cell(0, 4, 2)
        )
        self.expect("cell 0 names corner 2 (10, 10) more than once (refused 4, place 0)", "check", cell(0, 2, 2))
        self.expect(
            "cell 0 with the corners 0 (0, 0), 2 (10, 10) and 1 (10, 0) is not convex and counter-clockwise: "
            "a corner other than a side's own two is not strictly left of that side (refused 4, place 0)",
            *("list", cell(0, 2, 1), 6, 3),
        )

    def test_neighbour(self):
        def cells(first, second):
            cells = [((0, 1, 2), (WALL, WALL, first)), ((0, 2, 3), (second, WALL, WALL))]
            return self.stored(q_with(cells=cells))

        side = "side 2 of cell 0, from corner 2 (10, 10) to corner 0 (0, 0), names cell"
        said = f"{side} 7 as its neighbour, and the plan has cells 0 to 1 (refused 5, place 2)"
        self.expect(said, "find", cells(7, 0), 6, 3)
        lacks = "and that has no side from corner 0 to corner 2 whose neighbour is cell 0"
        self.expect(f"{side} 1 as its neighbour, {lacks} (refused 5, place 2)", "find", cells(1, WALL), 6, 3)

    def test_door(self):
        def doors(*faces):
            return self.stored(q_with(doors=faces))

        self.expect("door 0 names face 6, and the plan has faces 0 to 5 (refused 6, place 0)", "info", doors(6))
        wall = "face 1, side 1 of cell 0, from corner 1 (10, 0) to corner 2 (10, 10), which is a wall"
        self.expect(f"door 1 names {wall} (refused 6, place 1)", "info", doors(2, 1))
        twice = (
            "face 3, side 0 of cell 1, from corner 0 (0, 0) to corner 2 (10, 10): door 0, face 2, has that line already"
        )
        self.expect(f"door 1 names {twice} (refused 6, place 1)", "info", doors(2, 3))

    def test_overlap(self):
        cells = [(corners, (WALL, WALL, WALL)) for corners in ((0, 1, 2), (0, 2, 3), (0, 1, 3))]
        said = (
            "cell 0 with the corners 0 (0, 0), 1 (10, 0) and 2 (10, 10) and cell 2 with the corners 0 (0, 0), "
            "1 (10, 0) and 3 (0, 10) lie on top of each other: some point is strictly inside both (refused 17, place 0)"
        )
        self.expect(said, "list", self.stored(q_with(cells=cells, doors=[])), 6, 3)

    def test_setting(self):
        said = "doors 1 and 63 cannot be shut: the plan has door 0 alone (refused 7)"
        self.expect(said, "list", self.q, 6, 3, "--shut", "0,1,63")
        none = self.stored(q_with(doors=[]))
        self.expect("door 0 cannot be shut: the plan has no door (refused 7)", "list", none, 6, 3, "--shut", 0)

    def test_stand(self):
        whole, outside = "is not a whole number of millimetres", "is outside -536870912 to 536870912"
        for x, y, said in (
            ("6.5", "3", f"the stand (6.5, 3) is not accepted: x {whole}"),
            ("6", "nan", f"the stand (6, NaN) is not accepted: y {whole}"),
            ("inf", "3", f"the stand (Infinity, 3) is not accepted: x {whole}"),
            ("6", "536870913", f"the stand (6, 536870913) is not accepted: y {outside}"),
            ("9" * 400, "3", f"the stand ({'9' * 400}, 3) is not accepted: x {whole}"),
        ):
            self.expect(f"{said} (refused 8)", "list", self.q, x, y)
        corner = "the stand (6, 3) from corner 9 is not accepted: the plan has corners 0 to 3"
        self.expect(f"{corner} (refused 8)", "list", self.q, 6, 3, "--from-corner", 9)
        beyond = "the stand (6, 536870912) from corner 2 is not accepted: it is outside -536870912 to 536870912"
        self.expect(f"{beyond} (refused 8)", "list", self.q, 6, 536870912, "--from-corner", 2)

    def test_line(self):
        said = "the stand (5, 5) lies on a line between cells 0 and 1, where door 0 is shut"
        for command in ("list", "find"):
            self.expect(f"{said} (refused 9)", command, self.q, 5, 5, "--shut", 0)
        self.expect("the stand (6, 0) lies on a wall of cell 0 (refused 9)", "list", self.q, 6, 0)
        self.expect("the stand (10, 10) lies on corner 2 (refused 9)", "list", self.q, 10, 10)
        offset = "the stand (-5, 0) from corner 2, which is (5, 10), lies on a wall of cell 1"
        self.expect(f"{offset} (refused 9)", "find", self.q, -5, 0, "--from-corner", 2)
        underfoot = "the stand (5, 5) is in the doorway of door 0, which cannot be changed from there"
        self.expect(f"{underfoot} (refused 9)", "change", self.q, 5, 5, "--door", 0, "--shut")

    def test_a_wall_of_two_cells_that_touch(self):
        cells = [((0, 1, 2), (WALL, WALL, WALL)), ((0, 2, 3), (WALL, WALL, WALL))]
        touching = self.stored(q_with(cells=cells, doors=[]))
        self.expect("the stand (5, 5) lies on a wall of cells 0 and 1 (refused 9)", "find", touching, 5, 5)

    def test_outside(self):
        where = "its corners have x from 0 to 10 and y from 0 to 10"
        self.expect(f"the stand (11, 5) is in no cell of the plan; {where} (refused 10)", "find", self.q, 11, 5)

    def test_change(self):
        self.expect("door 0 is open already (refused 12)", "change", self.q, 6, 3, "--door", 0, "--open")
        shut = ["change", self.q, 6, 3, "--door", 0, "--shut", "--shut-before", 0]
        self.expect("door 0 is shut already (refused 12)", *shut)
        said = "door 7 cannot be changed: the plan has door 0 alone (refused 12)"
        self.expect(said, "change", self.q, 6, 3, "--door", 7, "--shut")

    def test_reach(self):
        for reach in (0, 262145, 2**64 - 1):
            said = f"a reach of {reach} mm cannot be stated: it is 1 to 262144 (refused 15)"
            self.expect(said, "list", self.q, 6, 3, "--reach", reach)

    def test_ceiling(self):
        said = "from the stand (6, 3) more free lines are crossed than the ceiling of 0 (refused 19)"
        self.expect(said, "list", self.q, 6, 3, "--ceiling", 0)


class Usage(Folder):
    def test_what_the_library_cannot_be_asked_is_usage(self):
        for words, said in (
            ((), "the following arguments are required: COMMAND"),
            (("list", self.q, 6), "the following arguments are required: Y"),
            (("list", self.q, "six", 3), "argument X: 'six' is no number"),
            (("list", self.q, "snan", 3), "argument X: 'snan' is no number"),
            (("list", self.q, "6,5", 3), "argument X: '6,5' is no number"),
            (
                ("list", self.q, "6.00000000000000000001", 3),
                "argument X: 6.00000000000000000001 is no double-precision",
            ),
            (
                ("list", self.q, 6, 3, "--reach=-5"),
                "argument --reach: '-5' is no whole number from 0 to 184467440737095",
            ),
            (("list", self.q, 6, 3, "--ceiling", "1.5"), "argument --ceiling: '1.5' is no whole number"),
            (("list", self.q, 6, 3, "--shut", "64"), "argument --shut: '64' is no whole number from 0 to 63"),
            (("list", self.q, 6, 3, "--from-corner", "65536"), "argument --from-corner: '65536' is no whole number"),
            (("change", self.q, 6, 3, "--door", 0), "one of the arguments --shut --open is required"),
            (("change", self.q, 6, 3, "--door", 0, "--shut", "--open"), "--open: not allowed with argument --shut"),
        ):
            ended = run(*words)
            with self.subTest(words):
                self.assertEqual((ended.status, ended.out), (2, ""))
                self.assertIn(said, ended.err)

    def test_help_has_examples(self):
        ended = run("--help")
        self.assertEqual((ended.status, ended.err), (0, ""))
        self.assertIn("manopluea list floor.plan 6 3 --svg seen.svg", ended.out)

    def test_a_plan_that_cannot_be_read(self):
        for path, said in ((self.folder / "none", "No such file or directory"), (self.folder, "Is a directory")):
            ended = run("check", path)
            self.assertEqual(ended, (2, "", f"manopluea: {path}: {said}\n"))

    def test_a_file_that_cannot_be_written(self):
        for option in ("--svg", "--csv"):
            for path, said in ((self.folder, "Is a directory"), ("/dev/full", "No space left on device")):
                for more in ([], ["--rows"]):
                    ended = run("list", self.q, 6, 3, option, path, *more)
                    self.assertEqual((ended.status, ended.err), (2, f"manopluea: {path} was not written: {said}\n"))
                    self.assertIn("4", ended.out)  # the list itself is not lost

    def test_standard_output_that_cannot_be_written(self):
        """Whether Python writes it at once or keeps it until the end; nothing else is lost by it."""
        outside = b"manopluea: the stand (11, 5) is in no cell"
        for unbuffered in ("", "1"):
            for words, said in (
                (["list", self.q, 6, 3], b""),
                (["list", self.q, 6, 3, "--rows"], b""),
                (["list", self.q, 11, 5, "--rows"], b"" if unbuffered else outside),
                (["info", self.q], b""),
            ):
                with self.subTest(words, unbuffered=unbuffered), open("/dev/full", "wb") as full:
                    ended = start(*words, stdout=full, env={"PYTHONUNBUFFERED": unbuffered})
                    self.assertEqual(ended.returncode, 2)
                    self.assertTrue(ended.stderr.startswith(said))
                    self.assertTrue(ended.stderr.endswith(b"manopluea: standard output: No space left on device\n"))
            reading, writing = os.pipe()
            os.close(reading)
            with open(writing, "wb") as closed:
                ended = start("list", self.q, 6, 3, stdout=closed, env={"PYTHONUNBUFFERED": unbuffered})
            self.assertEqual((ended.returncode, ended.stderr), (2, b"manopluea: standard output: Broken pipe\n"))

    def test_standard_error_that_cannot_be_written(self):
        with open("/dev/full", "wb") as full:
            ended = start("list", self.q, 11, 5, "--rows", stderr=full)
        self.assertEqual((ended.returncode, ended.stdout), (1, b"refused 10 0\n"))

    def test_help_that_cannot_be_written(self):
        with open("/dev/full", "wb") as full:
            self.assertEqual(start("--help", stdout=full, env={"PYTHONUNBUFFERED": ""}).returncode, 2)


if __name__ == "__main__":
    unittest.main()
