"""The calls with Python types, and their refusals."""

import decimal
import doctest
import fractions
import re
import unittest

import manopluea
from house import ONE_CELL, TOP, TWELVE, WALL, Plan, Q, Stand, q_with
from manopluea import POLYGONS, TRIANGLES, Counts, Footing, Number, Refusal, Row, library, records, refusal

SEEN = (Row(0, 0, 1, 0), Row(1, 1, 2, 0), Row(4, 2, 3, 0), Row(5, 3, 0, 0))

#: Plan Q with a corner that is too far from (6, 3) to be drawn.
FAR = q_with(corners=[(0, 0), (10, 0), (10, 3 + 16777217), (0, 10)])


class Answers(unittest.TestCase):
    def test_the_example_of_the_package(self):
        failed, tried = doctest.testmod(manopluea)
        self.assertEqual((failed, tried), (0, 4))

    def test_the_twelve_examples(self):
        for letter, (plan, stand, shut, expected) in TWELVE.items():
            shut = [int(shut)] if shut else []
            with self.subTest(letter):
                if isinstance(expected, int):
                    with self.assertRaises(Refusal) as refused:
                        plan.list(stand, shut)
                    self.assertEqual((refused.exception.number, refused.exception.place), (expected, 0))
                else:
                    rows, crossings = expected
                    listing = plan.list(stand, shut)
                    self.assertEqual([" ".join(map(str, row)) for row in listing.rows], rows)
                    self.assertEqual(listing.crossings, crossings)

    def test_a_plan_is_written_and_read_back(self):
        for plan, kind in (
            (Q, TRIANGLES),
            (ONE_CELL, POLYGONS),
            (Plan(Q.corners, Q.cells, Q.doors, POLYGONS), POLYGONS),
        ):
            file = plan.write()
            read = Plan.read(file)
            self.assertEqual((read.corners, read.cells, read.doors), (plan.corners, plan.cells, plan.doors))
            self.assertEqual((read.kind, read.write()), (kind, file))

    def test_counts_and_footing(self):
        self.assertEqual(Q.check(), Counts(4, 2, 1))
        self.assertEqual(Q.find(Stand(3, 6)), Footing(1))
        self.assertEqual(Q.find(Stand(5, 5)), Footing(0, 2))
        self.assertEqual(Q.find(Stand(-5, -5, corner=2)), Footing(0, 2))
        turned = q_with(cells=[((2, 0, 1), (1, WALL, WALL)), Q.cells[1]], doors=[0])
        self.assertEqual(turned.find(Stand(5, 5)), Footing(0, 0))

    def test_several_stands_in_one_call(self):
        stands = [Stand(6, 3), Stand(11, 5), Stand(6.5, 3), Stand(-4, -7, 2), Stand(5, 5)]
        first, outside, half, offset, doorway = Q.list_stands(stands)
        self.assertEqual([first, offset, doorway], [(SEEN, 1), (SEEN, 1), (SEEN, 0)])
        self.assertEqual((outside.number, half.number), (Number.OUTSIDE, Number.STAND))
        self.assertIn("the stand (6.5, 3)", half.words)
        low = Q.list_stands(stands, ceiling=0)
        self.assertEqual([getattr(answer, "number", 0) for answer in low], [19, 10, 8, 19, 0])
        self.assertEqual(Q.list_stands([]), [])
        within = Q.list_stands([Stand(6, 3)], shut=[0], reach=3)
        self.assertEqual(within, [Q.list(Stand(6, 3), shut=[0], reach=3)])

    def test_a_door_is_shut_and_opened(self):
        stand = Stand(6, 3)
        shut = Q.change(stand, SEEN, 0, to_shut=True)
        self.assertEqual(shut, Q.list(stand, shut=[0]))
        self.assertEqual(Q.change(stand, shut.rows, 0, to_shut=False, shut=[0]), (SEEN, 1))

    def test_a_drawing(self):
        rows = Q.draw(Stand(6, 3)).rows
        self.assertEqual(rows[0], (-6, -3, 4, -3))
        self.assertEqual(rows[3], (-6, 7, -6, -3))
        self.assertEqual(Q.draw(Stand(5, 5)).crossings, 0)

    def test_what_is_printed(self):
        self.assertEqual(manopluea.printed(Q.write(), Stand(6, 3)), str(Q.list(Stand(6, 3))).encode())
        self.assertEqual(manopluea.printed(Q.write()[:-1], Stand(6, 3)), b"refused 1 0\n")


class Refused(unittest.TestCase):
    def refused(self, number, place, said, ask, *asked, **more):
        with self.assertRaises(Refusal) as caught:
            ask(*asked, **more)
        found = caught.exception
        self.assertEqual((found.number, found.place), (number, place))
        self.assertIn(said, found.words)
        at = f", place {place}" if found.number in refusal.PLACED else ""
        self.assertEqual(str(found), f"{found.words} (refused {number}{at})")

    def test_the_exception_carries_number_and_place(self):
        """The refusals of plans and lists that no file has, and of a call that the command does not make."""
        lists = [0, 0, 10, 0, 10, 10], [0, 1, 2, WALL, WALL, WALL], []
        self.refused(1, 0, "kind 3, which is neither 2 nor 12", Plan.from_lists(*lists, 3).check)
        odd = Plan.from_lists(lists[0][1:], *lists[1:], TRIANGLES)
        self.refused(1, 0, "the list of corners has 5 numbers, and a corner takes two", odd.list, Stand(6, 3))
        cut = Plan.from_lists(lists[0], lists[1][1:], [], TRIANGLES)
        self.refused(1, 0, "in cell 0 it ends after 5 of its 6", cut.write)
        self.refused(2, 0, "33 stands in one call; up to 32 are allowed", Q.list_stands, [Stand(6, 3)] * 33)
        self.refused(4, 1, "cell 1 names corner 9", q_with(cells=[Q.cells[0], ((0, 9, 3), (0, WALL, WALL))]).check)
        self.refused(
            14, 0, "corner 2 (10, 16777220), a limit of face 1, is more than 16777216 mm", FAR.draw, Stand(6, 3)
        )
        self.refused(13, 0, "it has 3 rows, and should have 4", Q.change, Stand(6, 3), SEEN[:3], 0, True)

    def test_room(self):
        """The package lends enough, so that this one is asked with a table of its own."""
        short = (library.U16 * 15)()
        reply = Q.reply_from("list", Stand(6, 3), (), False, 0, False, 0, short)
        found = Q.refusal(reply, stand=Stand(6, 3))
        self.assertEqual((found.number, found.place, list(short)), (Number.ROOM, 0, [0] * 15))
        self.assertEqual(str(found), "a lent table, list, file or text is too short (refused 11)")

    def test_a_morning_is_refused_as_a_whole(self):
        self.refused(7, 0, "door 1 cannot be shut", Q.list_stands, [], shut=[1])

    def test_the_numbers_are_the_headers(self):
        header = (TOP / "include" / "manopluea.h").read_text()
        numbers = dict(re.findall(r"^    MANOPLUEA_(\w+) = (\d+)", header, re.MULTILINE))
        self.assertEqual(numbers.pop("DONE"), "0")
        self.assertEqual({number.name: str(int(number)) for number in Number}, numbers)

    def test_every_function_of_the_header_is_declared(self):
        header = (TOP / "include" / "manopluea.h").read_text()
        declared = dict(re.findall(r"^void manopluea_(\w+)\(([^)]*)\);", header, re.MULTILINE))
        counts = {name: len(arguments) for name, arguments in library._FUNCTIONS.items()}
        reply = 2
        self.assertEqual({name: text.count(",") + 1 - reply for name, text in declared.items()}, counts)


class Wrong(unittest.TestCase):
    """What C has no parameter for is not cut to one that it has."""

    def test_numbers_that_do_not_fit(self):
        for ask in (
            lambda: Plan([(2**31, 0)], []),
            lambda: Plan([(0.5, 0)], []),
            lambda: Plan([(0, 0, 0)], []),
            lambda: Plan(Q.corners, [((0, 1, 2), (WALL, WALL))]),
            lambda: Plan(Q.corners, ONE_CELL.cells, kind=TRIANGLES),
            lambda: q_with(doors=[65536]),
            lambda: q_with(doors=[-1]),
            lambda: Plan(Q.corners, Q.cells, kind=65536),
            lambda: Q.list(Stand(6, 3), shut=[64]),
            lambda: Q.list(Stand(6, 3), shut=[-1]),
            lambda: Q.list(Stand(6, 3), reach=-1),
            lambda: Q.list(Stand(6, 3), reach=2.5),
            lambda: Q.list(Stand(6, 3), ceiling=2**64),
            lambda: Q.list(Stand(6, 3, corner=65536)),
            lambda: Q.list_stands([Stand(6, 3, corner=-1)]),
            lambda: Q.change(Stand(6, 3), SEEN, -1, True),
            lambda: Q.change(Stand(6, 3), [(65536, 0, 0, 0)], 0, True),
        ):
            self.assertRaises(ValueError, ask)

    def test_a_stand_is_not_made_whole(self):
        for near in (decimal.Decimal("6.00000000000000000001"), fractions.Fraction(6 * 10**30 + 1, 10**30)):
            self.assertRaises(ValueError, Q.list, Stand(near, 3))
        self.assertEqual(Q.list(Stand(decimal.Decimal("6.0"), fractions.Fraction(3))), (SEEN, 1))


class TakenApart(unittest.TestCase):
    def test_a_file_is_taken_apart_exactly_where_the_library_does_not_refuse_its_frame(self):
        for plan in (Q, ONE_CELL):
            file = plan.write()
            for at in range(len(file)):
                for other in (
                    file[:at],
                    file + file[:at],
                    *(file[:at] + bytes([b]) + file[at + 1 :] for b in (0, 3, 255)),
                ):
                    with self.subTest(file=other.hex()):
                        self.assertEqual(self.is_frame_of(other), self.is_accepted_frame(other))

    def is_frame_of(self, file):
        try:
            records.lists_of(file)
        except ValueError:
            return False
        return True

    def is_accepted_frame(self, file):
        try:
            Plan.read(file)
        except Refusal as found:
            return found.number != Number.FRAME
        return True


if __name__ == "__main__":
    unittest.main()
