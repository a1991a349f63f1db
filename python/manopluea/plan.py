"""Plans, stands and rows as Python has them, and the public calls on them."""

from __future__ import annotations

import bisect
import functools
import itertools
import os
from decimal import Decimal
from fractions import Fraction
from typing import Iterable, List, NamedTuple, Optional, Sequence, Tuple, Union

from . import library, records, words
from .library import F32, F64, I32, U8, U16, U64, Reply
from .records import POLYGONS, TRIANGLES, WALL, Cell
from .refusal import Number, Refusal

#: The most stands of one call.
MOST_STANDS = 32

#: What the reader lends: as much as the largest plan that is accepted has.
_MOST_CORNERS, _MOST_CELLS, _MOST_SIDES, _MOST_DOORS = 2048, 3000, 8, 64

#: So many bytes hold all that can be printed.
_TEXT = 49216

#: In a list of stands, what a point has in place of a corner.
_POINT = -1.0


#: What a coordinate of a stand may be given as.
Real = Union[int, float, Decimal, Fraction]


class Stand(NamedTuple):
    """A point in millimetres, or an offset from a corner. The library accepts whole numbers within the limits."""

    x: Real
    y: Real
    corner: Optional[int] = None

    def __str__(self):
        at = f"({_text(self.x)}, {_text(self.y)})"
        return at if self.corner is None else f"{at} from corner {self.corner}"

    @property
    def doubles(self) -> Tuple[float, float]:
        return library.double(self.x), library.double(self.y)


class Counts(NamedTuple):
    """How many corners, cells and doors an accepted plan has."""

    corners: int
    cells: int
    doors: int


class Footing(NamedTuple):
    """Where a stand is: strictly inside a cell, or, where a side is named, strictly within that free side of it."""

    cell: int
    side: Optional[int] = None


class Row(NamedTuple):
    """A row of a listing: the face on the side seen, its limits, and 0 where its line is in reach, 1 where not."""

    face: int
    right: int
    left: int
    out: int


class Listing(NamedTuple):
    """The rows seen, in their order, and how many free lines were crossed."""

    rows: Tuple[Row, ...]
    crossings: int

    def __str__(self):
        """As the printing program prints it."""
        lines = [f"rows {len(self.rows)} crossings {self.crossings}"]
        lines += [" ".join(map(str, row)) for row in self.rows]
        return "\n".join(lines) + "\n"


class Drawing(NamedTuple):
    """Of each row x, y of its right limit and x, y of its left limit, less the stand; and the crossings."""

    rows: Tuple[Tuple[float, ...], ...]
    crossings: int


class Plan:
    """A plan: corners, cells and doors. It need not be right; the calls refuse one that is not.

    Plan(corners, cells, doors) takes pairs (x, y), pairs (corners, neighbours) and faces. Its cells are of kind
    TRIANGLES where each has three corners, else POLYGONS, unless a kind is given.
    """

    def __init__(self, corners, cells, doors=(), kind: Optional[int] = None):
        cells = [Cell(tuple(corners), tuple(neighbours)) for corners, neighbours in cells]
        if kind is None:
            kind = TRIANGLES if all(len(cell.corners) == 3 for cell in cells) else POLYGONS
        flat: List[int] = []
        for number, (named, neighbours) in enumerate(cells):
            # The list would be cut elsewhere, and the reply would be about other cells.
            if len(named) != len(neighbours) or (kind == TRIANGLES and len(named) != 3):
                raise ValueError(
                    f"cell {number} has {len(named)} corners and {len(neighbours)} neighbours, of kind {kind}"
                )
            flat += [*([len(named)] if kind == POLYGONS else []), *named, *neighbours]
        self._hold([coordinate for x, y in corners for coordinate in (x, y)], flat, doors, kind)

    @classmethod
    def from_lists(cls, corners: Iterable[int], cells: Iterable[int], doors: Iterable[int], kind: int) -> "Plan":
        """A plan of three lists of numbers, as include/manopluea.h has them."""
        plan = cls.__new__(cls)
        plan._hold(corners, cells, doors, kind)
        return plan

    def _hold(self, corners, cells, doors, kind):
        self.kind = library.whole(kind, 65535, "a kind")
        #: The three lists as the library takes them.
        self.lists = (
            library.numbers(I32, corners, "a coordinate"),
            library.numbers(U16, cells, "a number of a cell"),
            library.numbers(U16, doors, "a door"),
        )

    # What the lists say. Those that the library refuses with 1 cannot be cut: that is a ValueError.

    @functools.cached_property
    def corners(self) -> List[Tuple[int, int]]:
        numbers = self.lists[0]
        return list(zip(numbers[::2], numbers[1::2]))

    @functools.cached_property
    def cells(self) -> List[Cell]:
        return records.cells_of(self.lists[1][:], self.kind)

    @functools.cached_property
    def doors(self) -> List[int]:
        return self.lists[2][:]

    @functools.cached_property
    def _first_faces(self) -> List[int]:
        return [0, *itertools.accumulate(len(cell.corners) for cell in self.cells)]

    @property
    def face_count(self) -> int:
        return self._first_faces[-1]

    def face(self, cell: int, side: int) -> int:
        return self._first_faces[cell] + side

    def side_of(self, face: int) -> Tuple[int, int]:
        """The cell of a face, and the side's number in it."""
        cell = bisect.bisect_right(self._first_faces, face) - 1
        return cell, face - self._first_faces[cell]

    def ends(self, face: int) -> Tuple[int, int]:
        """The two corners that a face runs between, its cell on the left."""
        cell, side = self.side_of(face)
        corners = self.cells[cell].corners
        return corners[side], corners[(side + 1) % len(corners)]

    def neighbour(self, face: int) -> int:
        cell, side = self.side_of(face)
        return self.cells[cell].neighbours[side]

    def other_face(self, face: int) -> Optional[int]:
        """The same line on the side of the neighbour, where that has a side that answers."""
        cell, _ = self.side_of(face)
        first, second = self.ends(face)
        neighbour = self.neighbour(face)
        if neighbour >= len(self.cells):
            return None
        sides = (self.face(neighbour, side) for side in range(len(self.cells[neighbour].corners)))
        return next((f for f in sides if self.ends(f) == (second, first) and self.neighbour(f) == cell), None)

    @functools.cached_property
    def _doors_on(self) -> dict:
        on = {}
        for door, face in enumerate(self.doors):
            on[face] = on[self.other_face(face)] = door
        return on

    def door_on(self, face: int) -> Optional[int]:
        """The door on the line of a face, from either side, in an accepted plan."""
        return self._doors_on.get(face)

    def position(self, stand: Stand) -> Tuple[int, int]:
        """Where a stand is that the library accepts."""
        x, y = (0, 0) if stand.corner is None else self.corners[stand.corner]
        return x + int(stand.x), y + int(stand.y)

    def alone(self, *cells: int) -> "Plan":
        """These cells by themselves, between walls. Their corners keep their numbers."""
        kept = (self.cells[cell].corners for cell in cells)
        plan = Plan((), [(corners, [WALL] * len(corners)) for corners in kept])
        plan.lists = (self.lists[0], *plan.lists[1:])
        return plan

    # The calls.

    @classmethod
    def open(cls, path: Union[str, "os.PathLike[str]"]) -> "Plan":
        """Reads a plan file."""
        with open(path, "rb") as file:
            return cls.read(file.read())

    @classmethod
    def read(cls, file: bytes) -> "Plan":
        """The reader: the plan of a file's bytes."""
        room = (
            (I32 * (2 * _MOST_CORNERS))(),
            (U16 * ((1 + 2 * _MOST_SIDES) * _MOST_CELLS))(),
            (U16 * _MOST_DOORS)(),
        )
        reply = library.ask("read", (U8 * len(file)).from_buffer_copy(file), *room)
        if reply.number == Number.FRAME:
            raise Refusal(reply.number, reply.place, words.of_frame(file))
        if reply.number != 0:
            raise cls.from_lists(*records.lists_of(file)).refusal(reply)
        corners, _, doors, kind, numbers = reply.values
        return cls.from_lists(room[0][: 2 * corners], room[1][:numbers], room[2][:doors], kind)

    def check(self) -> Counts:
        """The plan check."""
        reply = library.ask("check", *self.lists, self.kind)
        self._hold_to(reply)
        return Counts(*reply.values[:3])

    def write(self) -> bytes:
        """The writer: the one file of this plan."""
        corners, cells, doors = map(len, self.lists)
        file = (U8 * (18 + 4 * corners + 2 * cells + 2 * doors))()
        self._hold_to(library.ask("write", *self.lists, self.kind, file))
        return bytes(file)

    def find(self, stand: Stand, shut: Iterable[int] = ()) -> Footing:
        """Where the stand is while these doors are shut."""
        shut = frozenset(shut)
        reply = self.reply_from("find", stand, shut)
        self._hold_to(reply, stand=stand, shut=shut)
        cell, on_side, side, *_ = reply.values
        return Footing(cell, side if on_side else None)

    def list(
        self, stand: Stand, shut: Iterable[int] = (), reach: Optional[int] = None, ceiling: Optional[int] = None
    ) -> Listing:
        """The listing. A reach is in millimetres, a ceiling is of crossings; None states none."""
        shut, table = frozenset(shut), self._table()
        within = *library.option(reach, "a reach"), *library.option(ceiling, "a ceiling")
        reply = self.reply_from("list", stand, shut, *within, table)
        self._hold_to(reply, stand=stand, shut=shut, reach=reach, ceiling=ceiling)
        return _listing(table, *reply.values[:2])

    def list_stands(
        self,
        stands: Sequence[Stand],
        shut: Iterable[int] = (),
        reach: Optional[int] = None,
        ceiling: Optional[int] = None,
    ) -> List[Union[Listing, Refusal]]:
        """Up to 32 stands in one call: of each its listing, or its refusal, which stops no other."""
        shut = frozenset(shut)
        numbers = [(_POINT if stand.corner is None else _corner(stand), *stand.doubles) for stand in stands]
        lent = (F64 * (3 * len(stands)))(*itertools.chain(*numbers))
        # Too many stands are refused before the room is looked at, so it need not be lent.
        table, replies = self._table(min(len(stands), MOST_STANDS)), (U64 * (3 * len(stands)))()
        within = *library.option(reach, "a reach"), *library.option(ceiling, "a ceiling")
        reply = library.ask("list_stands", *self.lists, self.kind, _setting(shut), lent, *within, table, replies)
        self._hold_to(reply, shut=shut, stands=len(stands))
        answers: List[Union[Listing, Refusal]] = []
        first = 0
        for index, stand in enumerate(stands):
            number, rows, crossings = replies[3 * index : 3 * index + 3]
            if number == 0:
                answers.append(_listing(table, rows, crossings, first))
                first += rows
            else:
                own = Reply(number, 0, ())
                answers.append(self.refusal(own, stand=stand, shut=shut, reach=reach, ceiling=ceiling))
        return answers

    def change(
        self,
        stand: Stand,
        given: Iterable[Sequence[int]],
        door: int,
        to_shut: bool,
        shut: Iterable[int] = (),
        reach: Optional[int] = None,
    ) -> Listing:
        """The door change: from the true list while the doors `shut` are shut, the list with one shut or opened."""
        shut, table = frozenset(shut), self._table()
        given = [tuple(row) for row in given]
        rows = library.numbers(U16, itertools.chain(*given), "a row's number")
        wished = library.whole(door, 2**64 - 1, "a door"), bool(to_shut)
        reply = self.reply_from("change", stand, shut, *library.option(reach, "a reach"), rows, *wished, table)
        self._hold_to(reply, stand=stand, shut=shut, reach=reach, given=given, door=door, to_shut=to_shut)
        return _listing(table, *reply.values[:2])

    def draw(self, stand: Stand, shut: Iterable[int] = (), reach: Optional[int] = None) -> Drawing:
        """The drawing: where the limits of the listing's rows are from the stand."""
        shut, offsets = frozenset(shut), (F32 * (4 * (len(self.lists[0]) // 2)))()
        reply = self.reply_from("draw", stand, shut, *library.option(reach, "a reach"), offsets)
        self._hold_to(reply, stand=stand, shut=shut, reach=reach)
        rows, crossings, *_ = reply.values
        return Drawing(tuple(tuple(offsets[4 * row : 4 * row + 4]) for row in range(rows)), crossings)

    def _table(self, stands: int = 1):
        """A table with room for the listings of so many stands."""
        return (U16 * (4 * (len(self.lists[0]) // 2) * stands))()

    def reply_from(self, call: str, stand: Stand, shut: Iterable[int], *rest) -> Reply:
        """The bare reply of a call that takes a stand: what follows the stand stands in `rest`."""
        form, corner = ("point", ()) if stand.corner is None else ("offset", (_corner(stand),))
        asked = *self.lists, self.kind, _setting(shut), *corner, *stand.doubles, *rest
        return library.ask(f"{call}_{form}", *asked)

    def refusal(self, reply: Reply, **asked) -> Refusal:
        """A reply that refuses, in words; `asked` has what else the question named."""
        return Refusal(reply.number, reply.place, words.of_plan(reply, self, **asked))

    def _hold_to(self, reply: Reply, **asked):
        if reply.number != 0:
            raise self.refusal(reply, **asked)


def printed(file: bytes, stand: Stand, shut: Iterable[int] = ()) -> bytes:
    """What the printing program prints for a query and the bytes of a plan file."""
    corner = None if stand.corner is None else _corner(stand)
    query = records.query_record(_setting(shut), *stand.doubles, corner) + file
    text = (U8 * _TEXT)()
    reply = library.ask("print", (U8 * len(query)).from_buffer_copy(query), text)
    return bytes(text[: reply.values[0]])


def _listing(table, rows: int, crossings: int, first: int = 0) -> Listing:
    return Listing(tuple(Row(*table[4 * row : 4 * row + 4]) for row in range(first, first + rows)), crossings)


def _setting(shut: Iterable[int]) -> int:
    """The door setting: bit i is one while door i is shut."""
    return sum(1 << library.whole(door, 63, "a door that is shut") for door in frozenset(shut))


def _corner(stand: Stand) -> int:
    return library.whole(stand.corner, 65535, "a stand's corner")


def _text(number) -> str:
    return f"{number:.0f}" if isinstance(number, float) and number.is_integer() else str(number)
