"""A refusal's number and place in words, with the place made concrete.

Coordinates are compared here (which corner a stand is on, which is too far away, how far the plan goes), and nothing
else of the plane is worked out. Where words need more (which cells overlap, on whose line a stand lies), the library is
asked about smaller plans.
"""

from __future__ import annotations

from typing import Callable, Dict, Iterable, Optional

from . import library, records
from .records import WALL
from .refusal import Number

_CORNERS, _CELLS, _DOORS = (3, 2048), (1, 3000), (0, 64)
_STANDS, _INPUT = 32, 65536
_COORDINATE = 536870912
_OFFSET = 16777216
_REACH = (1, 262144)


def count(number: int, noun: str) -> str:
    return f"{number} {noun}" if number == 1 else f"{number} {noun}s"


def listed(items: Iterable) -> str:
    """Items as a sentence has them: a, b and c."""
    *most, last = map(str, items)
    return f"{', '.join(most)} and {last}" if most else last


def numbered(noun: str, many: int) -> str:
    """What a plan has of corners or doors."""
    if many == 0:
        return f"no {noun}"
    return f"{noun} 0 alone" if many == 1 else f"{noun}s 0 to {many - 1}"


def corner(plan, number: int) -> str:
    """A corner, and where it is."""
    x, y = plan.corners[number]
    return f"{number} ({x}, {y})"


def side(plan, face: int) -> str:
    """A face as a side of its cell, and where it runs."""
    cell, number = plan.side_of(face)
    first, second = plan.ends(face)
    return f"side {number} of cell {cell}, from corner {corner(plan, first)} to corner {corner(plan, second)}"


def cell(plan, number: int) -> str:
    """A cell and its corners."""
    corners = listed(corner(plan, at) for at in plan.cells[number].corners)
    return f"cell {number} with the corners {corners}"


def of_frame(file: bytes) -> str:
    """Why a file is not the records of a plan."""
    try:
        records.lists_of(file)
    except ValueError as fault:
        return f"not a plan file: {fault}"
    return "not a plan file"


def of_input(file: bytes) -> str:
    """Why a plan file is too long for the printing program."""
    return f"the plan file has {count(len(file), 'byte')}; the printing program takes {_INPUT} with the query"


def of_plan(reply, plan, **asked) -> str:
    """What a reply to a question about a plan says; `asked` has what else the question named."""
    return _WORDS[Number(reply.number)](plan, reply.place, **asked)


def _frame(plan, _, **asked) -> str:
    corners, cells, _ = plan.lists
    if len(corners) % 2 != 0:
        return f"the list of corners has {count(len(corners), 'number')}, and a corner takes two"
    try:
        records.cells_of(cells, plan.kind)
    except ValueError as fault:
        return str(fault)
    return "the lists are not those of a plan"


def _size(plan, _, stands: int = 0, **asked) -> str:
    for noun, many, (least, most) in (
        ("corner", len(plan.corners), _CORNERS),
        ("cell", len(plan.cells), _CELLS),
        ("door", len(plan.doors), _DOORS),
    ):
        if not least <= many <= most:
            return f"the plan has {count(many, noun)}; {least} to {most} are allowed"
    return f"{count(stands, 'stand')} in one call; up to {_STANDS} are allowed"


def _corner(plan, place, **asked) -> str:
    return f"corner {corner(plan, place)} is outside: coordinates go from -{_COORDINATE} to {_COORDINATE}"


def _cell(plan, place, **asked) -> str:
    corners = plan.cells[place].corners
    for at in corners:
        if at >= len(plan.corners):
            return f"cell {place} names corner {at}, and the plan has {numbered('corner', len(plan.corners))}"
        if corners.count(at) > 1:
            return f"cell {place} names corner {corner(plan, at)} more than once"
    return (
        f"{cell(plan, place)} is not convex and counter-clockwise: "
        "a corner other than a side's own two is not strictly left of that side"
    )


def _neighbour(plan, place, **asked) -> str:
    first, second = plan.ends(place)
    neighbour = plan.neighbour(place)
    named = f"{side(plan, place)}, names cell {neighbour} as its neighbour"
    if neighbour >= len(plan.cells):
        return f"{named}, and the plan has {numbered('cell', len(plan.cells))}"
    own, _ = plan.side_of(place)
    return f"{named}, and that has no side from corner {second} to corner {first} whose neighbour is cell {own}"


def _door(plan, place, **asked) -> str:
    face = plan.doors[place]
    if face >= plan.face_count:
        return f"door {place} names face {face}, and the plan has {numbered('face', plan.face_count)}"
    named = f"door {place} names face {face}, {side(plan, face)}"
    if plan.neighbour(face) == WALL:
        return f"{named}, which is a wall"
    for earlier in range(place):
        if plan.doors[earlier] in (face, plan.other_face(face)):
            return f"{named}: door {earlier}, face {plan.doors[earlier]}, has that line already"
    return f"{named}: it cannot be one"


def _overlap(plan, place, **asked) -> str:
    """The cell is the least of any pair that overlaps, so the other one is a later one."""
    for other in range(place + 1, len(plan.cells)):
        pair = plan.alone(place, other)
        if library.ask("check", *pair.lists, pair.kind).number == Number.OVERLAP:
            named = f"{cell(plan, place)} and {cell(plan, other)}"
            return f"{named} lie on top of each other: some point is strictly inside both"
    return f"{cell(plan, place)} and another cell lie on top of each other"


def _setting(plan, _, shut=(), **asked) -> str:
    unknown = sorted(door for door in shut if door >= len(plan.doors))
    return f"{_doors(unknown)} cannot be shut: the plan has {numbered('door', len(plan.doors))}"


def _stand(plan, _, stand, **asked) -> str:
    for axis, number in zip("xy", stand.doubles):
        if not number.is_integer():
            return f"the stand {stand} is not accepted: {axis} is not a whole number of millimetres"
        if abs(number) > _COORDINATE:
            return f"the stand {stand} is not accepted: {axis} is outside -{_COORDINATE} to {_COORDINATE}"
    if stand.corner is not None and stand.corner >= len(plan.corners):
        return f"the stand {stand} is not accepted: the plan has {numbered('corner', len(plan.corners))}"
    return f"the stand {stand} is not accepted: it is outside -{_COORDINATE} to {_COORDINATE}"


def _line(plan, _, stand, shut=(), door: Optional[int] = None, **asked) -> str:
    at = _at(plan, stand)
    if plan.reply_from("find", stand, shut).number == 0:  # so only a door change is refused
        return f"the stand {at} is in the doorway of door {door}, which cannot be changed from there"
    position = plan.position(stand)
    if position in plan.corners:
        return f"the stand {at} lies on corner {plan.corners.index(position)}"
    # Under the setting no line there is free. If one is with every door open, a shut door is on it.
    opened = plan.reply_from("find", stand, ())
    if opened.number == 0:
        own, _, number, *_ = opened.values
        face = plan.face(own, number)
        between = _cells([own, plan.neighbour(face)])
        return f"the stand {at} lies on a line between {between}, where door {plan.door_on(face)} is shut"
    point = type(stand)(*position)
    alone = ((number, plan.alone(number)) for number in range(len(plan.cells)))
    on = [number for number, cell in alone if cell.reply_from("find", point, ()).number == Number.LINE]
    return f"the stand {at} lies on a wall of {_cells(on)}"


def _outside(plan, _, stand, **asked) -> str:
    (left, right), (low, high) = ((min(axis), max(axis)) for axis in zip(*plan.corners))
    where = f"its corners have x from {left} to {right} and y from {low} to {high}"
    return f"the stand {_at(plan, stand)} is in no cell of the plan; {where}"


def _room(plan, _, **asked) -> str:
    return "a lent table, list, file or text is too short"


def _change(plan, _, door, to_shut, **asked) -> str:
    if door >= len(plan.doors):
        return f"door {door} cannot be changed: the plan has {numbered('door', len(plan.doors))}"
    return f"door {door} is {'shut' if to_shut else 'open'} already"


def _rows(plan, _, stand, given, shut=(), reach=None, **asked) -> str:
    said = "the list that was given is not the true one"
    true = plan.list(stand, shut, reach).rows
    for number, (row, expected) in enumerate(zip(given, true)):
        if row != expected:
            have, be = (" ".join(map(str, numbers)) for numbers in (row, expected))
            return f"{said}: its row {number} is {have}, and should be {be}"
    return f"{said}: it has {count(len(given), 'row')}, and should have {len(true)}"


def _far(plan, _, stand, shut=(), reach=None, **asked) -> str:
    x, y = plan.position(stand)
    for row in plan.list(stand, shut, reach).rows:
        for limit in (row.right, row.left):
            to = plan.corners[limit]
            if max(abs(to[0] - x), abs(to[1] - y)) > _OFFSET:
                far = f"corner {corner(plan, limit)}, a limit of face {row.face}"
                return f"{far}, is more than {_OFFSET} mm from the stand {_at(plan, stand)} in x or in y"
    return f"a row's limit is more than {_OFFSET} mm from the stand {_at(plan, stand)} in x or in y"


def _reach(plan, _, reach, **asked) -> str:
    least, most = _REACH
    return f"a reach of {reach} mm cannot be stated: it is {least} to {most}"


def _ceiling(plan, _, stand, ceiling, **asked) -> str:
    return f"from the stand {_at(plan, stand)} more free lines are crossed than the ceiling of {ceiling}"


_WORDS: Dict[Number, Callable[..., str]] = {
    Number.FRAME: _frame,
    Number.SIZE: _size,
    Number.CORNER: _corner,
    Number.CELL: _cell,
    Number.NEIGHBOUR: _neighbour,
    Number.DOOR: _door,
    Number.SETTING: _setting,
    Number.STAND: _stand,
    Number.LINE: _line,
    Number.OUTSIDE: _outside,
    Number.ROOM: _room,
    Number.CHANGE: _change,
    Number.ROWS: _rows,
    Number.FAR: _far,
    Number.REACH: _reach,
    Number.OVERLAP: _overlap,
    Number.CEILING: _ceiling,
}


def _doors(numbers) -> str:
    return f"door {numbers[0]}" if len(numbers) == 1 else f"doors {listed(numbers)}"


def _cells(numbers) -> str:
    return f"cell {numbers[0]}" if len(numbers) == 1 else f"cells {listed(numbers)}"


def _at(plan, stand) -> str:
    """An accepted stand, and where it is."""
    x, y = plan.position(stand)
    return f"({x}, {y})" if stand.corner is None else f"{stand}, which is ({x}, {y}),"
