"""Listings as people read them: one line a row, in aligned columns, or as CSV."""

from __future__ import annotations

import csv
import io
from typing import Container, Dict, Iterable, List, NamedTuple, Sequence, Tuple

from . import words
from .plan import Listing, Plan, Row
from .records import WALL

_LINE = ["face", "cell", "side", "from", "to"]
_LIST = [*_LINE, "right limit", "left limit", "reach", "line"]
_STANDS = [*_LINE, "line", "in reach from", "out of reach from"]


def reach(row: Row) -> str:
    return "out of reach" if row.out else "in reach"


def line(plan: Plan, face: int, shut: Container[int]) -> str:
    """What the line of a face is: a wall, a shut door, or, out of reach, a line that is free."""
    if plan.neighbour(face) == WALL:
        return "wall"
    door = plan.door_on(face)
    if door is None:
        return "free line"
    return f"door {door}" if door in shut else f"open door {door}"


def sentence(plan: Plan, row: Row, shut: Container[int]) -> str:
    """A row on one line, for the title of a wall in a picture."""
    first, second, right, left = (words.corner(plan, at) for at in (*plan.ends(row.face), row.right, row.left))
    cell, side = plan.side_of(row.face)
    limits = f"right limit {right}, left limit {left}"
    where = f"face {row.face}, side {side} of cell {cell}, from {first} to {second}"
    return f"{' '.join(map(str, row))}: {where}; {limits}; {reach(row)}; {line(plan, row.face, shut)}"


def listing(plan: Plan, rows: Sequence[Row], shut: Container[int]) -> str:
    """The rows in their order, in columns."""
    table: List[list] = [_LIST]
    for row in rows:
        limits = (words.corner(plan, at) for at in (row.right, row.left))
        table.append([*_line_of(plan, row.face), *limits, reach(row), line(plan, row.face, shut)])
    return _columns(table)


def listing_csv(plan: Plan, rows: Sequence[Row], shut: Container[int]) -> str:
    table: List[list] = [[*_split(_LINE), *_split(["right", "left"]), "reach", "line"]]
    for row in rows:
        corners = (*plan.ends(row.face), row.right, row.left)
        table.append(
            [row.face, *plan.side_of(row.face), *_spots(plan, corners), reach(row), line(plan, row.face, shut)]
        )
    return _csv(table)


class Seen(NamedTuple):
    """A line of the sheet of several stands: a face, and the stands whose listing has it in reach, and out of it."""

    face: int
    near: Tuple[str, ...]
    far: Tuple[str, ...]


def seen(listings: Iterable[Tuple[str, Listing]]) -> List[Seen]:
    """The sheet of several stands, each with its name: which walls, from which stand. In the order of the faces."""
    # Keys stand in the order in which they came. A stand may see a wall by two ways, and has its name there once.
    faces: Dict[int, Tuple[Dict[str, None], Dict[str, None]]] = {}
    for name, listing in listings:
        for face, _, _, out in listing.rows:
            faces.setdefault(face, ({}, {}))[out][name] = None
    return [Seen(face, tuple(near), tuple(far)) for face, (near, far) in sorted(faces.items())]


def coverage(plan: Plan, sheet: Sequence[Seen], shut: Container[int]) -> str:
    """How many of the faces that are wall, a shut door's two among them, some stand has in reach."""
    walls = {face for face in range(plan.face_count) if _is_wall(plan, face, shut)}
    near = {found.face for found in sheet if found.near}
    return f"{len(walls & near)} of {words.count(len(walls), 'wall')} in reach of some stand"


def stands(plan: Plan, sheet: Sequence[Seen], shut: Container[int]) -> str:
    table: List[list] = [_STANDS]
    for face, near, far in sheet:
        table.append([*_line_of(plan, face), line(plan, face, shut), _names(near) or "-", _names(far)])
    return _columns(table)


def stands_csv(plan: Plan, sheet: Sequence[Seen], shut: Container[int]) -> str:
    table: List[list] = [[*_split(_LINE), "line", "in reach from", "out of reach from"]]
    for face, near, far in sheet:
        spots = _spots(plan, plan.ends(face))
        table.append([face, *plan.side_of(face), *spots, line(plan, face, shut), _names(near), _names(far)])
    return _csv(table)


def _is_wall(plan: Plan, face: int, shut: Container[int]) -> bool:
    return plan.neighbour(face) == WALL or plan.door_on(face) in shut


def _names(stands: Iterable[str]) -> str:
    """Names may have blanks and commas in them."""
    return "; ".join(stands)


def _line_of(plan: Plan, face: int) -> list:
    return [face, *plan.side_of(face), *(words.corner(plan, at) for at in plan.ends(face))]


def _split(names: Iterable[str]) -> List[str]:
    """The columns of CSV: a corner takes three, its number, x and y."""
    parts = ([name] if name in _LINE[:3] else [f"{name} corner", f"{name} x", f"{name} y"] for name in names)
    return [part for three in parts for part in three]


def _spots(plan: Plan, corners: Iterable[int]) -> List[int]:
    return [number for at in corners for number in (at, *plan.corners[at])]


def _csv(table) -> str:
    text = io.StringIO()
    csv.writer(text, lineterminator="\n").writerows(table)
    return text.getvalue()


def _columns(table) -> str:
    """Numbers to the right, all else to the left."""
    texts = [[str(entry) for entry in row] for row in table]
    widths = [max(map(len, column)) for column in zip(*texts)]
    right = len(_LINE) - 2
    lines = []
    for row in texts:
        entries = [entry.rjust(width) for entry, width in zip(row[:right], widths)]
        entries += [entry.ljust(width) for entry, width in zip(row[right:], widths[right:])]
        lines.append("  ".join(entries).rstrip() + "\n")
    return "".join(lines)
