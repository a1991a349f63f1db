"""Plan files and lists of cells taken apart, without a check: the library has that.

It serves the views of a plan, and the words for a file that the library refused. Where a file or a list cannot be taken
apart, which the library refuses with 1, the ValueError says where.
"""

from __future__ import annotations

import struct
from typing import List, NamedTuple, Optional, Sequence, Tuple

#: The neighbour that means wall.
WALL = 65535

#: The kinds that a list of cells is in, and of its record: three corners each, or 3 to 8.
TRIANGLES, POLYGONS = 2, 12

_LEAST_SIDES, _MOST_SIDES = 3, 8


class Cell(NamedTuple):
    """A cell's corners, counter-clockwise, and the neighbour across each side: a cell, or WALL."""

    corners: Tuple[int, ...]
    neighbours: Tuple[int, ...]


def cells_of(numbers: Sequence[int], kind: int) -> List[Cell]:
    """A list of cells, cut as its kind has it."""
    if kind not in (TRIANGLES, POLYGONS):
        raise ValueError(f"the cells are of kind {kind}, which is neither {TRIANGLES} nor {POLYGONS}")
    cells: List[Cell] = []
    at = 0
    while at < len(numbers):
        count = 3
        if kind == POLYGONS:
            count, at = numbers[at], at + 1
            if not _LEAST_SIDES <= count <= _MOST_SIDES:
                allowed = f"{_LEAST_SIDES} to {_MOST_SIDES} are allowed"
                raise ValueError(f"cell {len(cells)} is said to have {count} corners; {allowed}")
        cut = numbers[at : at + 2 * count]
        if len(cut) < 2 * count:
            said = f"it ends after {len(cut)} of its {2 * count} corners and neighbours"
            raise ValueError(f"the list of cells does not end with a whole cell: in cell {len(cells)} {said}")
        cells.append(Cell(tuple(cut[:count]), tuple(cut[count:])))
        at += 2 * count
    return cells


def lists_of(file: bytes) -> Tuple[List[int], List[int], List[int], int]:
    """The three lists of a plan file, and the kind of its cells."""
    corners, _, rest = _record(file, "corners", (1,))
    cells, kind, rest = _record(rest, "cells", (TRIANGLES, POLYGONS))
    doors, _, rest = _record(rest, "doors", (3,))
    if rest:
        raise ValueError(f"the record of doors, the last of a plan, is followed by {_bytes(len(rest))}")
    lists = _numbers(corners, "i", 2, "corners"), _numbers(cells, "H", 1, "cells"), _numbers(doors, "H", 1, "doors")
    cells_of(lists[1], kind)
    return (*lists, kind)


def _record(file: bytes, what: str, kinds: Sequence[int]) -> Tuple[bytes, int, bytes]:
    """The body and the kind of the first record, and what follows it."""
    if len(file) < 6:
        rest = f"what is left has {_bytes(len(file))}, and a record's head takes 6"
        raise ValueError(f"the record of {what} is not there: {rest}")
    length, kind = struct.unpack_from("<IH", file)
    if kind not in kinds:
        expected = " or ".join(map(str, kinds))
        raise ValueError(f"where the record of {what} should be, of kind {expected}, is one of kind {kind}")
    body = file[6 : 6 + length]
    if len(body) < length:
        raise ValueError(f"the record of {what} is cut off: of its {_bytes(length)} it has {len(body)}")
    return body, kind, file[6 + length :]


def _numbers(body: bytes, code: str, each: int, what: str) -> List[int]:
    size = each * struct.calcsize(code)
    if len(body) % size != 0:
        raise ValueError(f"the record of {what} has {_bytes(len(body))}, which is no multiple of {size}")
    return list(struct.unpack(f"<{len(body) // struct.calcsize(code)}{code}", body))


def _bytes(count: int) -> str:
    return f"{count} byte" if count == 1 else f"{count} bytes"


def query_record(setting: int, x: float, y: float, corner: Optional[int] = None) -> bytes:
    """The record that the printing program takes before a plan: of a point, or of an offset from a corner."""
    if corner is None:
        kind, body = 4, struct.pack("<Qdd", setting, x, y)
    else:
        kind, body = 5, struct.pack("<QHdd", setting, corner, x, y)
    return struct.pack("<IH", len(body), kind) + body
