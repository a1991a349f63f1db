"""Writes the stored inputs of the printing program: a query record, then plan Q (document 01, "Printing program").

    python3 tools/queries.py        writes crates/print/stdin and crates/print/runs/*.in

What the program has to print for each stands beside it, in crates/print/stdout and crates/print/runs/*.out; those were
written by hand.
"""

import pathlib
import struct

WALL = 65535
PRINT = pathlib.Path(__file__).parent.parent / "crates" / "print"

CORNERS = [(0, 0), (10, 0), (10, 10), (0, 10)]
CELLS = [(0, 1, 2, WALL, WALL, 1), (0, 2, 3, 0, WALL, WALL)]
DOORS = [2]


def record(kind, body):
    return struct.pack("<IH", len(body), kind) + body


def plan(corners=CORNERS, cells=CELLS, doors=DOORS):
    return (
        record(1, b"".join(struct.pack("<ii", *corner) for corner in corners))
        + record(2, b"".join(struct.pack("<6H", *cell) for cell in cells))
        + record(3, b"".join(struct.pack("<H", door) for door in doors))
    )


def point(x, y, setting=0):
    return record(4, struct.pack("<Qdd", setting, x, y))


def offset(corner, dx, dy, setting=0):
    return record(5, struct.pack("<QHdd", setting, corner, dx, dy))


def inputs():
    """Each stored input under its path below crates/print."""
    return {
        "stdin": point(6, 3) + plan(),
        "runs/offset_from_corner_2_with_the_door_shut.in": offset(2, -4, -7, setting=1) + plan(),
        "runs/refused_cut_off_query.in": point(6, 3)[:-1],
        "runs/refused_cell_0_turned.in": point(6, 3) + plan(cells=[(0, 2, 1, WALL, WALL, 1), CELLS[1]]),
        "runs/refused_stand_on_a_line.in": point(5, 5, setting=1) + plan(),
        "runs/stand_in_the_doorway.in": point(5, 5) + plan(),
    }


def main():
    (PRINT / "runs").mkdir(exist_ok=True)
    for name, text in inputs().items():
        (PRINT / name).write_bytes(text)


if __name__ == "__main__":
    main()
