"""What the tests share: where things are, document 01's plans and examples, and the command, run."""

import contextlib
import io
import os
import pathlib
import subprocess
import sys
from typing import NamedTuple

from manopluea import WALL, Plan, Stand
from manopluea.command import main

TOP = pathlib.Path(__file__).resolve().parent.parent.parent
PYTHON, EXAMPLES = TOP / "python", TOP / "examples"

Q = Plan(
    corners=[(0, 0), (10, 0), (10, 10), (0, 10)],
    cells=[((0, 1, 2), (WALL, WALL, 1)), ((0, 2, 3), (0, WALL, WALL))],
    doors=[2],
)

#: Plan Q as one cell of four corners.
ONE_CELL = Plan(corners=Q.corners, cells=[((0, 1, 2, 3), (WALL, WALL, WALL, WALL))])


def q_with(**changed) -> Plan:
    """Plan Q with other corners, cells or doors."""
    return Plan(**{"corners": Q.corners, "cells": Q.cells, "doors": Q.doors, **changed})


def q_and(x: int, y: int) -> Plan:
    """Plan Q+P of document 01: one more cell, with its third corner there."""
    second = ((0, 2, 3), (0, 2, WALL))
    return q_with(corners=[*Q.corners, (x, y)], cells=[Q.cells[0], second, ((3, 2, 4), (1, WALL, WALL))])


FROM_6_3 = ["0 0 1 0", "1 1 2 0", "4 2 3 0", "5 3 0 0"]
ON_THE_RIGHT = ["0 0 1 0", "1 1 2 0", "8 2 3 0", "5 3 0 0"]

#: The twelve examples of document 01, h as request A4 has it: plan, stand, doors shut, and rows with crossings, or the
#: number of the refusal.
TWELVE = {
    "a": (Q, Stand(6, 3), "", (FROM_6_3, 1)),
    "b": (Q, Stand(6, 3), "0", (["0 0 1 0", "1 1 2 0", "2 2 0 0"], 0)),
    "c": (Q, Stand(3, 6), "", (FROM_6_3, 1)),
    "d": (q_and(0, 20), Stand(6, 3), "", (["0 0 1 0", "1 1 2 0", "7 2 4 0", "8 4 3 0", "5 3 0 0"], 2)),
    "e": (q_and(-6, 17), Stand(6, 3), "", (["0 0 1 0", "1 1 2 0", "7 2 3 0", "5 3 0 0"], 2)),
    "f": (q_and(14, 17), Stand(6, 3), "", (ON_THE_RIGHT, 2)),
    "g": (q_and(30, 11), Stand(6, 3), "", (ON_THE_RIGHT, 2)),
    "h": (Q, Stand(5, 5), "", (FROM_6_3, 0)),
    "i": (Q, Stand(11, 5), "", 10),
    "j": (Q, Stand(6.5, 3), "", 8),
    "k": (Q, Stand(6, -0.0), "", 9),
    "l": (Q, Stand(6, 3), "1", 7),
}


class Ended(NamedTuple):
    status: int
    out: str
    err: str


def run(*words) -> Ended:
    """The command, in this process."""
    out, err = io.StringIO(), io.StringIO()
    with contextlib.redirect_stdout(out), contextlib.redirect_stderr(err):
        status = main([str(word) for word in words])
    return Ended(status, out.getvalue(), err.getvalue())


def start(*words, **options) -> subprocess.CompletedProcess:
    """The command as a process, `python3 -m manopluea` in the folder of the package."""
    environment = {**os.environ, "PYTHONPATH": "", **options.pop("env", {})}
    options = {"cwd": PYTHON, "stdout": subprocess.PIPE, "stderr": subprocess.PIPE, **options}
    command = [sys.executable, "-m", "manopluea", *map(str, words)]
    return subprocess.run(command, env=environment, check=False, **options)
