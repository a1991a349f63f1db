"""The refusals: one exception, with the reply's number, its place, and both in words."""

from __future__ import annotations

import enum


class Number(enum.IntEnum):
    """The reply numbers of include/manopluea.h."""

    FRAME = 1
    SIZE = 2
    CORNER = 3
    CELL = 4
    NEIGHBOUR = 5
    DOOR = 6
    SETTING = 7
    STAND = 8
    LINE = 9
    OUTSIDE = 10
    ROOM = 11
    CHANGE = 12
    ROWS = 13
    FAR = 14
    REACH = 15
    OVERLAP = 17
    CEILING = 19


#: The refusals whose place is not always 0.
PLACED = frozenset([Number.CORNER, Number.CELL, Number.NEIGHBOUR, Number.DOOR, Number.OVERLAP])


class Refusal(Exception):
    """What the library refused: `number` and `place` are the reply's, `words` say what they mean here."""

    def __init__(self, number: int, place: int, words: str):
        super().__init__(number, place, words)
        self.number = Number(number)
        self.place = place
        self.words = words

    def __str__(self):
        place = f", place {self.place}" if self.number in PLACED else ""
        return f"{self.words} (refused {int(self.number)}{place})"
