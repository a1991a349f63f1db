"""The stands of a morning: their file, and the calls that list them, 32 at a time."""

from __future__ import annotations

import csv
import decimal
import time
from typing import Iterator, List, NamedTuple, Sequence, TextIO, Tuple, Union

from . import library
from .plan import MOST_STANDS, Listing, Plan, Stand
from .refusal import Refusal

_COLUMNS = ("name", "x", "y", "corner")


class Named(NamedTuple):
    name: str
    stand: Stand


def number(text: str) -> Union[int, decimal.Decimal]:
    """A number as it was written: what is not whole is not made whole."""
    try:
        return int(text)
    except ValueError:
        pass
    try:
        value = decimal.Decimal(text.strip())
    except decimal.InvalidOperation:
        value = None
    if value is None or value.is_snan():
        raise ValueError(f"{text!r} is no number")
    library.double(value)
    return value


def whole(text: str, most: int) -> int:
    """A number from 0 to the most that the library can be asked with."""
    try:
        value = int(text)
    except ValueError:
        value = -1
    if not 0 <= value <= most:
        raise ValueError(f"{text!r} is no whole number from 0 to {most}")
    return value


def read(path: str, before: int = 0) -> List[Named]:
    """The stands of a file of comma- or semicolon-separated values, with so many stands before them.

    The first line may name its columns: x, y, and, where they are wanted, name and corner. Without it they are x, y and
    corner. A stand without a corner is a point, a stand without a name has its number, from 1.
    """
    with open(path, newline="", encoding="utf-8-sig") as file:
        text = file.read()
    delimiter = ";" if ";" in text else ","
    try:
        rows = list(csv.reader(text.splitlines(), delimiter=delimiter))
    except csv.Error as fault:
        raise ValueError(f"{path}: {fault}") from None
    lines = [(at, [entry.strip() for entry in row]) for at, row in enumerate(rows, start=1)]
    lines = [(at, row) for at, row in lines if any(row)]
    columns: Sequence[str] = ("x", "y", "corner")
    first = [entry.lower() for entry in lines[0][1]] if lines else []
    if {"x", "y"} <= set(first):
        columns = first
        del lines[0]
        unknown = [column for column in columns if column not in _COLUMNS]
        if unknown or len(set(columns)) < len(columns):
            raise ValueError(f"{path}: the columns are x, y, name and corner, each once, not {', '.join(columns)}")
    stands: List[Named] = []
    for at, row in lines:
        if len(row) > len(columns):
            raise ValueError(f"{path}, line {at}: {len(row)} values for the columns {', '.join(columns)}")
        entries = {column: entry for column, entry in zip(columns, row) if entry}
        try:
            corner = whole(entries["corner"], 65535) if "corner" in entries else None
            stand = Stand(number(entries["x"]), number(entries["y"]), corner)
        except KeyError as fault:
            raise ValueError(f"{path}, line {at}: {fault.args[0]} is missing") from None
        except ValueError as fault:
            raise ValueError(f"{path}, line {at}: {fault}") from None
        name = entries.get("name", str(before + len(stands) + 1))
        if not name.isprintable():
            raise ValueError(f"{path}, line {at}: the name {name!r} cannot be printed")
        stands.append(Named(name, stand))
    return stands


def answers(
    plan: Plan, stands: Sequence[Named], progress: "Progress", **asked
) -> Iterator[Tuple[Named, Union[Listing, Refusal]]]:
    """Each stand with its listing or its refusal. A call of several stands gives what single ones would."""
    # A plan or a setting that is refused is so also where there are no stands.
    for first in range(0, len(stands) or 1, MOST_STANDS):
        some = stands[first : first + MOST_STANDS]
        yield from zip(some, plan.list_stands([named.stand for named in some], **asked))
        progress.show(first + len(some), len(stands))
    progress.end()


class Progress:
    """A bar on a terminal, for what takes longer than a second."""

    WIDTH = 40

    def __init__(self, stream: TextIO, clock=time.monotonic):
        self._stream, self._clock = stream, clock
        self._begin, self._shown = clock(), False

    def show(self, done: int, all_: int):
        if self._stream.isatty() and (self._shown or self._clock() - self._begin > 1):
            filled = self.WIDTH * done // max(all_, 1)
            bar = "#" * filled + "." * (self.WIDTH - filled)
            print(f"\r{bar} {done} of {all_} stands", end="", file=self._stream, flush=True)
            self._shown = True

    def end(self):
        """Takes the bar away: what follows stands where it was."""
        if self._shown:
            print("\r\x1b[K", end="", file=self._stream, flush=True)
