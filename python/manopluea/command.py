"""The command: manopluea list, stands, change, find, check, info."""

from __future__ import annotations

import argparse
import contextlib
import io
import os
import re
import sys
from typing import FrozenSet, List, Optional, Sequence

from . import library, picture, sheet, stands, words
from .plan import Listing, Plan, Row, Stand, printed
from .records import POLYGONS, WALL
from .refusal import Number, Refusal

_DONE, _REFUSED, _FAILED = 0, 1, 2

_EXAMPLES = """\
examples:
  manopluea list floor.plan 6 3                         the walls seen from (6, 3)
  manopluea list floor.plan 6 3 --svg seen.svg          the same, and a picture
  manopluea list floor.plan -4 -7 --from-corner 2       from 4 mm left of corner 2 and 7 below it
  manopluea list floor.plan 6 3 --shut 0,3 --reach 5000 with doors 0 and 3 shut, within 5 m
  manopluea stands floor.plan stands.csv --csv sheet.csv
                                                        which walls are seen, from which stand
  manopluea change floor.plan 6 3 --door 0 --shut       the list after door 0 was shut
  manopluea find floor.plan 6 3                         where the stand is
  manopluea check floor.plan                            whether the plan is accepted
  manopluea info floor.plan                             what the plan has, its doors among it

Coordinates are whole millimetres. The exit status is 0 where it is done, 1 where the library refuses (or one of several
stands), and 2 for usage, files and a library that is not there."""


class _Failure(Exception):
    """What ends the command with status 2."""


def main(argv: Optional[Sequence[str]] = None) -> int:
    if isinstance(sys.stdout, io.TextIOWrapper):
        # A name that the terminal has no letters for is written in numbers.
        sys.stdout.reconfigure(errors="backslashreplace")
    try:
        status = _run(argv)
        sys.stdout.flush()
        return status
    except OSError as fault:
        # Every file has a handler of its own, so this is standard output. What it still holds cannot be written, and
        # Python would try once more.
        os.dup2(os.open(os.devnull, os.O_WRONLY), sys.stdout.fileno())
        _complain(f"standard output: {fault.strerror}")
        return _FAILED


def _run(argv: Optional[Sequence[str]]) -> int:
    try:
        arguments = _parser().parse_args(argv)
        return arguments.run(arguments)
    except SystemExit as ended:  # argparse: usage, or help
        return int(ended.code or 0)
    except Refusal as refusal:
        _complain(refusal)
        return _REFUSED
    except (_Failure, library.LibraryError) as failure:
        _complain(failure)
        return _FAILED
    except KeyboardInterrupt:
        _complain("stopped")
        return _FAILED


def _complain(what):
    """Says it after what was printed before. That this could not be written is said at the end."""
    with contextlib.suppress(OSError):
        sys.stdout.flush()
    with contextlib.suppress(OSError):  # there is nowhere left to say it
        print(f"manopluea: {what}", file=sys.stderr)


def _parser() -> argparse.ArgumentParser:
    parser = argparse.ArgumentParser(
        prog="manopluea",
        description="Which walls a laser scanner sees from a stand, exactly: the proved library's listing.",
        epilog=_EXAMPLES,
        formatter_class=argparse.RawDescriptionHelpFormatter,
    )
    commands = parser.add_subparsers(metavar="COMMAND", required=True)

    def command(name: str, run, said: str) -> argparse.ArgumentParser:
        about = said[0].upper() + said[1:] + "."
        added = commands.add_parser(name, help=said, description=about, allow_abbrev=False)
        added.set_defaults(run=run)
        added.add_argument("plan", metavar="PLAN", help="a plan file")
        return added

    listing = command("list", _list, "the walls seen from a stand, one line each")
    _add_stand(listing)
    _add_shut(listing, "--shut")
    _add_reach(listing)
    _add_ceiling(listing)
    _add_outputs(listing)
    _add_rows(listing)

    morning = command("stands", _stands, "several stands, one sheet: which walls are seen, from which stand")
    said = "comma-separated x,y or, under a line that names the columns, name, x, y and corner in any order"
    morning.add_argument("stands", metavar="STANDS.csv", nargs="+", help=said)
    _add_shut(morning, "--shut")
    _add_reach(morning)
    _add_ceiling(morning)
    _add_outputs(morning)

    change = command("change", _change, "the list after a door was shut or opened, and what is new in it and gone")
    _add_stand(change)
    change.add_argument("--door", metavar="N", type=_whole(2**64 - 1), required=True, help="the door")
    wished = change.add_mutually_exclusive_group(required=True)
    wished.add_argument("--shut", dest="to_shut", action="store_true", help="it is shut")
    wished.add_argument("--open", dest="to_shut", action="store_false", help="it is opened")
    _add_shut(change, "--shut-before")
    _add_reach(change)
    said = (
        "the list from before, as list --rows wrote it; refused where it is not the true one. Without it, it is listed"
    )
    change.add_argument("--list", metavar="FILE", help=said)
    _add_outputs(change)
    _add_rows(change)

    find = command("find", _find, "the cell that a stand is in, or the free line that it is on")
    _add_stand(find)
    _add_shut(find, "--shut")

    command("check", _check, "whether a plan is accepted")
    command("info", _info, "what an accepted plan has")
    return parser


def _add_stand(parser):
    parser.add_argument("x", metavar="X", type=_typed(stands.number), help="the stand, in whole millimetres")
    parser.add_argument("y", metavar="Y", type=_typed(stands.number))
    said = "X and Y are counted from this corner"
    parser.add_argument("--from-corner", metavar="N", type=_whole(65535), help=said)


def _add_shut(parser, name: str):
    said = "the doors that are shut, as 0,3" if name == "--shut" else "the doors that were shut before, as 0,3"
    parser.add_argument(name, dest="shut", metavar="DOORS", type=_doors, default=frozenset(), help=said)


def _add_reach(parser):
    said = "how far the scanner sees, 1 to 262144 mm; without it there is no limit"
    parser.add_argument("--reach", metavar="MM", type=_whole(2**64 - 1), help=said)


def _add_ceiling(parser):
    said = "refuse a listing that crosses more free lines than this"
    parser.add_argument("--ceiling", metavar="N", type=_whole(2**64 - 1), help=said)


def _add_outputs(parser):
    parser.add_argument("--svg", metavar="FILE", help="draw a picture")
    parser.add_argument("--csv", metavar="FILE", help="write the list as comma-separated values")


def _add_rows(parser):
    said = "print the bare rows, as the printing program does: face, right limit, left limit, 0 in reach or 1"
    parser.add_argument("--rows", action="store_true", help=said)


def _typed(read):
    """A type of argparse: what is wrong with the text is the usage error."""

    def typed(text: str):
        try:
            return read(text)
        except ValueError as fault:
            raise argparse.ArgumentTypeError(str(fault)) from None

    return typed


def _whole(most: int):
    return _typed(lambda text: stands.whole(text, most))


@_typed
def _doors(text: str) -> FrozenSet[int]:
    return frozenset(stands.whole(door, 63) for door in text.split(","))


def _list(arguments) -> int:
    file = _contents(arguments.plan)
    stand, shut = _stand(arguments), arguments.shut
    within = {"reach": arguments.reach, "ceiling": arguments.ceiling}
    if arguments.rows and arguments.reach is None and arguments.ceiling is None:
        return _list_as_printed(arguments, file, stand)
    try:
        plan = Plan.read(file)
        listing = plan.list(stand, shut, **within)
    except Refusal as refusal:
        if arguments.rows:
            print(_printed(refusal), end="")
        raise
    if arguments.rows:
        print(listing, end="")
    else:
        print(f"from {stand}: {_counts(listing)}")
        print(sheet.listing(plan, listing.rows, shut), end="")
    _write_outputs(arguments, plan, stand, shut, listing)
    return _DONE


def _list_as_printed(arguments, file: bytes, stand: Stand) -> int:
    """What the printing program prints; why, and what else is asked for, is the listing's."""
    text = printed(file, stand, arguments.shut).decode("ascii")
    print(text, end="")
    try:
        plan = Plan.read(file)
        listing = plan.list(stand, arguments.shut)
    except Refusal as refusal:
        if text != _printed(refusal):  # the printing program refuses a long input before all else
            raise Refusal(Number.SIZE, 0, words.of_input(file)) from None
        raise
    _write_outputs(arguments, plan, stand, arguments.shut, listing)
    return _DONE


def _printed(refusal: Refusal) -> str:
    return f"refused {int(refusal.number)} {refusal.place}\n"


def _counts(listing: Listing) -> str:
    return f"{words.count(len(listing.rows), 'row')}, {words.count(listing.crossings, 'crossing')}"


def _write_outputs(arguments, plan: Plan, stand: Stand, shut, listing: Listing):
    if arguments.csv is not None:
        _write(arguments.csv, sheet.listing_csv(plan, listing.rows, shut).encode())
    if arguments.svg is not None:
        _write(arguments.svg, picture.svg(plan, [picture.View(stand, listing)], shut, arguments.reach))


def _stands(arguments) -> int:
    plan, shut = Plan.read(_contents(arguments.plan)), arguments.shut
    named = _named(arguments.stands)
    within = {"shut": shut, "reach": arguments.reach, "ceiling": arguments.ceiling}
    answers = list(stands.answers(plan, named, stands.Progress(sys.stderr), **within))
    views, refused = [], []
    for (name, stand), answer in answers:
        if isinstance(answer, Refusal):
            refused.append(f"stand {name}: {answer}")
            print(f"{name} {stand}: refused {int(answer.number)}")
        else:
            views.append(picture.View(stand, answer, name))
            print(f"{name} {stand}: {_counts(answer)}")
    lines = sheet.seen([(view.name, view.listing) for view in views])
    print(sheet.coverage(plan, lines, shut))
    print(sheet.stands(plan, lines, shut), end="")
    if arguments.csv is not None:
        _write(arguments.csv, sheet.stands_csv(plan, lines, shut).encode())
    if arguments.svg is not None:
        _write(arguments.svg, picture.svg(plan, views, shut, arguments.reach))
    for said in refused:
        _complain(said)
    return _REFUSED if refused else _DONE


def _named(paths: Sequence[str]) -> List[stands.Named]:
    """The stands of all files."""
    named: List[stands.Named] = []
    for path in paths:
        try:
            named += stands.read(path, len(named))
        except (OSError, UnicodeDecodeError) as fault:
            raise _Failure(f"{path}: {getattr(fault, 'strerror', fault)}") from None
        except ValueError as fault:
            raise _Failure(fault) from None
    names = set()
    for name, _ in named:
        if name in names:
            raise _Failure(f"two stands have the name {name}, so the sheet could not tell them apart")
        names.add(name)
    return named


def _change(arguments) -> int:
    plan, stand, before = Plan.read(_contents(arguments.plan)), _stand(arguments), arguments.shut
    if arguments.list is None:
        given: Sequence[Row] = plan.list(stand, before, arguments.reach).rows
    else:
        given = _given(arguments.list)
    door, to_shut = arguments.door, arguments.to_shut
    listing = plan.change(stand, given, door, to_shut, before, arguments.reach)
    after = before | {door} if to_shut else before - {door}
    if arguments.rows:
        print(listing, end="")
    else:
        old, now = set(given), set(listing.rows)
        new, gone = [row for row in listing.rows if row not in old], [row for row in given if row not in now]
        state = f"{'shut' if to_shut else 'open'}, {len(new)} new and {len(gone)} gone"
        print(f"from {stand} with door {door} {state}: {_counts(listing)}")
        print(sheet.listing(plan, listing.rows, after), end="")
        for said, rows, shut in (("new", new, after), ("gone", gone, before)):
            if rows:
                print(f"{said}:")
                print(sheet.listing(plan, rows, shut), end="")
    _write_outputs(arguments, plan, stand, after, listing)
    return _DONE


def _given(path: str) -> List[Row]:
    """A list as --rows prints it."""
    first, *lines = _contents(path).decode("ascii", "replace").splitlines() or [""]
    head = re.fullmatch(r"rows (\d{1,9}) crossings \d+", first)
    if head is None:
        raise _Failure(f"{path}: line 1 is not the first of a list as --rows prints it")
    rows = []
    for number, line in enumerate(lines, start=2):
        row = re.fullmatch(r"(\d{1,5}) (\d{1,5}) (\d{1,5}) (\d{1,5})", line)
        if row is None or max(map(int, row.groups())) > 65535:
            raise _Failure(f"{path}: line {number} is not a row as --rows prints it")
        rows.append(Row(*map(int, row.groups())))
    if int(head[1]) != len(rows):
        raise _Failure(f"{path}: {head[1]} rows are said and {len(rows)} are there")
    return rows


def _find(arguments) -> int:
    plan, stand, shut = Plan.read(_contents(arguments.plan)), _stand(arguments), arguments.shut
    cell, side = plan.find(stand, shut)
    if side is None:
        print(f"{stand} is inside {words.cell(plan, cell)}")
        return _DONE
    face = plan.face(cell, side)
    between = f"between cells {cell} and {plan.neighbour(face)}"
    print(f"{stand} is on {words.side(plan, face)}, {sheet.line(plan, face, shut)} {between}")
    return _DONE


def _check(arguments) -> int:
    corners, cells, doors = Plan.read(_contents(arguments.plan)).check()
    counts = words.count(corners, "corner"), words.count(cells, "cell"), words.count(doors, "door")
    print(f"accepted: {', '.join(counts)}")
    return _DONE


def _info(arguments) -> int:
    file = _contents(arguments.plan)
    plan = Plan.read(file)
    sizes = [len(cell.corners) for cell in plan.cells]
    corners = f"of {min(sizes)} to {max(sizes)} corners" if plan.kind == POLYGONS else "of three corners"
    walls = sum(plan.neighbour(face) == WALL for face in range(plan.face_count))
    free = (plan.face_count - walls) // 2
    (left, right), (low, high) = ((min(axis), max(axis)) for axis in zip(*plan.corners))
    print(f"file     {words.count(len(file), 'byte')}, cells {corners} (kind {plan.kind})")
    print(f"corners  {len(plan.corners)}, x from {left} to {right}, y from {low} to {high}, in mm")
    print(f"cells    {len(plan.cells)}")
    print(f"lines    {words.count(walls, 'wall')}, {words.count(free, 'free line')}, {len(plan.doors)} of them doors")
    for door, face in enumerate(plan.doors):
        cell, _ = plan.side_of(face)
        between = f"between cells {cell} and {plan.neighbour(face)}"
        print(f"door {door:<4}face {face}, {words.side(plan, face)}, {between}")
    return _DONE


def _stand(arguments) -> Stand:
    return Stand(arguments.x, arguments.y, arguments.from_corner)


def _contents(path: str) -> bytes:
    try:
        with open(path, "rb") as file:
            return file.read()
    except OSError as fault:
        raise _Failure(f"{path}: {fault.strerror}") from None


def _write(path: str, contents: bytes):
    try:
        with open(path, "wb") as file:
            file.write(contents)
    except OSError as fault:
        raise _Failure(f"{path} was not written: {fault.strerror}") from None
