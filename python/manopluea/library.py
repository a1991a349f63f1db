"""The functions of include/manopluea.h over ctypes: lists and numbers in, the reply's seven numbers out.

Nothing is decided here. What a caller of C has to keep is kept: each list goes with its own length, and what a call
writes to is lent to it alone. The calls need up to 2 MiB of stack, which a Python thread has unless it was given less.
"""

from __future__ import annotations

import array
import ctypes
import functools
import math
import os
import pathlib
from typing import Dict, Iterable, NamedTuple, Tuple

I32, U16, U64, U8 = ctypes.c_int32, ctypes.c_uint16, ctypes.c_uint64, ctypes.c_uint8
F64, F32, BOOL, SIZE = ctypes.c_double, ctypes.c_float, ctypes.c_bool, ctypes.c_size_t

#: The variable that names a shared object other than the one beside this file.
VARIABLE = "MANOPLUEA_LIBRARY"

#: Where python/build.sh puts the shared object.
BUILT = pathlib.Path(__file__).with_name("libmanopluea.so")


class LibraryError(OSError):
    """The proved library cannot be loaded; the text says what to do."""


class Reply(NamedTuple):
    """What a function replies: a number, 0 or a refusal's, its place, and up to five values."""

    number: int
    place: int
    values: Tuple[int, ...]


def _list(number):
    return [ctypes.POINTER(number), SIZE]


_PLAN = [*_list(I32), *_list(U16), *_list(U16), U16]
_STANDS: Dict[str, list] = {"point": [F64, F64], "offset": [U16, F64, F64]}
_OPTION = [BOOL, U64]  # a reach or a ceiling: whether it is stated, and which
_GIVEN = [*_list(U16), SIZE, BOOL]  # of a door change: the true list, the door, and whether it is to be shut

#: What each function takes before its reply.
_FUNCTIONS: Dict[str, list] = {
    "check": _PLAN,
    "read": [*_list(U8), *_list(I32), *_list(U16), *_list(U16)],
    "write": [*_PLAN, *_list(U8)],
    "list_stands": [*_PLAN, U64, *_list(F64), *_OPTION, *_OPTION, *_list(U16), *_list(U64)],
    "print": [*_list(U8), *_list(U8)],
}
for _form, _stand in _STANDS.items():
    _FUNCTIONS[f"find_{_form}"] = [*_PLAN, U64, *_stand]
    _FUNCTIONS[f"list_{_form}"] = [*_PLAN, U64, *_stand, *_OPTION, *_OPTION, *_list(U16)]
    _FUNCTIONS[f"change_{_form}"] = [*_PLAN, U64, *_stand, *_OPTION, *_GIVEN, *_list(U16)]
    _FUNCTIONS[f"draw_{_form}"] = [*_PLAN, U64, *_stand, *_OPTION, *_list(F32)]


@functools.lru_cache(maxsize=None)
def _load(path: str):
    what_to_do = (
        "`bash python/build.sh` makes it from the proved archive (it needs the Rattle kit), "
        f"or {VARIABLE} names one that is made"
    )
    if not os.path.isfile(path):
        raise LibraryError(f"the proved library is not there: {path}; {what_to_do}")
    try:
        library = ctypes.CDLL(path)
        functions = {name: library[f"manopluea_{name}"] for name in _FUNCTIONS}
    except (OSError, AttributeError) as fault:
        raise LibraryError(f"the proved library cannot be loaded: {fault}; {what_to_do}") from fault
    for name, function in functions.items():
        function.argtypes = [*_FUNCTIONS[name], *_list(U64)]
        function.restype = None
    return functions


def ask(name: str, *arguments) -> Reply:
    """Calls a function. An array passes as a pointer and its length; the reply is lent here."""
    functions = _load(os.path.abspath(os.environ.get(VARIABLE) or BUILT))
    reply = (U64 * 7)()
    passed = []
    for argument in (*arguments, reply):
        passed.append(argument)
        if isinstance(argument, ctypes.Array):
            passed.append(len(argument))
    functions[name](*passed)
    number, place, *values = reply
    return Reply(number, place, tuple(values))


_CODES = {I32: "i", U16: "H"}


def numbers(number, values: Iterable[int], what: str):
    """A list as an array of C. ctypes would cut off what does not fit, so it is refused here."""
    try:
        kept = array.array(_CODES[number], values)
    except (OverflowError, TypeError) as fault:
        raise ValueError(f"{what}: {fault}") from None
    return (number * len(kept)).from_buffer_copy(kept)


def whole(value, most: int, what: str) -> int:
    """A number from 0 to the most that a parameter of C holds."""
    if isinstance(value, bool) or not isinstance(value, int) or not 0 <= value <= most:
        raise ValueError(f"{what} is a whole number from 0 to {most}, not {value!r}")
    return value


def double(number) -> float:
    """A number as the library takes it. What is not whole must not become whole on the way."""
    try:
        nearest = float(number)
    except OverflowError:  # a whole number beyond all doubles, and so beyond the limits
        return math.inf if number > 0 else -math.inf
    # Beyond 2**53 every double is whole, and no coordinate is that large.
    if nearest.is_integer() and abs(nearest) < 2**53 and nearest != number:
        raise ValueError(f"{number} is no double-precision number; the nearest one, {nearest:.0f}, is another stand")
    return nearest


def option(value, what: str):
    """A reach or a ceiling, or None: whether it is stated, and which. Where it is not, the number means nothing."""
    return (False, 0) if value is None else (True, whole(value, 2**64 - 1, what))
