"""Every function takes a null pointer for a list of no numbers, and replies as it does to any other empty list.

    python3 examples/empty_lists.py LIBRARY        as examples/client.py
"""
import ctypes
import sys

from client import CELLS, CORNERS, TRIANGLES, lend

FRAME, SIZE, ROOM, ROWS, FAR, REACH, CEILING = 1, 2, 11, 13, 14, 15, 19
NULL = None, ctypes.c_size_t(0)
PLAN = *lend(ctypes.c_int32, CORNERS), *lend(ctypes.c_uint16, CELLS)
ONE_DOOR = lend(ctypes.c_uint16, [2])
FILE = lend(ctypes.c_uint8, bytes(18 + 32 + 24))
TABLE = lend(ctypes.c_uint16, [0] * 16)
OFFSETS = lend(ctypes.c_float, [0.0] * 16)
FAR_PLAN = *lend(ctypes.c_int32, [*CORNERS[:5], 3 + 16_777_217, *CORNERS[6:]]), *lend(ctypes.c_uint16, CELLS)
MORNING = lend(ctypes.c_double, [-1, 6, 3])
REPLIES = lend(ctypes.c_uint64, [0] * 3)
TEXT = lend(ctypes.c_uint8, bytes(49216))
KIND = ctypes.c_uint16(TRIANGLES)
SETTING, CORNER, DOOR, SHUT = ctypes.c_uint64(0), ctypes.c_uint16(0), ctypes.c_size_t(0), ctypes.c_bool(True)
AT = ctypes.c_double(6), ctypes.c_double(3)
STANDS = {"point": AT, "offset": (CORNER, *AT)}
NO_REACH = ctypes.c_bool(False), ctypes.c_uint64(0)
WRONG_REACH = ctypes.c_bool(True), ctypes.c_uint64(0)
NO_CEILING = ctypes.c_bool(False), ctypes.c_uint64(0)
LOWEST = ctypes.c_bool(True), ctypes.c_uint64(0)


def main(library):
    library = ctypes.CDLL(library)

    def ask(function, *arguments):
        reply = lend(ctypes.c_uint64, [7] * 7)
        call = library[f"manopluea_{function}"]
        call.restype = None
        call(*arguments, *NULL)  # a reply of no numbers: nothing at all is done
        call(*arguments, *reply)
        return list(reply[0])

    def expect(number, values, function, *arguments):
        replied = ask(function, *arguments)
        if replied != [number, 0, *values]:
            sys.exit(f"{function} replied {replied}, not {number} with the values {values}")

    none, counts, listed = [0, 0, 0, 0, 0], [4, 2, 0, 0, 0], [4, 1, 0, 0, 0]
    expect(SIZE, none, "check", *NULL, *NULL, *NULL, KIND)
    expect(0, counts, "check", *PLAN, *NULL, KIND)
    expect(ROOM, none, "write", *PLAN, *NULL, KIND, *NULL)
    expect(0, counts, "write", *PLAN, *NULL, KIND, *FILE)
    expect(FRAME, none, "read", *NULL, *NULL, *NULL, *NULL)
    expect(ROOM, none, "read", *FILE, *NULL, *NULL, *NULL)
    expect(0, [4, 2, 0, TRIANGLES, 12], "read", *FILE, *PLAN, *NULL)
    for form, stand in STANDS.items():
        expect(0, none, f"find_{form}", *PLAN, *NULL, KIND, SETTING, *stand)
        listing = f"list_{form}", *PLAN, *NULL, KIND, SETTING, *stand
        expect(ROOM, none, *listing, *NO_REACH, *NO_CEILING, *NULL)
        expect(0, listed, *listing, *NO_REACH, *NO_CEILING, *TABLE)
        expect(REACH, none, *listing, *WRONG_REACH, *NO_CEILING, *NULL)
        expect(ROOM, none, *listing, *NO_REACH, *LOWEST, *NULL)
        expect(CEILING, none, *listing, *NO_REACH, *LOWEST, *TABLE)
        drawing = f"draw_{form}", *PLAN, *NULL, KIND, SETTING, *stand
        expect(ROOM, none, *drawing, *NO_REACH, *NULL)
        expect(0, listed, *drawing, *NO_REACH, *OFFSETS)
        expect(REACH, none, *drawing, *WRONG_REACH, *NULL)
        far = f"draw_{form}", *FAR_PLAN, *NULL, KIND, SETTING, *stand
        expect(ROOM, none, *far, *NO_REACH, *NULL)
        expect(FAR, none, *far, *NO_REACH, *OFFSETS)
        change = f"change_{form}", *PLAN, *ONE_DOOR, KIND, SETTING, *stand, *NO_REACH, *NULL, DOOR, SHUT
        expect(ROOM, none, *change, *NULL)
        expect(ROWS, none, *change, *TABLE)
    morning = "list_stands", *PLAN, *NULL, KIND, SETTING
    nowhere = "list_stands", *NULL, *NULL, *NULL, KIND, SETTING
    expect(SIZE, none, *nowhere, *NULL, *NO_REACH, *NO_CEILING, *NULL, *NULL)
    expect(0, none, *morning, *NULL, *NO_REACH, *NO_CEILING, *NULL, *NULL)
    expect(ROOM, none, *morning, *MORNING, *NO_REACH, *NO_CEILING, *NULL, *REPLIES)
    expect(ROOM, none, *morning, *MORNING, *NO_REACH, *NO_CEILING, *TABLE, *NULL)
    expect(0, listed, *morning, *MORNING, *NO_REACH, *NO_CEILING, *TABLE, *REPLIES)
    expect(0, none, *morning, *MORNING, *WRONG_REACH, *NO_CEILING, *TABLE, *REPLIES)
    expect(0, none, *morning, *MORNING, *NO_REACH, *LOWEST, *TABLE, *REPLIES)
    expect(ROOM, none, "print", *NULL, *NULL)
    expect(0, [len("refused 1 0\n"), 0, 0, 0, 0], "print", *NULL, *TEXT)


if __name__ == "__main__":
    main(sys.argv[1])
