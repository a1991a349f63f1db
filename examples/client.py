"""Lists what is seen from (6, 3) in plan Q, a square of two cells with a door, as the printing program prints it.

    python3 examples/client.py LIBRARY        a shared object, as python/build.sh makes it
"""
import ctypes
import sys

WALL = 65535
TRIANGLES = 2
CORNERS = [0, 0, 10, 0, 10, 10, 0, 10]
CELLS = [0, 1, 2, WALL, WALL, 1, 0, 2, 3, 0, WALL, WALL]
DOORS = [2]


def lend(number, numbers):
    """A list as the header has it: a pointer, and a length in numbers."""
    return (number * len(numbers))(*numbers), ctypes.c_size_t(len(numbers))


def main(library):
    lists = *lend(ctypes.c_int32, CORNERS), *lend(ctypes.c_uint16, CELLS), *lend(ctypes.c_uint16, DOORS)
    kind, setting, x, y = ctypes.c_uint16(TRIANGLES), ctypes.c_uint64(0), ctypes.c_double(6), ctypes.c_double(3)
    stated, reach = ctypes.c_bool(False), ctypes.c_uint64(1)  # no reach is stated: the number means nothing
    limited, ceiling = ctypes.c_bool(False), ctypes.c_uint64(0)  # nor a ceiling
    table, room = lend(ctypes.c_uint16, [0] * (4 * len(CORNERS) // 2))
    reply, seven = lend(ctypes.c_uint64, [0] * 7)
    listing = ctypes.CDLL(library).manopluea_list_point
    listing.restype = None
    listing(*lists, kind, setting, x, y, stated, reach, limited, ceiling, table, room, reply, seven)
    number, place, rows, crossings, *_ = reply
    if number != 0:
        sys.exit(f"refused {number} {place}")
    print("rows", rows, "crossings", crossings)
    for row in range(rows):
        print(*table[4 * row : 4 * row + 4])


if __name__ == "__main__":
    main(sys.argv[1])
