#!/usr/bin/env python3
"""Prints what the program `plane_test` must write, from document 01 alone.

    python3 tools/plane_expected.py > crates/plane_test/stdout
"""

FAR = 536870912


def side(a, b, c):
    return (b[0] - a[0]) * (c[1] - a[1]) - (b[1] - a[1]) * (c[0] - a[0])


def far(n):
    return (-FAR if n & 1 else FAR, -FAR if n & 2 else FAR)


def small(n):
    return (n % 5 - 2, n // 5 % 5 - 2)


def line(a, b, c):
    value = side(a, b, c)
    area = "right" if value > 0 else "wrong"
    return f"{value} {area} {'inside' if value > 0 else 'border' if value == 0 else 'outside'}"


def lines():
    for n in range(64):
        yield line(far(n % 4), far(n // 4 % 4), far(n // 16))
    for n in range(25):
        yield line(small(0), small(18), small(n))
        yield line(small(18), small(0), small(n))


if __name__ == "__main__":
    print(*lines(), sep="\n")
