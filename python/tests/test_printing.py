"""`list --rows` prints what the printing program prints, byte for byte, on the comparison's generated inputs.

MANOPLUEA_PRINT is the printing program's command, MANOPLUEA_INPUTS a file of inputs, as `manopluea-compare inputs`
writes it; test.sh makes both.
"""

import os
import pathlib
import shlex
import struct
import subprocess
import tempfile
import unittest

from house import Q, TOP, run, start

PRINT = shlex.split(os.environ["MANOPLUEA_PRINT"])


def inputs():
    """Every input, good and damaged."""
    contents = pathlib.Path(os.environ["MANOPLUEA_INPUTS"]).read_bytes()
    at = 0
    while at < len(contents):
        (length,) = struct.unpack_from("<I", contents, at)
        yield contents[at + 4 : at + 4 + length]
        at += 4 + length


def question(query: bytes):
    """The words that ask the command what a query record asks, and the plan after it; None for any other beginning."""
    if len(query) < 6:
        return None
    length, kind = struct.unpack_from("<IH", query)
    body, plan = query[6 : 6 + length], query[6 + length :]
    if (kind, length, len(body)) == (4, 24, 24):
        setting, x, y = struct.unpack("<Qdd", body)
        words = []
    elif (kind, length, len(body)) == (5, 26, 26):
        setting, corner, x, y = struct.unpack("<QHdd", body)
        words = ["--from-corner", corner]
    else:
        return None
    shut = ",".join(str(door) for door in range(64) if setting >> door & 1)
    words += ["--shut", shut] if shut else []
    return words, [repr(x), repr(y)], plan


def printed(query: bytes) -> bytes:
    return subprocess.run(PRINT, input=query, stdout=subprocess.PIPE, cwd=TOP, check=True).stdout


class Printed(unittest.TestCase):
    def test_on_generated_plans(self):
        answers = {}
        with tempfile.TemporaryDirectory() as folder:
            path = pathlib.Path(folder) / "plan"
            for query in inputs():
                asked = question(query)
                if asked is None:
                    continue
                options, at, plan = asked
                path.write_bytes(plan)
                ended = run("list", "--rows", *options, "--", path, *at)
                expected = printed(query).decode("ascii")
                with self.subTest(query=query.hex() if len(query) < 400 else len(query)):
                    self.assertEqual(ended.out, expected)
                    self.assertEqual(
                        (ended.status, bool(ended.err)), (1, True) if expected[:3] == "ref" else (0, False)
                    )
                number = expected.split()[1] if expected[:3] == "ref" else "rows"
                answers[number] = answers.get(number, 0) + 1
        # Enough of each kind for this to say something: a printing program meets no other refusal.
        expected = {"rows", "1", "2", "3", "4", "5", "6", "7", "8", "9", "10", "17"}
        self.assertEqual(set(answers), expected)
        self.assertGreater(answers["rows"], 300, answers)

    def test_the_bytes_of_a_process(self):
        with tempfile.TemporaryDirectory() as folder:
            path = pathlib.Path(folder) / "plan"
            path.write_bytes(Q.write())
            ended = start("list", path, 6, 3, "--rows")
        stored = (TOP / "crates" / "print" / "stdout").read_bytes()
        self.assertEqual((ended.returncode, ended.stdout, ended.stderr), (0, stored, b""))


if __name__ == "__main__":
    unittest.main()
