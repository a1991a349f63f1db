"""Tests of the finder of certificates: python3 -m unittest discover -s tools"""
import contextlib
import io
import pathlib
import random
import tempfile
import unittest

import certificate as c

ROOT = pathlib.Path(__file__).resolve().parent.parent


def run(text):
    """The exit status, the output and the errors of the finder on a file of laws."""
    out, err = io.StringIO(), io.StringIO()
    with tempfile.TemporaryDirectory() as folder:
        path = pathlib.Path(folder) / "test.laws"
        path.write_text(text, encoding="utf-8")
        with contextlib.redirect_stdout(out), contextlib.redirect_stderr(err):
            status = c.main(["certificate.py", str(path)])
    return status, out.getvalue(), err.getvalue()


def at(poly, values):
    """A polynomial's value at a point."""
    total = 0
    for monomial, k in poly.items():
        for v in monomial:
            k *= values[v]
        total += k
    return total


class Finder(unittest.TestCase):
    def test_the_laws_of_the_plane_stand_as_found(self):
        status, out, err = run((ROOT / "tools/plane.laws").read_text(encoding="utf-8"))
        self.assertEqual((status, err), (0, ""))
        kept = (ROOT / "crates/plane/proofs/Found.antt").read_text(encoding="utf-8")
        self.assertEqual("".join(out.split()), "".join(kept.split()), "crates/plane/proofs/Found.antt was edited, or tools/plane.laws was")

    def test_no_law_where_there_is_no_certificate(self):
        for given, show in [
            ("0 < cross r v", "0 < cross v r"),
            ("0 <= cross r v", "0 < cross r v"),
            ("0 < cross r v", "cross r v = 1"),
            ("0 < cross r v", "absurd"),
        ]:
            status, out, err = run(f"law false-law\nvectors r v\ngiven {given}\nshow {show}\n")
            self.assertEqual(status, 1, show)
            self.assertNotIn("false-law", out)
            self.assertIn("false-law: no certificate found", err)

    def test_a_false_law_stops_no_other(self):
        status, out, _ = run("law bad\nvectors r v\nshow 0 < cross r v\nlaw good\nvectors r v\ngiven 0 < cross r v\nshow 0 <= cross r v\n")
        self.assertEqual(status, 1)
        self.assertNotIn("bad", out)
        self.assertIn("pub good : (r v : Point) → 𝟘 <ℤ cross r v → 𝟘 ≤ℤ cross r v", out)

    def test_an_identity_goes_to_the_solver(self):
        status, out, _ = run("law turn\nvectors a b c\nshow side a b c = side b c a\n")
        self.assertEqual(status, 0)
        self.assertIn("solve", out)
        self.assertNotIn("prove", out)

    def test_what_does_not_read_is_an_error(self):
        for line in ["show cross r w < 0", "show 0 < cross r", "show 0 ! 1", "given Holds r v"]:
            with self.assertRaises(SyntaxError, msg=line):
                run(f"record Holds r l d\nright: 0 < cross r d\nlaw wrong\nvectors r v\n{line}\nshow absurd\n" if "given" in line else f"law wrong\nvectors r v\n{line}\n")

    def test_multipliers_solve_the_system(self):
        rng = random.Random(1)
        solved = 0
        for _ in range(200):
            columns = [{(i,): rng.randint(-2, 2) for i in range(3)} for _ in range(6)]
            columns = [{m: k for m, k in p.items() if k} for p in columns]
            sol = c.feasible(columns, [0, 1])
            if sol is None:
                continue
            solved += 1
            self.assertTrue(all(v > 0 for v in sol.values()))
            self.assertEqual(sol.get(0, 0) + sol.get(1, 0), 1)
            for i in range(3):
                self.assertEqual(sum(v * columns[k].get((i,), 0) for k, v in sol.items()), 0)
        self.assertGreater(solved, 20)

    def test_a_certificate_adds_up_to_zero(self):
        vectors = ["r", "l", "v", "d"]
        given = [c.Fact(t, vectors) for t in ("0 < cross r l", "0 < cross r v", "0 < cross v l", "0 < cross r d", "0 < cross d v")]
        goal = c.Fact("0 < cross d l", vectors)
        facts = [(0, c.Against({m: -k for m, k in goal.poly.items()}, "<="))] + list(enumerate(given, 1))
        cert = c.search(facts, vectors)
        polys = dict((i, f.poly) for i, f in facts)
        rng = random.Random(2)
        for _ in range(50):
            values = [rng.randint(-99, 99) for _ in range(8)]
            total = 0
            for term in cert.split(" ⊞ "):
                product = 1
                for factor in term.split(" ⊠ "):
                    kind, n = factor.split()
                    product *= int(n) + 1 if kind == "number" else at(polys[int(n)], values)
                total += product
            self.assertEqual(total, 0)


if __name__ == "__main__":
    unittest.main()
