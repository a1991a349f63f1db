#!/usr/bin/env python3
"""Finds certificates for facts about vectors of the plane, and prints the laws as antt text.

    python3 tools/certificate.py FILE.laws > FILE.antt

A file of laws has, in this order:

    text            the lines up to `end` go to the output as they stand
    record NAME v.. the fields of a record of specs/, one a line: FIELD: FACT
    law NAME        its comment on `-- ` lines, then
      vectors v ..
      given FACT or NAME v ..        (a record is given by its name)
      show FACT or NAME v .. or absurd

A FACT is EXPR < EXPR, EXPR <= EXPR or EXPR = EXPR. An EXPR has numbers, + - *, parentheses, `x V`, `y V`, `cross V V`,
`dot V V` and `side V V V`.
A V is a vector, `(minus V V)` or `(plus V V)`.

A certificate is a sum of products of the facts given, of the goal's negation, of squares and of positive numbers, that
is strictly positive by its signs and zero as a polynomial (exact.proofs.Certificate). The multipliers come from a
linear system over the rationals, solved exactly. Where no certificate of the kinds tried exists, the law is not
printed, a line on standard error says so, and the exit status is 1.
"""
import itertools
import re
import sys
from fractions import Fraction
from math import gcd

# ---- polynomials: a monomial is a sorted tuple of variable numbers, a polynomial a dict from those to whole numbers


def put(p, m, c):
    """Adds c·m to p."""
    s = p.get(m, 0) + c
    if s:
        p[m] = s
    else:
        p.pop(m, None)


def add(p, q, k=1):
    r = dict(p)
    for m, c in q.items():
        put(r, m, k * c)
    return r


def mul(p, q):
    r = {}
    for m, c in p.items():
        for n, d in q.items():
            put(r, tuple(sorted(m + n)), c * d)
    return r


def degree(p):
    """The degree of every term, or None where the terms differ."""
    ds = {len(m) for m in p}
    return ds.pop() if len(ds) == 1 else None


# ---- reading


class Law:
    def __init__(self, name):
        self.name, self.comment, self.vectors, self.given, self.show = name, [], [], [], None


def words(text):
    return re.findall(r"<=|[()+*<=-]|[^\s()+*<=-][^\s()+*<=]*", text)


class Expr:
    """A polynomial, its antt text and its quoted text; `level` is how tightly the text binds."""

    def __init__(self, poly, text, quoted, level):
        self.poly, self.text, self.quoted, self.level = poly, text, quoted, level

    def within(self, level):
        """The two texts as operands of something that binds at this level."""
        if self.level >= level:
            return self.text, self.quoted
        return f"({self.text})", f"({self.quoted})"


APPLIED, PRODUCT, SUM = 10, 7, 6


class Reader:
    """Reads an expression over the vectors."""

    def __init__(self, text, vectors):
        self.toks, self.at, self.vectors, self.used = words(text), 0, vectors, set()

    def peek(self):
        return self.toks[self.at] if self.at < len(self.toks) else None

    def take(self, want=None):
        t = self.peek()
        if t is None or (want is not None and t != want):
            raise SyntaxError(f"expected {want or 'more'}, found {t}")
        self.at += 1
        return t

    def vector(self):
        """Its two coordinates' polynomials, its text and its quoted text, both ready to be arguments."""
        t = self.take()
        if t == "(":
            op = self.take()
            if op not in ("minus", "plus"):
                raise SyntaxError(f"a vector is a name, minus or plus, not {op}")
            self.used.add(op)
            u, v = self.vector(), self.vector()
            self.take(")")
            sign = -1 if op == "minus" else 1
            return tuple(add(p, q, sign) for p, q in zip(u[0], v[0])), f"({op} {u[1]} {v[1]})", f"({op}ᵉ {u[2]} {v[2]})"
        if t not in self.vectors:
            raise SyntaxError(f"{t} is not among the vectors")
        i = self.vectors.index(t)
        return ({(2 * i,): 1}, {(2 * i + 1,): 1}), t, f"(pt {i})"

    def atom(self):
        t = self.take()
        if t == "(":
            e = self.sum()
            self.take(")")
            return e
        if t == "-":
            e = self.atom()
            text, quoted = e.within(APPLIED + 1)
            return Expr({m: -c for m, c in e.poly.items()}, f"neg_ℤ {text}", f"neg {quoted}", APPLIED)
        if t == "0":
            return Expr({}, "𝟘", "𝟘ᵉ", APPLIED + 1)
        if t.isdigit():
            return Expr({(): int(t)}, f"pos {t}", f"lit (pos {t})", APPLIED)
        if t in ("x", "y"):
            u, text, quoted = self.vector()
            return Expr(u["xy".index(t)], f"{text}.{t}", f"{quoted}.{t}", APPLIED + 1)
        if t not in ("cross", "dot", "side"):
            raise SyntaxError(f"no expression begins with {t}")
        self.used.add(t)
        vs = [self.vector() for _ in range(3 if t == "side" else 2)]
        text = f"{t} {' '.join(v[1] for v in vs)}"
        quoted = f"{t}ᵉ {' '.join(v[2] for v in vs)}"
        if t == "side":
            (ax, ay), (bx, by), (cx, cy) = (v[0] for v in vs)
            u, v = (add(bx, ax, -1), add(by, ay, -1)), (add(cx, ax, -1), add(cy, ay, -1))
        else:
            u, v = vs[0][0], vs[1][0]
        if t == "dot":
            return Expr(add(mul(u[0], v[0]), mul(u[1], v[1])), text, quoted, APPLIED)
        return Expr(add(mul(u[0], v[1]), mul(u[1], v[0]), -1), text, quoted, APPLIED)

    def product(self):
        e = self.atom()
        while self.peek() == "*":
            self.take()
            f = self.atom()
            (a, q), (b, r) = e.within(PRODUCT), f.within(PRODUCT + 1)
            e = Expr(mul(e.poly, f.poly), f"{a} *ℤ {b}", f"{q} ⊗ {r}", PRODUCT)
        return e

    def sum(self):
        e = self.product()
        while self.peek() in ("+", "-"):
            s = self.take()
            f = self.product()
            (a, q), (b, r) = e.within(SUM), f.within(SUM + 1)
            poly = add(e.poly, f.poly, 1 if s == "+" else -1)
            e = Expr(poly, f"{a} {s}ℤ {b}", f"{q} {'⊕' if s == '+' else '⊖'} {r}", SUM)
        return e


class Fact:
    """A relation of two expressions; `poly` is the right side less the left."""

    SIGNS = {"<": ("<ℤ", "≺", 2), "<=": ("≤ℤ", "≼", 1), "=": ("≡", "≈", 0)}

    def __init__(self, text, vectors):
        r = Reader(text, vectors)
        left = r.sum()
        self.rel = r.take()
        right = r.sum()
        if r.peek() is not None or self.rel not in Fact.SIGNS:
            raise SyntaxError(f"not a fact: {text}")
        self.poly, self.left, self.right, self.used = add(right.poly, left.poly, -1), left, right, r.used
        sign, quoted_sign, _ = Fact.SIGNS[self.rel]
        # the orders of the library bind tighter than a sum or a product
        level = 0 if self.rel == "=" else APPLIED
        self.text = f"{left.within(level)[0]} {sign} {right.within(level)[0]}"
        self.quoted = f"{left.quoted} {quoted_sign} {right.quoted}"

    def sign(self):
        return Fact.SIGNS[self.rel][2]


# ---- the linear system: multipliers that are not negative, and add up to zero with something strict among them


def feasible(columns, strict):
    """Multipliers λ ≥ 0 with Σ λₖ·columnₖ = 0 and Σ over the strict λₖ = 1, or None.

    Phase one of the simplex method, over the rationals."""
    rows = {}
    for k, p in enumerate(columns):
        for m, c in p.items():
            rows.setdefault(m, {})[k] = Fraction(c)
    norm = {k: Fraction(1) for k in strict}
    if not norm:
        return None
    # equations to echelon form, so that only independent ones are kept
    table = []
    for row in [*rows.values(), {**norm, "rhs": Fraction(1)}]:
        row = dict(row)
        for pivot, kept in table:
            f = row.get(pivot)
            if f:
                for j, c in kept.items():
                    put(row, j, -f * c)
        keys = [j for j in row if j != "rhs"]
        if not keys:
            if row.get("rhs"):
                return None
            continue
        pivot = min(keys)
        f = row[pivot]
        table.append((pivot, {j: c / f for j, c in row.items()}))
    # phase one: one artificial variable a row, ("a", i)
    basis, body = [], []
    for i, (_, row) in enumerate(table):
        if row.get("rhs", 0) < 0:
            row = {j: -c for j, c in row.items()}
        body.append({**row, ("a", i): Fraction(1)})
        basis.append(("a", i))
    cost = {}
    for row in body:
        for j, c in row.items():
            if not isinstance(j, tuple):
                cost[j] = cost.get(j, 0) + c
    while cost.get("rhs", 0) > 0:
        enter = min((j for j, c in cost.items() if j != "rhs" and c > 0), default=None)
        if enter is None:
            return None
        leave = min(
            ((row.get("rhs", Fraction(0)) / row[enter], str(basis[i]), i) for i, row in enumerate(body) if row.get(enter, 0) > 0),
            default=None,
        )
        if leave is None:
            return None
        i = leave[2]
        f = body[i][enter]
        body[i] = {j: c / f for j, c in body[i].items()}
        for other in [*[row for k, row in enumerate(body) if k != i], cost]:
            g = other.get(enter)
            if g:
                for j, c in body[i].items():
                    if other is cost and isinstance(j, tuple):
                        continue
                    put(other, j, -g * c)
        basis[i] = enter
    return {b: body[i].get("rhs", Fraction(0)) for i, b in enumerate(basis) if not isinstance(b, tuple) and body[i].get("rhs")}


# ---- certificates


def whole(sol):
    """The multipliers as whole numbers without a common factor."""
    d = 1
    for v in sol.values():
        d = d * v.denominator // gcd(d, v.denominator)
    ns = {k: int(v * d) for k, v in sol.items()}
    g = 0
    for n in ns.values():
        g = gcd(g, n)
    return {k: n // g for k, n in sorted(ns.items())}


def candidates(facts, vectors, level):
    """Products with their sign (2 strict, 1 weak, 0 null), polynomial and text."""
    base = [(f.sign(), f.poly, f"given {i}") for i, f in facts if f.rel != "="]
    pairs = []
    for i, j in itertools.combinations(range(len(vectors)), 2):
        for name in ("cross", "dot"):
            e = Reader(f"{name} {vectors[i]} {vectors[j]}", vectors).atom()
            pairs.append((e.poly, f"({e.quoted})"))
    if level >= 3:
        squares = [(1, mul({(k,): 1}, {(k,): 1}), f"square (var {k})") for k in range(2 * len(vectors))]
        squares += [(1, mul(p, p), f"square {q}") for p, q in pairs]
    else:
        squares = []
    count = {1: 2, 2: 3, 3: 2}[level]
    out = list(base) + list(squares)
    for n in range(2, count + 1):
        for fs in itertools.combinations_with_replacement(base, n):
            sign, poly, text = fs[0]
            for s, p, t in fs[1:]:
                sign, poly, text = min(sign, s), mul(poly, p), f"{text} ⊠ {t}"
            out.append((sign, poly, text))
    for (s, p, t), (z, q, u) in itertools.product(base, squares):
        out.append((min(s, z), mul(p, q), f"{t} ⊠ {u}"))
    # an equation times an expression, with either sign
    factors = [({(): 1}, "(lit (pos 1))")] + pairs
    factors += [(mul(p, q), f"({a} ⊗ {b})") for (p, a), (q, b) in itertools.combinations_with_replacement(pairs, 2)] if level >= 3 else []
    for i, f in facts:
        if f.rel == "=":
            for p, q in factors:
                prod = mul(f.poly, p)
                out.append((0, prod, f"by {q} (given {i})"))
                out.append((0, {m: -c for m, c in prod.items()}, f"by (neg {q}) (given {i})"))
    out += [(2, {(): 1}, "number 0")]
    return out


def search(facts, vectors):
    """A certificate that the numbered facts contradict each other, or None."""
    for level in (1, 2, 3):
        cands = candidates(facts, vectors, level)
        groups = {}
        for c in cands:
            groups.setdefault(degree(c[1]), []).append(c)
        tries = [groups[d] for d in sorted(groups, key=lambda d: (d is None, d or 0)) if d is not None] if None not in groups else []
        for group in tries or [cands]:
            strict = [k for k, c in enumerate(group) if c[0] == 2]
            sol = feasible([c[1] for c in group], strict)
            if sol is not None:
                parts = []
                for k, n in whole(sol).items():
                    parts.append(group[k][2] if n == 1 else f"number {n - 1} ⊠ {group[k][2]}")
                return " ⊞ ".join(parts)
    return None


class Against:
    """The fact that the goal's negation states."""

    def __init__(self, poly, rel):
        self.poly, self.rel = poly, rel

    sign = Fact.sign


def proof(goal, given, vectors):
    """The antt text of a proof of one fact from the facts given, without the facts themselves, or None."""
    facts = list(enumerate(given, 1))
    neg = {m: -c for m, c in goal.poly.items()}
    if goal.rel == "=":
        c = search([(0, Against(goal.poly, "<"))] + facts, vectors)
        d = c and search([(0, Against(neg, "<"))] + facts, vectors)
        return d and f"(both ({c}) ({d}))"
    c = search([(0, Against(neg, "<=" if goal.rel == "<" else "<"))] + facts, vectors)
    return c and f"(only ({c}))"


# ---- printing


def expand(line, records, vectors, name):
    """What a line of a law stands for: the type's text, its facts, each with its term, and the record's fields."""
    head = line.split()[0]
    if head not in records:
        f = Fact(line, vectors)
        return f.text, [(name, f)], None
    params, fields = records[head]
    args = re.findall(r"\([^()]*\)|[^\s()]+", line)[1:]
    if len(args) != len(params):
        raise SyntaxError(f"{head} takes {len(params)} vectors")
    put = dict(zip(params, args))
    facts = [Fact(" ".join(put.get(w, w) for w in words(text)), vectors) for _, text in fields]
    return line, [(f"{name}.{field}", f) for (field, _), f in zip(fields, facts)], [field for field, _ in fields]


def subscript(i):
    return "".join("₀₁₂₃₄₅₆₇₈₉"[int(d)] for d in str(i))


def only_used(cert, facts):
    """The certificate over the facts that it uses, counted anew, and those facts."""
    used = sorted({int(n) for n in re.findall(r"given (\d+)", cert)} - {0})
    new = {n: i for i, n in enumerate(used, 1)}
    new[0] = 0
    return re.sub(r"given (\d+)", lambda m: f"given {new[int(m.group(1))]}", cert), [facts[n - 1] for n in used]


def show(law, records):
    """The law as antt text, or None where no certificate is found."""
    types, known, used = [], [], set()
    for i, line in enumerate(law.given, 1):
        text, got, _ = expand(line, records, law.vectors, "h" + subscript(i))
        types.append(text)
        known += got
    env = f"(coordinates ({' ∷ '.join(law.vectors)} ∷ []))"

    def cited(name, goal, cert, sure):
        cert, facts = only_used(cert, known)
        hyps = f"({' ∷ '.join('(' + f.quoted + ')' for _, f in facts)} ∷ [])" if facts else "[]"
        for _, f in facts:
            used.update(f.used)
        return f"{name} {env} {hyps} {goal}{cert} {sure}{''.join(' ' + t for t, _ in facts)}"

    def one(goal):
        same = [t for t, f in known if f.text == goal.text]
        if same:
            return same[0]
        used.update(goal.used)
        if goal.rel == "=" and not goal.poly:
            (_, a), (_, b) = goal.left.within(APPLIED + 1), goal.right.within(APPLIED + 1)
            return f"solve {env} {a} {b} tt"
        p = proof(goal, [f for _, f in known], law.vectors)
        return p and cited("prove", f"({goal.quoted}) ", p, "(tt, tt)" if goal.rel == "=" else "tt")

    if law.show == "absurd":
        goal_text = "⊥"
        c = search(list(enumerate((f for _, f in known), 1)), law.vectors)
        body = c and cited("refute", "", f"({c})", "tt")
    else:
        goal_text, goals, fields = expand(law.show, records, law.vectors, "")
        bodies = [one(g) for _, g in goals]
        if None in bodies:
            body = None
        elif fields is None:
            body = bodies[0]
        else:
            body = "\n    record {\n" + "".join(f"      {f} = {b};\n" for f, b in zip(fields, bodies)) + "    }"
    if body is None:
        return None
    names = " ".join(law.vectors)
    lines = ["-- " + c for c in law.comment]
    lines.append(f"pub {law.name} : ({names} : Point) → {''.join(t + ' → ' for t in types)}{goal_text}")
    if used:
        lines.append("unfolding " + " ".join(sorted(used)))
    hs = "".join(f" h{subscript(i)}" for i in range(1, len(law.given) + 1))
    lines.append(f"{law.name} {names}{hs} ={'' if body.startswith(chr(10)) else ' '}{body}")
    return "\n".join(lines)


def read(text):
    """The text to copy, the records and the laws of a file."""
    copied, records, laws, mode = [], {}, [], None
    for n, raw in enumerate(text.split("\n"), 1):
        line = raw.strip()
        if mode == "text":
            if line == "end":
                mode = None
            else:
                copied.append(raw)
            continue
        if not line:
            continue
        key, _, rest = line.partition(" ")
        rest = rest.strip()
        if key == "text":
            mode = "text"
        elif key == "record":
            name, *params = rest.split()
            records[name] = (params, [])
            mode = name
        elif key == "law":
            laws.append(Law(rest))
            mode = "law"
        elif mode == "law" and key == "--":
            laws[-1].comment.append(rest)
        elif mode == "law" and key == "vectors":
            laws[-1].vectors = rest.split()
        elif mode == "law" and key == "given":
            laws[-1].given.append(rest)
        elif mode == "law" and key == "show":
            laws[-1].show = rest
        elif mode in records and ":" in line:
            field, fact = line.split(":", 1)
            records[mode][1].append((field.strip(), fact.strip()))
        else:
            raise SyntaxError(f"line {n}: {line}")
    return copied, records, laws


def main(argv):
    if len(argv) != 2:
        print(__doc__, file=sys.stderr)
        return 2
    with open(argv[1], encoding="utf-8") as f:
        copied, records, laws = read(f.read())
    print("\n".join(copied).strip("\n"))
    status = 0
    for law in laws:
        text = show(law, records)
        if text is None:
            print(f"{law.name}: no certificate found, so no law is printed", file=sys.stderr)
            status = 1
        else:
            print("\n" + text)
    return status


if __name__ == "__main__":
    sys.exit(main(sys.argv))
