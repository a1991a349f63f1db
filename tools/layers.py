#!/usr/bin/env python3
"""Which crate names which: crates.txt, and the picture of the layers, docs/layers.svg.

    python3 tools/layers.py [--check]   writes into crates.txt what each crate names in its files, and draws the
                                        picture; --check only says what would change, and exits 1 if anything would

A crate stands one layer above the highest that it names. A line goes to each crate that it names and that no other
crate which it names leans on: what those lean on is reached through them.
"""
import pathlib
import re
import sys
import xml.etree.ElementTree as Xml

from refused import needs

TOP = pathlib.Path(__file__).resolve().parent.parent
KIT = ("check", "io", "bytes")
WIDE, HIGH, APART, ABOVE, EDGE = 92, 26, 18, 46, 16
COLOURS = {"laws": "#f3ecd8", "code": "#d9e7fb", "program": "#dcefdc"}
WORDS = {"laws": "definitions and laws, no code", "code": "code, proved", "program": "a program, proved"}


def kept_heads(top):
    """Of each crate what stands before the colon in crates.txt: its name, and that it is a static library if it is."""
    lines = (top / "crates.txt").read_text(encoding="utf-8").split("\n")
    heads = [line.partition("#")[0].partition(":")[0].split() for line in lines]
    return {words[0]: " ".join(words) for words in heads if words}


def without_comments(text):
    return re.sub(r"//.*", "", text)


def sources(top, crate):
    return sorted((top / "crates" / crate / "src").rglob("*.rt"))


def named(top, crate, known):
    """The crates that the files of a crate name."""
    folder = top / "crates" / crate
    code = "\n".join(without_comments(path.read_text(encoding="utf-8")) for path in sources(top, crate))
    proofs = [path for part in ("specs", "proofs") for path in folder.glob(f"{part}/**/*.antt")]
    text = "".join(path.read_text(encoding="utf-8") for path in proofs)
    own = set(re.findall(r"\bmod (\w+)", code))
    for brought in re.findall(r"\buse \w+::([^;]*)", code):
        own |= set(re.findall(r"\w+", brought))
    names = set(re.findall(r"(?<![\w:])(\w+)::", code)) - own
    names |= set(re.findall(r"\bRattle\.(\w+)", code + text))
    return (names & known) - {crate}


def kind(top, crate):
    files = sources(top, crate)
    if any(path.name == "main.rt" for path in files):
        return "program"
    code = "".join(without_comments(path.read_text(encoding="utf-8")) for path in files)
    return "code" if re.search(r"\bfn \w", code) else "laws"


def head(top, crate):
    """The comment at the head of a crate, as one line."""
    (root,) = [path for path in sources(top, crate) if path.name in ("lib.rt", "main.rt")]
    said = []
    for line in root.read_text(encoding="utf-8").split("\n"):
        if not line.startswith("//") or line == "//":
            break
        said.append(line[2:].strip())
    return " ".join(said)


def in_order(uses):
    """The crates, each behind those that it names, and otherwise as they stand."""
    ordered = []
    while len(ordered) < len(uses):
        ready = [crate for crate in uses if crate not in ordered and uses[crate] <= set(ordered)]
        if not ready:
            sys.exit(f"layers.py: crates name one another in a circle: {', '.join(sorted(set(uses) - set(ordered)))}")
        ordered.append(ready[0])
    return ordered


def all_below(uses):
    """What each crate leans on, near or far."""
    below = {}
    for crate, near in uses.items():
        below[crate] = set(near).union(*(below[other] for other in near))
    return below


def lines(uses):
    below = all_below(uses)
    return {crate: [to for to in near if not any(to in below[other] for other in near)] for crate, near in uses.items()}


def layers(uses, links):
    """The layers, the lowest first, and each line as the places that it passes: in a layer that it goes through it has
    a place of its own, so that it runs behind no box."""
    height = {}
    for crate, near in uses.items():
        height[crate] = 1 + max((height[other] for other in near), default=-1)
    rows = [[crate for crate in uses if height[crate] == level] for level in range(max(height.values()) + 1)]
    ways = []
    for crate, to in links.items():
        for other in to:
            between = [(crate, other, level) for level in range(height[crate] - 1, height[other], -1)]
            for place in between:
                rows[place[2]].append(place)
            ways.append([crate, *between, other])
    return rows, ways


def width(place):
    return WIDE + APART if isinstance(place, str) else APART


def places(rows, ways):
    """Where each place of a row is: many times over, each row is ordered by the middle of what its places are linked
    to."""
    linked = {place: [] for row in rows for place in row}
    for way in ways:
        for upper, lower in zip(way, way[1:]):
            linked[upper].append(lower)
            linked[lower].append(upper)
    broad = max(sum(map(width, row)) for row in rows)
    x = {}

    def set_out(row):
        gap = (broad - sum(map(width, row))) / (len(row) + 1)
        at = gap
        for place in row:
            x[place] = at + width(place) / 2
            at += width(place) + gap

    for row in rows:
        set_out(row)
    for turn in range(40):
        for row in rows if turn % 2 else reversed(rows):
            middles = {place: sum(x[other] for other in linked[place]) / max(1, len(linked[place])) for place in row}
            row.sort(key=lambda place: (middles[place], str(place)))
            set_out(row)
    return x, broad


def curve(points):
    """A line down through points, which leaves and reaches each of them upright."""
    said = [f"M{points[0][0]:.0f} {points[0][1]:.0f}"]
    for (x, y), (u, v) in zip(points, points[1:]):
        said.append(f"C{x:.0f} {(y + v) / 2:.0f} {u:.0f} {(y + v) / 2:.0f} {u:.0f} {v:.0f}")
    return " ".join(said)


def picture(top, uses):
    rows, ways = layers(uses, lines(uses))
    x, broad = places(rows, ways)
    tall = len(rows) * (HIGH + ABOVE) - ABOVE
    y = {place: (len(rows) - 1 - level) * (HIGH + ABOVE) for level, row in enumerate(rows) for place in row}
    frame = {"x": str(-EDGE), "y": str(-EDGE), "width": str(broad + 2 * EDGE), "height": str(tall + 2 * EDGE + 30)}
    font = {"font-family": "sans-serif", "font-size": "12"}
    svg = Xml.Element("svg", xmlns="http://www.w3.org/2000/svg", viewBox=" ".join(frame.values()), **font)
    Xml.SubElement(svg, "title").text = f"The {len(uses)} crates in {len(rows)} layers"
    Xml.SubElement(svg, "rect", fill="white", **frame)
    group = Xml.SubElement(svg, "g", stroke="#8893a5", fill="none")
    for way in ways:
        points = [(x[way[0]], y[way[0]] + HIGH)]
        points += [(x[place], y[place] + part) for place in way[1:-1] for part in (0, HIGH)]
        Xml.SubElement(group, "path", d=curve([*points, (x[way[-1]], y[way[-1]])]))
    for crate in uses:
        box = Xml.SubElement(svg, "g", id=crate)
        Xml.SubElement(box, "title").text = head(top, crate)
        shape = {"x": f"{x[crate] - WIDE / 2:.0f}", "y": str(y[crate]), "width": str(WIDE), "height": str(HIGH)}
        Xml.SubElement(box, "rect", rx="4", fill=COLOURS[kind(top, crate)], stroke="#445", **shape)
        middle = {"text-anchor": "middle", "x": f"{x[crate]:.0f}", "y": str(y[crate] + 17)}
        Xml.SubElement(box, "text", **middle).text = crate
    for i, (what, colour) in enumerate(COLOURS.items()):
        square = {"x": str(210 * i), "y": str(tall + 14), "width": "16", "height": "16"}
        Xml.SubElement(svg, "rect", fill=colour, stroke="#445", **square)
        Xml.SubElement(svg, "text", x=str(210 * i + 22), y=str(tall + 27)).text = WORDS[what]
    Xml.indent(svg)
    return Xml.tostring(svg, encoding="unicode") + "\n"


def main(argv, top=TOP):
    check = argv[1:] == ["--check"]
    if argv[1:] and not check:
        sys.exit(__doc__)
    crates = set(needs(top))
    uses = {crate: named(top, crate, crates | set(KIT)) for crate in needs(top)}
    order = in_order({crate: near & crates for crate, near in uses.items()})
    ours = {crate: [other for other in order if other in uses[crate]] for crate in order}
    kits = {crate: [kit for kit in KIT if kit in uses[crate] - crates] for crate in order}
    heads = kept_heads(top)
    listed = "".join(" ".join([f"{heads[crate]}:", *ours[crate], *kits[crate]]) + "\n" for crate in order)
    stale = False
    for path, text in ((top / "crates.txt", listed), (top / "docs/layers.svg", picture(top, ours))):
        if not path.is_file() or path.read_text(encoding="utf-8") != text:
            stale = True
            print(f"{path.relative_to(top)}: {'is not what the crates say' if check else 'written'}")
            if not check:
                path.write_text(text, encoding="utf-8")
    return 1 if check and stale else 0


if __name__ == "__main__":
    sys.exit(main(sys.argv))
