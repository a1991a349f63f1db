#!/usr/bin/env python3
"""Reads what rt says of the edits under crates/NAME/must-fail: wrong versions of proved crates, each of which the checker
must refuse for what is wrong in it.

    python3 tools/refused.py [NAME ..] <WORDS    of every crate in crates.txt, or of these; WORDS is what `rt ci`, or
                                                 `rt must-fail`, has printed

rt counts an edit as refused wherever its check fails. But an edit may only have made some proof unfit for the code,
which would show nothing. So an edit says where the check has to fail first, in a line that rt does not read:

    # first: proofs/Inside.antt        in a lemma file, where a law no longer holds
    # first: proofs/list/list_in       in the proof of a function, here of `list_in` in src/list.rt: in its files, or at
                                       a place of its text, which rt names where it finds that proof by itself; of a
                                       function that calls itself, and of a cycle, as proofs/list/+sides

An edit with no such line counts as not refused. So does one that rt has not tried, and one with a line that rt would
pass over.
"""
import argparse
import pathlib
import re
import sys

TOP = pathlib.Path(__file__).resolve().parent.parent

# Besides lines that begin with '#': the changes of one file after the other. rt reads no other line.
EDIT = re.compile(r"(?:#.*\n|\n)*(?:file: .+\n(?:old: .+\nnew:.*\n|#.*\n|\n)+)+")
SAID = re.compile(r"^rt: must-fail (\S+)\.edit: (.*)", re.M)
PLACE = re.compile(r"refused, as it must be: (?:note: )?(?:\./)?(\S+?):(\d+):\d+:")
OF_A_FUNCTION = re.compile(r"(proofs/.+)/(?:Answers|Invariants|Proof)\.antt")
HEAD = re.compile(r"( *)(?:pub(?:\(\w+\))? )?(?:const )?(?:unsafe )?(?:extern \"C\" )?fn (\w+)")


class Fault(Exception):
    """Why something does not count as refused."""


def needs(top):
    """Each crate of crates.txt, in its order, with what it may name."""
    lines = (top / "crates.txt").read_text(encoding="utf-8").split("\n")
    pairs = [line.partition("#")[0].split(":") for line in lines]
    return {pair[0].split()[0]: pair[1].split() for pair in pairs if len(pair) == 2}


def edits_of(top, wanted):
    """The edits of these crates, or of all of crates.txt, by their names."""
    crates = needs(top)
    tried = [path for crate in crates for path in sorted((top / "crates" / crate / "must-fail").glob("*.edit"))]
    if other := {*top.glob("crates/*/must-fail/*"), *top.glob("crates/*/*/*.edit")} - set(tried):
        raise Fault(f"no edit that rt tries: {min(other).relative_to(top)}")
    if unknown := set(wanted) - set(crates):
        raise Fault(f"there is no such crate: {min(unknown)}")
    edits = {f"{path.parent.parent.name}/{path.stem}": path for path in tried}
    return {name: path for name, path in edits.items() if not wanted or path.parent.parent.name in wanted}


def place_of(crate, file, line):
    """The lemma file, or the folder of the function's proof, that a place in a crate belongs to."""
    if own := OF_A_FUNCTION.fullmatch(file):
        return own[1]
    if not file.startswith("src/"):
        return file
    lines = (crate / file).read_text(encoding="utf-8").split("\n")
    at = line - 1
    step = 1 if lines[at].lstrip().startswith("#[") else -1  # a function begins with its attributes
    while 0 <= at < len(lines) and not HEAD.match(lines[at]):
        at += step
    if not 0 <= at < len(lines):
        return f"{file}:{line}"
    indent, name = HEAD.match(lines[at]).groups()
    before = lines[:at]
    attributes = before[len(before) - before[::-1].index("") :] if "" in before else before
    folder = "proofs" if file in ("src/lib.rt", "src/main.rt") else f"proofs/{file[len('src/') : -len('.rt')]}"
    if indent:
        types = re.findall(r"^impl(?:<.*?>)? (?:\S+ for )?(\w+)", "\n".join(before), re.M)
        folder = "/".join([folder, *types[-1:]])
    if cycle := re.search(r"#\[cycle\((\w+)\)\]", "\n".join(attributes)):
        return f"{folder}/+{cycle[1]}"
    itself = f"{folder}/+{name}"  # a function that calls itself
    return itself if (crate / itself).is_dir() else f"{folder}/{name}"


def judge(edit, said):
    """Raises what is wrong with an edit, or with what rt says of it."""
    text = edit.read_text(encoding="utf-8")
    if not EDIT.fullmatch(text):
        raise Fault("BAD EDIT: it is not 'file:' and then pairs of 'old:' and 'new:', one line each")
    if said is None:
        raise Fault("NOT TRIED: rt says nothing of it")
    told = PLACE.match(said)
    if not told:
        raise Fault(f"NOT REFUSED for what is wrong in it: {said}")
    place = place_of(edit.parent.parent, told[1], int(told[2]))
    expected = re.findall(r"^# first: (.*)$", text, re.M)
    if expected != [place]:
        named = f"not in {' or '.join(expected)}" if expected else "it has no line '# first:'"
        raise Fault(f"REFUSED ELSEWHERE: first in {place}, and {named}: {said}")


def main(argv, words, top=TOP):
    parser = argparse.ArgumentParser(description="Reads what rt says of the edits under crates/NAME/must-fail.")
    parser.add_argument("wanted", nargs="*", metavar="NAME", help="a crate; without one, all of them")
    try:
        edits = edits_of(top, parser.parse_args(argv[1:]).wanted)
        if not edits:
            raise Fault("there is no edit")
    except Fault as fault:
        print(fault)
        return 1
    said, faults = dict(SAID.findall(words)), 0
    for name, edit in edits.items():
        try:
            judge(edit, said.get(name))
        except Fault as fault:
            print(f"{name}: {fault}")
            faults += 1
    print(f"{len(edits) - faults} refused, {faults} not")
    return 1 if faults else 0


if __name__ == "__main__":
    sys.exit(main(sys.argv, sys.stdin.read()))
