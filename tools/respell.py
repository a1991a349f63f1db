#!/usr/bin/env python3
"""Brings the repository's own names to today's spelling, once, after the kit's port.py: words in snake case, types
in camel case.

    python3 tools/respell.py [--list]      in the repository; --list only prints what would change

What the repository defines in crates/NAME/specs and in the lemma files of crates/NAME/proofs, with its fields,
constructors and local names, loses its hyphens, in those files, in clauses and in proofs of functions. A name that a file
takes from the kit stays as the kit spells it there, and so does what the kit itself writes for a function's proof. Names
of functions, strings, inputs and outputs are not touched.
"""

import re
import sys
from pathlib import Path

WORD = r"[^\W\d][\w']*(?:-[\w']+)+"
TOKEN = re.compile(rf"(?<![^\s(){{}}\[\],;.`|−]){WORD}(?=[+?]?(?:[\s(){{}}\[\],;.:`|]|$))")
USE = re.compile(r"use ((?:[A-Za-z]\w*\.)+)\{([^}]*)\}")
# Types with a number after a hyphen, and a name that port.py has begin with a capital.
TYPES = {"Demand-1": "Demand1", "Demand-2": "Demand2", "Demand-3": "Demand3", "Ends-there": "ends_there"}
SETTLED = "crates/exact/"  # there `settled`, by a Boolean, stands below the type Settled


def lemma_files(top):
    for crate in sorted(top.glob("crates/*")):
        yield from sorted((crate / "specs").rglob("*.antt"))
        yield from sorted((crate / "proofs").glob("*.antt"))


def own_names(top):
    """Every hyphenated word of the lemma files that is not of the kit."""
    names = set()
    for path in lemma_files(top):
        text = re.sub(r"--[^\n]*", "", path.read_text())
        names.update(set(TOKEN.findall(text)) - from_the_kit(text))
    return names


def from_the_kit(text):
    """What a file takes from a library that is not the repository's."""
    names = set()
    for path, items in USE.findall(text):
        if not path.startswith("Rattle.") or path.split(".")[1] in ("std", "core", "io", "libc"):
            names.update(item.split(" as ")[0].strip() for item in items.split(","))
    return names


def respelled(name):
    return TYPES.get(name, name.replace("-", "_"))


def respell(text, own, proof_of_a_function):
    kit = from_the_kit(text)

    def turn(found):
        name, before = found.group(), text[: found.start()]
        if name not in own or name in kit:
            return name
        # What the kit writes: tie.NAME and the steps c.NAME of a function's proof.
        if proof_of_a_function and before.endswith(("tie.", "Need-")):
            return name
        return respelled(name)

    return TOKEN.sub(turn, text)


def main():
    top = Path(__file__).resolve().parent.parent
    own = own_names(top)
    changed = 0
    for path in sorted(top.glob("crates/*/**/*")):
        parts = path.relative_to(top).parts
        if "out" in parts or path.suffix not in (".antt", ".rt"):
            continue
        text = path.read_text()
        new = respell(text, own, path.name == "Proof.antt")
        if str(path.relative_to(top)).startswith(SETTLED):
            new = re.sub(r"(?<![\w'-])settled(?![\w'-])", "SettledIf", new)
        if new != text:
            changed += 1
            if "--list" not in sys.argv:
                path.write_text(new)
    print(f"{len(own)} names, {changed} files")


if __name__ == "__main__":
    main()
