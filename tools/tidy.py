#!/usr/bin/env python3
"""Drops what a file of specs/ or proofs/ no longer needs: names on `use` lines that it does not mention, and the comments
that name a place of the source, as rt prints them above an answer to be written.

    python3 tools/tidy.py [--check]     every .antt file of the crates; --check only says which files would change, and
                                        exits 1 if any would

`rt tidy` drops unused imports too, where a crate is proved; `rt ci` notes them and passes, so --check is the gate's.
"""
import pathlib
import re
import sys

CRATES = pathlib.Path(__file__).resolve().parent.parent / "crates"
WORD = r"[^\s(){}.;,@\"]+"


def parts(name):
    """The pieces by which an operator such as ◌+◌ is written, or the name itself."""
    return [p for p in name.split("◌") if p] if "◌" in name else [name]


def tidied(text):
    lines = [l for l in text.split("\n") if not re.match(r"\s*-- src/\S+\.rt:\d+:\d+$", l)]
    body = "\n".join(l for l in lines if not re.match(r"(pub )?use ", l))
    body = re.sub(r"--.*", "", body)
    mentioned = set(re.findall(WORD, body))
    out = []
    for line in lines:
        m = re.match(r"use ([^\s{]+) as (\S+)$", line)
        if m and m.group(2) not in mentioned:
            continue
        m = re.match(r"use ([^{]+)\.\{(.*)\}$", line)
        if m:
            kept = []
            for item in m.group(2).split(", "):
                local = item.split(" as ")[-1]
                if local in mentioned or all(p in mentioned for p in parts(local)):
                    kept.append(item)
            if not kept:
                continue
            line = f"use {m.group(1)}.{{{', '.join(kept)}}}"
        out.append(line)
    return "\n".join(out)


def main(argv, crates=CRATES):
    check, changed = "--check" in argv[1:], 0
    paths = sorted(path for part in ("specs", "proofs") for path in crates.glob(f"*/{part}/**/*.antt"))
    if not paths:
        sys.exit(f"tidy.py: there is no .antt file under {crates}")
    for path in paths:
        old = path.read_text(encoding="utf-8")
        new = tidied(old)
        if new != old:
            changed += 1
            print(path)
            if not check:
                path.write_text(new, encoding="utf-8")
    return 1 if check and changed else 0


if __name__ == "__main__":
    sys.exit(main(sys.argv))
