#!/usr/bin/env python3
"""Writes the tables of docs/READING.md: which definitions a promise leans on, in an order in which they can be read.

    python3 tools/reading.py [--check]   --check only says whether the page is current, and exits 1 if it is not

On the page a line `<!-- reading: FILE .. -->` begins a table and `<!-- end -->` ends it; what stands between them is
written here. The table has the files named and each file of specs/ that these use, directly or not, but for those of
the tables before it. Each stands after all that it uses; a page of code comes first. What is said of a file is the
comment above its name in specs/Lib.antt, of a page of code its first line; lines are counted as they are. Below are the
types that the files name, which are declared in the code. The table of `<!-- reading in all -->` has the sums.
"""
import pathlib
import re
import sys
import textwrap

TOP = pathlib.Path(__file__).resolve().parent.parent
PAGE = "docs/READING.md"
NAMED = re.compile(r"\bRattle\.(\w+)\.specs\.((?:\w+\.)*\w+)")
BLOCK = re.compile(r"(<!-- reading(?:: ([^>]*?)| in all) -->)\n.*?(<!-- end -->)", re.DOTALL)


class Fault(Exception):
    """Why the page cannot be written."""


def text_of(top, file):
    try:
        return (top / file).read_text(encoding="utf-8")
    except FileNotFoundError:
        raise Fault(f"{file} is not there") from None


def count(lines):
    return f"{lines:,}"


class Tree:
    """The files of a repository: what each uses, how long it is, what it is for."""

    def __init__(self, top):
        self.top = top

    def lines(self, file):
        return len(text_of(self.top, file).splitlines())

    def uses(self, file):
        """The files of specs/ that it names, in its order, and the types of the code with their files."""
        files, types = [], []
        for crate, path in NAMED.findall(re.sub(r"(--|//).*", "", text_of(self.top, file))):
            if not (self.top / "crates" / crate).is_dir():
                continue  # the library's
            parts = path.split(".")
            if parts[0] == "declared":
                at = next(i for i, part in enumerate(parts) if part[0].isupper())
                types.append((f"crates/{crate}/src/{'/'.join(parts[1:at]) or 'lib'}.rt", parts[at]))
            else:
                files.append(f"crates/{crate}/specs/{parts[0]}.antt")
        return files, types

    def purpose(self, file):
        if file.endswith(".rt"):
            return re.match(r"// (.*)", text_of(self.top, file)).group(1).rstrip(".")
        folder, name = file.rsplit("/", 1)
        said = re.search(rf"((?:^-- .*\n)+)pub mod {re.escape(name[:-5])}$", text_of(self.top, f"{folder}/Lib.antt"),
                         re.MULTILINE)
        if not said:
            raise Fault(f"{folder}/Lib.antt says nothing of {name}")
        return " ".join(line[3:] for line in said.group(1).splitlines())

    def ordered(self, roots, before):
        """The roots and all that they use, but for what stood before, each after what it uses."""
        order, seen = [], set(before)

        def visit(file):
            if file not in seen:
                seen.add(file)
                for other in self.uses(file)[0]:
                    visit(other)
                order.append(file)

        for root in roots:
            visit(root)
        return sorted(order, key=lambda file: not file.endswith(".rt"))


def table(tree, files, types, first):
    rows = ["| | file | lines | what it has |", "|---|---|---|---|"]
    for i, file in enumerate(files, first):
        rows.append(f"| {i} | `{file}` | {count(tree.lines(file))} | {tree.purpose(file)} |")
    if types:
        declared = {}
        for file, name in sorted(types):
            if not re.search(rf"\b(struct|enum) {name}\b", text_of(tree.top, file)):
                raise Fault(f"{file} declares no {name}")
            declared.setdefault(file, []).append(f"`{name}`")
        named = ", ".join(f"{', '.join(names)} (`{file}`)" for file, names in declared.items())
        rows += ["", *textwrap.wrap(f"Types, declared in the code: {named}.", 120, break_on_hyphens=False)]
    return rows


def written(page, top):
    """The page, its tables as the files are now."""
    tree, before, told, sums = Tree(top), [], set(), []

    def block(found):
        begin, roots, end = found.groups()
        heading = re.findall(r"^## (.*)$", page[:found.start()], re.MULTILINE)[-1]
        if roots is None:
            every = [str(path.relative_to(top)) for path in sorted(top.glob("crates/*/specs/**/*.antt"))]
            lines = sum(map(tree.lines, every))
            rows = ["| | files | lines | of all lines |", "|---|---|---|---|"]
            sums.append(("together", sum(n for _, n, _ in sums), sum(m for _, _, m in sums)))
            rows += [f"| {title} | {n} | {count(m)} | {m / lines:.2f} |" for title, n, m in sums]
            rows += [f"| all of `specs/` | {len(every)} | {count(lines)} | |"]
        else:
            files = tree.ordered(roots.split(), before)
            types = {named for file in files for named in tree.uses(file)[1]} - told
            rows = table(tree, files, types, len(before) + 1)
            before.extend(files)
            told.update(types)
            believed = [file for file in files if "/specs/" in file]
            sums.append((heading, len(believed), sum(map(tree.lines, believed))))
        return "\n".join([begin, "", *rows, "", end])

    if not BLOCK.search(page):
        raise Fault(f"{PAGE} has no table to write")
    return BLOCK.sub(block, page)


def main(argv, top=TOP):
    try:
        old = text_of(top, PAGE)
        new = written(old, top)
    except Fault as fault:
        sys.exit(f"reading.py: {fault}")
    if new == old:
        return 0
    if "--check" in argv[1:]:
        print(f"{PAGE} is not current: python3 tools/reading.py")
        return 1
    (top / PAGE).write_text(new, encoding="utf-8")
    return 0


if __name__ == "__main__":
    sys.exit(main(sys.argv))
