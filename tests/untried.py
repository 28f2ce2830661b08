"""Lists each public function of a library that no wrong body changes: `python3 -m tests.untried`. The last line is
`N functions, M untried`.

A function counts as tried if an edit of `must-fail/` or `wrong/` changes its text, or if it is in `untried.txt`, the table of those for
which no wrong body compiles or is wrong."""
import os
import sys

from tests.harness import crate_functions, tree

TABLE = os.path.join(tree.ROOT, "tests", "untried.txt")


def libraries():
    """Returns the crates with public functions."""
    for crate in sorted(os.listdir(os.path.join(tree.ROOT, "crates"))):
        texts = crate_functions.sources(crate)
        if "src/lib.rt" in texts:
            yield crate, texts


def excused():
    """The functions in the table, each with its reason."""
    with open(TABLE, encoding="utf-8") as file:
        rows = (line.split(None, 1) for line in file if line.strip() and not line.startswith("#"))
        return {name: why.strip() for name, why in rows}


def untried():
    """Returns all public functions with a body, and those that no edit changes, by their paths."""
    every, left = set(), set()
    for crate, texts in libraries():
        names = crate_functions.given_out(texts)
        public = {
            it for file, text in texts.items() for it in crate_functions.functions_in(file, text) if it.has_body and it.is_public(names)
        }
        found = [
            crate_functions.functions_of(text, texts)
            for folder in ("must-fail", "wrong")
            for _, text in crate_functions.edits(crate, folder)
        ]
        touched = {(it.file, it.owner, it.name) for touches in found for it in touches}
        every |= {f"{crate}::{it.path()}" for it in public}
        left |= {f"{crate}::{it.path()}" for it in public if (it.file, it.owner, it.name) not in touched}
    return every, left


def check():
    """Returns what is wrong, a line each: functions that no edit changes, and rows of the table without a function."""
    table = excused()
    every, left = untried()
    lines = [f"{it}: no edit turns it" for it in sorted(left - set(table))]
    return len(every), lines + [
        f"{it}: stands in untried.txt, and {'an edit turns it' if it in every else 'is no public function'}"
        for it in sorted(set(table) - left)
    ]


def main():
    number, lines = check()
    for line in lines:
        print(line)
    print(f"{number} public functions, {len(lines)} untried")
    return 1 if lines else 0


if __name__ == "__main__":
    sys.exit(main())
