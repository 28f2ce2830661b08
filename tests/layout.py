"""Checks that the files of each crate are as `rt fmt` lays them out; the gate refuses a crate that is not. Run `rt fmt` in the crate's
folder.

    python3 -m tests.layout"""
import os
import shutil
import subprocess
import sys

from tests.harness.tree import ROOT
from tests.harness.tree_copies import PARTS, crates


def texts(crate):
    """The paths of a crate's files that a check reads, from the top of the tree."""
    for part in PARTS:
        for folder, _, names in os.walk(os.path.join(ROOT, "crates", crate, part)):
            yield from (os.path.relpath(os.path.join(folder, it), ROOT) for it in sorted(names) if it.endswith((".rt", ".antt")))


def out_of_layout():
    """What the toolchain says of files that are not in its layout, a line each."""
    files = [path for crate in crates() for path in texts(crate)]
    ran = subprocess.run(
        ["rattle", "fmt", "--check", *files], cwd=ROOT, stdout=subprocess.DEVNULL, stderr=subprocess.PIPE, text=True, errors="replace"
    )
    return ran.stderr.splitlines() or ([f"rattle fmt ended with {ran.returncode}"] if ran.returncode else [])


def main(words):
    if words:
        print("usage: python3 -m tests.layout")
        return 2
    if not shutil.which("rattle"):
        # the gate checks it nevertheless
        print("no rattle here, so the layout is not looked at")
        return 0
    lines = out_of_layout()
    print(*lines, "these files need `rt fmt`" if lines else "each file is in the layout", sep="\n", flush=True)
    return 1 if lines else 0


if __name__ == "__main__":
    sys.exit(main(sys.argv[1:]))
