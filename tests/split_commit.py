"""`make split-commit`: checks that the trial of a stopped machine (trials/stopped_machine.py) finds what the contracts refuse.

The contracts refuse a commit in two transactions (`hub_writes/wrong/commit_in_two_transactions.edit`). Here the program
`trial_script` is built with that edit in a copy of the tree, by `rt try`, which proves nothing, and the machine is stopped at every
third call of its files: some stop has to leave part of a message, and the trial has to report it. Of the program without the edit it
has to report nothing.

    python3 -m tests.split_commit"""
import os
import re
import subprocess
import sys
import tempfile

from tests.harness.acts_in_turn import ends
from tests.harness.tree import ROOT
from tests.harness.tree_copies import text_copied
from tests.trials.stopped_machine import FILES, Machine, shown_after, stopped_script
from tests.wrong import applied

CRATE, EDIT = "hub_writes", "commit_in_two_transactions.edit"
# the calls of each file that are stopped: some behind the making of the tables
CALLS = range(24, 120, 3)


def asked():
    """Returns the runs of the trial, each with its words and its script."""
    seen = [((), shown_after(number)) for number in range(ends()[-1] + 1)]
    return seen + [((which, str(number)), stopped_script(1)) for which in FILES for number in CALLS]


def tried(room):
    """Returns what the program prints for each run. It is built once, without any proof."""
    runs, folder = asked(), os.path.join(room, "cases")
    os.mkdir(folder)
    for place, (words, script) in enumerate(runs):
        with open(os.path.join(folder, f"run{place:04}"), "wb") as file:
            file.write(script)
        with open(os.path.join(folder, f"run{place:04}.args"), "w", encoding="ascii") as file:
            file.write("".join(f"{word}\n" for word in words))
    ran = subprocess.run(
        ["rt", "try", "--cases", folder], cwd=os.path.join(room, "crates", "trial_script"), stdin=subprocess.DEVNULL, capture_output=True
    )
    parts = re.split(rb"^== run(\d{4})\n", ran.stdout, flags=re.M)
    printed = {runs[int(place)]: text for place, text in zip(parts[1::2], parts[2::2])}
    if len(printed) < len(runs):
        raise OSError(f"{len(printed)} of {len(runs)} runs printed anything: {ran.stderr[-600:]!r}")
    return printed


def found(room, edit):
    """Returns what the trial reports of the program, with the edit if one is named; nothing if everything is right."""
    if edit:
        with open(os.path.join(ROOT, "crates", CRATE, "wrong", edit), encoding="utf-8") as file:
            why = applied(file.read(), os.path.join(room, "crates", CRATE))
        if why:
            raise OSError(f"{edit}: {why}")
    printed = tried(room)
    machine = Machine(lambda words, script: (0, printed[tuple(words), script]))
    told = (machine.stopped(which, number) for which in FILES for number in CALLS)
    return next((it for it in told if isinstance(it, str)), None)


def main():
    right = True
    for edit in (None, EDIT):
        with tempfile.TemporaryDirectory(prefix="found-", dir=os.path.dirname(ROOT)) as room:
            text_copied(room)
            told = found(room, edit)
        print(f"{edit or 'as it stands'}: {told[:300] if told else 'nothing is wrong'}", flush=True)
        right &= bool(told) == bool(edit)
    return 0 if right else 1


if __name__ == "__main__":
    sys.exit(main())
