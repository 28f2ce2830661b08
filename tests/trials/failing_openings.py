"""Openings and foundings of a database file in which one allocation, one change or one read fails: each fault has its own name. Want of
memory is `memory` or `store memory`, a disk that fails is `store disk` or `stopped`, and neither is told as the other. The same command
again goes through."""
import os
import shutil
import subprocess
import tempfile
from collections import Counter
from concurrent.futures import ThreadPoolExecutor

from tests.harness.case import SECONDS
from tests.harness.database_files import NAME
from tests.harness.hub_scripts import TWO_SUPPLIERS
from tests.harness.hub_steps import REGISTER, found, init, over
from tests.harness.register_texts import ALPHA
from tests.harness.shims import REFUSE, STOP, built

FOUNDED, KNOWN = (0, b"ok 2 suppliers\n", b""), (3, b"", b"store version\n")
# how many allocations of one command are refused at most: of more, some, all over it
MOST = 200
# a reply for whose word there was no memory
NO_WORD = "nothing"


def bare(folder):
    """A register, and no hub."""
    with open(os.path.join(folder, REGISTER), "w", encoding="ascii") as file:
        file.write(TWO_SUPPLIERS)


class Failing:
    """A command over folders that are made anew, each time with another call of the system that fails."""

    def __init__(self, program, top, words, make):
        self.program, self.top, self.words, self.make = program, top, words, make
        self.count = os.path.join(top, "count")

    def run(self, folder, variables=()):
        ran = subprocess.run([self.program, *self.words], cwd=folder, capture_output=True, env=dict(variables), timeout=SECONDS)
        return ran.returncode, ran.stdout, ran.stderr

    def once(self, **variables):
        """What comes of the command where this fails, and what then comes of it again."""
        with tempfile.TemporaryDirectory(dir=self.top) as folder:
            self.make(folder)
            return self.run(folder, {"STOP_FILE": os.path.join(folder, NAME), **variables}), self.run(folder)

    def counts(self, shim):
        """How many calls of its kinds the command makes where none fails, and what comes of it then."""
        two = self.once(LD_PRELOAD=shim, COUNT=self.count)
        with open(self.count, encoding="ascii") as file:
            return two, [int(it) for it in file.read().split()]

    def each(self, shim, variable, numbers, judge):
        """How often each word of `judge` comes where the calls of these numbers fail, or what is wrong first."""

        def word_of(number):
            two = self.once(LD_PRELOAD=shim, **{variable: str(number)})
            return judge(*two) or f"{self.words[0]}, {variable} {number}: {two!r:.300}"

        with ThreadPoolExecutor(len(os.sched_getaffinity(0))) as pool:
            return Counter(pool.map(word_of, numbers))


def judge_of(whole, again, faults):
    """A judge: as ever where nothing is told of the fault; else one of these faults, alone on standard error or as the reply, and the same
    again goes through."""

    def judge(first, second):
        if first == whole:
            return "as ever" if second in again else ""
        status, printed, error = first
        word = (error or printed).decode(errors="replace").rstrip("\n") or NO_WORD
        return word if status == 3 and word in faults and (second in again or second == whole) else ""

    return judge


def tried(program, top, words, make, again, stops=()):
    """What is wrong with a command where one call fails, if anything: it may also stop in these ways."""
    failing = Failing(program, top, words, make)
    refuse, stop = built(REFUSE, top), built(STOP, top)
    (whole, second), (allocations,) = failing.counts(refuse)
    (same, _), (changes, _, reads) = failing.counts(stop)
    if whole != same or whole[0] or second not in again:
        return f"{words[0]} with nothing that fails: {whole!r:.200}, then {second!r:.200}"
    memory, disk = ("memory", "store memory", *stops), ("store disk", *(it for it in stops if it != NO_WORD))
    for shim, variable, numbers, faults in (
        (refuse, "REFUSE", range(1, allocations + 1, 1 + allocations // MOST), memory),
        (stop, "FAIL", range(1, changes + 1), disk),
        (stop, "UNREAD", range(1, reads + 1), disk),
    ):
        ends = failing.each(shim, variable, numbers, judge_of(whole, again, faults))
        wrong = [it for it in ends if it not in ("as ever", *faults)]
        if wrong:
            return wrong[0]
        if numbers and set(ends) == {"as ever"}:
            return f"{words[0]}: nothing failed by {variable}"
        print(f"{words[0]}, {len(numbers)} calls by {variable}: " + ", ".join(f"{count} {word}" for word, count in ends.most_common()))
    return None


def founding(program):
    """A founding. Where a fault comes once all is done, the same again is known."""
    with tempfile.TemporaryDirectory() as top:
        return tried(program, top, init(), bare, [KNOWN, FOUNDED])


def opening(program):
    """A look into a hub."""
    with tempfile.TemporaryDirectory() as top:
        hub = os.path.join(top, "hub")
        os.mkdir(hub)
        found(program, hub)
        copied = lambda folder: shutil.copytree(hub, folder, dirs_exist_ok=True)
        return tried(program, top, over("status", ALPHA), copied, [(0, b"end\n", b"")], ("stopped", NO_WORD))


TRIALS = [("a founding in which one call fails", founding), ("an opening in which one call fails", opening)]
