"""What the processes of a command take of the processors, by the crate that each works on: sampled from /proc while the command runs."""
import os
import textwrap
import threading
from collections import defaultdict

# seconds between two looks; what a process takes after the last one that met it is not seen
PAUSE = 0.2
TICKS = os.sysconf("SC_CLK_TCK")


def looked_up(pid):
    """A process's own start, its parent, and the seconds of processor that it took."""
    with open(f"/proc/{pid}/stat", encoding="utf-8", errors="replace") as file:
        rest = file.read().rpartition(")")[2].split()
    return rest[19], int(rest[1]), (int(rest[11]) + int(rest[12])) / TICKS


def work_of(pid):
    """The crate that a process works on, and what it does there: proofs, tests or edits. Nothing where it names no crate."""
    with open(f"/proc/{pid}/cmdline", "rb") as file:
        words = file.read().decode(errors="replace").split("\0")
    if "--crate-name" not in words:
        return None
    kind = "edits" if "/rt-edit-" in os.readlink(f"/proc/{pid}/cwd") else "tests" if "test" in words[1] or "--test" in words else "proofs"
    return words[words.index("--crate-name") + 1], kind


class Spent:
    """What the descendants of one process take, from when it is made until it is ended."""

    def __init__(self, root):
        # of each process, by its number and its start: the one above it, what it works on, and its seconds
        self.root, self.seen, self.over = root, {}, threading.Event()
        self.thread = threading.Thread(target=self.watch, daemon=True)
        self.thread.start()

    def watch(self):
        while not self.over.wait(PAUSE):
            self.look()

    def look(self):
        now = {}
        for pid in map(int, filter(str.isdigit, os.listdir("/proc"))):
            try:
                now[pid] = looked_up(pid)
            except (OSError, ValueError, IndexError):
                continue
        for pid, (start, parent, seconds) in now.items():
            if pid == self.root or not self.is_below(pid, now):
                continue
            one = self.seen.setdefault((pid, start), [None, None, 0.0])
            one[0], one[2] = (parent, now[parent][0]), seconds
            try:
                # it is not known before the process has become the program that it runs
                one[1] = one[1] or work_of(pid)
            except (OSError, ValueError, IndexError):
                continue

    def is_below(self, pid, now):
        while pid in now and pid != self.root:
            pid = now[pid][1]
        return pid == self.root

    def end(self):
        """Minutes by crate: what its proofs, its tests and its edits took; beside them what no crate is named for."""
        self.over.set()
        self.thread.join()
        table, rest = defaultdict(lambda: {"proofs": 0.0, "tests": 0.0, "edits": 0.0}), 0.0
        for above, work, seconds in self.seen.values():
            while not work and above in self.seen:
                above, work, _ = self.seen[above]
            if work:
                table[work[0]][work[1]] += seconds / 60
            else:
                rest += seconds / 60
        return dict(table), rest


def printed(table, rest):
    """The minutes of each kind in sum, and of each crate, the dearest first."""
    sums = ", ".join(f"{kind} {sum(row[kind] for row in table.values()):.1f}" for kind in ("proofs", "tests", "edits"))
    yield f"processor minutes of the gate: {sums}, of no crate {rest:.1f}"
    dearest = sorted(table.items(), key=lambda it: -sum(it[1].values()))
    told = [
        f"{crate} {sum(row.values()):.1f}" + (f" ({row['edits']:.1f} edits)" if row["edits"] else "") for crate, row in dearest
    ]
    yield from textwrap.wrap(", ".join(told), 120)
