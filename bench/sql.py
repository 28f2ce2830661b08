"""Imports despatches of ten lines, and 999 orders in one file and in as many, by the proved `edihub`, and plays the same uploads on a
plain Rust program over the system's SQLite (sql.rs), with few and with many lines of the supplier. Prints ratios of processor time for
each message, how it grows with the lines, syncs, and memory. Then what opening a file costs, by its size and by its register.

    python3 -m bench.sql PLAIN EDIHUB"""
import os
import shutil
import sqlite3
import subprocess
import sys
import tempfile
from dataclasses import dataclass

from bench.figures import Figures
from bench.hub import begun, despatch, order, since_first
from bench.peak import Peak
from tests.harness.hub_scripts import KEYS, MOMENT, TWO_SUPPLIERS, Play, interchange
from tests.harness.register_texts import ALPHA, BETA, RETAILER, gln, register
from tests.harness.shims import STOP, built

ROUNDS, MESSAGES = 5, 600
LINES = (10, 1_000, 100_000)
# the bounds: times of the plain program, growth from the fewest lines to the most, syncs a message
MOST, MOST_GROWTH, MOST_SYNCS = 2, 1.3, 4
# and how much of opening 10,000 orders the register of a few suppliers may cost
MOST_OF_REGISTER = 0.1
# lines that make a file of about 10 MB and one of about 50
OPENED = (45_000, 225_000)
# MB by which two runs may differ in what they take
ROOM = 0.5


@dataclass
class Load:
    """Files that are imported, and the messages in them. They are as many interchanges for the plain program."""

    name: str
    who: str
    texts: list
    messages: int


def orders_text(count, first, lines=1):
    return interchange(RETAILER, f"U{first}", *(order(k + 1, f"{first + k:08}", lines) for k in range(count)))


def base(lines):
    """Orders of ten lines each, in uploads."""
    count = lines // 10
    return [orders_text(min(999, count - first), first, 10) for first in range(0, count, 999)]


def loads(lines):
    """What is measured among so many lines."""
    despatches = [interchange(ALPHA, f"S{k}", despatch(k, f"{4999 * k % (lines // 10):08}", 10)) for k in range(MESSAGES)]
    return [
        Load("a despatch of 10 lines", ALPHA, despatches, MESSAGES),
        Load("an order of one line, 999 in one file", RETAILER, [orders_text(999, 50_000)], 999),
        Load("an order of one line, 999 files", RETAILER, [orders_text(1, 50_000 + k) for k in range(999)], 999),
    ]


def timed(words, folder, source=subprocess.DEVNULL, **variables):
    """Processor seconds, most memory in MB, and output of one run in a folder."""
    with tempfile.TemporaryFile() as target:
        child = subprocess.Popen(words, stdin=source, stdout=target, cwd=folder, env={**os.environ, **variables})
        peak = Peak(child.pid)
        _, state, used = os.wait4(child.pid, 0)
        child.returncode = os.waitstatus_to_exitcode(state)
        target.seek(0)
        if child.returncode:
            sys.exit(f"{words[0]} ended with {child.returncode}")
        return used.ru_utime + used.ru_stime, peak.end(), target.read()


def run(program, script, folder, **variables):
    path = os.path.join(folder, "script")
    with open(path, "wb") as file:
        file.write(script)
    with open(path, "rb") as source:
        return timed([program, "file", "hub.db"], folder, source, **variables)


def close(folder):
    """Copies the log into the file, as a command leaves it."""
    made = sqlite3.connect(os.path.join(folder, "hub.db"))
    made.execute("PRAGMA wal_checkpoint(TRUNCATE)").fetchall()
    made.close()


def copied(folder, top):
    into = tempfile.mkdtemp(dir=top)
    for name in os.listdir(folder):
        shutil.copy(os.path.join(folder, name), into)
    return into


def plain_cost(program, folder, load, top):
    """The least processor time of a load in the plain program, from the reply on that the file is open, and its output."""
    play = begun(Play())
    for text in load.texts:
        play.upload(load.who, text)
    least, output = None, None
    for _ in range(ROUNDS):
        into = copied(folder, top)
        path = os.path.join(into, "script")
        with open(path, "wb") as file:
            file.write(play.script)
        with open(path, "rb") as source:
            time, _, _, output = since_first([program, "file", "hub.db"], into, source)
        least = time if least is None else min(least, time)
        shutil.rmtree(into)
    return least, output


def status_words(edihub, who, key):
    return [edihub, "status", "--db", "hub.db", "--as", who, "--key", key, "--moment", MOMENT]


def opening(edihub, folder):
    """What a file costs to open, as somebody asks who has no orders in it."""
    size = sum(os.path.getsize(os.path.join(folder, name)) for name in os.listdir(folder) if name.startswith("hub.db"))
    time, memory, _ = timed(status_words(edihub, BETA, KEYS[BETA]), folder)
    print(f"opening a file of {size / 1e6:.0f} MB: {1000 * time:.0f} ms of processor time, {memory:.0f} MB of memory", flush=True)


def by_register(figures, edihub, top):
    """What a register costs as a file is opened: of two suppliers without orders and with 10,000, and of 1,000 suppliers with eight
    prefixes each. All that the first costs is to be at most a tenth of what the second does."""
    few = register((ALPHA, "40123455", "alpha-key-1"), (BETA, "8712345", "beta-key-1"))
    many = register(*((gln(k), [f"4{k:03}{last}00" for last in range(8)], f"key-{k:04}") for k in range(1000)))
    uploads = [orders_text(min(999, 10_000 - first), first) for first in range(0, 10_000, 999)]

    def opened_with(name, text, who, key, uploads=()):
        folder = founded(edihub, text, uploads, top)
        time = min(timed(status_words(edihub, who, key), folder)[0] for _ in range(ROUNDS))
        print(f"opening a hub of {name}: {1000 * time:.0f} ms of processor time", flush=True)
        return time

    alone = opened_with("2 suppliers without orders", few, BETA, "beta-key-1")
    among = opened_with("2 suppliers with 10,000 orders", few, BETA, "beta-key-1", uploads)
    opened_with("1,000 suppliers of eight prefixes without orders", many, gln(7), "key-0007")
    figures.tell("opening without orders, of what it is with 10,000", alone / among, MOST_OF_REGISTER, digits=3)


def founded(edihub, text, uploads, top):
    """The folder of a hub that was founded with this register and imported these uploads of the retailer."""
    folder = tempfile.mkdtemp(dir=top)
    with open(os.path.join(folder, "register.toml"), "w", encoding="ascii") as file:
        file.write(text)
    timed([edihub, "init", "--register", "register.toml", "--db", "hub.db"], folder)
    return having(edihub, folder, RETAILER, uploads, top)


def having(edihub, folder, who, uploads, top):
    """A copy of the hub that imported these uploads."""
    into, words = importing(edihub, folder, who, uploads, top)
    timed(words, into)
    shutil.rmtree(os.path.join(into, "in"))
    return into


def importing(edihub, folder, who, uploads, top):
    """A copy of the hub with these uploads as files to import, and the words that import them."""
    into = copied(folder, top)
    os.mkdir(os.path.join(into, "in"))
    for k, text in enumerate(uploads):
        with open(os.path.join(into, "in", f"{k:03}.edi"), "w", encoding="ascii") as file:
            file.write(text)
    words = ["--db", "hub.db", "--as", who, "--key", KEYS[who], "--moment", MOMENT, "--folder", "in"]
    return into, [edihub, "import", *words]


def import_syncs(edihub, folder, load, uploads, top, shim):
    into, words = importing(edihub, folder, load.who, uploads, top)
    count = os.path.join(into, "count")
    timed(words, into, LD_PRELOAD=shim, STOP_FILE=os.path.join(into, "hub.db"), COUNT=count)
    with open(count, encoding="ascii") as file:
        return int(file.read().split()[1])


def replies(output):
    """The lines of the replies, without what each program prints of a file or of a reply as such."""
    return [line for line in output.split(b"\n") if line and line.split()[0] not in (b"file", b"done", b"end")]


def imported(figures, edihub, plain, load, folders, lines, top, shim):
    """An import beside the plain program's uploads of the same. Returns its time, and its memory beside twice the largest file."""
    runs = []
    for _ in range(ROUNDS):
        into, words = importing(edihub, folders[0], load.who, load.texts, top)
        runs.append(since_first(words, into))
        shutil.rmtree(into)
    time, before, most, output = min(runs)
    plain_time, plain_output = plain_cost(plain, folders[1], load, top)
    if replies(output) != replies(plain_output):
        sys.exit(f"{load.name}, {lines} lines: the two programs print different replies")
    of_load, of_none = (import_syncs(edihub, folders[0], load, texts, top, shim) for texts in (load.texts, []))
    largest = max(map(len, load.texts)) / 1e6
    what, micro = f"{load.name}, among {lines:,}", 1e6 / load.messages
    print(f"{what}: {micro * time:.0f} microseconds of processor time, {micro * plain_time:.0f} in the plain program")
    print(f"{what}: {most:.1f} MB of memory, {before:.1f} of them for the open file, the largest file read {largest:.2f} MB", flush=True)
    figures.tell(f"{what}: times the plain program", time / plain_time, MOST)
    figures.tell(f"{what}: syncs a message", (of_load - of_none) / load.messages, MOST_SYNCS, digits=1)
    return time, most - 2 * largest


def main(figures, plain, edihub):
    plain, edihub = os.path.abspath(plain), os.path.abspath(edihub)
    times = {}
    with tempfile.TemporaryDirectory() as top:
        shim = built(STOP, top)
        for lines in LINES:
            folders = [founded(edihub, TWO_SUPPLIERS, base(lines), top), tempfile.mkdtemp(dir=top)]
            play = Play().say("quiet")
            for text in base(lines):
                play.upload(RETAILER, text)
            run(plain, play.script, folders[1])
            for folder in folders:
                close(folder)
            memory = {}
            for load in loads(lines):
                times[load.name, lines], memory[load.name] = imported(figures, edihub, plain, load, folders, lines, top, shim)
            # one file may take as much memory as twice its size beside what the store takes for as many small ones
            _, in_one, in_each = memory.values()
            figures.tell(f"an import of one file, among {lines:,}: more than of small ones", in_one - in_each, ROOM, unit=" MB", digits=1)
        for lines in OPENED:
            folder = founded(edihub, TWO_SUPPLIERS, base(lines), top)
            close(folder)
            opening(edihub, folder)
        by_register(figures, edihub, top)
    for load in loads(LINES[0]):
        growth = times[load.name, LINES[-1]] / times[load.name, LINES[0]]
        figures.tell(f"{load.name}: growth from {LINES[0]} to {LINES[-1]:,} lines", growth, MOST_GROWTH)


if __name__ == "__main__":
    told = Figures()
    main(told, *sys.argv[1:])
    told.end()
