"""Relays the loads of loads.py with the proved program, with plain.rs, which keeps all segments, and with flat.rs, which copies
in runs of bytes, one after the other: ratios of instructions (if valgrind is there), of time and of peak memory, and the
growth from 1/16 of the size to the whole. Then checks a register of 1,000 suppliers beside one of one.

    python3 -m bench.run EDIHUB PLAIN FLAT"""
import os
import re
import resource
import shutil
import subprocess
import sys
import tempfile
import time

from bench import loads
from bench.figures import Figures

WORDS = ["relay", "--hub", "5412345000006", "--owner", "4012345500004", "--moment", "1748942400", "--number", "1"]
ROUNDS = 7

# The bounds: times the instructions of the flat program at the whole size, and what is accepted; growth from 1/16 of it; MB.
MOST_INSTRUCTIONS, ACCEPTED_INSTRUCTIONS = 1.5, 2
MOST_GROWTH = 18
MOST_MEMORY = 4

# The bounds of a check: seconds that 1,000 suppliers take more than one, and MB of address space.
MOST_CHECK_SECONDS = 0.010
MOST_CHECK_MEMORY = 16


def run(program, text, words=WORDS):
    """Seconds and output of one run."""
    with open(text, "rb") as source, tempfile.TemporaryFile() as target:
        began = time.perf_counter()
        child = subprocess.Popen([program, *words], stdin=source, stdout=target)
        status = child.wait()
        seconds = time.perf_counter() - began
        target.seek(0)
        if status:
            sys.exit(f"{program} ended with {status}")
        return seconds, target.read()


def peak(program, text):
    """Returns the peak memory in KiB once a program has begun to write more than a pipe takes at once, which it does at its end."""
    with open(text, "rb") as source:
        child = subprocess.Popen([program, *WORDS], stdin=source, stdout=subprocess.PIPE)
        child.stdout.read(1)
        with open(f"/proc/{child.pid}/status", encoding="ascii") as it:
            found = re.search(r"VmHWM:\s+(\d+)", it.read())
        child.stdout.read()
        child.wait()
    return int(found[1]) if found else 0


def instructions(program, text):
    if not shutil.which("valgrind"):
        return None
    words = ["valgrind", "--tool=callgrind", "--callgrind-out-file=/dev/null", program, *WORDS]
    with open(text, "rb") as source:
        ran = subprocess.run(words, stdin=source, stdout=subprocess.DEVNULL, stderr=subprocess.PIPE, text=True)
    found = re.search(r"Collected : (\d+)", ran.stderr)
    return int(found[1]) if found else None


def measure(programs, text):
    """For each program: least seconds, peak memory, instructions."""
    times, outputs = {it: [] for it in programs}, {}
    for _ in range(ROUNDS):
        for program in programs:
            seconds, outputs[program] = run(program, text)
            times[program].append(seconds)
    if len({*outputs.values()}) > 1:
        sys.exit("the programs print different texts")
    return {it: (min(times[it]), peak(it, text), instructions(it, text)) for it in programs}


def size(ours, plain, flat, name, text, data, figures):
    """Prints what one load takes in one size. Returns our instructions."""
    with open(text, "wb") as it:
        it.write(data)
    found = measure([ours, plain, flat], text)
    seconds, memory, count = found[ours]
    plain_seconds, plain_memory, plain_count = found[plain]
    flat_seconds, flat_memory, flat_count = found[flat]
    line = (
        f"{name}, {len(data):>9,} bytes: time {seconds / plain_seconds:.2f} of the plain program's and {seconds / flat_seconds:.2f} of the "
        f"flat one's, memory {memory / 1024:.1f} MiB of {plain_memory / 1024:.1f} and {flat_memory / 1024:.1f}"
    )
    whole = len(data) > loads.LIMIT // 2
    if count and plain_count and flat_count:
        line += (
            f", instructions {count / plain_count:.2f} and {count / flat_count:.2f} ({count / len(data):.0f} a byte, "
            f"{plain_count / len(data):.0f} in the plain program, {flat_count / len(data):.0f} in the flat one)"
        )
    print(line, flush=True)
    if whole:
        if count and flat_count:
            figures.tell(f"relay, {name}: times the flat instructions", count / flat_count, MOST_INSTRUCTIONS, ACCEPTED_INSTRUCTIONS)
        figures.tell(f"relay, {name}: memory", memory * 1024 / 10**6, MOST_MEMORY, unit=" MB", digits=1)
    return count


def least_room(words):
    """The least address space, in whole MB, in which the words end with status 0."""
    for room in range(1, 1000):
        limit = lambda: resource.setrlimit(resource.RLIMIT_AS, (room * 10**6, room * 10**6))
        if subprocess.run(words, stdout=subprocess.DEVNULL, stderr=subprocess.DEVNULL, preexec_fn=limit).returncode == 0:
            return room


def check(ours, folder, figures):
    """Prints what checks of registers take."""
    found = {count: (os.path.join(folder, f"{count}.toml"), []) for count in (1, 1000)}
    for count, (text, _) in found.items():
        with open(text, "wb") as it:
            it.write(loads.register(count))
    for _ in range(5 * ROUNDS):
        for count, (text, times) in found.items():
            seconds, output = run(ours, text, ["check", "--register", text])
            if output != f"ok {count} suppliers\n".encode():
                sys.exit(f"a check printed {output!r}")
            times.append(seconds)
    more = min(found[1000][1]) - min(found[1][1])
    figures.tell("check, 1,000 suppliers: more than of one", 1000 * more, 1000 * MOST_CHECK_SECONDS, unit=" ms", digits=1)
    room = least_room([ours, "check", "--register", found[1000][0]])
    figures.tell("check, 1,000 suppliers: address space", room or float("inf"), MOST_CHECK_MEMORY, unit=" MB", digits=0)


def main(figures, ours, plain, flat):
    with tempfile.TemporaryDirectory() as room:
        text = os.path.join(room, "load.edi")
        for name, make in loads.LOADS.items():
            small = size(ours, plain, flat, name, text, make(loads.LIMIT // 16), figures)
            whole = size(ours, plain, flat, name, text, make(loads.LIMIT), figures)
            if small and whole:
                figures.tell(f"relay, {name}: times the instructions of 1/16 of the size", whole / small, MOST_GROWTH, digits=1)
        check(ours, room, figures)


if __name__ == "__main__":
    told = Figures()
    main(told, *sys.argv[1:4])
    told.end()
