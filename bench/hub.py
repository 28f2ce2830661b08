"""Plays loads on the proved hub over a store of lists (`trial_script`) and on a plain Rust one with ordered maps (hub.rs), and prints
ratios of processor time, and of instructions if valgrind is there. Time is taken within one run, from the last reply before the
measured part; for instructions, what comes before is also played alone, and subtracted.

    python3 -m bench.hub crates/trial_script/out/trial_script PLAIN"""
import os
import re
import shutil
import signal
import subprocess
import sys
import tempfile

from bench.figures import Figures
from bench.peak import Peak, most_memory
from tests.harness.hub_scripts import Play, interchange, message, parties
from tests.harness.register_texts import ALPHA, RETAILER

ROUNDS = 5
# the bound: times of the plain program
MOST = 2
MOST_NUMBER = 99_999_999_999_999


def gtin(number):
    digits = f"4{number:012}"
    return digits + str(-sum(int(d) * (3, 1)[k % 2] for k, d in enumerate(reversed(digits))) % 10)


def sscc(number):
    digits = f"340123455{number:08}"
    return digits + str(-sum(int(d) * (3, 1)[k % 2] for k, d in enumerate(reversed(digits))) % 10)


def order(reference, document, lines):
    groups = [it for k in range(1, lines + 1) for it in (f"LIN+{k}++{gtin(k)}:SRV", "QTY+21:1000")]
    head = (f"BGM+220+{document}+9", "DTM+137:20250603:102", *parties(ALPHA))
    return message("ORDERS:D:01B:UN:EAN010", reference, *head, *groups, "UNS+S", f"CNT+2:{lines}")


def despatch(number, document, lines):
    groups = [it for k in range(1, lines + 1) for it in (f"LIN+{k}++{gtin(k)}:SRV", "QTY+12:1")]
    head = (f"BGM+351+DA{number}+9", "DTM+137:20250604:102", f"RFF+ON:{document}", *parties(ALPHA))
    return message("DESADV:D:01B:UN:EAN007", 1, *head, "CPS+1", f"GIN+BJ+{sscc(number)}", *groups)


def sent(play, count, first, lines):
    """One upload of so many orders."""
    play.upload(RETAILER, interchange(RETAILER, f"U{first}", *(order(k + 1, f"{first + k:08}", lines) for k in range(count))))


def begun(play):
    """The reply from which time is taken."""
    return play.list(MOST_NUMBER)


def orders(measured):
    """An upload of 999 orders, 20 times."""
    play = begun(Play())
    for k in range(20 if measured else 0):
        sent(play, 999, 999 * k, 1)
    return play.script


def despatches(measured):
    """2,000 despatches of ten lines, each of another order, among 100,000 lines."""
    play = Play().say("quiet")
    for k in range(10):
        sent(play, 999, 999 * k, 10)
    sent(play, 10, 9990, 10)
    begun(play.say("loud"))
    for k in range(2000 if measured else 0):
        # 4,999 has no factor in common with 10,000, so no order comes twice
        play.upload(ALPHA, interchange(ALPHA, f"S{k}", despatch(k, f"{4999 * k % 10_000:08}", 10)))
    return play.script


def status(measured):
    """The status of 10,000 lines, 50 times."""
    play = Play().say("quiet")
    sent(play, 999, 0, 10)
    sent(play, 1, 999, 10)
    begun(play.say("loud"))
    for _ in range(50 if measured else 0):
        play.status()
    return play.script


LOADS = {
    "20 uploads of 999 orders": orders, "2,000 despatches of 10 lines among 100,000": despatches, "50 statuses of 10,000 lines": status
}


def since_first(words, folder, source=subprocess.DEVNULL):
    """Processor seconds of one run from its first printed line on, most memory in MB before it and in all, and output."""
    child = subprocess.Popen(words, stdin=source, stdout=subprocess.PIPE, cwd=folder)
    peak = Peak(child.pid)
    first = os.read(child.stdout.fileno(), 1)
    child.send_signal(signal.SIGSTOP)
    with open(f"/proc/{child.pid}/schedstat", encoding="ascii") as file:
        opened = int(file.read().split()[0]) / 1e9
    before = most_memory(child.pid)
    child.send_signal(signal.SIGCONT)
    output = first + child.stdout.read()
    _, state, used = os.wait4(child.pid, 0)
    child.returncode = os.waitstatus_to_exitcode(state)
    if child.returncode:
        sys.exit(f"{words[0]} ended with {child.returncode}")
    return used.ru_utime + used.ru_stime - opened, before, peak.end(), output


def seconds(program, text):
    """Processor time from the first reply on, and output, of one run."""
    with open(text, "rb") as source:
        time, _, _, output = since_first([program], os.path.dirname(text), source)
    return time, output


def instructions(program, text):
    if not shutil.which("valgrind"):
        return 0
    words = ["valgrind", "--tool=callgrind", "--callgrind-out-file=/dev/null", program]
    with open(text, "rb") as source:
        ran = subprocess.run(words, stdin=source, stdout=subprocess.DEVNULL, stderr=subprocess.PIPE, text=True)
    found = re.search(r"Collected : (\d+)", ran.stderr)
    return int(found[1]) if found else 0


def cost(program, texts):
    """Returns the least processor time after the preparation, the instructions without it, and the output."""
    least, output = min(seconds(program, texts[1]) for _ in range(ROUNDS))
    counts = [instructions(program, text) for text in texts]
    return least, counts[1] - counts[0], output


def main(figures, ours, plain):
    ours, plain = os.path.abspath(ours), os.path.abspath(plain)
    with tempfile.TemporaryDirectory() as folder:
        texts = [os.path.join(folder, name) for name in ("before", "whole")]
        for name, load in LOADS.items():
            for text, measured in zip(texts, (False, True)):
                with open(text, "wb") as file:
                    file.write(load(measured))
            (time, count, output), (plain_time, plain_count, plain_output) = cost(ours, texts), cost(plain, texts)
            if output != plain_output:
                sys.exit(f"{name}: the two programs print different replies")
            line = f"{name}: {1000 * time:.0f} ms of processor time, {1000 * plain_time:.0f} in the plain program"
            print(line + (f", instructions {count / plain_count:.2f}" if plain_count else ""), flush=True)
            figures.tell(f"lists, {name}: times the plain program", time / plain_time, MOST)


if __name__ == "__main__":
    told = Figures()
    main(told, *sys.argv[1:])
    told.end()
