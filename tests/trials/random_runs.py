"""Made runs: some hundred scripts of inputs drawn by chance, the same each time, played over lists, over SQL in memory and over files in
memory, and some of them by `edihub` on a file. All answer alike, and none stops or says that memory gave out."""
import os
import random
import re
import subprocess
from collections import Counter
from concurrent.futures import ThreadPoolExecutor

from tests.harness.case import SECONDS
from tests.harness.hub_scripts import IN_FILES, Play
from tests.harness.played_scripts import runs_alike
from tests.harness.random_inputs import KEYS_OF_ALL, NUMBERS, PREFIXES, SUPPLIERS, upload_of
from tests.harness.register_texts import BETA, DELTA, GAMMA, RETAILER

# inputs of all kinds, and then receipts, which come when there is something to be received
RUNS, INPUTS, RECEIPTS = 300, 30, 10
# how many of the runs are played on a file too
ON_FILES = 60
# what says that memory gave out or that the store failed
STOPPED = re.compile(rb"^(stopped|memory|store )", re.MULTILINE)


def join_of(draw):
    """A join: mostly of a supplier that is not registered, with its own prefix and at times another's."""
    supplier = draw.choice((GAMMA, GAMMA, DELTA, DELTA, BETA, RETAILER))
    others = draw.sample(("7612346", "3512346", "401234", "871234500"), draw.choice((0, 0, 1)))
    return f"join {supplier} {KEYS_OF_ALL[supplier]} {','.join([PREFIXES.get(supplier, '5412345'), *others])}"


def script_of(seed):
    draw, play = random.Random(seed), Play()

    def ask(who, line, payload=None):
        play.ask(who, line, "", "", payload, key=KEYS_OF_ALL[who])

    for _ in range(INPUTS):
        one = draw.random()
        supplier = draw.choice(SUPPLIERS)
        if one < 0.7:
            who, text = upload_of(draw)
            ask(who, "upload", text)
        elif one < 0.8:
            ask(RETAILER, "cancel", f"{supplier}\nC{draw.randrange(4)}\n{draw.choice(NUMBERS)}\n1\n{draw.choice((1, 5, 999_999_999))}\n")
        elif one < 0.85:
            ask(RETAILER, join_of(draw))
        elif one < 0.92:
            ask(supplier, draw.choice(("after 0", "after 1", "item 1", "item 2", "taken 1", "taken 2")))
        else:
            ask(*draw.choice(((supplier, "status"), (RETAILER, f"status-of {supplier}"))))
    for _ in range(RECEIPTS):
        who, text = upload_of(draw, ["receipt"])
        ask(who, "upload", text)
    for supplier in PREFIXES:
        ask(supplier, "status")
        ask(supplier, "after 0")
    return play.script


def answers(program, seed):
    """What the three answer."""
    script = script_of(seed)
    return [subprocess.run([program, *it], input=script, capture_output=True, timeout=SECONDS) for it in ([], ["sql"], IN_FILES)]


def compared(program):
    with ThreadPoolExecutor(len(os.sched_getaffinity(0))) as pool:
        found = list(pool.map(lambda seed: answers(program, seed), range(RUNS)))
    told, alone, corrected = Counter(), Counter(), 0
    for seed, three in enumerate(found):
        printed = three[0].stdout
        if any(it.returncode or it.stdout != printed for it in three):
            return f"run {seed}: {[it.stdout[:200] for it in three]}"
        if STOPPED.search(printed + three[0].stderr):
            return f"run {seed} stops with ample memory: {STOPPED.search(printed + three[0].stderr)!r}"
        told.update(re.findall(rb"^\d \w+ (accepted|refused \w+|repeated)$", printed, re.MULTILINE))
        alone.update(re.findall(rb"^(accepted|refused B\w+|repeated)$", printed, re.MULTILINE))
        corrected += re.search(rb"^P \d{18} \d{14} C ", printed, re.MULTILINE) is not None
    print(
        f"{RUNS} made runs alike over lists, SQL and files: "
        + ", ".join(f"{count} {word.decode()}" for word, count in told.most_common())
        + f"; {corrected} of them show a pallet that was counted again"
    )
    if corrected < 20:
        return "too few of them correct a receipt"
    if told[b"accepted"] < 1000 or len(told) < 12:
        return "too few of them were accepted, or refused for too few causes"
    if not all(alone[word] for word in (b"accepted", b"refused B18", b"refused B19")):
        return "no join among them was accepted, or refused as known or for its prefixes"
    return None


def made_runs(program):
    """Where the stores do not answer alike, if anywhere."""
    try:
        return compared(program)
    except (OSError, subprocess.SubprocessError) as why:
        return f"not tried: {why}"


def runs_on_files(program, scripts):
    """Where the program `edihub` on a file does not answer as the program `scripts` over lists, if anywhere."""
    return runs_alike(program, scripts, script_of, ON_FILES, "made runs")
