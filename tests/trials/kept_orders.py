"""Orders that are kept from one message of an upload to the next: what a supplier sends together in one upload, and what it sends alone
under the same references, each message in an upload of its own, comes to the same replies, lines and pallets. Scripts drawn by chance,
the same each time, in which messages touch the same orders again and again, over lists, over SQL in memory, over files in memory and,
some of them, by `edihub` on a file; none stops."""
import os
import random
import re
import subprocess
from collections import Counter
from concurrent.futures import ThreadPoolExecutor

from tests.harness.case import SECONDS
from tests.harness.hub_scripts import IN_FILES, Play, interchange, message, parties
from tests.harness.played_scripts import runs_alike
from tests.harness.random_inputs import ITEM, SECOND_ITEM, sscc
from tests.harness.register_texts import ALPHA, BETA, RETAILER

RUNS, UPLOADS = 120, 4
# how many of the runs are played on a file too
ON_FILES = 30
# orders that the supplier has, one that only another has, and one that nobody has
ORDERS, OTHERS, NOBODYS = ("A", "B", "C"), "D", "E"
NAMED = (*ORDERS * 4, OTHERS, NOBODYS)
# the lines of each order, and their articles: one has two
LINES = {10: ITEM, 20: SECOND_ITEM, 30: ITEM}
# a message's line in a reply, and what is not compared: how many bytes a reply has, and how many messages an upload
TOLD = re.compile(rb"^\d+ (ORDRSP|DESADV) (accepted|repeated|refused \w+)$", re.MULTILINE)
PASSED_OVER = re.compile(rb"(interchange|done|bad) ")


def order_of(number, supplier, reference):
    lines = [it for line, item in LINES.items() for it in (f"LIN+{line}++{item}:SRV", "QTY+21:60")]
    head = (f"BGM+220+{number}+9", "DTM+137:20250603:102", *parties(supplier))
    return message("ORDERS:D:01B:UN:EAN010", reference, *head, *lines, "UNS+S")


def named_line(draw, order):
    """A line of an order: its article, and perhaps its number, seldom one that does not fit."""
    line = draw.choice((10, 10, 20, 20, 30, 40))
    item = LINES.get(line, ITEM) if draw.random() < 0.95 else SECOND_ITEM
    return item, draw.random() < 0.7 and f"RFF+ON:{order}:{line}"


def answer_of(draw, reference):
    order = draw.choice(NAMED)
    segments = [f"BGM+231+R{reference}+{draw.choice((4, 4, 4, 4, 27, 29))}", "DTM+137:20250603:102", f"RFF+ON:{order}", *parties(ALPHA)]
    if segments[0].endswith("+4"):
        for place in range(1, draw.choice((1, 1, 2, 3)) + 1):
            (item, by_number), action = named_line(draw, order), draw.choice("3567")
            quantity = [f"QTY+113:{draw.choice((0, 20, 40, 60, 61))}"] if action in "36" else []
            segments += [f"LIN+{place}+{action}+{item}:SRV", *quantity, *([by_number] if by_number else [])]
    return message("ORDRSP:D:01B:UN:EAN009", reference, *segments, "UNS+S")


def advice_of(draw, reference):
    order = draw.choice(NAMED)
    number = f"DA{reference if draw.random() < 0.9 else 1}"
    segments = [f"BGM+351+{number}+9", "DTM+137:20250604:102", f"RFF+ON:{order}", *parties(ALPHA)]
    for place in range(1, draw.choice((1, 1, 2)) + 1):
        segments += [f"CPS+{place}", f"GIN+BJ+{sscc(ALPHA, draw.randrange(200))}"]
        for line in range(1, draw.choice((1, 2, 3)) + 1):
            named = draw.choice((order, order, draw.choice(NAMED)))
            item, by_number = named_line(draw, named)
            reference_of = [by_number] if by_number else [f"RFF+ON:{named}"] if named != order else []
            segments += [f"LIN+{line}++{item}:SRV", f"QTY+12:{draw.choice((1, 1, 2, 5, 5, 60))}", *reference_of]
    return message("DESADV:D:01B:UN:EAN007", reference, *segments)


def scripts_of(seed):
    """A script in which the messages of a supplier come together, and one in which each comes alone."""
    draw, together, apart = random.Random(seed), Play(), Play()

    def both(who, line, payload=None):
        for play in (together, apart):
            play.ask(who, line, "", "", payload)

    for supplier, number in [(ALPHA, it) for it in ORDERS] + [(BETA, ORDERS[0]), (BETA, OTHERS)]:
        both(RETAILER, "upload", interchange(RETAILER, f"O{supplier[0]}{number}", order_of(number, supplier, 1)))
    for upload in range(UPLOADS):
        reference = f"S{upload}"
        messages = [draw.choice((answer_of, advice_of))(draw, place) for place in range(1, draw.choice((2, 8, 25)) + 1)]
        together.ask(ALPHA, "upload", "", "", interchange(ALPHA, reference, *messages))
        for one in messages:
            apart.ask(ALPHA, "upload", "", "", interchange(ALPHA, reference, one))
        cancelled = draw.choice(ORDERS), draw.choice((10, 20, 30)), draw.choice((1, 5))
        both(RETAILER, "cancel", "{}\nC{}\n{}\n{}\n{}\n".format(ALPHA, upload, *cancelled))
        both(ALPHA, "status")
    for supplier in (ALPHA, BETA):
        both(supplier, "status")
        both(supplier, "after 0")
    return together.script, apart.script


def played(program, script, words):
    """What a script prints, and what is wrong with that."""
    ran = subprocess.run([program, *words], input=script, capture_output=True, timeout=SECONDS)
    fault = ran.returncode or (b"stopped" in ran.stdout and "stopped")
    return [it for it in ran.stdout.splitlines() if not PASSED_OVER.match(it)], TOLD.findall(ran.stdout), fault


def differences(program, seed):
    """Where a run differs, if anywhere, and what its messages are told."""
    together, apart = scripts_of(seed)
    lines, told, fault = played(program, apart, [])
    for words in ([], ["sql"], IN_FILES):
        others, _, other_fault = played(program, together, words)
        if fault or other_fault or others != lines:
            at = next((pair for pair in zip(lines, others) if pair[0] != pair[1]), (len(lines), len(others)))
            return f"run {seed}, {words}: {fault or other_fault or at}", told
    return None, told


def compared(program):
    with ThreadPoolExecutor(len(os.sched_getaffinity(0))) as pool:
        found = list(pool.map(lambda seed: differences(program, seed), range(RUNS)))
    different = next((why for why, _ in found if why), None)
    if different:
        return different
    told = Counter(it for _, all_told in found for it in all_told)
    accepted = {kind: told[kind, b"accepted"] for kind in (b"ORDRSP", b"DESADV")}
    print(
        f"{RUNS} runs of messages together and alone alike: {sum(told.values())} messages, "
        + ", ".join(f"{count} {kind.decode()} accepted" for kind, count in accepted.items())
    )
    causes = {word.split()[-1] for (_, word) in told if word.startswith(b"refused")}
    if min(accepted.values()) < 300 or not {b"B05", b"B06", b"B07", b"B08", b"B09", b"B10", b"B12", b"B13"} <= causes:
        return f"too few of them were accepted, or refused for too few causes: {accepted}, {sorted(causes)}"
    return None


def kept_orders(program):
    """Where messages together and alone do not come to the same, if anywhere."""
    try:
        return compared(program)
    except (OSError, subprocess.SubprocessError) as why:
        return f"not tried: {why}"


def kept_on_files(program, scripts):
    """Where the program `edihub` on a file does not answer messages together as the program `scripts` over lists, if anywhere."""
    return runs_alike(program, scripts, lambda seed: scripts_of(seed)[0], ON_FILES, "runs of messages together")
