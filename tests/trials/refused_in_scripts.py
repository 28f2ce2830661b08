"""Each allocation of a program refused in turn: what is stopped says so and did nothing, and the same input sent again does it.

Each input of a script is sent twice. Where none is refused it is answered, and then answered again: a message as repeated, a
look-up as before. Where one allocation is refused, at most one answer is a stop in one of its forms, and the next sending
is answered as if it had not been there; or the program ran out of memory for the script itself, and says so."""
import os
import subprocess
import tempfile
from collections import Counter
from concurrent.futures import ThreadPoolExecutor
from dataclasses import dataclass, field

from tests.harness.case import SECONDS
from tests.harness.first_order import ORDERS
from tests.harness.hub_scripts import DESPATCH, FIRST_MAIL, OTHER_PALLET, RECEIPT, RESPONSE, SECOND, SECOND_MAIL
from tests.harness.hub_scripts import SPELLED, STATUS, despatch, interchange, line_status, order, response
from tests.harness.joining_scripts import Joining
from tests.harness.register_texts import ALPHA, BETA, GAMMA, RETAILER
from tests.harness.shims import REFUSE, built

# the forms of a stop in which nothing was done: the word, and where there is no memory even for it, nothing
STOPPED = {b"stopped 8\nstopped\n", b"stopped 0\n"}
# how many allocations there are at least, and how many of them are the script's own at most
FEWEST, MOST_OF_SCRIPT = 1000, 200


@dataclass
class Asked:
    """An input that is sent twice: what is answered, what is answered again, and the stops of the first and of the second in which nothing
    was done; and of an upload of two messages, the stops behind the first, each with what is answered again."""

    first: bytes
    again: bytes
    stops: set
    between: dict = field(default_factory=dict)


class Twice:
    """A script in which each input comes twice, and what is told of it."""

    def __init__(self):
        self.play, self.asked = Joining(), []

    def answered(self, one):
        self.play.printed = b""
        one()
        return self.play.printed

    def twice(self, first, again, *heads):
        stops = STOPPED | {b"stopped %d\n%s" % (len(head), head) for head in heads}
        self.asked.append(Asked(self.answered(first), self.answered(again), stops))

    def looks(self, one):
        self.twice(one, one)

    def sends(self, who, reference, kind, text, told="accepted", again="repeated"):
        head = f"interchange {reference} messages 1"
        self.twice(
            lambda: self.play.upload(who, text, head, f"1 {kind} {told}"),
            lambda: self.play.upload(who, text, head, f"1 {kind} {again}"),
            f"{head}\nstopped\n".encode(),
        )

    def sends_two(self, who, reference, kind, text):
        """An upload of two messages: where it is stopped behind the first, that one is repeated, and the second accepted."""
        head = f"interchange {reference} messages 2"

        def told(first, second):
            return self.answered(lambda: self.play.upload(who, text, head, f"1 {kind} {first}", f"2 {kind} {second}"))

        def stopped(*lines):
            body = "".join(f"{it}\n" for it in (head, *lines, "stopped")).encode()
            return b"stopped %d\n%s" % (len(body), body)

        script, caller = self.play.script, self.play.who
        between = {stopped(f"1 {kind} accepted"): told("repeated", "accepted")}
        self.play.script, self.play.who = script, caller
        stops = STOPPED | {stopped(), stopped(f"1 {kind} repeated")}
        self.asked.append(Asked(told("accepted", "accepted"), told("repeated", "repeated"), stops, between))


def messages_sent(run):
    """Messages, a cancellation, a mark and a join."""
    play = run.play
    run.sends(RETAILER, "1001", "ORDERS", ORDERS)
    run.sends(RETAILER, "1001", "ORDERS", SPELLED, "repeated")
    run.sends(RETAILER, "1002", "ORDERS", SECOND)
    run.sends(RETAILER, "1003", "ORDERS", interchange(RETAILER, "1003", order()), "refused B04", "refused B04")
    run.sends(ALPHA, "S1", "ORDRSP", RESPONSE)
    run.sends(ALPHA, "S2", "DESADV", DESPATCH)
    run.sends(ALPHA, "S6", "DESADV", interchange(ALPHA, "S6", despatch("DA4", OTHER_PALLET, 12, order="128577")))
    run.sends(ALPHA, "S7", "ORDRSP", interchange(ALPHA, "S7", response("R2", 27, order="128577")))
    run.sends(RETAILER, "1005", "RECADV", RECEIPT)
    run.twice(lambda: play.cancel("C1", 1, 10, "accepted"), lambda: play.cancel("C1", 1, 10, "repeated"))
    run.looks(lambda: play.take(1))
    run.twice(play.gamma_joins, lambda: play.gamma_joins("refused B18"))
    run.sends(RETAILER, "1020", "ORDERS", interchange(RETAILER, "1020", order(supplier=GAMMA)))
    # two inputs of one run
    play.say("run")
    run.sends(RETAILER, "1004", "ORDERS", interchange(RETAILER, "1004", order("128578", supplier=BETA)))
    play.say("end")
    two = interchange(RETAILER, "1010", order("128579", supplier=BETA), order("128580", supplier=BETA, reference=2))
    run.sends_two(RETAILER, "1010", "ORDERS", two)


def seen(run):
    """What is asked without a message."""
    play, lines = run.play, (line_status("128576", "C", 48, 14, 12, 10, 12), *STATUS[1:])
    run.looks(lambda: play.upload(RETAILER, "", "refused E06", outcome="bad"))
    run.looks(lambda: play.ask(RETAILER, "status", "denied", "denied\n"))
    run.looks(lambda: play.ask(ALPHA, "item 9", "unknown", "unknown\n"))
    run.looks(lambda: play.status(*lines))
    run.looks(lambda: play.status(*lines, who=RETAILER, line=f"status-of {ALPHA}"))
    run.looks(lambda: play.list(0, (2, "ORDERS", "128577"), (3, "RECADV", "G1")))
    run.looks(lambda: play.item(1, FIRST_MAIL))
    run.looks(lambda: play.item(2, SECOND_MAIL))


def sent_twice():
    """A script, and what is asked in it."""
    run = Twice()
    for scene in (messages_sent, seen):
        scene(run)
    return run.play.script, run.asked


def pairs(output):
    """The replies of an output, two by two."""
    replies = []
    while output:
        head, _, rest = output.partition(b"\n")
        length = int(head.split()[-1])
        replies.append(head + b"\n" + rest[:length])
        output = rest[length:]
    return list(zip(replies[::2], replies[1::2]))


def stops_of(output, asked):
    """How many stops an output has where it is right, and nothing where it is wrong."""
    found = pairs(output)
    if len(found) != len(asked):
        return None
    stops = 0
    for (first, second), one in zip(found, asked):
        if first in one.stops and second == one.first or first == one.first and second in one.stops or second == one.between.get(first):
            stops += 1
        elif (first, second) != (one.first, one.again):
            return None
    return stops


def outcome(words, shim, script, asked, number):
    """What becomes of the script where the allocation of this number is refused."""
    ran = subprocess.run(words, input=script, capture_output=True, env={"LD_PRELOAD": shim, "REFUSE": str(number)}, timeout=SECONDS)
    if ran.returncode == 3 and ran.stderr == b"memory\n":
        return "script"
    if ran.returncode == 1 and ran.stdout == b"store memory\n":
        # no hub, so the next line of the script is none
        return "opening"
    stops = stops_of(ran.stdout, asked) if ran.returncode == 0 else None
    return {None: "wrong", 0: "none", 1: "stop"}.get(stops, "wrong")


def tried(words, folder):
    """What is wrong of the script, played by these words, where one allocation is refused, if anything."""
    script, asked = sent_twice()
    shim, count = built(REFUSE, folder), os.path.join(folder, "count")
    whole = subprocess.run(words, input=script, capture_output=True, env={"LD_PRELOAD": shim, "COUNT": count}, timeout=SECONDS)
    if whole.returncode or stops_of(whole.stdout, asked) != 0:
        return f"with ample memory: {whole.stdout!r:.300}"
    with open(count, encoding="ascii") as file:
        allocations = int(file.read())
    numbers = range(1, allocations + 1)
    with ThreadPoolExecutor(len(os.sched_getaffinity(0))) as pool:
        outcomes = list(pool.map(lambda number: outcome(words, shim, script, asked, number), numbers))
    found = Counter(outcomes)
    own, opening = found["script"], found["opening"]
    print(
        f"{allocations} allocations refused in turn: {found['stop']} stops, {found['none']} made up for, {opening} of opening, {own} of "
        "the script's own"
    )
    if found["wrong"]:
        return f"wrong where one of these is refused: {[number for number, it in zip(numbers, outcomes) if it == 'wrong'][:20]}"
    if allocations < FEWEST or own > MOST_OF_SCRIPT or found["stop"] < (allocations - opening) // 2:
        return "too few allocations of the hub were refused"
    return None


def refusals(program, *words):
    """What is wrong where an allocation of the program is refused, if anything."""
    with tempfile.TemporaryDirectory() as folder:
        try:
            return tried([program, *words], folder)
        except (OSError, subprocess.SubprocessError) as why:
            return f"not tried: {why}"
