"""A machine that stops at each call of the database file, or of its log, in turn, and comes back with what a crash leaves.

The two files are in memory, and all calls of one fail from some call on. Each input is then answered as if the machine had not
stopped, or stopped; what was told of stands once the store is opened again, and of the rest at most one whole message more; and
the same inputs sent again bring the tables where they would have been. Where the machine stopped while the tables were made,
there are none of them or all, and all goes as in a new file."""
import os
import re
import subprocess
from concurrent.futures import ThreadPoolExecutor

from tests.harness.acts_in_turn import LOOKS, ends, inputs, looks, script
from tests.harness.case import SECONDS
from tests.harness.hub_scripts import Play
from tests.harness.tree import OLDER_FILES

FILES = ("stop-file", "stop-log")
OLD = os.path.join(OLDER_FILES, "schema1_received.db")
# how many calls of a file are stopped at least behind the making of the tables, and how many are tried at most
FEWEST, MOST = 20, 2000


def runs_of(program):
    """How a program is run: of words and a script its status and what it prints."""

    def run(words, text):
        ran = subprocess.run([program, *words], input=text, capture_output=True, timeout=SECONDS)
        return ran.returncode, ran.stdout

    return run


def play(run, words, text):
    """The replies that a script prints, each with its word and its body."""
    status, output = run(words, text)
    if status:
        raise OSError(f"{words}: ended with {status}, {output!r:.200}")
    return replies(output)


def replies(output):
    found = []
    while output:
        line, _, output = output.partition(b"\n")
        word, _, length = line.rpartition(b" ")
        if word == b"store":
            found.append((line, b""))
        elif re.fullmatch(rb"\d+", length):
            found.append((word, output[: int(length)]))
            output = output[int(length) :]
        else:
            raise OSError(f"no reply: {line!r:.200}")
    return found


def shown_after(acts):
    """The script that shows what there is after so many acts."""
    return looks(script(acts)).script


def stopped_script(hubs):
    """A hub, opened so often; the inputs, looks once the machine has come back, the inputs again, and looks."""
    whole = looks(script(ends()[-1]).say("mend"))
    for it in inputs():
        it.ask(whole, it.acts(), 0)
    return Play().script * (hubs - 1) + looks(whole).script


class Machine:
    def __init__(self, run):
        self.run = run
        self.count, self.ends = len(inputs()), ends()
        self.acts = self.ends[-1]
        self.told = replies(script(self.acts).printed)
        # what is seen after each number of acts, over lists
        self.seen = [play(run, [], shown_after(acts))[-LOOKS:] for acts in range(self.acts + 1)]
        # how often the first of two messages alone was kept
        self.between = 0

    def stopped(self, which, number):
        """What is wrong where the machine stops at the call of this number; the number of inputs answered, less than
        all where it stopped."""
        words = [which, str(number)]
        front = []
        status, output = self.run(words, stopped_script(1))
        if output.startswith(b"store "):
            # while the tables were made
            front = [(b"store disk", b"")]
            status, output = self.run(words, stopped_script(2))
        found = replies(output)
        if status or found[: len(front)] != front:
            return f"{words}: ended with {status}, {output!r:.300}"
        found = found[len(front) :]
        answers, rest = found[: self.count], found[self.count :]
        told = next((place for place, pair in enumerate(zip(answers, self.told)) if pair[0] != pair[1]), self.count)
        if any(word != b"stopped" or not body.endswith(b"stopped\n") for word, body in answers[told:]):
            return f"{words}: told of {told}, then {answers[told:]!r:.300}"
        if front and told < self.count:
            return f"{words}: stopped again, {answers!r:.300}"
        # of the upload that was stopped, what its lines tell of
        acts = self.ends[told] + sum(line.endswith(b" accepted") for _, body in answers[told : told + 1] for line in body.split(b"\n"))
        done = [number for number in range(self.acts + 1) if self.seen[number] == rest[:LOOKS] and acts <= number <= acts + 1]
        if not done:
            return f"{words}: told of {acts} acts, then seen {rest[:LOOKS]!r:.400}"
        self.between += told < self.count and done[0] not in self.ends
        # the last act shows only in a list, so that what is seen may be that of two numbers
        wanted = [replies(script(self.acts, done=number).printed) for number in done]
        again = rest[LOOKS : LOOKS + self.count]
        if again not in wanted or rest[LOOKS + self.count :] != self.seen[-1]:
            return f"{words}: told of {acts} acts, done {done}, sent again {again!r:.400}"
        return told if not front else -1

    def tried(self, which):
        """What is wrong, or how many calls were stopped."""
        number, counts = 0, [0, 0]
        with ThreadPoolExecutor(len(os.sched_getaffinity(0))) as pool:
            while number < MOST:
                some = range(number, number + 64)
                for call, found in zip(some, pool.map(lambda call: self.stopped(which, call), some)):
                    if not isinstance(found, int):
                        return found
                    if found == self.count:
                        return counts if counts[0] >= FEWEST else f"{which}: {counts} calls, too few"
                    counts[found < 0] += 1
                number += 64
        return f"{which}: no run without a stop in {MOST} calls"


def migrated(run, which, number):
    """What is wrong where the machine stops at a call of this number while a file of schema 1 is brought over or looked at; whether it
    stopped."""
    shown, count = looks(Play()), LOOKS
    whole = play(run, ["stop-log", str(1 << 40), OLD], shown.script)
    script = looks(looks(Play()).say("mend")).script
    words, front = [which, str(number), OLD], []
    status, output = run(words, script)
    if output.startswith(b"store "):
        front = [(b"store disk", b"")]
        status, output = run(words, Play().script + script)
    found = replies(output)
    if status or found[: len(front)] != front:
        return f"{words}: ended with {status}, {output!r:.300}"
    found = found[len(front) :]
    stopped = [word for word, _ in found[:count] if word == b"stopped"]
    if any(one != other and one[0] != b"stopped" for one, other in zip(found, whole)) or found[count:] != whole:
        return f"{words}: {found!r:.400}"
    return bool(front or stopped)


def migrations(program):
    """What is wrong where a machine stops at a call of its files while one of schema 1 is brought over, if anything."""
    run, counts = runs_of(program), []
    try:
        for which in FILES:
            number, stops = 0, True
            with ThreadPoolExecutor(len(os.sched_getaffinity(0))) as pool:
                while stops and number < MOST:
                    some = list(pool.map(lambda call: migrated(run, which, call), range(number, number + 32)))
                    if wrong := [it for it in some if isinstance(it, str)]:
                        return wrong[0]
                    stops, number = all(some), number + sum(some)
            counts.append(number)
            if not 0 < number < MOST:
                return f"{which}: {number} calls"
    except (OSError, subprocess.SubprocessError) as why:
        return f"not tried: {why}"
    print(f"a file of schema 1 brought over: {counts[0]} calls of the file and {counts[1]} of the log stopped in turn")
    return None


def machine(program):
    """What is wrong where a machine stops at a call of its files, if anything."""
    try:
        tries = Machine(runs_of(program))
        for which in FILES:
            found = tries.tried(which)
            if isinstance(found, str):
                return found
            print(
                f"{which}: {found[0]} calls stopped in turn, and {found[1]} while the tables were made; {tries.between} so far between the "
                "messages of an upload"
            )
        if not tries.between:
            return "no stop between the two messages of an upload"
    except (OSError, subprocess.SubprocessError) as why:
        return f"not tried: {why}"
    return None
