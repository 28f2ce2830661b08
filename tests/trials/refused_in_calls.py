"""Each allocation of each test of calls refused in turn: the test passes as ever, or it ends in out of memory, but for the tests named
below.

The tests of calls (`trial_script calls`) compare what a call answers whose reads, writes or store fail. A test whose allocation is
refused is told so by the call, as an error; a wrong answer would show in its comparison. The programs' own allocations are refused
in refused_memory.py and refused_in_scripts.py."""
import os
import subprocess
from collections import Counter
from concurrent.futures import ThreadPoolExecutor

from tests.harness.shims import REFUSE, built

# how a test ends that passes, one whose memory is refused, and one whose comparison fails: status and standard error
PASSES, OUT_OF_MEMORY, WRONG = (0, b""), (3, b"memory\n"), (1, b"wrong\n")
# the tests whose own reader or writer takes memory: where that is refused, a read or a write of theirs fails, and is told as failed
OF_THEIR_OWN = {"failed-writes", "failed-writes-of-text", "long-text"}
# the fewest tests that there are, and the fewest allocations of all of them; and how many of one test are refused at most: of a test with
# more, some, all over it
FEWEST_TESTS, FEWEST_ALLOCATIONS, MOST_OF_ONE = 13, 3_000, 3_000


def ran(program, *name, **variables):
    """How the tests with this name, or all, end, and the names that they print."""
    one = subprocess.run([program, "calls", *name], env=variables, capture_output=True, timeout=60)
    return (one.returncode, one.stderr), one.stdout.decode().split()


def outcome(program, name, shim, number):
    """What becomes of a test where the allocation of this number is refused: nothing where that is wrong."""
    ended, printed = ran(program, name, LD_PRELOAD=shim, REFUSE=str(number))
    if (ended, printed) == (WRONG, [name, "wrong"]) and name in OF_THEIR_OWN:
        return "of the test's own"
    return {(PASSES, (name,)): "as ever", (OUT_OF_MEMORY, ()): "out of memory"}.get((ended, tuple(printed)))


def refused_in_turn(program, name, shim, count):
    """How many of a test's allocations came to what, and the first that came to something wrong."""
    told = ran(program, name, LD_PRELOAD=shim, COUNT=count)
    if told != (PASSES, [name]):
        return f"{name} with ample memory: {told!r:.300}"
    with open(count, encoding="ascii") as file:
        allocations = int(file.read())
    numbers = range(1, allocations + 1, 1 + allocations // MOST_OF_ONE)
    found = [outcome(program, name, shim, number) for number in numbers]
    if None in found:
        number = numbers[found.index(None)]
        return f"{name}, allocation {number} refused: {ran(program, name, LD_PRELOAD=shim, REFUSE=str(number))!r:.400}"
    return Counter(found)


def calls_refused(program, top):
    shim = built(REFUSE, top)
    ended, names = ran(program)
    if ended != PASSES:
        return f"the tests of calls end with {ended}"
    with ThreadPoolExecutor(len(os.sched_getaffinity(0))) as pool:
        found = list(pool.map(lambda it: refused_in_turn(program, it[1], shim, os.path.join(top, str(it[0]))), enumerate(names)))
    wrong = [it for it in found if isinstance(it, str)]
    if wrong:
        return f"{len(wrong)} of {len(names)} tests, first {wrong[0]}"
    counts = sum(found, Counter())
    kinds = ", ".join(f"{count} {kind}" for kind, count in counts.most_common())
    print(f"{len(names)} tests of calls, {counts.total()} allocations, each refused in turn: {kinds}", flush=True)
    return None if len(names) >= FEWEST_TESTS and counts.total() >= FEWEST_ALLOCATIONS else "too few tests or allocations"
