"""Kills the program at 100 moments spread over what it does, and looks at what is kept.

- A founding that is killed is made again: either nothing was founded, or all of it is there. The same holds for a founding over a file of
  schema 1 with 10,000 orders: the file is as it was, or all of it is brought over.
- An import of 999 orders that is killed is made again to its end: mailbox, status and every table are those of one that nobody disturbed,
  and SQLite finds the file whole after each kill.
- `serve` is killed while a client uploads: every answer that the client had read is kept."""
import os
import shutil
import subprocess
import threading
import time
from collections import Counter

from tests.harness.database_files import NAME, is_whole
from tests.harness.http_texts import response
from tests.harness.hub_steps import init, over
from tests.harness.register_texts import ALPHA
from tests.harness.servers import Server
from tests.hostile.shared import DIFFERENT, FOUNDED, IMPORT, IN_THE_MIDST, KNOWN, copied, folder_with_file, folder_with_hub
from tests.hostile.shared import folder_with_orders, folder_without_hub, in_words, kept_of, looks, old_file_of, on_all_processors
from tests.hostile.shared import one_order, rows_of, run

MOMENTS = 100
# the orders of an import, and those of a file of schema 1
ORDERS, OLD_ORDERS = 999, 10_000


def timed(program, words, folder):
    """How many seconds a command takes, and what it answers."""
    begun = time.monotonic()
    ran = run(program, words, folder)
    return time.monotonic() - begun, ran


def killed_after(seconds, program, words, folder):
    """Starts a command and kills it. Returns what it had printed."""
    child = subprocess.Popen([program, *words], cwd=folder, stdout=subprocess.PIPE)
    time.sleep(seconds)
    child.kill()
    return child.communicate()[0]


def wrong_in_copy(folder):
    """What SQLite finds wrong with a copy of the database file that a killed program left, if anything."""
    with copied(folder) as copy:
        why = is_whole(copy)
    return f": {why}" if why else ""


def at_each_moment(tried):
    """Tries each moment in turn, until something is wrong. `tried` returns what came of one, and what is wrong, to be read after the
    moment. Returns what came of them, and what is wrong, if anything."""
    found = []
    for place in range(MOMENTS):
        one, why = tried(place)
        if why:
            return found, f"killed at {place}{why}"
        found.append(one)
    return found, None


def founded_again(program, folder, printed, wanted, status):
    """Makes a founding again that was killed and had printed this. Returns whether the killed one had done it all, and what is wrong, if
    anything: the rows and the status that are wanted have to be there."""
    again = run(program, init(), folder)
    if again != KNOWN and (again != FOUNDED or printed):
        return False, f", then: {again!r:.300}"
    is_right = rows_of(folder) == wanted and not is_whole(folder) and run(program, over("status", ALPHA), folder) == status
    return again == KNOWN, None if is_right else ", then other rows"


def is_made(folder):
    """Whether there is a database file that SQLite can read: its first byte is written last."""
    path = os.path.join(folder, NAME)
    if not os.path.exists(path):
        return False
    with open(path, "rb") as file:
        return file.read(1) != b"\0"


def foundings_killed(program, top):
    whole = folder_without_hub(top)
    length, ran = timed(program, init(), whole)
    if ran != FOUNDED:
        return "the founding that nobody disturbs fails"
    wanted = rows_of(whole)

    def tried(place):
        folder = folder_without_hub(top)
        printed = killed_after(length * place / MOMENTS, program, init(), folder)
        broken = wrong_in_copy(folder) if is_made(folder) else ""
        is_done, why = founded_again(program, folder, printed, wanted, (0, b"end\n", b""))
        return "founded" if is_done else "not founded", broken or why

    found, why = at_each_moment(tried)
    if not why:
        print(f"a founding killed at {MOMENTS} moments: {in_words(Counter(found))}")
    return why


def migrations_killed(program, top):
    data = old_file_of(OLD_ORDERS)
    whole = folder_with_file(top, data)
    length, ran = timed(program, init(), whole)
    if ran != FOUNDED:
        return "a file of schema 1 that nobody disturbs is not brought over"
    wanted, status = rows_of(whole), run(program, over("status", ALPHA), whole)
    lines = status[1].count(b"\n")
    if lines != OLD_ORDERS + 1:
        return f"a status of {lines} lines"

    def tried(place):
        folder = folder_with_file(top, data)
        # several run at once and take longer than one alone, so the moments are spread over twice its time
        printed = killed_after(2 * length * place / MOMENTS, program, init(), folder)
        broken = wrong_in_copy(folder)
        is_done, why = founded_again(program, folder, printed, wanted, status)
        shutil.rmtree(folder)
        return "brought over" if is_done else "as it was", (broken or why) and f"killed at {place}{broken or why}"

    found = on_all_processors(tried, range(MOMENTS))
    wrong, counts = [why for _, why in found if why], Counter(kind for kind, _ in found)
    if wrong:
        return wrong[0]
    print(f"a file of schema 1 with {OLD_ORDERS:,} orders, killed at {MOMENTS} moments: {in_words(counts)}")
    return None if min(counts["brought over"], counts["as it was"]) >= 5 else "the kills did not come in the midst"


def imports_killed(program, top):
    whole = folder_with_orders(program, top, ORDERS)
    length, ran = timed(program, IMPORT, whole)
    if ran[0]:
        return "the import that nobody disturbs fails"
    wanted, seen = rows_of(whole), looks(program, whole)

    def tried(place):
        folder = folder_with_orders(program, top, ORDERS)
        killed_after(length * place / MOMENTS, program, IMPORT, folder)
        broken, again = wrong_in_copy(folder), run(program, IMPORT, folder)
        kept = kept_of(again, ORDERS)
        if broken or kept is None:
            return kept, broken or f", then: {again[0]}, {again[2]!r}, {again[1][:200]!r}"
        is_right = rows_of(folder) == wanted and looks(program, folder) == seen and not is_whole(folder)
        return kept, None if is_right else ": other rows"

    kept, why = at_each_moment(tried)
    if why:
        return why
    midst = sum(0 < count < ORDERS for count in kept)
    print(
        f"an import of {ORDERS} orders killed at {MOMENTS} moments, {midst} of them in its midst; from {min(kept)} to {max(kept)} of them "
        f"were kept, {len(set(kept))} different counts"
    )
    return None if midst >= IN_THE_MIDST and len(set(kept)) >= DIFFERENT else "the kills did not come in the midst of the import"


def answers_read(server):
    """Uploads orders until the server is gone. Returns how many answers came whole; one more order was sent."""
    read = 0
    try:
        while True:
            _, request, _, body = one_order(read)
            if server.ask(request) != response(200, body):
                return read
            read += 1
    except OSError:
        return read


def wrong_answers(program, folder, read):
    """What a server over the files of one that was killed answers wrong to the same orders, if anything: those whose answers were read are
    repeated, and the last one is repeated or accepted."""
    with Server(program, read + 1, folder=folder) as again:
        for k in range(read + 1):
            _, request, _, body = one_order(k)
            found, repeated = again.ask(request), response(200, body.replace("accepted", "repeated"))
            if found != repeated and (k < read or found != response(200, body)):
                return f", order {k} of {read} read: {found!r:.300}"
    return None


def servers_killed(program, top):
    def tried(place):
        with Server(program, 100_000, folder=folder_with_hub(program, top)) as server:
            killer = threading.Timer(0.005 + 0.3 * place / MOMENTS, server.child.kill)
            killer.start()
            read = answers_read(server)
            killer.join()
            server.child.wait()
            return read, wrong_in_copy(server.folder) or wrong_answers(program, server.folder, read)

    counts, why = at_each_moment(tried)
    if why:
        return why
    print(
        f"a server killed at {MOMENTS} moments; its client had read {min(counts)} to {max(counts)} answers, {len(set(counts))} different "
        "counts, all of them kept"
    )
    is_spread = sum(count > 0 for count in counts) >= IN_THE_MIDST and len(set(counts)) >= DIFFERENT
    return None if is_spread else "the kills did not come while the client uploaded"
