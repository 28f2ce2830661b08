"""Fills the disk: no file may grow past some size, and a write that would grow one fails.

Each command, a founding too, ends with its named fault or `stopped`, status 3; nothing is done in part, and the same command with room
goes through."""
import os
import resource
import shutil
import signal
import time
from collections import Counter

from tests.harness.database_files import is_whole, rows_in
from tests.harness.http_texts import response
from tests.harness.hub_scripts import interchange, order
from tests.harness.hub_steps import init, told
from tests.harness.register_texts import RETAILER
from tests.harness.servers import Server, accepted
from tests.hostile.shared import FOUNDED, IMPORT, KNOWN, folder_with_file, folder_with_orders, folder_without_hub, in_words, kept_of
from tests.hostile.shared import old_file_of, rows_of, run

# the orders of an import, and those of a file of schema 1
ORDERS, OLD_ORDERS = 60, 300
# the sizes, in bytes, past which no file may grow while a hub is founded or orders are imported: the last is ample
MOST = 3_000_000
# so many orders, sent one by one, do not fit into the room of twenty
FEWER_ON_A_FULL_DISK = 900
SIZES = range(0, MOST, MOST // 120)
DISK = (3, b"", b"store disk\n")
# how foundings and imports end, at one size or another
FOUNDING_ENDS, IMPORT_ENDS = ("store disk", "whole"), ("store disk", "stopped", "whole")


def run_within(size, program, words, folder):
    """Runs a command none of whose files may grow past this size."""

    def limit():
        signal.signal(signal.SIGXFSZ, signal.SIG_IGN)
        resource.setrlimit(resource.RLIMIT_FSIZE, (size, resource.RLIM_INFINITY))

    return run(program, words, folder, preexec_fn=limit)


def ends_at(sizes, tried):
    """Tries each size, until something is wrong. `tried` returns how a command ended, and what is wrong, to be read after the size. Returns
    a counter of the ends, and what is wrong, if anything."""
    counts = Counter()
    for size in sizes:
        end, why = tried(size)
        if why:
            return counts, f"at {size} bytes{why}"
        counts[end] += 1
    return counts, None


def founded_within(size, program, folder, pairs, wanted):
    """Founds a hub on a full disk, and again with room. The two have to answer one of these pairs, and to leave the rows that are wanted.
    Returns how the first ended, and what is wrong, if anything."""
    first, again = run_within(size, program, init(), folder), run(program, init(), folder)
    if (first, again) not in pairs:
        return None, f": {first!r:.200}, then with room: {again!r:.200}"
    if rows_of(folder) != wanted or is_whole(folder):
        return None, ", then with room: other rows"
    shutil.rmtree(folder)
    return "whole" if first == FOUNDED else "store disk", None


def foundings_on_full_disks(program, top):
    bare, pairs = folder_without_hub(top), ((DISK, FOUNDED), (FOUNDED, KNOWN))
    run(program, init(), bare)
    wanted = rows_of(bare)
    return ends_at(SIZES, lambda size: founded_within(size, program, folder_without_hub(top), pairs, wanted))


def end_of(ran):
    """How an import on a full disk ended; `None` if that is wrong."""
    status, printed, error = ran
    if ran == DISK:
        return "store disk"
    if status == 3 and not error and printed.endswith(b"stopped\n"):
        return "stopped"
    return "whole" if status == 0 and not error and printed.count(b" accepted\n") == ORDERS else None


def imported_within(size, program, folder, wanted):
    """Imports orders on a full disk, and again with room. Returns how the first import ended, and what is wrong, if anything: what it
    acknowledged has to be kept, and at most one message more."""
    first = run_within(size, program, IMPORT, folder)
    end, done = end_of(first), first[1].count(b" accepted\n")
    if not end:
        return None, f": {first[0]}, {first[1][-200:]!r}, {first[2]!r}"
    again = run(program, IMPORT, folder)
    if kept_of(again, ORDERS) not in (done, done + 1):
        return None, f" {done} were done, then with room: {again[0]}, {again[2]!r}, {again[1][:200]!r}"
    return end, ", then with room: other rows" if rows_of(folder) != wanted or is_whole(folder) else None


def imports_on_full_disks(program, top):
    whole = folder_with_orders(program, top, ORDERS)
    run(program, IMPORT, whole)
    wanted = rows_of(whole)
    return ends_at(SIZES, lambda size: imported_within(size, program, folder_with_orders(program, top, ORDERS), wanted))


def disks_full(program, top):
    foundings, why = foundings_on_full_disks(program, top)
    if why:
        return f"a founding {why}"
    imports, why = imports_on_full_disks(program, top)
    if why:
        return why
    if not all(imports[end] for end in IMPORT_ENDS) or not all(foundings[end] for end in FOUNDING_ENDS):
        return f"not each end: {imports}, {foundings}"
    ends = [f"{imports[end]} imports ended {end}" for end in IMPORT_ENDS] + [f"{foundings[end]} foundings {end}" for end in FOUNDING_ENDS]
    print(f"a disk that is full: {', '.join(ends)}")
    return None


def upload_of(number):
    """The order of this number, as the retailer uploads it."""
    return accepted(RETAILER, f"U{number}", "ORDERS", interchange(RETAILER, f"U{number}", order(str(number))))


class Supervised:
    """A hub that is served with `--stop-when-broken`, to which orders are sent one after another. Once it has ended it is begun again, as
    a supervisor does."""

    def __init__(self, program, folder):
        self.program, self.folder, self.orders, self.room = program, folder, 0, resource.RLIM_INFINITY
        self.begin()

    def begin(self):
        self.server = Server(self.program, 1000, folder=self.folder, more=["--stop-when-broken"])
        self.allow(self.room)

    def allow(self, room):
        """From now on no file of the program may grow past this size."""
        self.room = room
        resource.prlimit(self.server.child.pid, resource.RLIMIT_FSIZE, (room, resource.RLIM_INFINITY))

    def fill(self):
        self.allow(max(os.path.getsize(os.path.join(self.folder, it)) for it in os.listdir(self.folder)))

    def send(self):
        """Sends the next order. Whether it was accepted; else the hub has ended by itself, and the order is to be sent again."""
        _, request, status, body = upload_of(self.orders)
        answer = self.server.ask(request)
        if answer == response(status, body):
            self.orders += 1
            return True
        stopped = told(f"interchange U{self.orders} messages 1", "stopped")
        ended = (answer == response(503, stopped), *self.server.end()[::2])
        if ended != (True, 3, b"store disk\n"):
            raise OSError(f"order {self.orders}: {answer!r:.100}, then {ended}")
        return False

    def send_until_full(self):
        while self.orders < FEWER_ON_A_FULL_DISK and self.send():
            pass


def served_on_full_disks(program, top):
    """A hub under a supervisor whose disk fills, and has room again. What was accepted is kept, and the rest accepted then."""
    hub = Supervised(program, folder_without_hub(top))
    try:
        kept = [hub.send() for _ in range(20)]
        hub.fill()
        hub.send_until_full()
        full = hub.orders
        for _ in range(3):
            hub.begin()
            hub.send_until_full()
        begun = time.monotonic()
        hub.room = resource.RLIM_INFINITY
        hub.begin()
        kept.append(hub.send())
        seconds = time.monotonic() - begun
    finally:
        hub.server.child.kill()
        hub.server.child.communicate()
    if not all(kept) or hub.orders >= FEWER_ON_A_FULL_DISK:
        return f"{hub.orders} orders were accepted, {full} of them before the disk was full"
    numbers = {number for _, number in rows_in(hub.folder)[1]['"order"']}
    if numbers != {str(it).encode() for it in range(hub.orders)}:
        return f"{hub.orders} orders were accepted, and {len(numbers)} are kept"
    print(f"a served hub ended itself on a full disk after {full} orders, and took the next one {seconds:.1f} s after a start with room")
    return is_whole(hub.folder)


def migrations_on_full_disks(program, top):
    data = old_file_of(OLD_ORDERS)
    whole = folder_with_file(top, data)
    if run(program, init(), whole) != FOUNDED:
        return "a file of schema 1 with room is not brought over"
    wanted = rows_of(whole)
    # in the second pair the fault comes once the file is brought over
    pairs = ((DISK, FOUNDED), (DISK, KNOWN), (FOUNDED, KNOWN))
    sizes = range(0, 2 * len(data), max(512, len(data) // 60))
    counts, why = ends_at(sizes, lambda size: founded_within(size, program, folder_with_file(top, data), pairs, wanted))
    if why:
        return why
    print(f"a file of schema 1 brought over on a disk that is full: {in_words(counts)}")
    return None if len(counts) == 2 else f"not each end: {counts}"
