"""`make year`: a retailer's year with 1,000 suppliers over HTTP, on the proved program. Each order has ten lines; it is sent,
answered, despatched and received, so there are four messages to an order. Every answer is compared with the right one, and so are
the statuses, lists and entries of some suppliers at each tenth. A line for each tenth says what a message of each kind, a status,
a list and an entry took of the processor in milliseconds, how much memory the server has had at most, and how large the file is.
In the end the file is opened again, and checked by SQLite. If a figure is past its goal, it says so and ends with status 1.

    python3 -m bench.year crates/edihub/out/edihub [ORDERS]"""
import os
import shutil
import sys
import tempfile

from bench.peak import most_memory
from bench.trade import KINDS, LINES, Order, request, status_body
from tests.harness.database_files import NAME, is_whole
from tests.harness.http_texts import response
from tests.harness.hub_steps import found
from tests.harness.processor_time import looked_up
from tests.harness.register_texts import crowd
from tests.harness.servers import Server, listed

SUPPLIERS, TENTHS, LOOKED_AT = 1_000, 10, 50
# how often a list and an entry are asked for, which take little of what the system counts in steps of ten milliseconds
MANY = 20
# as many as `serve` takes: then it ends, and is restarted
CONNECTIONS = 1_000_000
# the goals: times that a message of the first 10,000 lines takes, and MB while serving
MOST_GROWTH, MOST_MEMORY = 1.3, 24
LOOKS = ("status", "list", "entry")


class Wrong(Exception):
    """An answer that is not the right one."""


class Hub:
    """The program over one file. It is restarted when its connections are used up."""

    def __init__(self, program, folder):
        self.program, self.folder, self.before, self.memory = program, folder, 0.0, 0.0
        self.begin()

    def begin(self):
        self.server, self.asked = Server(self.program, CONNECTIONS, folder=self.folder), 0
        # what it takes to open the file is no message's
        self.opening = self.seconds_now()

    def seconds_now(self):
        return looked_up(self.server.child.pid)[2]

    def seconds(self):
        """The processor seconds of all that was asked."""
        return self.before + self.seconds_now() - self.opening

    def most(self):
        self.memory = max(self.memory, most_memory(self.server.child.pid))
        return self.memory

    def ask(self, what, body):
        if self.asked == CONNECTIONS - 1:
            self.before, self.memory = self.seconds(), self.most()
            last, self.asked = self.answered(what, body), CONNECTIONS
            self.server.child.communicate()
            if self.server.child.returncode:
                raise Wrong(f"the program ended with {self.server.child.returncode}")
            return self.begin() or last
        self.asked += 1
        return self.answered(what, body)

    def answered(self, what, body):
        found = self.server.ask(what)
        line = self.server.child.stdout.readline()
        if found != response(200, body) or not line.endswith(b" 200\n"):
            raise Wrong(f"{what!r:.300} was answered {found!r:.600} and {line!r}, not {body!r:.600}")

    def size(self):
        """The MB of the file and the log beside it."""
        paths = (os.path.join(self.folder, name) for name in (NAME, f"{NAME}-wal"))
        return sum(os.path.getsize(it) for it in paths if os.path.exists(it)) / 1e6


class Year:
    def __init__(self, hub, suppliers=SUPPLIERS):
        self.hub, self.suppliers, self.done = hub, suppliers, 0

    def timed(self, asked):
        """The milliseconds of processor time of each of these requests."""
        begun = self.hub.seconds()
        for what, body in asked:
            self.hub.ask(what, body)
        return 1000 * (self.hub.seconds() - begun) / max(1, len(asked))

    def round(self, count):
        """Sends this many orders, no two of one supplier, each with all that follows. Returns the milliseconds of a message by kind."""
        orders = [Order(number, self.suppliers) for number in range(self.done, self.done + count)]
        self.done += count
        return {kind: self.timed([it.upload(kind) for it in orders]) for kind in KINDS}

    def orders_of(self, supplier):
        return [Order(number, self.suppliers) for number in range(supplier, self.done, self.suppliers)]

    def looks(self):
        """Milliseconds of a status, a list of the mailbox, and an entry, each of some suppliers."""
        asked = {it: [] for it in LOOKS}
        for supplier in range(self.done % 7, self.suppliers, max(1, self.suppliers // LOOKED_AT)):
            orders = self.orders_of(supplier)
            asked["status"].append((request("GET", supplier, "status"), status_body(orders)))
            entries = [(kind, it) for it in orders for kind in ("ORDERS", "RECADV")]
            shown = ((k, kind, it.document if kind == "ORDERS" else f"G{it.document}") for k, (kind, it) in enumerate(entries[:100], 1))
            body = listed(*shown, last="more" if len(entries) > 100 else "end")
            asked["list"] += [(request("GET", supplier, "mail/after/0"), body)] * MANY
            if entries:
                kind, last = entries[-1]
                asked["entry"] += [(request("GET", supplier, f"mail/item/{len(entries)}"), last.mail(kind, len(entries)))] * MANY
        return {it: self.timed(asked[it]) for it in LOOKS}

    def part(self, until):
        """All up to so many orders: milliseconds of each kind of message, and of each look."""
        rounds = []
        while self.done < until:
            rounds.append(self.round(min(self.suppliers, until - self.done)))
        return {**{kind: sum(it[kind] for it in rounds) / len(rounds) for kind in KINDS}, **self.looks()}


def shown(year, spent):
    """A line of the table."""
    hub = year.hub
    times = "".join(f"{spent[it]:8.2f}" for it in (*KINDS, *LOOKS))
    print(f"{year.done:9,}{LINES * year.done:11,}{times}{hub.most():8.1f}{hub.size():8.1f}", flush=True)


def opened_again(program, folder):
    """The processor seconds and the MB that opening the file takes."""
    server = Server(program, 1, folder=folder)
    found = looked_up(server.child.pid)[2], most_memory(server.child.pid)
    # its one connection, so that it ends by itself and leaves the one file
    server.ask(request("GET", 0, "mail/after/99999999999999"))
    server.end()
    return found


def main(program, orders=10_000, suppliers=SUPPLIERS):
    program, orders = os.path.abspath(program), int(orders)
    folder = tempfile.mkdtemp(prefix="year-")
    try:
        found(program, folder, crowd(suppliers))
        year = Year(Hub(program, folder), suppliers)
        print(f"{'orders':>9}{'lines':>11}" + "".join(f"{it:>8}" for it in (*KINDS, *LOOKS, "MB", "file")), flush=True)
        try:
            parts = []
            for until in sorted({min(suppliers, orders), *(orders * tenth // TENTHS for tenth in range(1, TENTHS + 1))}):
                parts.append(year.part(until))
                shown(year, parts[-1])
        finally:
            year.hub.server.child.kill()
            year.hub.server.child.communicate()
        seconds, memory = opened_again(program, folder)
        size = year.hub.size()
        print(f"opened again: {size:.1f} MB in {seconds:.1f} s of processor time and {memory:.0f} MB of memory")
        whole = is_whole(folder)
        print(f"integrity by SQLite: {whole or 'ok'}")
        growth = sum(parts[-1][it] for it in KINDS) / sum(parts[0][it] for it in KINDS)
        print(f"a message at the end took {growth:.2f} times what it took at {LINES * min(suppliers, orders):,} lines: goal {MOST_GROWTH}")
        print(f"memory while serving {year.hub.memory:.1f} MB: goal {MOST_MEMORY}")
        return 1 if whole or growth > MOST_GROWTH or year.hub.memory > MOST_MEMORY else 0
    except Wrong as why:
        print(f"wrong: {why}")
        return 1
    finally:
        shutil.rmtree(folder, ignore_errors=True)


if __name__ == "__main__":
    sys.exit(main(*sys.argv[1:]))
