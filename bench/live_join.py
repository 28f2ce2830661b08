"""`make join-test`: suppliers keep asking through HAProxy while the script `add_supplier.py` of examples/front registers another one.

Each supplier gets an order, answers, despatches, gets a receiving advice, fetches its first order and asks for its status, again and
again; the last ones only ask for their status. Each answer is compared with the right one, and in the end the file has each message
once. Then the script gets what it has to refuse without stopping the hub; it is interrupted; and stops, joins and starts fail. Each
check counts; the last line is `N passed, M failed`.

    python3 -m bench.live_join crates/edihub/out/edihub [LINES .. | --opening SECONDS]

With LINES the hub has this many order lines before, as `make year` makes them, and a supplier is registered without the other trials; the
front is as patient as a file needs that takes more than 25 seconds to open, from a million lines on.
With --opening the hub is small, but each opening of its file waits this long first, as if it were large, and the front is as patient as
it then has to be; 0 seconds are for a slow build or a busy machine. `systemctl` is a script that stops and starts the hub of the trial."""
import asyncio
import contextlib
import fcntl
import importlib.util
import os
import re
import signal
import sqlite3
import subprocess
import sys
import tempfile
import time
from concurrent.futures import ThreadPoolExecutor
from types import SimpleNamespace

from bench.crowd import FOR_GOOD, source_of
from bench.grown import SUPPLIERS, grow
from bench.trade import KINDS, LINES, Order, request, status_body, supplier_of
from tests.harness.checks import Checks
from tests.harness.database_files import NAME, is_whole
from tests.harness.front_proxy import Front, Supervised, is_there
from tests.harness.hub_scripts import KEYS
from tests.harness.register_texts import ALPHA, GAMMA, RETAILER
from tests.harness.tree import EXAMPLES

SCRIPT, FILE, ADDRESS = os.path.join(EXAMPLES, "front", "add_supplier.py"), "front/haproxy.cfg", "127.0.0.1:880"
# what the file of the front says, and what an operator of a large file writes there, since a registration takes two openings; and the
# order lines of such a file
PATIENT = {"    retries 60\n": "    retries 170\n", "timeout queue 90s": "timeout queue 180s"}
LARGE = 1_000_000
# how many suppliers keep asking, how many of them for their status alone, and the seconds between two requests of each
CLIENTS, READERS, PAUSE = 12, 2, 0.05
# the suppliers and the orders of the hub in which all that can fail is tried
FEW, ORDERS = 20, 20
# takes the place of systemctl, and notes what it is asked. The marker `stopped` keeps the hub from being restarted.
SYSTEMCTL = """#!/bin/sh
cd "{folder}" || exit 1
echo "$1" >> asked
case $1 in
show) if test -e stopped; then echo 0; else cat pid; fi ;;
stop) test ! -e bad-stop || exit 1; touch stopped; kill "$(cat pid)"; while kill -0 "$(cat pid)" 2> /dev/null; do sleep 0.02; done
    test ! -e slow-stop || sleep 2 ;;
start) if test -e bad-start; then rm bad-start; exit 1; fi; rm -f stopped; test ! -e slow-start || sleep 2 ;;
esac
"""
# the program, of which each opening takes longer
SLOW = """#!/bin/sh
sleep {opening}
exec "{program}" "$@"
"""
# the program as the script calls it, and what a trial puts in its way
PROGRAM = """#!/bin/sh
program={program}
folder={folder}
if test "$3" = "$folder/{name}"; then sleep {opening}; fi
if test -e "$folder/slow-join" && test "$3" = "$folder/{name}"; then sleep 2; fi
if test -e "$folder/killed-join" && test "$3" = "$folder/{name}"; then kill -9 $$; fi
exec "$program" "$@"
"""


class Hub(Supervised):
    """The program under a supervisor that leaves it ended while there is a marker."""

    def watch(self):
        marker, pid = (os.path.join(self.folder, name) for name in ("stopped", "pid"))
        while not self.over.is_set():
            if os.path.exists(marker):
                self.over.wait(0.02)
                continue
            with open(self.printed, "ab") as printed:
                self.child = subprocess.Popen(self.words, cwd=self.folder, stdout=printed)
            with open(pid, "w", encoding="ascii") as file:
                file.write(f"{self.child.pid}\n")
            self.begun += 1
            self.ends.append(self.child.wait())
            if not os.path.exists(marker):
                self.over.wait(1)


class Bench:
    """A folder with a hub, the commands that the script runs, its keys, and a front."""

    def __init__(self, program, folder, hub, opening):
        self.folder, self.hub, bin_folder = folder, hub, os.path.join(folder, "bin")
        os.mkdir(bin_folder)
        text = PROGRAM.format(program=program, folder=folder, name=NAME, opening=opening)
        for name, it in (("systemctl", SYSTEMCTL.format(folder=folder)), ("edihub", text)):
            self.put(os.path.join("bin", name), it, 0o755)
        self.put("retailer.key", f"{KEYS[RETAILER]}\n")
        self.put("gamma.key", "gamma-key-1\n")
        self.env = {**os.environ, "PATH": f"{bin_folder}:{os.environ['PATH']}"}

    def put(self, name, text="", mode=0o600):
        with open(os.path.join(self.folder, name), "w", encoding="ascii") as file:
            file.write(text)
        os.chmod(os.path.join(self.folder, name), mode)

    def take(self, *names):
        for name in names:
            with contextlib.suppress(FileNotFoundError):
                os.remove(os.path.join(self.folder, name))

    def words(self, **other):
        """The words of the script, with others in their places, and without those that are `None`."""
        its = {"as": RETAILER, "key-file": "retailer.key", "supplier": GAMMA, "supplier-key-file": "gamma.key", "prefixes": "7612345"}
        its |= {"db": os.path.join(self.folder, NAME), "port": str(self.hub.port), **other}
        return [sys.executable, SCRIPT, *(word for name, it in its.items() if it is not None for word in (f"--{name}", it))]

    def begin(self, **other):
        self.take("asked")
        how = {"cwd": self.folder, "env": self.env, "stdout": subprocess.PIPE, "stderr": subprocess.PIPE, "text": True}
        return subprocess.Popen(self.words(**other), start_new_session=True, **how)

    def run(self, **other):
        """The exit status of the script, and what it printed on both."""
        child = self.begin(**other)
        printed = child.communicate(timeout=900)
        return child.returncode, *printed

    def asked(self):
        """What systemctl was asked for but the state of the hub."""
        try:
            with open(os.path.join(self.folder, "asked"), encoding="ascii") as file:
                return [it for it in file.read().split() if it not in ("show", "reset-failed")]
        except FileNotFoundError:
            return []


class Client:
    """A supplier of this number, and the retailer about it: what they ask, the seconds of each answer, and what is wrong."""

    def __init__(self, door, number, suppliers, orders):
        self.door, self.number, self.suppliers = door, number, suppliers
        self.orders = [Order(it, suppliers) for it in range(number, orders, suppliers)]
        self.next, self.waits, self.wrong, self.sent = orders - orders % suppliers + suppliers + number, [], [], 0

    async def ask(self, what, *bodies):
        """Whether the answer is one of these."""
        begun = time.monotonic()
        try:
            found = await self.door.ask(what, source_of(self.number))
        except (OSError, asyncio.TimeoutError, asyncio.IncompleteReadError) as why:
            found = why
        self.waits.append(time.monotonic() - begun)
        is_right = found in [(200, it.encode()) for it in bodies]
        if not is_right:
            self.wrong.append(f"supplier {self.number}: {what[:60]!r} was answered {found!r:.200}")
        await asyncio.sleep(PAUSE)
        return is_right

    async def order(self):
        """A new order and all that follows it."""
        it, self.next = Order(self.next, self.suppliers), self.next + self.suppliers
        for kind in KINDS:
            what, body = it.upload(kind)
            # the front asks again if the hub ended before it answered
            self.sent += await self.ask(what, body, body.replace("accepted", "repeated"))
        self.orders.append(it)

    async def status(self):
        await self.ask(request("GET", self.number, "status"), status_body(self.orders))

    async def until(self, over, reads):
        """Asks until it has to end."""
        while not over.is_set():
            if not reads:
                await self.order()
                await self.ask(request("GET", self.number, "mail/item/1"), self.orders[0].mail("ORDERS", 1))
            await self.status()


async def registered(bench, door, suppliers, orders):
    """Has the script register a supplier while clients ask. Returns what it ended with and printed, and the clients."""
    over = asyncio.Event()
    clients = [Client(door, number, suppliers, orders) for number in range(CLIENTS)]
    tasks = [asyncio.create_task(it.until(over, it.number >= CLIENTS - READERS)) for it in clients]
    await asyncio.sleep(2)
    ended = await asyncio.to_thread(bench.run)
    await asyncio.sleep(2)
    over.set()
    await asyncio.gather(*tasks)
    known = await door.ask(request("GET", None, f"status/{GAMMA}"), source_of(CLIENTS))
    return ended, clients, known


def kept(folder, wanted):
    """What is wrong with the file, if anything: SQLite finds it whole, and has this many messages."""
    base = sqlite3.connect(os.path.join(folder, NAME))
    count = base.execute("SELECT COUNT(*) FROM remembered").fetchone()[0]
    base.close()
    return is_whole(folder) or (None if count == wanted else f"{count} messages are remembered, not {wanted}")


def checks_of(told, bench, ended, clients, known):
    """Counts what was right while clients asked, and prints how long they waited."""
    waits = sorted(it for one in clients for it in one.waits)
    wrong = [it for one in clients for it in one.wrong]
    away = re.search(r"answers again after ([\d.]+) s", ended[1])
    print(f"{len(waits)} answers to {len(clients)} suppliers, the middle one after {waits[len(waits) // 2]:.2f} s", end=", ")
    print(f"the longest wait {waits[-1]:.1f} s; the hub was away for {away[1] if away else '?'} s", flush=True)
    told.check("the supplier is registered", ended[0] == 0 and ended[1].startswith("join: accepted\njoin: status 0\n"), ended)
    told.check("every answer is right", not wrong, wrong[:3])
    told.check("the hub was stopped and started once", bench.asked() == ["stop", "start"] and bench.hub.begun == 2, bench.asked())
    told.check("the new supplier is known", known == (200, b"end\n"), known)


def live(told, program, folder, orders, suppliers, opening, patience, more):
    """Registers a supplier in a hub that serves, and then tries more in it."""
    before, slow = len(KINDS) * orders, os.path.join(folder, "slow")
    with open(slow, "w", encoding="ascii") as file:
        file.write(SLOW.format(program=program, opening=opening))
    os.chmod(slow, 0o755)
    with Hub(slow, folder, FOR_GOOD) as hub, Front(FILE, {ADDRESS: hub.port}, patience) as front:
        bench = Bench(program, folder, hub, opening)
        ended, clients, known = asyncio.run(registered(bench, front.door(), suppliers, orders))
        checks_of(told, bench, ended, clients, known)
        if more:
            busy(told, bench)
            not_stopped(told, bench)
            started_again(told, bench)
        told.check("no key in the log of the front", b"key-" not in front.logged())
    why = kept(folder, before + sum(it.sent for it in clients))
    told.check("the file has each message once", not why, why)


def busy(told, bench):
    """Whether the hub answers nobody else while the script has its turn, in which it stops the hub."""
    spec = importlib.util.spec_from_file_location("add_supplier", SCRIPT)
    script = importlib.util.module_from_spec(spec)
    spec.loader.exec_module(script)
    key = os.path.join(bench.folder, "retailer.key")
    port = script.Port(SimpleNamespace(port=bench.hub.port, retailer=RETAILER, supplier=GAMMA, key_file=key))
    with ThreadPoolExecutor() as pool:
        with port.turn():
            other = pool.submit(port.status)
            time.sleep(3)
            meanwhile = other.done()
        told.check("nobody else is answered while the hub is stopped", not meanwhile and other.result() == 200, (meanwhile, other.result()))


def not_stopped(told, bench):
    """What the script refuses without stopping the hub."""
    bench.put("short.key", "short\n")
    bench.put("wrong.key", "another-key\n")
    bench.put("other.db")
    begun = bench.hub.begun
    for what, status, said, other in (
        ("a supplier that is registered", 1, "refused B18", {}),
        ("a wrong key", 1, "denied", {"supplier": ALPHA, "key-file": "wrong.key"}),
        ("a key file that is not there", 2, "none.key", {"supplier": ALPHA, "key-file": "none.key"}),
        ("a supplier's key file that is not there", 2, "status 3", {"supplier": ALPHA, "supplier-key-file": "none.key"}),
        ("a supplier's key that is too short", 2, "status 2", {"supplier": ALPHA, "supplier-key-file": "short.key"}),
        ("a wrong check digit", 2, "status 2", {"supplier": "4012345500005"}),
        ("a GLN of twelve digits", 2, "13 digits", {"supplier": "401234550000"}),
        ("a prefix of two digits", 2, "status 2", {"supplier": ALPHA, "prefixes": "40"}),
        ("no prefixes", 2, "--prefixes", {"supplier": ALPHA, "prefixes": None}),
        ("a database file that is not there", 2, "none.db is not a file", {"supplier": ALPHA, "db": "none.db"}),
        ("a file that the hub does not have", 3, "does not have", {"supplier": ALPHA, "db": "other.db"}),
        ("a program that is not there", 2, "is not a program", {"supplier": ALPHA, "program": "no-edihub"}),
        ("a port on which no hub is", 3, "does not answer", {"supplier": ALPHA, "port": "1"}),
        ("a command alone that stops the hub", 2, "come together", {"supplier": ALPHA, "stop": "true"}),
        ("a stop that is not a command", 2, "is not a command", {"supplier": ALPHA, "stop": "no-command", "start": "true"}),
    ):
        ended = bench.run(**other)
        right = ended[0] == status and said in ended[2] and not ended[1]
        told.check(f"not stopped: {what}", right and bench.asked() == [] and bench.hub.begun == begun, (ended, bench.asked()))


def held(bench, seconds):
    """Holds the lock that a backup takes, for some seconds."""
    folder = os.open(bench.folder, os.O_RDONLY)
    fcntl.flock(folder, fcntl.LOCK_EX)
    time.sleep(seconds)
    os.close(folder)


def interrupted(bench, number, marker, after, **other):
    """Sends the script this signal during what a marker makes slow. Returns how it ended."""
    bench.put(marker)
    child = bench.begin(**other)
    while after not in bench.asked():
        time.sleep(0.02)
    time.sleep(1)
    child.send_signal(number)
    printed = child.communicate(timeout=900)
    bench.take(marker)
    return child.returncode, *printed


def fails(bench, marker, **other):
    """Returns how the script ended while something fails."""
    bench.put(marker)
    ended = bench.run(**other)
    bench.take(marker)
    return ended


def started_again(told, bench):
    """What goes wrong once the hub is to be stopped: it is started again, and the exit status says what was done."""
    new = ({"supplier": supplier_of(FEW + it), "prefixes": f"5{it:06}"} for it in range(20))
    script = os.path.join(bench.folder, "bin", "systemctl")
    by_hand = {"stop": f"{script} stop", "start": f"{script} start"}
    for what, wanted, ended in (
        ("a prefix of another supplier", (1, "join: refused B19\njoin: status 1\n", ""),
         lambda: bench.run(**next(new) | {"prefixes": "4000"})),
        ("a join that is killed", (3, "join: status -9\n", ""), lambda: fails(bench, "killed-join", **next(new))),
        ("a stop that fails", (3, "", "cannot be stopped"), lambda: fails(bench, "bad-stop", **next(new))),
        ("a start that fails at first", (0, "join: accepted\n", ""), lambda: fails(bench, "bad-start", **next(new))),
        ("SIGINT while it stops", (3, "", "not registered"), lambda: interrupted(bench, signal.SIGINT, "slow-stop", "stop", **next(new))),
        ("SIGTERM in the join", (3, "join: status -15", "not registered"),
         lambda: interrupted(bench, signal.SIGTERM, "slow-join", "stop", **next(new))),
        ("SIGHUP while it starts", (3, "join: accepted\n", "is registered"),
         lambda: interrupted(bench, signal.SIGHUP, "slow-start", "start", **next(new))),
        ("commands that stop and start it", (0, "join: accepted\n", ""), lambda: bench.run(**next(new), **by_hand)),
    ):
        begun, found = bench.hub.begun, ended()
        right = found[0] == wanted[0] and found[1].startswith(wanted[1]) and wanted[2] in found[2] and "answers again" in found[1]
        told.check(f"started again: {what}", right and bench.hub.begun == begun + (what != "a stop that fails"), (found, bench.asked()))
    begun, child = time.monotonic(), bench.begin(**next(new))
    held(bench, 3)
    printed = child.communicate(timeout=900)
    told.check("waits for a backup", child.returncode == 0 and time.monotonic() - begun > 3, printed)
    child = bench.begin(**next(new))
    child.stdout.close()
    child.stderr.close()
    told.check("a closed output", child.wait() == 3 and bench.asked() == ["stop", "start"], bench.asked())


def tried(told, program, count, opening=0, patience=()):
    """A hub with this many order lines, or a small one, in which more is tried if nothing is slow."""
    suppliers, orders = (SUPPLIERS, count // LINES) if count else (FEW, ORDERS)
    with tempfile.TemporaryDirectory(prefix="join-") as folder:
        os.chmod(folder, 0o755)
        grow(program, folder, orders, suppliers)
        size = os.path.getsize(os.path.join(folder, NAME)) / 1e6
        print(f"{LINES * orders:,} order lines, {size:.1f} MB, {opening} s more for each opening", flush=True)
        live(told, program, folder, orders, suppliers, opening, patience, not count and not opening)


def main(program, *words):
    if not is_there():
        print("no HAProxy, or no openssl, so nothing is tried")
        return 1
    program, told = os.path.abspath(program), Checks()
    if words[:1] == ("--opening",):
        tried(told, program, 0, int(words[1]), PATIENT)
    else:
        for count in map(int, words or ["0"]):
            tried(told, program, count, patience=PATIENT if count >= LARGE else ())
    return told.end()


if __name__ == "__main__":
    sys.exit(main(*sys.argv[1:]))
