"""`make crowd`: 1,000 suppliers at once, through HAProxy with `examples/front/haproxy.cfg`, over TLS.

Each supplier lists its mailbox, fetches the order, marks it as taken, answers it, despatches it and asks for its status, each request
over a connection of its own and as soon as the one before is answered. Some send slowly, some disconnect in the middle of a request or
before they read the answer and try again, and some send only the beginning of a head. Each answer is compared with the right one; in
the end each status, and the file, show that each message was taken once. This is done twice: with a hub that goes on, and with one
that ends after some connections and is restarted, as by a supervisor. Then the hub is halted, and a client reads what the front answers
when the time in its queue is over.

    python3 -m bench.crowd crates/edihub/out/edihub [SUPPLIERS]"""
import asyncio
import os
import signal
import sqlite3
import statistics
import subprocess
import sys
import tempfile
import time
from collections import Counter
from concurrent.futures import ProcessPoolExecutor

from bench.peak import most_memory
from bench.trade import Order, request, status_body, supplier_of
from tests.harness.database_files import NAME, is_whole
from tests.harness.front_proxy import Door, Front, Supervised, is_there
from tests.harness.hub_scripts import interchange
from tests.harness.hub_steps import found, over
from tests.harness.register_texts import RETAILER, crowd
from tests.harness.servers import listed

SUPPLIERS, PROCESSES = 1_000, 2
# of so many suppliers one sends slowly, one goes away before its answer, and one in the midst of a request; and so many clients send the
# beginning of a head
ONE_OF, NEVER = 20, 20
FOR_GOOD = 1_000_000
FILE, ADDRESS = "front/haproxy.cfg", "127.0.0.1:880"
# what the file of the front says: connections to the hub, and of one source connections at once, refusals and requests a minute
AT_THE_HUB, AT_ONCE, REFUSED, A_MINUTE = 32, 20, 60, 600
# how many more wait than the hub is given, and how many messages an interchange may have
OVER, MESSAGES = 8, 999


def source_of(supplier):
    """An address of its own."""
    return f"127.1.{supplier // 250}.{supplier % 250 + 1}"


class Client:
    """A supplier: what it asks, and how long each answer takes."""

    def __init__(self, door, number, suppliers):
        self.door, self.number, self.order = door, number, Order(number, suppliers)
        self.seconds, self.wrong, self.busy = [], [], 0

    async def ask(self, what, *bodies, **how):
        """Sends a request until it is taken, and compares the answer. What a slow one takes to send is not the front's time."""
        sending = (how.get("pieces", 1) - 1) * how.get("pause", 0)
        begun = time.monotonic()
        try:
            found = await self.door.ask(what, source_of(self.number), **how)
            while found[0] == 503:
                self.busy += 1
                await asyncio.sleep(1)
                found = await self.door.ask(what, source_of(self.number), **how)
        except (OSError, asyncio.TimeoutError, asyncio.IncompleteReadError) as why:
            self.wrong.append(f"supplier {self.number}: {why!r:.200}")
            return
        self.seconds.append(time.monotonic() - begun - sending)
        if found not in [(200, it.encode()) for it in bodies]:
            self.wrong.append(f"supplier {self.number}: {what[:60]!r} was answered {found!r:.200}")

    async def upload(self, kind):
        """Uploads a message, in one of the ways that clients have."""
        what, body = self.order.upload(kind)
        way = self.number % ONE_OF if kind == "DESADV" else None
        again = ()
        if way == 1:
            return await self.ask(what, body, pieces=20, pause=0.2)
        if way == 2:
            await self.door.leave(what, source_of(self.number))
            # it may have been taken or not
            again = (body.replace("accepted", "repeated"),)
        if way == 3:
            await self.door.leave(what[: len(what) * 2 // 3], source_of(self.number))
        await self.ask(what, body, *again)

    async def day(self):
        entry, who = self.order.mail("ORDERS", 1), self.number
        await self.ask(request("GET", who, "mail/after/0"), listed((1, "ORDERS", self.order.document)))
        await self.ask(request("GET", who, "mail/item/1"), entry)
        await self.ask(request("POST", who, "mail/item/1/taken", ""), "taken\n")
        await self.upload("ORDRSP")
        await self.upload("DESADV")
        await self.ask(request("GET", who, "status"), status_body([self.order], 3))


async def never_ends(door, number, late):
    """A client that sends the beginning of a head, and nothing more: what is wrong with how it is let go, if anything. `late` is how what
    it then reads begins; nothing, if it reads nothing."""
    reader, writer = await door.connected(f"127.2.0.{number + 1}")
    writer.write(b"POST /p/4012345500004/interchanges HTTP/1.1\r\nX-Hub")
    begun = time.monotonic()
    found = await reader.read()
    writer.close()
    return None if found[: len(late) or None] == late and time.monotonic() - begun < 60 else f"a head that never ends: {found!r:.100}"


async def clients(door, numbers, suppliers, never, late):
    """Runs all these suppliers at once. Returns the seconds of each answer, how many had to try again, what is wrong, and all seconds."""
    its = [Client(door, number, suppliers) for number in numbers]
    begun, waiting = time.monotonic(), [asyncio.create_task(never_ends(door, number, late)) for number in range(never)]
    await asyncio.gather(*(it.day() for it in its))
    passed = time.monotonic() - begun
    wrong = [why for it in its for why in it.wrong] + [why for why in await asyncio.gather(*waiting) if why]
    return [one for it in its for one in it.seconds], sum(it.busy for it in its), wrong, passed


def process(port, certificate, *of):
    return asyncio.run(clients(Door(port, certificate), *of))


def founded(program, folder, suppliers):
    """A hub with an order of each supplier."""
    found(program, folder, crowd(suppliers))
    os.mkdir(os.path.join(folder, "in"))
    for first in range(0, suppliers, 500):
        orders = (Order(number, suppliers) for number in range(first, min(first + 500, suppliers)))
        text = interchange(RETAILER, f"U{first}", *(it.orders(k) for k, it in enumerate(orders, 1)))
        with open(os.path.join(folder, "in", f"{first:04}.edi"), "w", encoding="ascii") as file:
            file.write(text)
    ran = subprocess.run([program, *over("import", RETAILER, "--folder", "in")], cwd=folder, capture_output=True)
    if ran.returncode or ran.stdout.count(b" accepted\n") != suppliers:
        raise OSError(f"no orders: {ran.stdout[-200:]!r} {ran.stderr!r:.100}")


def kept(folder, suppliers):
    """What is wrong with the file, if anything: SQLite finds it whole, and each message is remembered once."""
    base = sqlite3.connect(os.path.join(folder, NAME))
    count = base.execute("SELECT COUNT(*), COUNT(DISTINCT supplier || side || control) FROM remembered").fetchone()
    base.close()
    return is_whole(folder) or (None if count == (3 * suppliers, 3 * suppliers) else f"{count} messages are remembered of {3 * suppliers}")


def turn(program, suppliers, count, what, front_of=lambda port: Front(FILE, {ADDRESS: port}), most=None):
    """Runs a crowd over a hub that serves this many connections and is then restarted, through a front for its port. Returns what is wrong,
    such as a wait that is longer than `most` gives for the seconds in which each supplier has one answer."""
    with tempfile.TemporaryDirectory() as folder:
        founded(program, folder, suppliers)
        with Supervised(program, folder, count) as hub, front_of(hub.port) as front:
            with ProcessPoolExecutor(PROCESSES) as pool:
                parts = [(range(part, suppliers, PROCESSES), suppliers, 0 if part else NEVER, front.late) for part in range(PROCESSES)]
                found = [it.result() for it in [pool.submit(process, front.port, front.certificate, *part) for part in parts]]
            logged, memory = front.logged(), most_memory(front.child.pid)
        seconds, wrong = ([one for it in found for one in it[place]] for place in (0, 2))
        busy = sum(it[1] for it in found)
        rate, middle = len(seconds) / max(it[3] for it in found), statistics.median(seconds)
        print(f"{what}: {suppliers} suppliers at once, {len(seconds)} answers, {rate:.0f} a second, median {middle:.2f} s", end=", ")
        print(f"longest {max(seconds):.2f} s; {busy} told to come again; the hub was begun {hub.begun} times", end=", ")
        print(f"the front took {memory:.0f} MB", flush=True)
        if b"key-" in logged or logged.count(b" HTTP/1.1\"") < len(seconds):
            wrong.append("a key in the log, or a request that is not there")
        if most and max(seconds) > most(suppliers / rate):
            wrong.append(f"somebody waited {max(seconds):.2f} s, but {most(suppliers / rate):.2f} would do")
        why = kept(folder, suppliers)
        return wrong + ([why] if why else [])


async def waited(door, hub):
    """What is wrong with what clients read while the hub is halted, and then, if anything."""
    hub.child.send_signal(signal.SIGSTOP)
    what = request("GET", None, f"status/{supplier_of(0)}")
    asked = [asyncio.create_task(door.ask(what, source_of(k))) for k in range(AT_THE_HUB + OVER)]
    await asyncio.sleep(4)
    over = [it.result() for it in asked if it.done()]
    hub.child.send_signal(signal.SIGCONT)
    then = Counter([await it for it in asked])
    if over != [(503, b"busy\n")] * OVER or then != {(200, b"end\n"): AT_THE_HUB, (503, b"busy\n"): OVER}:
        return f"a queue whose time is over: {over!r:.200}, then {then!r:.300}"
    return None


async def limited(door):
    """What is wrong with the limits of one source, if anything: connections at once, requests and refusals."""
    one, other, third = "127.3.0.1", "127.3.0.2", "127.3.0.3"
    at_once = await asyncio.gather(*(door.connected(one) for _ in range(AT_ONCE + 5)), return_exceptions=True)
    held = [it for it in at_once if not isinstance(it, BaseException)]
    for _, writer in held:
        writer.close()
    told_of, guessed = [], request("GET", 0, "status").replace(b"key-0000", b"key-0001")
    for source, what, count in ((other, guessed, REFUSED + 2), (third, request("GET", 0, "mail/after/0"), A_MINUTE + 1)):
        found = [await door.ask(what, source) for _ in range(count)]
        told_of.append([sum(it[0] != 429 for it in found), found[-1]])
    if len(held) != AT_ONCE or told_of != [[REFUSED + 1, (429, b"too many\n")], [A_MINUTE, (429, b"too many\n")]]:
        return f"the limits of a source: {len(held)} connections at once, then {told_of}"
    return None


async def by_itself(door):
    """What is wrong with what the front answers and the hub never sees, if anything."""
    length = b"POST /p/4012345500004/interchanges HTTP/1.1\r\nContent-Length: 1048577\r\n\r\n"
    found = [await door.ask(it, "127.3.0.4") for it in (b"GET /nothing HTTP/1.1\r\n\r\n", length)]
    return None if found == [(404, b"unknown\n"), (413, b"too large\n")] else f"a path that is none, and a long body: {found}"


def large_upload(reference, first):
    """An upload of as many orders as an interchange may have."""
    orders = (Order(first + k, 1).orders(k + 1) for k in range(MESSAGES))
    return request("POST", None, "interchanges", interchange(RETAILER, reference, *orders))


async def large(door, hub):
    """Sends a large upload slowly, and one during which the hub is killed and restarted. Returns what is wrong, if anything."""
    slow = asyncio.create_task(door.ask(large_upload("L1", 0), "127.3.0.5", pieces=20, pause=0.2))
    await asyncio.sleep(1)
    other = await door.ask(request("GET", 0, "mail/after/0"), "127.3.0.6")
    if other != (200, b"end\n") or slow.done():
        return f"another client beside a slow one: {other}"
    first = await slow
    killed = asyncio.create_task(door.ask(large_upload("L2", MESSAGES), "127.3.0.5"))
    await asyncio.sleep(0.4)
    hub.child.kill()
    again = await killed
    words = [again[1].count(it) for it in (b" repeated\n", b" accepted\n")]
    if first[0] != 200 or first[1].count(b" accepted\n") != MESSAGES or again[0] != 200 or sum(words) != MESSAGES:
        return f"large uploads: {first!r:.200}, then {again!r:.200}"
    print(f"an upload of {MESSAGES} orders in whose midst the hub was killed: {words[0]} repeated and {words[1]} accepted")
    return None


def front_alone(program):
    """Checks what the front answers by itself. Returns what is wrong."""
    with tempfile.TemporaryDirectory() as folder:
        found(program, folder, crowd(1))
        with Supervised(program, folder, FOR_GOOD) as hub:
            with Front(FILE, {ADDRESS: hub.port}, {"timeout queue 90s": "timeout queue 2s"}) as front:
                door = front.door()
                whys = [asyncio.run(it) for it in (waited(door, hub), limited(door), by_itself(door), large(door, hub))]
    print(f"the front alone: {OVER} of {AT_THE_HUB + OVER} clients read `busy` while the hub is halted; a source is held to its limits")
    return [why for why in whys if why]


def main(program, suppliers=SUPPLIERS):
    if not is_there():
        print("no HAProxy, or no openssl, so nothing is tried")
        return 1
    program, suppliers = os.path.abspath(program), int(suppliers)
    wrong = front_alone(program)
    wrong += turn(program, suppliers, FOR_GOOD, "a hub that goes on")
    wrong += turn(program, suppliers, 5 * suppliers // 2, f"a hub that ends after {5 * suppliers // 2} connections")
    for why in wrong[:10]:
        print(f"wrong: {why}")
    print(f"{len(wrong)} wrong")
    return 1 if wrong else 0


if __name__ == "__main__":
    sys.exit(main(*sys.argv[1:]))
