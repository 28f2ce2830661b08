"""`make front-test`: tries the whole front of `examples/front` (nginx, HAProxy and a hub) with clients of all kinds.

Slow readers take a long status at 100 KB a second, slow senders upload a message in ten seconds, and one source guesses keys as fast as
it can. Meanwhile another client asks for a list again and again, and may not wait longer than the hub needs by itself. Then comes the
crowd of `make crowd`: 1,000 suppliers at once, with a hub that goes on, and with one that restarts in the middle. Each answer is
compared with the right one. A status of 180,000 lines has 20 MB.

    python3 -m bench.front crates/edihub/out/edihub [SUPPLIERS [LINES]]"""
import asyncio
import hashlib
import os
import socket
import ssl
import sys
import tempfile
import time
from collections import Counter
from concurrent.futures import ThreadPoolExecutor

from bench import crowd, worst
from bench.crowd import FOR_GOOD, founded, source_of
from bench.trade import Order, request, supplier_of
from tests.harness.front_proxy import Supervised
from tests.harness.hub_scripts import interchange
from tests.harness.hub_steps import told
from tests.harness.register_texts import RETAILER
from tests.harness.tree import EXAMPLES
from tests.harness.whole_front import WholeFront, is_there

SUPPLIERS, LINES = 1_000, 180_000
# the lines of one upload of 1 MiB; slow readers, and the bytes a second that each takes; slow senders, and how long each sends
AT_ONCE, READERS, A_SECOND, SENDERS, SENDING = 15_000, 10, 100_000, 20, 10
# how many guess keys at once from one source, for how many seconds; how many guesses a minute the front lets through
GUESSERS, GUESSING, LET_THROUGH = 16, 15, 61
# a client waits at most as many seconds more than the hub needs; how much longer the waits in a crowd may be than its rounds; and the
# seconds of a restart
MORE, ROUNDS, RESTART = 1.5, 4, 10
# how often this program looks whether it runs on time, in seconds
TICK = 0.05
# the supplier with the long status, and the one that asks beside the others
LONG, BESIDE = 0, 1


def long_status(hub, lines):
    """Uploads so many order lines, straight to the hub. Returns what the status then is, and the seconds that it takes there."""
    for first in range(0, lines, AT_ONCE):
        text = interchange(RETAILER, f"L{first}", worst.order(f"L{first}", min(AT_ONCE, lines - first), supplier=supplier_of(LONG))(1))
        status, body = straight(hub, request("POST", None, "interchanges", text))
        if (status, body) != (200, told(f"interchange L{first} messages 1", "1 ORDERS accepted").encode()):
            raise OSError(f"no long status: {status} {body!r:.200}")
    begun = time.monotonic()
    status, body = straight(hub, request("GET", LONG, "status"))
    return body, time.monotonic() - begun


def straight(hub, asked):
    """What the hub answers by itself."""
    with socket.create_connection(("127.0.0.1", hub.port), 600) as one:
        return read(one, asked)


def read(one, asked, a_second=None):
    """The status and the body of an answer that is taken no faster than so many bytes a second."""
    one.sendall(asked)
    begun, pieces, length = time.monotonic(), [], 0
    while piece := one.recv(16_384):
        pieces.append(piece)
        length += len(piece)
        if a_second:
            time.sleep(max(0, begun + length / a_second - time.monotonic()))
    head, _, body = b"".join(pieces).partition(b"\r\n\r\n")
    return int(head[9:12] or 0), body


def read_slowly(front, number):
    """Returns what a slow reader, with a small window, is answered."""
    one = socket.socket()
    one.setsockopt(socket.SOL_SOCKET, socket.SO_RCVBUF, 16_384)
    one.settimeout(600)
    one.bind((f"127.4.0.{number + 1}", 0))
    one.connect(("127.0.0.1", front.port))
    with ssl.create_default_context(cafile=front.certificate).wrap_socket(one, server_hostname="127.0.0.1") as secret:
        return read(secret, request("GET", LONG, "status").replace(b"\r\n", b"\r\nConnection: close\r\n", 1), A_SECOND)


async def late_ticks(late):
    """Appends the moments at which this program itself was kept from running, by its own threads or by the machine, and how long."""
    while True:
        due = time.monotonic() + TICK
        await asyncio.sleep(TICK)
        if time.monotonic() > due + TICK:
            late.append((due, time.monotonic() - due))


async def beside(door, until):
    """Asks again and again. Returns how long each answer took, without what this program itself was late, as pairs of a moment and the
    seconds; and what is wrong, if anything."""
    begun, waits, late = time.monotonic(), [], []
    ticks, why = asyncio.create_task(late_ticks(late)), None
    while not until() and not why:
        at = time.monotonic()
        found = await door.ask(request("GET", BESIDE, "mail/after/0"), f"127.5.{len(waits) // 200 % 200}.{len(waits) % 200 + 1}")
        # (a tick that is overdue comes first)
        await asyncio.sleep(0)
        waits.append((at - begun, time.monotonic() - at - sum(much for due, much in late if due > at)))
        if found != (200, f"{1:>14} ORDERS {BESIDE:08}\nend\n".encode()):
            why = f"a client beside them is answered {found!r:.200}"
        await asyncio.sleep(0.2)
    ticks.cancel()
    if late:
        longest = max(much for _, much in late)
        print(f"meanwhile this program was kept from running {len(late)} times, for up to {longest:.2f} s", flush=True)
    return waits, why


def too_long(waits, needed):
    """Returns what is wrong with these waits, if the hub is busy for so many seconds at first."""
    over = [(at, wait) for at, wait in waits if wait > max(0, needed - at) + MORE]
    return f"a client beside them waits {over[0][1]:.2f} s, {over[0][0]:.2f} s after they began" if over else None


def slow_readers(front, hub, lines):
    """What is wrong beside slow readers, if anything."""
    right, seconds = long_status(hub, lines)
    with ThreadPoolExecutor(READERS) as pool:
        begun = time.monotonic()
        asked = [pool.submit(read_slowly, front, number) for number in range(READERS)]
        waits, why = asyncio.run(beside(front.door(), lambda: all(it.done() for it in asked)))
        passed, answers = time.monotonic() - begun, [it.result() for it in asked]
    wrong = sum(it != (200, right) for it in answers)
    kind = f"{READERS} readers of {len(right) / 1e6:.1f} MB at {A_SECOND / 1e3:.0f} KB a second took {passed:.0f} s"
    print(f"{kind}; the hub needs {seconds:.2f} s for each; a client beside them waited {max(it for _, it in waits):.2f} s", flush=True)
    if passed < 0.8 * len(right) / A_SECOND:
        return "the readers were not slow"
    digest = hashlib.sha256(answers[0][1]).hexdigest()
    return why or too_long(waits, 2 * READERS * seconds) or (f"{wrong} slow readers read something else: {digest}" if wrong else None)


async def sent_slowly(front):
    """What slow senders are answered, and the waits of a client beside them."""
    door = front.door()
    asked = []
    for number in range(2, 2 + SENDERS):
        what, body = Order(number, SUPPLIERS).upload("ORDRSP")
        asked.append((asyncio.create_task(door.ask(what, source_of(number), pieces=20, pause=SENDING / 20)), (200, body.encode())))
    waits, why = await beside(door, lambda: all(it.done() for it, _ in asked))
    wrong = [it for it, right in [(await it, right) for it, right in asked] if it != right]
    return waits, why or (f"a slow sender is answered {wrong[0]!r:.200}" if wrong else None)


def slow_senders(front, hub):
    """What is wrong beside slow senders, if anything: all of them come at once in the end, and the hub needs a while for them."""
    begun = time.monotonic()
    straight(hub, Order(BESIDE, SUPPLIERS).upload("ORDRSP")[0])
    seconds = time.monotonic() - begun
    waits, why = asyncio.run(sent_slowly(front))
    print(f"{SENDERS} senders took {SENDING} s each; a client beside them waited {max(it for _, it in waits):.2f} s", flush=True)
    return why or too_long(waits, SENDING + SENDERS * seconds if SENDERS * seconds > MORE else 0)


async def guess(door, until, told_of):
    """Asks with wrong keys, as fast as it is answered."""
    number = 0
    while time.monotonic() < until:
        number += 1
        what = request("GET", LONG, "mail/after/0").replace(b"key-0000", b"key-%04d" % (number % 9_000 + 1))
        try:
            told_of[(await door.ask(what, "127.6.0.1"))[0]] += 1
        except (OSError, asyncio.IncompleteReadError):
            told_of["closed"] += 1


async def guessed(door):
    """What a source is answered that guesses, and the waits of a client beside it."""
    told_of, until = Counter(), time.monotonic() + GUESSING
    asked = [asyncio.create_task(guess(door, until, told_of)) for _ in range(GUESSERS)]
    waits, why = await beside(door, lambda: all(it.done() for it in asked))
    await asyncio.gather(*asked)
    return told_of, waits, why


def guesses(front, hub):
    """Lets one source guess keys. Returns what is wrong with the front, if anything."""
    before = hub.lines().count(b" 403\n")
    told_of, waits, why = asyncio.run(guessed(front.door()))
    reached = hub.lines().count(b" 403\n") - before
    print(f"keys guessed for {GUESSING} s: {dict(told_of)}, {reached} reached the hub", end="; ")
    print(f"a client beside them waited {max(it for _, it in waits):.2f} s", flush=True)
    if told_of[403] > LET_THROUGH + GUESSERS or reached > LET_THROUGH + GUESSERS or not told_of[429] or set(told_of) - {403, 429, "closed"}:
        return "the guesses are not limited"
    return why or too_long(waits, 0)


def fetched(port, path, front=None):
    """The head and the body of what is at a path, over TLS if a front is given."""
    return answered(port, f"GET {path} HTTP/1.1\r\nHost: hub.example.com\r\nConnection: close\r\n\r\n", front)


def answered(port, asked, front=None):
    """The head and the body of an answer to these bytes, over TLS if a front is given."""
    with socket.create_connection(("127.0.0.1", port), 60) as one:
        if front:
            one = ssl.create_default_context(cafile=front.certificate).wrap_socket(one, server_hostname="127.0.0.1")
        one.sendall(asked.encode())
        found = b""
        while piece := one.recv(65_536):
            found += piece
        one.close()
    head, _, body = found.partition(b"\r\n\r\n")
    return head.decode().lower(), body


def page(front):
    """What is wrong with what nginx answers itself, if anything."""
    strict = "\r\nstrict-transport-security: max-age="
    with open(os.path.join(os.path.dirname(EXAMPLES), "page", "index.html"), "rb") as file:
        text = file.read()
    head, body = fetched(front.port, "/", front)
    if body != text or strict not in head or "\r\ncontent-security-policy: default-src 'none'" not in head:
        return f"the page: {head}"
    head, body = fetched(front.port, f"/p/{supplier_of(0)}/status", front)
    if not head.startswith("http/1.1 403 ") or body != b"denied\n" or strict not in head:
        return f"a request of nobody: {head} {body!r:.100}"
    head, _ = fetched(front.plain, "/")
    other, body = fetched(front.plain, "/p/1/status")
    moved = "\r\nlocation: https://hub.example.com/\r\n" in f"{head}\r\n"
    if not moved or not other.startswith("http/1.1 403 ") or body != b"https only\n":
        return f"without TLS: {head}; {other}"
    return refused(front)


# what is not HTTP, or not as nginx reads it
NOT_HTTP = ("hello\r\n\r\n", "get /p/1/status HTTP/1.1\r\n\r\n", "CONNECT a:1 HTTP/1.1\r\nHost: a\r\n\r\n", "\x16\x03\r\n\r\n",
            f"GET /p/{'1' * 9_000} HTTP/1.1\r\nHost: a\r\n\r\n", "GET / HTTP/9.9\r\nHost: a\r\n\r\n")


def refused(front):
    """What is wrong with what nginx answers to what is not HTTP, and to HTTP at the port of TLS, if anything."""
    for asked in NOT_HTTP:
        head, body = answered(front.port, asked, front)
        if not head.startswith("http/1.1 400 ") or body != b"bad request\n":
            return f"not HTTP, {asked[:40]!r}: {head[:100]} {body[:100]!r}"
    head, body = fetched(front.port, "/p/1/status")
    return None if head.startswith("http/1.1 403 ") and body == b"https only\n" else f"HTTP at the port of TLS: {head} {body!r:.100}"


def alike():
    """Checks that HAProxy's two files say the same, except about their clients."""
    texts = []
    for name in ("haproxy.cfg", "haproxy-behind-nginx.cfg"):
        with open(os.path.join(EXAMPLES, "front", name), encoding="ascii") as file:
            head, _, rest = file.read().partition("\nglobal\n")[2].partition("frontend suppliers\n")
        head = head.replace("    ssl-default-bind-options ssl-min-ver TLSv1.2\n", "")
        texts.append((head, rest[rest.index("    # the hub has only these paths") :]))
    return None if texts[0] == texts[1] else "the two files of HAProxy are not alike"


def one_kind_each(program, lines):
    """Tries each kind of client by itself. Returns what is wrong."""
    with tempfile.TemporaryDirectory() as folder:
        founded(program, folder, SENDERS + 2)
        with Supervised(program, folder, FOR_GOOD) as hub, WholeFront(hub.port) as front:
            parts = ((page, front), (slow_readers, front, hub, lines), (slow_senders, front, hub), (guesses, front, hub))
            return [f"{part.__name__}: {why}" for part, *of in parts if (why := part(*of))]


def main(program, suppliers=SUPPLIERS, lines=LINES):
    if not is_there():
        print("no nginx, no HAProxy or no openssl, so nothing is tried")
        return 1
    program, suppliers = os.path.abspath(program), int(suppliers)
    wrong = [why for why in (alike(),) if why] + one_kind_each(program, int(lines))
    for count, what, rest in ((FOR_GOOD, "a hub that goes on", 0), (5 * suppliers // 2, "a hub that restarts", RESTART)):
        wrong += crowd.turn(program, suppliers, count, what, WholeFront, lambda one, more=rest: ROUNDS * one + more + MORE)
    for why in wrong[:10]:
        print(f"wrong: {why}")
    print(f"{len(wrong)} wrong")
    return 1 if wrong else 0


if __name__ == "__main__":
    sys.exit(main(*sys.argv[1:]))
