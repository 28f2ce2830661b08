"""Trials of `serve`: the built program on 127.0.0.1, and clients of its own. What is wanted is written from the profile, and
never taken from the program."""
import errno
import os
import re
import resource
import shutil
import socket
import struct
import subprocess
import sys
import tempfile
import threading
import time
from concurrent.futures import ThreadPoolExecutor

from tests.cases import hub_files
from tests.cases.orders import GREATEST_ORDER
from tests.harness import database_files
from tests.harness.case import SECONDS
from tests.harness.database_files import NAME
from tests.harness.first_order import ORDERS
from tests.harness.http_texts import asking, head, response
from tests.harness.hub_scripts import DESPATCH, FIRST_MAIL, KEYS, MOMENT, OTHER_PALLET, RECEIPT, RESPONSE, SECOND
from tests.harness.hub_scripts import SECOND_MAIL, STATUS, THIRD_MAIL, despatch, interchange, line_status, message, order, parties
from tests.harness.hub_scripts import response as answer
from tests.harness.hub_steps import over, told
from tests.harness.register_texts import ALPHA, BETA, DELTA, GAMMA, HUB, RETAILER
from tests.harness.servers import ORDERED, TRIES, Server, accepted, all_of, exit_of, get, lines_of, listed, post
from tests.harness.servers import upload
from tests.harness.shims import meddled


class Quiet:
    """Whether a sleep on this machine was never late by half a second while this lasted: what then came late is the program's doing."""

    def __enter__(self):
        self.over, self.latest = threading.Event(), 0.0
        self.thread = threading.Thread(target=self.watch, daemon=True)
        self.thread.start()
        return self

    def watch(self):
        while not self.over.is_set():
            begun = time.monotonic()
            time.sleep(0.05)
            self.latest = max(self.latest, time.monotonic() - begun - 0.05)

    def __exit__(self, *_):
        self.over.set()
        self.thread.join()

    def __bool__(self):
        return self.latest < 0.5


def by_time(trial, least, most):
    """What is wrong, if anything, with a trial that answers this and the seconds that it measured. Where these are too many, and the
    machine was not quiet, it begins anew."""
    for _ in range(TRIES):
        with Quiet() as quiet:
            why, passed = trial()
        if why or least < passed < most:
            return why
        if quiet or passed <= least:
            return f"the next one waited {passed:.1f} seconds"
    print(f"not judged: the machine was never quiet for {most} seconds")
    return None


def unlike(what, found, wanted):
    return None if found == wanted else f"{what}: {found!r:.400}, not {wanted!r:.400}"


def served(program, asked, data=(), then=None, ends=True, moment=MOMENT):
    """What is wrong where a new hub is asked these one after another, if anything: each is a name, a request, a status and a
    body."""
    with Server(program, len(asked), moment, data) as server:
        for name, request, status, body in asked:
            why = unlike(name, server.ask(request, ends), response(status, body))
            if why:
                return why
        statuses = [status for _, _, status, _ in asked]
        why = unlike("the program", server.end(), (exit_of(statuses), lines_of(server.port, statuses), b""))
        return why or (then(server) if then else None)


def cancellation(reference, quantity, supplier=ALPHA):
    return f"{supplier}\n{reference}\n128576\n1\n{quantity}\n"


def messages_of_days():
    """Orders, answers, despatches and a receipt."""
    return [
        get(ALPHA, "status", 200, told("end")),
        ORDERED,
        get(ALPHA, "mail/item/1", 200, FIRST_MAIL),
        get(ALPHA, "mail/after/0", 200, listed((1, "ORDERS", "128576"))),
        accepted(RETAILER, "1001", "ORDERS", ORDERS, "repeated"),
        upload(RETAILER, ORDERS.replace("QTY+21:48", "QTY+21:49"), "interchange 1001 messages 1", "1 ORDERS refused B03"),
        accepted(RETAILER, "1002", "ORDERS", SECOND),
        get(ALPHA, "mail/item/2", 200, SECOND_MAIL),
        upload(RETAILER, ORDERS.replace("1001'", "1003'").replace("UNT+10+1", "UNT+9+1"), "refused E12", status=400),
        upload(RETAILER, "", "refused E06", status=400),
        accepted(ALPHA, "S1", "ORDRSP", RESPONSE),
        accepted(ALPHA, "S2", "DESADV", DESPATCH),
        accepted(ALPHA, "S6", "DESADV", interchange(ALPHA, "S6", despatch("DA4", OTHER_PALLET, 12, order="128577"))),
        accepted(ALPHA, "S7", "ORDRSP", interchange(ALPHA, "S7", answer("R2", 27, order="128577"))),
        accepted(RETAILER, "1005", "RECADV", RECEIPT),
    ]


def seen_of_days():
    """What is seen then, a mark and cancellations."""
    return [
        get(ALPHA, "mail/item/3", 200, THIRD_MAIL),
        get(ALPHA, "status", 200, told(*STATUS, "end")),
        get(RETAILER, f"status/{ALPHA}", 200, told(*STATUS, "end")),
        get(RETAILER, f"status/{BETA}", 200, told("end")),
        get(BETA, "status", 200, told("end")),
        get(RETAILER, f"status/{DELTA}", 404, "unknown\n"),
        get(RETAILER, "status/4012345500005", 404, "unknown\n"),
        get(RETAILER, "status/x", 404, "unknown\n"),
        post(ALPHA, "mail/item/1/taken", "", 200, "taken\n"),
        get(ALPHA, "mail/after/0", 200, listed((2, "ORDERS", "128577"), (3, "RECADV", "G1"))),
        get(ALPHA, "mail/item/1", 200, FIRST_MAIL),
        get(ALPHA, "mail/item/00000000000001", 200, FIRST_MAIL),
        post(RETAILER, "cancellations", cancellation("C1", 10), 200, "accepted\n"),
        post(RETAILER, "cancellations", cancellation("C1", 10), 200, "repeated\n"),
        post(RETAILER, "cancellations", cancellation("C2", 15), 200, "refused B17\n"),
        post(RETAILER, "cancellations", cancellation("C1", 11), 200, "refused B03\n"),
        post(RETAILER, "cancellations", cancellation("C3", 1)[:-1], 400, "bad request\n"),
        post(RETAILER, "cancellations", "", 400, "bad request\n"),
        get(ALPHA, "status", 200, told(line_status("128576", "C", 48, 14, 12, 10, 12), *STATUS[1:], "end")),
    ]


def days(program):
    """Days of an order over HTTP, and what is seen of them."""
    return served(program, messages_of_days() + seen_of_days(), then=lambda server: database_files.is_whole(server.folder))


def fields_of_heads():
    """Heads with one key or several, in other letters, or with another key."""
    key = "X-Hub-Key: alpha-key-1"
    return [
        ("two keys", head(f"GET /p/{ALPHA}/status HTTP/1.1", key, key), 400, "bad request\n"),
        ("the field in other letters", head(f"GET /p/{ALPHA}/mail/after/0 HTTP/1.1", "x-hUB-kEY: alpha-key-1"), 200, "end\n"),
        ("the key in other letters", head(f"GET /p/{ALPHA}/status HTTP/1.1", "X-Hub-Key: Alpha-key-1"), 403, "denied\n"),
        ("the front of a key", head(f"GET /p/{ALPHA}/status HTTP/1.1", "X-Hub-Key: alpha-key-"), 403, "denied\n"),
        ("a key with a byte behind it", head(f"GET /p/{ALPHA}/status HTTP/1.1", "X-Hub-Key: alpha-key-11"), 403, "denied\n"),
        ("no key", head(f"GET /p/{ALPHA}/status HTTP/1.1"), 403, "denied\n"),
        ("the hub asks", head(f"GET /p/{HUB}/status HTTP/1.1", "X-Hub-Key: retail-key"), 403, "denied\n"),
    ]


def seen_by_others(program):
    """One list to the byte, and who may not see it."""
    key = "X-Hub-Key: alpha-key-1"
    other = lambda method, rest, status, body, *fields: (f"{method} {rest}", head(f"{method} {rest} HTTP/1.1", key, *fields), status, body)
    interchanges = f"/p/{ALPHA}/interchanges"
    hundred = asking("POST", interchanges, ALPHA, "x" * 100)
    no_tag = asking("POST", interchanges, ALPHA, "abc" + "x" * 297)
    assert len(response(200, listed((1, "ORDERS", "128576")))) == 33 + len(response(200, "")) + 1
    return served(
        program,
        [
            ORDERED,
            ("a list", f"GET /p/{ALPHA}/mail/after/0 HTTP/1.1\r\n{key}\r\n\r\n".encode(), 200, "             1 ORDERS 128576\nend\n"),
            other("GET", f"/p/{BETA}/status", 403, "denied\n"),
            other("PUT", f"/p/{ALPHA}/status", 405, "method\n"),
            other("POST", interchanges, 411, "length\n"),
            other("POST", interchanges, 413, "too large\n", "Content-Length: 1048577"),
            ("a body one byte short", hundred[:-1], 400, "bad request\n"),
            ("299 of 300 bytes that begin with no tag", no_tag[:-1], 400, "bad request\n"),
            ("300 bytes that begin with no tag", no_tag, 400, "refused E05\n"),
            post(ALPHA, "mail/item/1/taken", "", 200, "taken\n"),
            get(ALPHA, "mail/after/0", 200, "end\n"),
            get(ALPHA, "mail/item/1", 200, FIRST_MAIL),
            get(ALPHA, "mail/item/2", 404, "unknown\n"),
            get(ALPHA, "mail/item/x", 404, "unknown\n"),
            get(ALPHA, "mail/item/0", 404, "unknown\n"),
            get(ALPHA, "mail/item/000000000000001", 404, "unknown\n"),
            *(get(ALPHA, rest, 404, "unknown\n") for rest in ("status?x", "status?", "Status", "status/")),
            ("no path", head("GET / HTTP/1.1", key), 404, "unknown\n"),
            ("no GLN", head("GET /p//status HTTP/1.1", key), 404, "unknown\n"),
            *fields_of_heads(),
            get(RETAILER, "status", 403, "denied\n"),
            get(RETAILER, "mail/after/0", 403, "denied\n"),
            get(ALPHA, f"status/{ALPHA}", 403, "denied\n"),
            post(ALPHA, "cancellations", cancellation("C1", 10), 403, "denied\n"),
            post(ALPHA, "interchanges", ORDERS, 400, "refused E08\n"),
            get(ALPHA, "status", 200, told(line_status("128576", "W", 48, 48, 0, 0, 0), "end")),
        ],
    )


class Parts:
    """A request in parts that are made wrong."""

    def __init__(self):
        self.path = f"{RETAILER}/interchanges"
        self.method = "POST"
        self.keys, self.lengths, self.more = ["retail-key"], [str(len(ORDERS))], []
        self.body, self.version, self.cut = ORDERS.encode(), " HTTP/1.1", False

    def bytes(self):
        fields = [*(f"X-Hub-Key: {it}" for it in self.keys), *(f"Content-Length: {it}" for it in self.lengths), *self.more]
        found = head(f"{self.method} /p/{self.path}{self.version}", *fields)
        return found[:-2] if self.cut else found + self.body


def with_33_fields(it):
    it.more += [f"X-{k}: x" for k in range(33 - len(it.keys + it.lengths + it.more))]


def with_long_head(it):
    it.more.append("X: " + "x" * 8192)


def two_keys(it):
    it.keys = (it.keys or ["retail-key"]) * 2


def two_lengths(it):
    it.lengths = (it.lengths or ["5"]) * 2


def put(name, value):
    return lambda it: setattr(it, name, value)


def other_side(it):
    it.path = f"{RETAILER}/mail/item/1/taken" if it.path.startswith(RETAILER) else it.path


# each check of a request, in order: what is wrong, and what makes it so; then the answer
CHECKS = [
    [
        ("33 fields", with_33_fields),
        ("a head of more than 8192 bytes", with_long_head),
        ("two keys", two_keys),
        ("two lengths", two_lengths),
        ("a head without its end", put("cut", True)),
        ("no version", put("version", "")),
    ],
    [
        ("another path", put("path", f"{RETAILER}/interchange")),
        ("a query", put("path", f"{RETAILER}/interchanges?x")),
        ("a number of 15 digits", put("path", f"{RETAILER}/mail/item/000000000000001/taken")),
        ("no number", put("path", f"{RETAILER}/mail/item/one/taken")),
    ],
    [("another method", put("method", "PUT")), ("GET", put("method", "GET"))],
    [("no key", put("keys", [])), ("another's key", put("keys", ["alpha-key-1"])), ("what the other side asks", other_side)],
    [("no length", put("lengths", [])), ("a body in pieces", lambda it: it.more.append("Transfer-Encoding: chunked"))],
    [("a length that is no digits", put("lengths", ["+5"])), ("an empty length", put("lengths", [""]))],
    [("a length of one byte too much", put("lengths", ["1048577"])), ("a length of thirty digits", put("lengths", ["9" * 30]))],
    [("a body one byte short", put("lengths", [str(len(ORDERS) + 1)]))],
]
ANSWERS = [
    (400, "bad request\n"),
    (404, "unknown\n"),
    (405, "method\n"),
    (403, "denied\n"),
    (411, "length\n"),
    (400, "bad request\n"),
    (413, "too large\n"),
    (400, "bad request\n"),
]


def pairs():
    """Each wrong, and each two of different checks: the earlier answers. What one undoes of the other is made first."""
    wrongs = [(place, name, make) for place, check in enumerate(CHECKS) for name, make in check]
    for place, name, make in wrongs:
        one = Parts()
        make(one)
        yield (name, one.bytes(), *ANSWERS[place])
        for later, other, made in wrongs:
            if later > place:
                one = Parts()
                made(one)
                make(one)
                yield (f"{name}, and {other}", one.bytes(), *ANSWERS[place])


def of_cancellations():
    """No cancellation beside each check before it, and a supplier that is none beside each before that."""
    path, body = f"/p/{RETAILER}/cancellations", f"{ALPHA}\nC1\n128576\n1\n10"
    whole = asking("POST", path, RETAILER, body)
    of_none = f"/p/{RETAILER}/status/3512345000006"
    of_alpha = f"/p/{ALPHA}/status/3512345000006"
    yield "no cancellation", whole, 400, "bad request\n"
    yield "no cancellation, and two keys", asking("POST", path, RETAILER, body, "X-Hub-Key: retail-key"), 400, "bad request\n"
    yield "no cancellation, and another path", asking("POST", path + "x", RETAILER, body), 404, "unknown\n"
    yield "no cancellation, and another method", asking("PUT", path, RETAILER, body), 405, "method\n"
    yield "no cancellation, and no key", asking("POST", path, None, body), 403, "denied\n"
    yield "no cancellation, and the other side", asking("POST", f"/p/{ALPHA}/cancellations", ALPHA, body), 403, "denied\n"
    yield "no cancellation, and no length", head(f"POST {path} HTTP/1.1", "X-Hub-Key: retail-key") + body.encode(), 411, "length\n"
    too_long = head(f"POST {path} HTTP/1.1", "X-Hub-Key: retail-key", "Content-Length: 1048577") + body.encode()
    yield "no cancellation, and a length too great", too_long, 413, "too large\n"
    yield "no cancellation, and cut", whole[:-1], 400, "bad request\n"
    yield "a supplier that is none", asking("GET", of_none, RETAILER), 404, "unknown\n"
    yield "a supplier that is none, and two keys", asking("GET", of_none, RETAILER, None, "X-Hub-Key: retail-key"), 400, "bad request\n"
    yield "a supplier that is none, and another method", asking("PUT", of_none, RETAILER), 405, "method\n"
    yield "a supplier that is none, and no key", asking("GET", of_none), 403, "denied\n"
    yield "a supplier that is none, and the other side", asking("GET", of_alpha, ALPHA), 403, "denied\n"


def two_wrongs(program):
    nothing = [get(ALPHA, "mail/after/0", 200, "end\n"), get(ALPHA, "status", 200, "end\n")]
    return served(program, [*pairs(), *of_cancellations(), *nothing, ORDERED])


def cuts(program):
    """A request cut at each of its bytes: nothing is taken of it."""
    list_of_all = asking("GET", f"/p/{ALPHA}/mail/after/0", ALPHA)
    order = asking("POST", f"/p/{RETAILER}/interchanges", RETAILER, ORDERS)
    asked = [(f"the first {k} bytes", text[:k], 400, "bad request\n") for text in (list_of_all, order) for k in range(len(text))]
    return served(program, [*asked, get(ALPHA, "mail/after/0", 200, "end\n"), ORDERED])


def heads(program):
    """Heads at their limits, and spellings that the grammar of heads takes."""

    def long_head(length):
        begun = head(f"GET /p/{ALPHA}/mail/after/0 HTTP/1.1", "X-Hub-Key: alpha-key-1", "X: ")
        return begun.replace(b"X: ", b"X: " + b"x" * (length - len(begun)))

    def fields(count):
        return head(f"GET /p/{ALPHA}/mail/after/0 HTTP/1.1", "X-Hub-Key: alpha-key-1", *(f"X-{k}: x" for k in range(count - 1)))

    line = f"GET /p/{ALPHA}/mail/after/0 HTTP/1.1"
    assert len(long_head(8192)) == 8192
    return served(
        program,
        [
            ("a head of 8192 bytes", long_head(8192), 200, "end\n"),
            ("a head of 8193 bytes", long_head(8193), 400, "bad request\n"),
            ("8193 bytes without an end", long_head(9000)[:8193], 400, "bad request\n"),
            ("32 fields", fields(32), 200, "end\n"),
            ("33 fields", fields(33), 400, "bad request\n"),
            ("LF alone", head(line, "X-Hub-Key: alpha-key-1").replace(b"\r", b""), 200, "end\n"),
            ("HTTP/1.0", head(line[:-1] + "0", "X-Hub-Key: alpha-key-1"), 200, "end\n"),
            ("HTTP/2.0", head(line[:-3] + "2.0", "X-Hub-Key: alpha-key-1"), 400, "bad request\n"),
            ("empty lines first", b"\r\n\r\n" + head(line, "X-Hub-Key: alpha-key-1"), 200, "end\n"),
            ("blanks round a value", head(line, "X-Hub-Key: \t alpha-key-1 \t"), 200, "end\n"),
            ("a blank before the colon", head(line, "X-Hub-Key : alpha-key-1"), 400, "bad request\n"),
            ("nothing", b"", 400, "bad request\n"),
            ("no request", b"\x16\x03\x01\x02\x00", 400, "bad request\n"),
        ],
    )


def lengths(program):
    taken = lambda *fields: head(f"POST /p/{ALPHA}/mail/item/1/taken HTTP/1.1", "X-Hub-Key: alpha-key-1", *fields)
    whole = ORDERS + "\n" * (1_048_576 - len(ORDERS))
    return served(
        program,
        [
            ORDERED,
            ("5", taken("Content-Length: 5") + b"abcde", 200, "taken\n"),
            ("0005", taken("Content-Length: 0005") + b"abcde", 200, "taken\n"),
            ("0005, and four bytes", taken("Content-Length: 0005") + b"abcd", 400, "bad request\n"),
            ("bytes behind the body", taken("Content-Length: 5") + b"abcdefgh", 200, "taken\n"),
            ("empty", taken("Content-Length:") + b"abcde", 400, "bad request\n"),
            ("+5", taken("Content-Length: +5") + b"abcde", 400, "bad request\n"),
            ("-5", taken("Content-Length: -5") + b"abcde", 400, "bad request\n"),
            ("5, 5", taken("Content-Length: 5, 5") + b"abcde", 400, "bad request\n"),
            ("two", taken("Content-Length: 5", "content-length: 5") + b"abcde", 400, "bad request\n"),
            ("thirty digits", taken("Content-Length: " + "1" * 30), 413, "too large\n"),
            ("thirty digits that say 5", taken("Content-Length: " + "5".rjust(30, "0")) + b"abcde", 200, "taken\n"),
            ("in pieces, beside a length", taken("Transfer-Encoding: chunked", "Content-Length: 5") + b"abcde", 411, "length\n"),
            ("in pieces", taken("Transfer-Encoding: chunked") + b"5\r\nabcde\r\n0\r\n\r\n", 411, "length\n"),
            accepted(RETAILER, "1001", "ORDERS", whole, "repeated"),
            ("a GET with a body", asking("GET", f"/p/{ALPHA}/mail/after/0", ALPHA, "abcde"), 200, "end\n"),
            ("a GET with a length that is none", asking("GET", f"/p/{ALPHA}/mail/after/0", ALPHA, None, "Content-Length: x"), 200, "end\n"),
        ],
    )


def both_then_read(program):
    """Two clients write, then both are served, then both read; neither has ended its side."""
    with Server(program, 2) as server, server.connect() as one, server.connect() as other:
        one.sendall(ORDERED[1])
        other.sendall(asking("GET", f"/p/{ALPHA}/mail/after/0", ALPHA))
        lines = [server.line(), server.line()]
        found = [all_of(one), all_of(other)]
        wanted = [response(200, ORDERED[3]), response(200, listed((1, "ORDERS", "128576")))]
        return (
            unlike("lines", lines, [b"connection 1 200\n", b"connection 2 200\n"])
            or unlike("answers", found, wanted)
            or unlike("status", server.end()[0], 0)
        )


def stalled(program, sends):
    """A client that never sends a whole request holds the next one for ten seconds at most: what is wrong, and how long it waited. Twice
    a second it sends a byte, if `sends` says so of the seconds that have passed and of the bytes that it has sent."""
    sent = 0
    with Server(program, 2) as server, server.connect() as slow:
        begun = time.monotonic()
        with server.connect() as next_one:
            next_one.sendall(asking("GET", f"/p/{ALPHA}/status", ALPHA))
            next_one.settimeout(0.5)
            while time.monotonic() - begun < 20:
                try:
                    if sends(time.monotonic() - begun, sent):
                        sent += slow.send(b"G")
                except OSError:
                    pass
                try:
                    if next_one.recv(1, socket.MSG_PEEK):
                        break
                except TimeoutError:
                    pass
            passed = time.monotonic() - begun
            next_one.settimeout(SECONDS)
            found = all_of(next_one)
        slow.settimeout(SECONDS)
        told_slow = b""
        try:
            told_slow = all_of(slow)
        except OSError:
            pass
        slow.close()
        why = f"the slow one was answered {told_slow!r:.100}" if told_slow else unlike("the next one", found, response(200, "end\n"))
        return why or unlike("the program", server.end(), (3, lines_of(server.port, ["fault", 200]), b"")), passed


# how late, in seconds, the end of an answer may be read at best of some times
AT_ONCE, TIMES = 0.7, 5


def ends_at_once(program):
    """A client that has sent its whole request and reads to the end of the answer, without ending its own side, has it at once; and so has
    the next one."""
    asked = [
        get(ALPHA, "status", 200, "end\n"),
        get(ALPHA, "mail/item/1", 404, "unknown\n"),
        get(RETAILER, "status", 403, "denied\n"),
        ("no request", b"\r\nGET\r\n\r\n", 400, "bad request\n"),
        upload(RETAILER, "", "refused E06", status=400),
    ]
    with Server(program, len(asked) * TIMES) as server:
        for name, request, status, body in asked:
            passed = []
            for _ in range(TIMES):
                begun = time.monotonic()
                why = unlike(name, server.ask(request, ends=False), response(status, body))
                passed.append(time.monotonic() - begun)
                if why:
                    return why
            if min(passed) > AT_ONCE:
                return f"{name}: its end came after {min(passed):.2f} seconds at best"
        return None


STATUS_OF_ALPHA = f"/p/{ALPHA}/status"
UPLOADS = f"POST /p/{RETAILER}/interchanges HTTP/1.1"
# requests that are read to their end
READ = [
    get(ALPHA, "status", 200, "end\n"),
    get(ALPHA, "mail/item/1", 404, "unknown\n"),
    get(RETAILER, "status", 403, "denied\n"),
    ("a GET with a length of 0", asking("GET", STATUS_OF_ALPHA, ALPHA, ""), 200, "end\n"),
    ("another path", asking("GET", "/nothing"), 404, "unknown\n"),
    ("another method", asking("DELETE", STATUS_OF_ALPHA, ALPHA), 405, "method\n"),
    ("two keys", asking("GET", STATUS_OF_ALPHA, ALPHA, None, "X-Hub-Key: alpha-key-1"), 400, "bad request\n"),
    upload(RETAILER, "", "refused E06", status=400),
    upload(RETAILER, "x" * 1_048_576, "refused E05", status=400),
    post(RETAILER, "cancellations", "x" * 100_000, 400, "bad request\n"),
]
# requests of which more may come: bytes behind their end, a body that is not looked at, or an end that is not known
NOT_READ = [
    ("a byte behind a GET", asking("GET", STATUS_OF_ALPHA, ALPHA) + b"x", 200, "end\n"),
    ("a byte behind an upload", upload(RETAILER, "")[1] + b"x", 400, "refused E06\n"),
    ("a GET that announces a body", asking("GET", STATUS_OF_ALPHA, ALPHA, None, "Content-Length: 5"), 200, "end\n"),
    ("a GET in pieces", asking("GET", STATUS_OF_ALPHA, ALPHA, None, "Transfer-Encoding: chunked"), 200, "end\n"),
    ("another path, with a length", asking("GET", "/nothing", None, None, "Content-Length: 5"), 404, "unknown\n"),
    ("a denied upload without its body", head(UPLOADS, "X-Hub-Key: another-key", "Content-Length: 5"), 403, "denied\n"),
    ("an upload without a length", head(UPLOADS, "X-Hub-Key: retail-key"), 411, "length\n"),
    ("an upload that is too large", head(UPLOADS, "X-Hub-Key: retail-key", "Content-Length: 1048577"), 413, "too large\n"),
    ("no request", b"\r\nGET\r\n\r\n", 400, "bad request\n"),
]


def next_after(server, request, status, body):
    """What is wrong, if anything, and how long the next client waits. The one before it reads its whole answer, and does not end its
    side."""
    with server.connect() as one:
        one.sendall(request)
        why = unlike("the answer", all_of(one), response(status, body))
        begun = time.monotonic()
        found = server.ask(asking("GET", f"/p/{BETA}/status", BETA))
        return why or unlike("the next one", found, response(200, "end\n")), time.monotonic() - begun


def lingering(program):
    """A client that has its answer and does not end its side holds the next one for a second, and only where more of its request may
    come."""
    with Server(program, 2 * TIMES * len(READ + NOT_READ)) as server:
        for waits, requests in ((False, READ), (True, NOT_READ)):
            for name, *asked in requests:
                passed = []
                # what is measured on a machine that is not quiet is not always right
                while len(passed) < TIMES and (not passed or (passed[-1] > AT_ONCE) != waits):
                    why, seconds = next_after(server, *asked)
                    if why:
                        return f"{name}: {why}"
                    passed.append(seconds)
                if (passed[-1] > AT_ONCE) != waits:
                    return f"{name}: the next one waited {passed[-1]:.2f} seconds"
        return None


def order_of_lines(number, lines):
    """An interchange of one order of so many lines."""
    each = [it for k in range(1, lines + 1) for it in (f"LIN+{k}++4000862141404:SRV", "QTY+21:48")]
    begun = (f"BGM+220+{number}+9", "DTM+137:20250603:102", *parties(ALPHA))
    return interchange(RETAILER, str(number), message("ORDERS:D:01B:UN:EAN010", 1, *begun, *each, "UNS+S", f"CNT+2:{lines}"))


def takes_nothing(program):
    """A client that takes nothing of an answer that is longer than what the system keeps for it holds the next one for ten
    seconds at most: what is wrong, and how long it waited."""
    uploads = 3
    with Server(program, uploads + 2) as server:
        for number in range(1001, 1001 + uploads):
            found = server.ask(asking("POST", f"/p/{RETAILER}/interchanges", RETAILER, order_of_lines(number, GREATEST_ORDER)))
            why = unlike(f"order {number}", found, response(200, told(f"interchange {number} messages 1", "1 ORDERS accepted")))
            if why:
                return why, 0.0
        with socket.socket() as slow:
            slow.setsockopt(socket.SOL_SOCKET, socket.SO_RCVBUF, 4096)
            slow.settimeout(SECONDS)
            slow.connect(("127.0.0.1", server.port))
            slow.sendall(asking("GET", f"/p/{ALPHA}/status", ALPHA))
            begun = time.monotonic()
            found = server.ask(asking("GET", f"/p/{BETA}/status", BETA))
            passed = time.monotonic() - begun
        printed = lines_of(server.port, [200] * uploads + ["fault", 200])
        return unlike("the next one", found, response(200, "end\n")) or unlike("the program", server.end(), (3, printed, b"")), passed


def big_refused(program):
    """A client that goes on sending what is refused reads its answer."""
    too_large = head(f"POST /p/{RETAILER}/interchanges HTTP/1.1", "X-Hub-Key: retail-key", "Content-Length: 1048577") + b"x" * 1_048_577
    denied = head(f"POST /p/{RETAILER}/interchanges HTTP/1.1", "X-Hub-Key: another-key", "Content-Length: 1048576") + b"x" * 1_048_576
    unknown = head(f"GET /nothing HTTP/1.1", "Content-Length: 1000000") + b"x" * 1_000_000
    asked = [("too large", too_large, 413, "too large\n"), ("denied", denied, 403, "denied\n"), ("unknown", unknown, 404, "unknown\n")]
    return served(program, asked, ends=False) or served(program, asked)


def gone(program):
    """A client that breaks its connection off, whenever it does, leaves the others be."""
    count = 20
    with Server(program, count + 1) as server:
        for k in range(count):
            with server.connect() as one:
                one.setsockopt(socket.SOL_SOCKET, socket.SO_LINGER, struct.pack("ii", 1, 0))
                one.sendall(ORDERED[1][: len(ORDERED[1]) if k % 2 else 40])
        found = server.ask(asking("GET", f"/p/{BETA}/status", BETA))
        status, printed, error = server.end()
        wanted = (
            "listening {}\n".format(server.port)
            + "".join(f"connection {k} (200|400|fault)\n" for k in range(1, count + 1))
            + f"connection {count + 1} 200\n"
        )
        if not re.fullmatch(wanted.encode(), printed) or error:
            return f"{printed!r:.400} {error!r:.100}"
        return (
            unlike("the last", found, response(200, "end\n"))
            or unlike("status", status in (1, 3) if b"fault" in printed or b"400" in printed else status == 0, True)
        )


def killed(program):
    """What was answered is kept where the program is killed, and is repeated."""
    folder = tempfile.mkdtemp()
    with Server(program, 10, folder=folder) as server:
        why = unlike("the first", server.ask(ORDERED[1]), response(200, ORDERED[3]))
        server.child.kill()
        server.child.wait()
        with Server(program, 1, folder=folder) as again:
            return why or unlike("again", again.ask(ORDERED[1]), response(200, ORDERED[3].replace("accepted", "repeated")))


def late(program):
    """Commits that take twenty seconds each, by the clock: what they take is not the client's time, which is answered."""
    with tempfile.TemporaryDirectory() as folder:
        with Server(program, 2, env={"LD_PRELOAD": meddled(folder), "LATE": "20"}) as server:
            why = (
                unlike("an order", server.ask(ORDERED[1]), response(200, ORDERED[3]))
                or unlike("its mail", server.ask(get(ALPHA, "mail/item/1", 200, FIRST_MAIL)[1]), response(200, FIRST_MAIL))
            )
            return why or unlike("the program", server.end(), (0, lines_of(server.port, [200, 200]), b""))


def unsound(program):
    """A row that is none of the kinds stops what asks for it, and all that comes after it, until the program is begun anew."""
    data = {NAME: database_files.file_of(database_files.TABLES, database_files.ROWS, hub_files.SPOILED[0][1])}
    list_of_other = get(BETA, "mail/after/0", 200, "end\n")
    asked = [
        list_of_other,
        get(ALPHA, "status", 503, "stopped\n"),
        get(BETA, "mail/after/0", 503, "stopped\n"),
        upload(RETAILER, ORDERS, "interchange 1001 messages 1", "stopped", status=503),
        get(ALPHA, "nothing", 404, "unknown\n"),
        get(ALPHA, "mail/item/x", 404, "unknown\n"),
    ]
    return served(program, asked, data=data) or served(program, [list_of_other], data=data)


def stopped_when_broken(program):
    """With `--stop-when-broken` the connection at which the database fails for good is the last one, and one line tells why. A refusal, or
    a wrong key, is no reason; and where nothing fails, all connections are served."""
    data = {NAME: database_files.file_of(database_files.TABLES, database_files.ROWS, hub_files.SPOILED[0][1])}
    list_of_other, spoiled = get(BETA, "mail/after/0", 200, "end\n"), get(ALPHA, "status", 503, "stopped\n")
    denied = ("a wrong key", head(f"GET /p/{BETA}/status HTTP/1.1", "X-Hub-Key: another-key"), 403, "denied\n")
    for name, asked, given, wanted in (
        ("a spoiled row", [list_of_other, denied, spoiled], data, (3, b"store unclean\n")),
        ("nothing that fails", [list_of_other, denied, list_of_other], {}, (1, b"")),
    ):
        with Server(program, 5 if wanted[1] else 3, data=given, more=["--stop-when-broken"]) as server:
            for what, request, status, body in asked:
                why = unlike(f"{name}: {what}", server.ask(request), response(status, body))
                if why:
                    return why
            lines = lines_of(server.port, [status for _, _, status, _ in asked])
            why = unlike(name, server.end(), (wanted[0], lines, wanted[1]))
            if why:
                return why
    return None


def for_this_machine(program):
    """It listens on 127.0.0.1 and on no other address; and its files are their owner's alone, however open the folder is."""
    with Server(program, 1) as server:
        found = set()
        for name in ("tcp", "tcp6"):
            with open(f"/proc/net/{name}", encoding="ascii") as table:
                rows = [line.split() for line in table][1:]
            # of the sockets that listen (0A), the address and the port
            found |= {row[1] for row in rows if row[3] == "0A" and int(row[1].rpartition(":")[2], 16) == server.port}
        modes = {
            name: os.stat(os.path.join(server.folder, name)).st_mode & 0o777 for name in os.listdir(server.folder) if name.startswith(NAME)
        }
        server.ask(ORDERED[1])
        why = unlike("addresses", found, {f"0100007F:{server.port:04X}"}) or unlike("modes", modes, {NAME: 0o600, f"{NAME}-wal": 0o600})
        return why or unlike("the program", server.end(), (0, lines_of(server.port, [200]), b""))


def begins(program):
    """What is wrong before the first connection, in the order store, port: the first is told alone."""
    nine = database_files.file_of(database_files.TABLES, database_files.ROWS, "UPDATE schema SET number = 9")
    with Server(program, 1, data={NAME: nine}) as server:
        why = unlike("a schema of number 9", server.end(), (3, b"", b"store version\n"))
    with Server(program, 1) as server:
        with open(os.path.join(server.folder, "other.db"), "wb") as file:
            file.write(database_files.file_of())
        words = ["serve", "--db", "other.db", "--port", str(server.port), "--count", "1"]
        ran = subprocess.run([program, *words], cwd=server.folder, capture_output=True, timeout=SECONDS)
        why = why or unlike("a port that is taken", (ran.returncode, ran.stdout, ran.stderr), (3, b"", b"listen\n"))
        with open(os.path.join(server.folder, "nine.db"), "wb") as file:
            file.write(nine)
        words[2] = "nine.db"
        ran = subprocess.run([program, *words], cwd=server.folder, capture_output=True, timeout=SECONDS)
        found = (ran.returncode, ran.stdout, ran.stderr)
        why = why or unlike("a schema of number 9 and a port that is taken", found, (3, b"", b"store version\n"))
    with open("/dev/full", "wb") as full, Server(program, 1, output=full) as server:
        return why or unlike("standard output is full", server.end(), (3, b"", b"file\n"))


def by_the_clock(program):
    """Without a moment the clock tells it, of each connection."""
    with Server(program, 2, moment=None) as server:
        before = time.gmtime()
        server.ask(ORDERED[1])
        found = server.ask(asking("GET", f"/p/{ALPHA}/mail/item/1", ALPHA))
        dates = [time.strftime("%y%m%d:%H%M", it) for it in (before, time.gmtime())]
        return None if any(found == response(200, FIRST_MAIL.replace("250603:0920", date)) for date in dates) else f"{found!r:.400}"


def moment_of_each(program):
    """A day passes with each connection that is taken: what is sent in it has the moment of its own connection, which is the one after it
    was taken."""
    texts = [ORDERS, SECOND, interchange(RETAILER, "1003", order("128578"))]
    days = [f"25060{3 + k}:0920" for k in range(1, len(texts) + 1)]
    third = FIRST_MAIL.replace("128576", "128578").replace("0920+1'", "0920+3'").replace("UNZ+1+1'", "UNZ+1+3'")
    mails = [mail.replace("250603:0920", day) for mail, day in zip((FIRST_MAIL, SECOND_MAIL, third), days)]
    with tempfile.TemporaryDirectory() as folder:
        env = {"LD_PRELOAD": meddled(folder), "NOW": MOMENT, "DAYS": "1"}
        with Server(program, 2 * len(texts), moment=None, env=env) as server:
            for text in texts:
                server.ask(asking("POST", f"/p/{RETAILER}/interchanges", RETAILER, text))
            found = [server.ask(asking("GET", f"/p/{ALPHA}/mail/item/{k}", ALPHA)) for k in range(1, len(texts) + 1)]
            why = unlike("the mails", found, [response(200, it) for it in mails])
            return why or unlike("the program", server.end(), (0, lines_of(server.port, [200] * 2 * len(texts)), b""))


def not_taken(program):
    """The first connection is broken off before it is taken: it is told as a fault, and the next one is served. Any other failure ends the
    server."""
    with tempfile.TemporaryDirectory() as folder:
        shim = meddled(folder)
        for number in (errno.ECONNABORTED, errno.ECONNRESET):
            with Server(program, 2, env={"LD_PRELOAD": shim, "ACCEPT": str(number)}) as server:
                # its line comes before a client does
                server.line()
                found = server.ask(asking("GET", f"/p/{ALPHA}/status", ALPHA))
                why = unlike("the next one", found, response(200, "end\n"))
                why = why or unlike("the program", server.end(), (3, lines_of(server.port, ["fault", 200]), b""))
                if why:
                    return f"{errno.errorcode[number]}: {why}"
        with Server(program, 2, env={"LD_PRELOAD": shim, "ACCEPT": str(errno.EMFILE)}) as server:
            return unlike("no descriptor is left", server.end(), (3, lines_of(server.port, []), b"listen\n"))


def open_files(server):
    """How many descriptors the program has."""
    return len(os.listdir(f"/proc/{server.child.pid}/fd"))


def allow(server, more):
    """Lets the program have so many descriptors beside those that it has while it waits for a connection."""
    most = resource.prlimit(server.child.pid, resource.RLIMIT_NOFILE)[1]
    resource.prlimit(server.child.pid, resource.RLIMIT_NOFILE, (open_files(server) + more, most))


def descriptors(program):
    """Connections of each kind, with room for the descriptors of one: each gives its own back. With room for one descriptor alone, a
    connection is a fault, and the next one is served."""
    asked = [
        ORDERED[:3],
        get(ALPHA, "status", 200, "")[:3],
        get(RETAILER, "status", 403, "")[:3],
        ("no request", b"x\r\n\r\n", 400),
        ("a cut upload", ORDERED[1][:-1], 400),
    ]
    rounds = 12
    with Server(program, len(asked) * rounds + 2) as server:
        allow(server, 2)
        for _ in range(rounds):
            for name, request, status in asked:
                found = server.ask(request)
                if not found.startswith(b"HTTP/1.1 %d " % status):
                    return f"{name}: {found!r:.100}"
                server.line()
        allow(server, 1)
        server.connect().close()
        if server.line() != b"connection %d fault\n" % (len(asked) * rounds + 1):
            return f"without a second handle: {server.lines[-1]!r}"
        allow(server, 2)
        why = unlike("the next one", server.ask(asking("GET", f"/p/{BETA}/status", BETA)), response(200, "end\n"))
        statuses = [status for _, _, status in asked] * rounds + ["fault", 200]
        return why or unlike("the program", server.end(), (3, lines_of(server.port, statuses), b""))


def by_curl(program):
    """Each path by curl, where it is there."""
    if not shutil.which("curl"):
        print("no curl, so nothing is tried with it")
        return None
    asked = [
        (RETAILER, "interchanges", ["--data-binary", f"@{NAME}.edi"], 200, ORDERED[3]),
        (ALPHA, "mail/after/0", [], 200, listed((1, "ORDERS", "128576"))),
        (ALPHA, "mail/item/1", [], 200, FIRST_MAIL),
        (ALPHA, "mail/item/1/taken", ["-X", "POST", "-d", ""], 200, "taken\n"),
        (ALPHA, "status", [], 200, told(line_status("128576", "W", 48, 48, 0, 0, 0), "end")),
        (RETAILER, f"status/{ALPHA}", [], 200, told(line_status("128576", "W", 48, 48, 0, 0, 0), "end")),
        (RETAILER, "cancellations", ["--data-binary", cancellation("C1", 10)], 200, "accepted\n"),
        (ALPHA, "mail/item/9", [], 404, "unknown\n"),
    ]
    with Server(program, len(asked), data={f"{NAME}.edi": ORDERS.encode()}) as server:
        for who, rest, words, status, body in asked:
            line = ["curl", "-s", "-i", "-H", f"X-Hub-Key: {KEYS[who]}", *words, f"http://127.0.0.1:{server.port}/p/{who}/{rest}"]
            ran = subprocess.run(line, cwd=server.folder, capture_output=True, timeout=SECONDS)
            why = unlike(f"curl {rest}", ran.stdout, response(status, body))
            if why:
                return why
        return unlike("status", server.end()[0], 1)


def joining(program):
    """A supplier that joins between two runs of the server: before that it is denied, and the retailer is told that it is not known."""
    folder = tempfile.mkdtemp()
    text = interchange(RETAILER, "1020", order(supplier=GAMMA))
    upload_of = lambda word: upload(RETAILER, text, "interchange 1020 messages 1", f"1 ORDERS {word}")
    its = lambda rest, status, body: (f"GET {rest}", head(f"GET /p/{GAMMA}/{rest} HTTP/1.1", "X-Hub-Key: gamma-key-1"), status, body)
    its_mail = f"UNA:+.? 'UNB+UNOC:3+{HUB}:14+{GAMMA}:14+250603:0920+1'{order(supplier=GAMMA)}UNZ+1+1'"
    before = [upload_of("refused B02"), its("status", 403, "denied\n"), get(RETAILER, f"status/{GAMMA}", 404, "unknown\n")]
    after = [
        upload_of("accepted"),
        its("mail/item/1", 200, its_mail),
        get(RETAILER, f"status/{GAMMA}", 200, told(line_status("128576", "W", 48, 48, 0, 0, 0), "end")),
    ]

    def asked(server, requests):
        for name, request, status, body in requests:
            why = unlike(name, server.ask(request), response(status, body))
            if why:
                return why
        statuses = [status for _, _, status, _ in requests]
        return unlike("the program", server.end(), (exit_of(statuses), lines_of(server.port, statuses), b""))

    with Server(program, len(before), folder=folder) as server:
        why = asked(server, before)
        words = over("join", RETAILER, "--supplier", GAMMA, "--supplier-key", "gamma-key-1", "--prefixes", "7612345,7612346")
        ran = subprocess.run([program, *words], cwd=folder, capture_output=True, timeout=SECONDS)
        why = why or unlike("the join", (ran.returncode, ran.stdout, ran.stderr), (0, b"accepted\n", b""))
        with Server(program, len(after), folder=folder) as again:
            return why or asked(again, after)


ALL = {
    "days over HTTP": days,
    "a supplier that joins": joining,
    "one list, and who may not see it": seen_by_others,
    "two wrongs in one request": two_wrongs,
    "requests cut at each byte": cuts,
    "heads": heads,
    "lengths": lengths,
    "two clients that write before both read": both_then_read,
    "a client that sends nothing": lambda program: by_time(lambda: stalled(program, lambda passed, sent: False), 9, 12),
    "a client that sends a byte now and then": lambda program: by_time(lambda: stalled(program, lambda passed, sent: True), 9, 12),
    "a client that sends a byte after five seconds": lambda program: by_time(
        lambda: stalled(program, lambda passed, sent: passed > 5 and not sent), 9, 12
    ),
    "a client that takes nothing": lambda program: by_time(lambda: takes_nothing(program), 9, 13),
    "a client that sends on what is refused": big_refused,
    "clients that break off": gone,
    "a server that is killed": killed,
    "commits that take long": late,
    "a row that is none of the kinds": unsound,
    "stopped when the database has failed for good": stopped_when_broken,
    "an address and files of its own": for_this_machine,
    "what is wrong before the first connection": begins,
    "connections by the clock": by_the_clock,
    "the moment of each connection": moment_of_each,
    "a connection that is not taken": not_taken,
    "descriptors": descriptors,
    "the end of an answer": ends_at_once,
    "who waits for whom": lingering,
    "curl": by_curl,
}


def tried_side_by_side(what, program, trials):
    """What is wrong with any of these trials, if anything. Their servers run side by side."""

    def tried(one):
        try:
            return one(program)
        except (OSError, subprocess.TimeoutExpired) as why:
            return f"{type(why).__name__}: {why}"

    with ThreadPoolExecutor(5) as pool:
        whys = list(pool.map(tried, trials.values()))
    found = "; ".join(f"{name}: {why}" for name, why in zip(trials, whys) if why)
    if not found:
        print(f"{what}: {len(trials)} trials on servers of their own")
    return found or None


def serving(program):
    """What is wrong with `serve`, if anything."""
    return tried_side_by_side("serve", program, ALL)


TRIALS = [("serve", serving)]


def main(trials):
    """Runs the trials of which the words after the program's name are part, one after another."""
    for name, one in trials.items():
        if " ".join(sys.argv[2:]) in name:
            begun = time.monotonic()
            print(f"{name}: {one(os.path.abspath(sys.argv[1])) or 'as wanted'}, {time.monotonic() - begun:.1f} s", flush=True)


if __name__ == "__main__":
    main(ALL)
