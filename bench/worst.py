"""`make worst`: what the most expensive requests take of the processor, each as a multiple of a typical upload of the same size,
1 MiB, with its bound beside it. An upload may take 4 times the typical one, plus one reading of each line that it names by its
number, and of each line of an order of which it names one by an article.

The hubs are made by uploads, and served from copies. Each answer is compared with the right one, so that a hub that lacks the rows
cannot pass for a fast one. Two kinds of requests would take minutes, so they have fewer messages than an upload may have; `--long`
sends them in full. It takes 1 GB in TMPDIR, with `--long` 9 GB.

    python3 -m bench.worst EDIHUB [--long]"""
import os
import shutil
import socket
import statistics
import sys
import tempfile
import time
from datetime import date
from itertools import count, islice, repeat

from bench.figures import Figures
from bench.hub import gtin, sscc
from bench.loads import LIMIT, largest, with_check_digit
from tests.harness.http_texts import asking, response
from tests.harness.hub_scripts import article, interchange, line_status, message, parties
from tests.harness.hub_steps import found, told
from tests.harness.register_texts import ALPHA, BETA, RETAILER
from tests.harness.servers import Server, all_of, listed

# the bounds: times a typical upload; times a list of a mailbox in which few entries are taken; the seconds of a long status, and the
# bytes of memory that it may take for each row, beside its text
MOST, MOST_OF_LIST, MOST_OF_STATUS, MOST_OF_ROW = 4, 2, 1, 200
# messages of an upload; and of those that name many long orders, or meet long contents, without --long and with it
MESSAGES = 999
NAMING, REMEMBERED = {False: 150, True: 999}, {False: 100, True: 999}
# lines of a typical order, of a small one and of a large one; orders that one despatch advice names
USUAL, SMALL, LARGE, NAMED = 20, 1_000, 15_000, 21
# entries that are taken in a mailbox, and in the one beside it; lines and pallets of a long status, how many of them an upload has,
# and lines of the other supplier there, in each of its three orders
TAKEN, FEW_TAKEN = 50_000, 100
LONG_STATUS, AT_ONCE, OTHERS = 100_000, 12_500, 11_111
# each row is asked so often, for the median; a row that takes more seconds than these is asked once
ROUNDS, TYPICAL_ROUNDS, LISTS, SHORT = 3, 5, 15, 5
# what one row may take by the clock, in seconds; more connections than are asked
LONGEST, CONNECTIONS = 7_200, 1_000_000
# the most bytes of a segment; of what is around the messages of an interchange; of an entry in the mailbox
SEGMENT, AROUND, ENTRY = 8_192, 150, 500
# the orders of many lines, and those of fewer
LARGE_ORDERS, SMALL_ORDERS = ([chr(ord(first) + k) for k in range(NAMED)] for first in "Aa")
DATE = "DTM+137:20250603:102"


class Wrong(Exception):
    """An answer that is not the right one."""


def item(number):
    """An article with a GTIN of eight digits, so that many lines fit."""
    return with_check_digit(f"{number:07}")


# Messages. Each is a function of its reference and of further segments for its header.


def order(number, lines, supplier=ALPHA, article_of=item, quantity=1_000):
    def made(reference, more=()):
        groups = (it for line in range(1, lines + 1) for it in (f"LIN+{line}++{article_of(line)}:SRV", f"QTY+21:{quantity}"))
        return message("ORDERS:D:01B:UN", reference, f"BGM+220+{number}+9", DATE, *more, *parties(supplier), *groups, "UNS+S")

    return made


def answer(number, named, line, supplier=ALPHA, by_number=True):
    """A response that accepts one line of an order, by its number or by its article."""

    def made(reference, more=()):
        head = (f"BGM+231+R{number}+4", DATE, *more, f"RFF+ON:{named}", *parties(supplier))
        group = (f"LIN+1+5+{item(line)}:SRV", *([f"RFF+ON:{named}:{line}"] if by_number else []))
        return message("ORDRSP:D:01B:UN", reference, *head, *group, "UNS+S")

    return made


def advice(number, *units, named=None):
    """A despatch advice. A unit is the number of its pallet and its lines, each an article and what follows `RFF+ON:`, if anything;
    `named` is the order of the others."""

    def made(reference, more=()):
        segments = [f"BGM+351+D{number}+9", DATE, *more, *([f"RFF+ON:{named}"] if named else []), f"NAD+SU+{ALPHA}::9"]
        for pallet, lines in units:
            segments += ["CPS+1", f"GIN+BJ+{sscc(pallet)}"]
            for it, of in lines:
                segments += [f"LIN+1++{it}:SRV", "QTY+12:1", *([f"RFF+ON:{of}"] if of else [])]
        return message("DESADV:D:01B:UN", reference, *segments)

    return made


def one_each(number, orders, line, by_number=True):
    """A despatch advice of one pallet with the same line of each of these orders."""
    return advice(number, (number, [(item(line), f"{it}:{line}" if by_number else it) for it in orders]))


def receipt(number, *units):
    """A receiving advice. A unit is the number of its pallet and its articles, one piece of each."""

    def made(reference, more=()):
        segments = [f"BGM+632+G{number}+9", DATE, *more, f"NAD+SU+{ALPHA}::9"]
        for pallet, articles in units:
            segments += ["CPS+1", f"GIN+BJ+{sscc(pallet)}"]
            for it in articles:
                segments += [f"LIN+1++{it}:SRV", "QTY+194:1"]
        return message("RECADV:D:01B:UN", reference, *segments)

    return made


# Requests. Each is a pair: its bytes, and those of the right answer.


def sent(who, control, text, kind, references, word="accepted"):
    """An upload of this text, whose messages all get the same answer."""
    body = told(f"interchange {control} messages {len(references)}", *(f"{it} {kind} {word}" for it in references))
    if len(text) > LIMIT:
        raise Wrong(f"the upload {control} has {len(text)} bytes")
    return asking("POST", f"/p/{who}/interchanges", who, text), response(200, body)


def notes(size):
    """Free texts of so many bytes together."""
    return [f"FTX+{'x' * (min(left, SEGMENT) - 5)}" for left in range(size, 5, -SEGMENT)]


def upload(who, control, kind, messages, word="accepted", size=None):
    """An upload of these messages, filled with free texts to a size, or to 1 MiB."""
    room = ((LIMIT if size is None else size) - AROUND) // len(messages)
    # a text more may make the number of segments two digits longer
    texts = [it(k, notes(room - len(it(k)) - 2)) for k, it in enumerate(messages, 1)]
    return sent(who, control, interchange(who, control, *texts), kind, range(1, len(messages) + 1), word)


def fullest(who, control, kind, make):
    """An upload of one message, of as many parts as fit."""
    text = largest(lambda parts: interchange(who, control, make(parts)(1)), LIMIT)
    return sent(who, control, text, kind, [1])


def typical(control, first, word="accepted", supplier=ALPHA):
    """The typical upload: 999 orders of 20 lines."""
    numbers = (f"T{first + k}" for k in range(MESSAGES))
    return upload(RETAILER, control, "ORDERS", [order(it, USUAL, supplier, gtin) for it in numbers], word)


def full_of(control, number, data, reference=1, marks=None):
    """An upload of one order full of segments of this data, in the usual marks, or in others as these translate them."""
    text = interchange(RETAILER, control, order(number, 1)(reference, ["FTX+NOTE"] * ((LIMIT - 1_000) // SEGMENT)))
    if marks:
        text = text.replace("UNA:+.? '", "UNA:+,! '").translate(marks)
    return sent(RETAILER, control, text.replace("NOTE", data), "ORDERS", [reference])


OTHER_MARKS = str.maketrans(":+'", "*|~")
# the data of a segment: bytes that are all released; in other marks, bytes that have to be released in the canonical text;
# components of one byte
ROOM = SEGMENT - len("FTX+'") - 1
RELEASED, DOUBLED, COMPONENTS = "?+" * (ROOM // 2), "?'+:" * (ROOM // 4), "a:" * (ROOM // 2) + "a"


def listing(who, *entries):
    return asking("GET", f"/p/{who}/mail/after/0", who), response(200, listed(*entries))


# Hubs, each as the requests that make it.


def orders_hub(_):
    for it in LARGE_ORDERS:
        yield upload(RETAILER, f"L{it}", "ORDERS", [order(it, LARGE)], size=0)
    yield upload(RETAILER, "S", "ORDERS", [order(it, SMALL, quantity=2_000) for it in SMALL_ORDERS], size=0)


def remembered_hub(is_long):
    for k in range(1, REMEMBERED[is_long] + 1):
        yield full_of("B", f"B{k}", DOUBLED, k, OTHER_MARKS)


def taken_hub(_):
    for who, taken in ((ALPHA, TAKEN), (BETA, FEW_TAKEN)):
        for first in range(0, taken + 1, MESSAGES):
            orders = [order(f"M{k}", 1, who) for k in range(first, min(first + MESSAGES, taken + 1))]
            yield upload(RETAILER, f"{who[0]}{first}", "ORDERS", orders, size=ENTRY * len(orders) + AROUND)
        for k in range(1, taken + 1):
            yield asking("POST", f"/p/{who}/mail/item/{k}/taken", who, ""), response(200, "taken\n")


def status_orders():
    return LARGE_ORDERS[: LONG_STATUS // AT_ONCE]


def status_hub(_):
    for place, it in enumerate(status_orders()):
        yield upload(RETAILER, f"L{it}", "ORDERS", [order(it, AT_ONCE)], size=0)
        units = [(place * AT_ONCE + line, [(item(line), None)]) for line in range(1, AT_ONCE + 1)]
        yield upload(ALPHA, f"D{it}", "DESADV", [advice(it, *units, named=it)], size=0)
    for it in SMALL_ORDERS[:3]:
        yield upload(RETAILER, f"O{it}", "ORDERS", [order(it, OTHERS, BETA)], size=0)


HUBS = {"orders": orders_hub, "long contents": remembered_hub, "taken entries": taken_hub, "a long status": status_hub}


class Served:
    """The program over a folder, and what each request takes of the processor."""

    def __init__(self, program, folder):
        self.server = Server(program, CONNECTIONS, folder=folder)
        if not self.server.lines[0].startswith(b"listening "):
            raise Wrong(f"the hub is not served: {self.server.error!r}")

    def seconds(self):
        """The processor time of the server so far, to the nanosecond: its user and its system time together."""
        with open(f"/proc/{self.server.child.pid}/schedstat", encoding="ascii") as file:
            return int(file.read().split()[0]) / 1e9

    def memory(self, which):
        """What the system says of the server's memory, in bytes: `VmRSS`, what it has now, or `VmHWM`, the most since `forget_most`."""
        with open(f"/proc/{self.server.child.pid}/status", encoding="ascii") as file:
            return next(int(it.split()[1]) << 10 for it in file if it.startswith(f"{which}:"))

    def forget_most(self):
        with open(f"/proc/{self.server.child.pid}/clear_refs", "w", encoding="ascii") as file:
            file.write("5")

    def ask(self, request, right):
        with socket.create_connection(("127.0.0.1", self.server.port), LONGEST) as one:
            one.sendall(request)
            given = all_of(one)
        line = self.server.child.stdout.readline()
        if given != right or not line.endswith(b" 200\n"):
            raise Wrong(f"{request!r:.300} was answered {given!r:.600} and {line!r}, not {right!r:.600}")

    def take(self, request, right):
        """The processor seconds of a request."""
        before = self.seconds()
        self.ask(request, right)
        # until it waits for the next connection
        time.sleep(0.01)
        return self.seconds() - before

    def median(self, rounds, most=ROUNDS):
        times = []
        for request, right in islice(rounds, most):
            times.append(self.take(request, right))
            if times[0] > SHORT:
                break
        return statistics.median(times)

    def end(self):
        self.server.child.kill()
        self.server.child.communicate()


class Bench:
    """The rows so far, the typical upload and the reading of a line, in seconds."""

    def __init__(self, figures, program, top, is_long):
        self.figures, self.program, self.top, self.is_long = figures, program, top, is_long
        self.typical, self.reading = 0.0, 0.0
        self.pallets = count(1)

    def made(self, name):
        """The folder of a hub."""
        folder = tempfile.mkdtemp(dir=self.top)
        found(self.program, folder)
        begun, served = time.monotonic(), Served(self.program, folder)
        try:
            for request, right in HUBS[name](self.is_long) if name else ():
                served.ask(request, right)
        finally:
            served.end()
        size = sum(os.path.getsize(os.path.join(folder, it)) for it in os.listdir(folder)) / 1e6
        print(f"made: the hub of {name or 'no orders'}, {size:.0f} MB in {time.monotonic() - begun:.0f} s", flush=True)
        return folder

    def over(self, name, scene):
        """Makes a hub, and asks the rows of a scene over a copy."""
        folder = self.made(name)
        served = Served(self.program, shutil.copytree(folder, tempfile.mkdtemp(dir=self.top), dirs_exist_ok=True))
        try:
            scene(self, served)
        finally:
            served.end()
            for it in (folder, served.server.folder):
                shutil.rmtree(it)

    def row(self, served, name, rounds, lines=0):
        """An upload, and how many lines it may read: those that it names by their numbers, and all of an order of which it names one by
        its article."""
        seconds = served.median(rounds)
        print(f"{name}: {1000 * seconds:.0f} ms of processor time", flush=True)
        bound = round(MOST + lines * self.reading / self.typical, 1)
        self.figures.tell(f"{name}: times a typical upload", seconds / self.typical, bound)


# Scenes: the rows over each hub.


def usual(bench, served):
    bench.typical = served.median((typical(f"T{k}", MESSAGES * k) for k in count()), TYPICAL_ROUNDS)
    print(f"a typical upload, {MESSAGES} orders of {USUAL} lines: {1000 * bench.typical:.0f} ms of processor time", flush=True)
    bench.row(served, "the typical upload, repeated", repeat(typical("T0", 0, "repeated")))
    bench.row(served, "the typical upload, refused B04", repeat(typical("T", 0, "refused B04")))
    bench.row(served, "an order of as many lines as fit", (
        fullest(RETAILER, f"F{k}", "ORDERS", lambda lines, k=k: order(f"F{k}", lines, quantity=1)) for k in count()
    ))
    for number, name, data, marks in (
        ("R", "released bytes", RELEASED, None),
        ("D", "bytes that are written as two", DOUBLED, OTHER_MARKS),
        ("C", "components of one byte", COMPONENTS, None),
    ):
        rounds = (full_of(f"{number}{k}", f"{number}{k}", data, marks=marks) for k in count())
        bench.row(served, f"an order full of {name}", rounds)


def lists(bench, served):
    """A list in which all but the last entry are taken."""
    many, few = (
        served.median(repeat(listing(who, (taken + 1, "ORDERS", f"M{taken}"))), LISTS)
        for who, taken in ((ALPHA, TAKEN), (BETA, FEW_TAKEN))
    )
    print(f"a list of {FEW_TAKEN:,} taken entries: {1000 * few:.2f} ms of processor time", flush=True)
    print(f"a list of {TAKEN:,} taken entries: {1000 * many:.2f} ms of processor time", flush=True)
    bench.figures.tell(f"a list of {TAKEN:,} taken entries: times one of {FEW_TAKEN:,}", many / few, MOST_OF_LIST)


def status(bench, served):
    """A status of pallets that are announced, and of the same as they were received."""
    before = served.memory("VmRSS")
    of_each = [(line, f"{item(line):0>14}") for line in range(1, AT_ONCE + 1)]
    lines = [line_status(it, "W", 1_000, 999, 0, 0, 1, line, gtin_) for it in status_orders() for line, gtin_ in of_each]

    def tell(letter, accepted, difference, word):
        pallets = (
            article(sscc(place * AT_ONCE + line), gtin_, letter, 1, accepted, 0, 0, difference)
            for place in range(len(status_orders()))
            for line, gtin_ in of_each
        )
        asked = asking("GET", f"/p/{ALPHA}/status", ALPHA), response(200, told(*lines, *pallets, "end"))
        served.forget_most()
        name, seconds = f"a status of {len(lines):,} lines and as many {word} pallets", served.median(repeat(asked))
        bench.figures.tell(f"{name}: seconds of processor time", seconds, MOST_OF_STATUS)
        # a line, a pallet, what is on it, and what of it was received
        rows = len(lines) * (4 if accepted else 3)
        bench.figures.tell(f"{name}: bytes of memory a row", (served.memory("VmHWM") - before - len(asked[1])) / rows, MOST_OF_ROW)

    tell("A", 0, "+0", "announced")
    for place, it in enumerate(status_orders()):
        units = [(place * AT_ONCE + line, [item(line)]) for line in range(1, AT_ONCE + 1)]
        served.ask(*upload(RETAILER, f"G{it}", "RECADV", [receipt(it, *units)], size=0))
    tell("R", 1, "+0", "received")
    bench.row(served, "a typical upload where another supplier has 90 % of the rows", (
        typical(f"T{k}", MESSAGES * k, supplier=BETA) for k in count()
    ))


def remembered(bench, served):
    messages = [order(f"B{k}", 1) for k in range(1, REMEMBERED[bench.is_long] + 1)]
    asked = upload(RETAILER, "B", "ORDERS", messages, "refused B03")
    bench.row(served, f"{len(messages)} orders refused B03, contents of 2 MiB remembered", repeat(asked))


def reading(bench, served):
    """What a response that names an order takes for each line that the order has more than another."""
    small = served.median(upload(ALPHA, f"Q{it}", "ORDRSP", [answer(f"Q{it}", it, SMALL, by_number=False)]) for it in SMALL_ORDERS)
    large = served.median(upload(ALPHA, f"Q{it}", "ORDRSP", [answer(f"Q{it}", it, LARGE, by_number=False)]) for it in LARGE_ORDERS)
    bench.reading = max(0.0, (large - small) / (LARGE - SMALL))
    print(f"reading a line of an order that is named: {1e6 * bench.reading:.2f} microseconds", flush=True)


def answers(name, orders, word="accepted", supplier=ALPHA):
    """Uploads of 999 responses, each to one line of one of these orders."""
    for k, it in enumerate(orders):
        numbers = range(1, MESSAGES + 1)
        yield upload(ALPHA, f"{name}{k}", "ORDRSP", [answer(f"{name}{k}.{line}", it, line, supplier) for line in numbers], word)


def despatches(bench, name, orders, messages=MESSAGES, by_number=True, each_another=True):
    """Uploads of despatch advices, each of one line of each of these orders: each of another line, or all of the same."""
    for k in count():
        lines = range(1, messages + 1) if each_another else repeat(k + 1, messages)
        makes = [one_each(next(bench.pallets), orders, line, by_number) for line in lines]
        yield upload(ALPHA, f"{name}{k}", "DESADV", makes)


def advised(bench):
    """Uploads of one advice: a pallet with all lines of a large order. And of the receipts of these pallets."""
    despatched, received = [], []
    for it in LARGE_ORDERS[:ROUNDS]:
        pallet = next(bench.pallets)
        lines = [(item(line), None) for line in range(1, LARGE + 1)]
        despatched.append(upload(ALPHA, f"P{it}", "DESADV", [advice(f"P{it}", (pallet, lines), named=it)]))
        received.append(upload(RETAILER, f"P{it}", "RECADV", [receipt(pallet, (pallet, [item(line) for line in range(1, LARGE + 1)]))]))
    return despatched, received


def units(bench):
    """Uploads of one advice, of as many pallets with one line as fit."""
    for it in LARGE_ORDERS:
        first = 1_000_000 * (1 + next(bench.pallets))

        def make(number, it=it, first=first):
            lines = ([(item(k % LARGE + 1), None)] for k in range(number))
            return advice(f"U{it}", *((first + k, line) for k, line in enumerate(lines)), named=it)

        yield fullest(ALPHA, f"U{it}", "DESADV", make)


def orders(bench, served):
    reading(bench, served)
    despatched, received = advised(bench)
    bench.row(served, f"a DESADV of a pallet with {LARGE:,} lines", despatched, LARGE)
    bench.row(served, f"a RECADV of a pallet with {LARGE:,} lines", received)
    bench.row(served, "a DESADV of as many pallets as fit", units(bench), LARGE)
    bench.row(served, f"{MESSAGES} ORDRSP, an order of {SMALL:,} lines", answers("a", SMALL_ORDERS), MESSAGES)
    of_one = f"an order of {LARGE:,} lines"
    bench.row(served, f"{MESSAGES} ORDRSP, {of_one}", answers("A", LARGE_ORDERS), MESSAGES)
    bench.row(served, f"{MESSAGES} ORDRSP, {of_one}, repeated", repeat(next(answers("A", LARGE_ORDERS, "repeated"))))
    other = repeat(next(answers("X", LARGE_ORDERS, "refused B02", BETA)))
    bench.row(served, f"{MESSAGES} ORDRSP, {of_one}, refused B02", other)
    bench.row(served, f"{MESSAGES} ORDRSP, {of_one}, refused B07", repeat(next(answers("Y", LARGE_ORDERS, "refused B07"))), MESSAGES)
    bench.row(served, f"{MESSAGES} DESADV, {of_one}", despatches(bench, "D", LARGE_ORDERS[:1]), MESSAGES)
    each = f"each naming {NAMED} orders of"
    bench.row(served, f"{MESSAGES} DESADV {each} {SMALL:,} lines", despatches(bench, "d", SMALL_ORDERS), MESSAGES * NAMED)
    one_line = despatches(bench, "e", SMALL_ORDERS, each_another=False)
    bench.row(served, f"{MESSAGES} DESADV {each} {SMALL:,} lines, all the same lines", one_line, NAMED)
    number = NAMING[bench.is_long]
    for how, control, by_number, lines in (("line number", "n", True, number * NAMED), ("article", "i", False, NAMED * LARGE)):
        rounds = despatches(bench, control, LARGE_ORDERS, number, by_number)
        bench.row(served, f"{number} DESADV {each} {LARGE:,} lines, by {how}", rounds, lines)


SCENES = {"": usual, "taken entries": lists, "a long status": status, "long contents": remembered, "orders": orders}


def main(program, *words):
    print(f"{os.cpu_count()} processors, {date.today():%d %B %Y}", flush=True)
    figures = Figures()
    try:
        with tempfile.TemporaryDirectory(prefix="worst-") as top:
            bench = Bench(figures, os.path.abspath(program), top, "--long" in words)
            for name, scene in SCENES.items():
                bench.over(name, scene)
    except Wrong as why:
        print(f"wrong: {why}")
        return 1
    figures.end()
    return 0


if __name__ == "__main__":
    sys.exit(main(*sys.argv[1:]))
