"""Which rule refuses a message that breaks several, at each edge; and what the lines, the pallets and the rows of a file are after messages
that break none. Scripts for the program `trial_script`, over lists and over SQL in memory, and for `edihub`, over a file.

Each refusal is also one of the branches in which a false 'out of memory' would meet the contracts."""
from dataclasses import replace

from tests.cases.limits import LAST, last_mail
from tests.harness.database_files import ITEM as OF_ITEM
from tests.harness.database_files import NAME, NUMBER, ROWS, SUPPLIER, TABLES, file_of, has_rows, is_still, is_whole
from tests.harness.doors import mail_text
from tests.harness.hub_scripts import Play, article, interchange, line_status, message
from tests.harness.random_inputs import ITEM, SECOND_ITEM, sscc
from tests.harness.register_texts import ALPHA, BETA, DELTA, GAMMA, RETAILER

OF_SECOND = f"0{SECOND_ITEM}"
PALLETS = [sscc(ALPHA, number) for number in range(6)]
OF_BETA = sscc(BETA, 1)
# an order that nobody has
NOBODYS = "128570"
# the action of a line that is accepted, or not accepted; a quantity changes it
ACTIONS = {"A": 5, "N": 7}
CHANGED = 3


def segments(begin, day, parties, *rest):
    """A header and what comes after it. The parties are the buyer, or nothing, and the supplier."""
    buyer, supplier = parties
    return [begin, f"DTM+137:{day}:102", *([f"NAD+BY+{buyer}::9"] if buyer else []), f"NAD+SU+{supplier}::9", *rest]


def ordering(number, *lines, parties=(RETAILER, ALPHA), reference=1):
    """An order. A line is its number, its article and its quantity."""
    body = [it for line, item, quantity in lines for it in (f"LIN+{line}++{item}:SRV", f"QTY+21:{quantity}")]
    return message("ORDERS:D:01B:UN:EAN010", reference, *segments(f"BGM+220+{number}+9", "20250603", parties, *body, "UNS+S"))


def answering(order, *lines, function=4, parties=(RETAILER, ALPHA), reference=1):
    """A response. A line is its number or nothing, its article, and `A`, `N` or a quantity."""
    body = [f"RFF+ON:{order}"]
    for place, (number, item, said) in enumerate(lines, 1):
        body += [f"LIN+{place}+{ACTIONS.get(said, CHANGED)}+{item}:SRV", *([] if said in ACTIONS else [f"QTY+113:{said}"])]
        body += [f"RFF+ON:{order}:{number}"] if number else []
    return message("ORDRSP:D:01B:UN:EAN009", reference, *segments(f"BGM+231+R1+{function}", "20250603", parties, *body, "UNS+S"))


def despatching(number, *units, parties=(RETAILER, ALPHA), reference=1):
    """A despatch advice. A unit is its SSCC and its lines, each an order, a line number or nothing, an article and a quantity."""
    body = []
    for place, (pallet, *lines) in enumerate(units, 1):
        body += [f"CPS+{place}", f"GIN+BJ+{pallet}"]
        for line, (order, named, item, quantity) in enumerate(lines, 1):
            body += [f"LIN+{line}++{item}:SRV", f"QTY+12:{quantity}", f"RFF+ON:{order}{f':{named}' if named else ''}"]
    return message("DESADV:D:01B:UN:EAN007", reference, *segments(f"BGM+351+{number}+9", "20250604", parties, *body))


def receiving(number, *units, function=9, parties=(RETAILER, ALPHA), reference=1):
    """A receiving advice. A unit is its SSCC and its lines, each an article and its quantities by their kinds."""
    body = []
    for place, (pallet, *lines) in enumerate(units, 1):
        body += [f"CPS+{place}", f"GIN+BJ+{pallet}"]
        for line, (item, *quantities) in enumerate(lines, 1):
            body += [f"LIN+{line}++{item}:SRV", *(f"QTY+{kind}:{quantity}" for kind, quantity in quantities)]
    return message("RECADV:D:01B:UN:EAN005", reference, *segments(f"BGM+632+{number}+{function}", "20250605", parties, *body))


def kind_of(text):
    return text.split("+")[2][:6]


class Told(Play):
    """A script of messages, each in an upload of its own, under references that are counted."""

    def __init__(self):
        super().__init__()
        self.number = 0

    def tell(self, who, text, word="accepted", reference=None):
        self.number += 1
        reference = reference or f"M{self.number}"
        return self.upload(who, interchange(who, reference, text), f"interchange {reference} messages 1", f"1 {kind_of(text)} {word}")

    def together(self, who, reference, *told):
        """Messages of one upload, each with its word."""
        lines = [f"{place} {kind_of(text)} {word}" for place, (text, word) in enumerate(told, 1)]
        text = interchange(who, reference, *(text for text, _ in told))
        return self.upload(who, text, f"interchange {reference} messages {len(told)}", *lines)


def line(order, answer, *quantities, number=1, item=OF_ITEM.decode()):
    """A line of a status: its ordered, open, refused, cancelled and despatched quantities."""
    return line_status(order, answer, *quantities, line=number, gtin=item)


def announced(pallet, quantity, item=OF_ITEM.decode()):
    return article(pallet, item, "A", quantity, 0, 0, 0, "+0")


# Responses


def answers_to_a_line():
    """48 ordered and 12 despatched: between these a line takes any quantity. B05, B06, B07, B08, B09 in this order."""
    orders, play = [f"12857{k}" for k in range(1, 6)], Told()
    for order in orders:
        play.tell(RETAILER, ordering(order, (1, ITEM, 48)))
    play.tell(ALPHA, despatching("DA1", (PALLETS[1], *((order, 1, ITEM, 12) for order in orders))))
    pallet = announced(PALLETS[1], 60)
    for order, number, item, said, code in [
        (NOBODYS, 2, SECOND_ITEM, 49, "B05"),
        (NOBODYS, None, SECOND_ITEM, 49, "B05"),
        (orders[0], 2, ITEM, 49, "B06"),
        (orders[0], None, SECOND_ITEM, 49, "B06"),
        (orders[0], 1, ITEM, 11, "B08"),
        (orders[0], None, ITEM, 11, "B08"),
        (orders[0], 1, ITEM, 49, "B08"),
        (orders[0], 1, SECOND_ITEM, 49, "B08"),
        (orders[0], 1, SECOND_ITEM, 20, "B09"),
        (orders[0], 1, SECOND_ITEM, "A", "B09"),
    ]:
        play.tell(ALPHA, answering(order, (number, item, said)), f"refused {code}")
    # a line is answered once in a message, however it is named
    play.tell(ALPHA, answering(orders[0], (1, ITEM, 20), (None, ITEM, "A")), "refused B07")
    play.tell(ALPHA, answering(orders[0], (None, ITEM, "N"), (1, ITEM, "A")), "refused B07")
    play.tell(ALPHA, answering(orders[0], (1, ITEM, "A"), (1, ITEM, "A")), "refused B07")
    play.status(*(line(order, "W", 48, 36, 0, 0, 12) for order in orders), pallet)
    named = [(1, ITEM, 12), (1, ITEM, 48), (1, ITEM, "A"), (1, ITEM, "N"), (None, ITEM, 36)]
    for order, it in zip(orders, named):
        play.tell(ALPHA, answering(order, it))
    left = [("C", 48, 0, 36, 0, 12), ("C", 48, 36, 0, 0, 12), ("A", 48, 36, 0, 0, 12), ("N", 48, 0, 36, 0, 12), ("C", 48, 24, 12, 0, 12)]
    for order in orders:
        play.tell(ALPHA, answering(order, (1, ITEM, 20)), "refused B07").tell(ALPHA, answering(order, (1, SECOND_ITEM, 49)), "refused B07")
    play.status(*(line(order, *it) for order, it in zip(orders, left)), pallet)
    return play, {"line": [row(order, *it) for order, it in zip(orders, left)]}


def row(order, answer, ordered, opened, refused, cancelled, _despatched, number=1, item=OF_ITEM, supplier=SUPPLIER):
    """A row of a line, from what a status says of it."""
    return (supplier, order.encode(), number, item, ordered, opened, refused, cancelled, ord(answer))


def answers_to_several_lines():
    """An article that is on two lines needs a number; what is answered whole is the lines of that order that wait."""
    play = Told().tell(RETAILER, ordering("128575", (1, ITEM, 48)))
    play.tell(RETAILER, ordering("128576", (5, SECOND_ITEM, 48), (2, ITEM, 48), (1, ITEM, 48)))
    play.tell(RETAILER, ordering("128577", (1, ITEM, 48), (2, ITEM, 30)))
    play.tell(ALPHA, despatching("DA1", (PALLETS[1], ("128576", 1, ITEM, 12), ("128576", 2, ITEM, 12), ("128577", 2, ITEM, 12))))
    pallet = announced(PALLETS[1], 36)
    waiting = [
        line("128575", "W", 48, 48, 0, 0, 0), line("128576", "W", 48, 36, 0, 0, 12), line("128576", "W", 48, 36, 0, 0, 12, number=2),
        line("128576", "W", 48, 48, 0, 0, 0, number=5, item=OF_SECOND), line("128577", "W", 48, 48, 0, 0, 0),
        line("128577", "W", 30, 18, 0, 0, 12, number=2),
    ]
    play.tell(ALPHA, answering("128576", (None, ITEM, "A")), "refused B06")
    play.tell(ALPHA, answering("128576", (None, SECOND_ITEM, 20), (None, ITEM, "A")), "refused B06")
    play.tell(ALPHA, answering("128576", (1, ITEM, "A"), (3, ITEM, "A")), "refused B06").status(*waiting, pallet)
    play.tell(ALPHA, answering("128576", (2, ITEM, "A"), (1, ITEM, 20), (None, SECOND_ITEM, 47)))
    answered = [
        line("128576", "C", 48, 8, 28, 0, 12), line("128576", "A", 48, 36, 0, 0, 12, number=2),
        line("128576", "C", 48, 47, 1, 0, 0, number=5, item=OF_SECOND),
    ]
    play.status(waiting[0], *answered, *waiting[4:], pallet)
    for function in (27, 29):
        play.tell(ALPHA, answering("128576", function=function), "refused B07")
        play.tell(ALPHA, answering(NOBODYS, function=function), "refused B05")
    play.tell(ALPHA, answering("128577", (1, ITEM, "A"))).tell(ALPHA, answering("128577", function=27))
    last = [line("128577", "A", 48, 48, 0, 0, 0), line("128577", "N", 30, 0, 18, 0, 12, number=2)]
    play.status(waiting[0], *answered, *last, pallet)
    play.tell(ALPHA, answering("128577", function=29), "refused B07").tell(ALPHA, answering("128575", function=29))
    play.status(line("128575", "A", 48, 48, 0, 0, 0), *answered, *last, pallet)
    return play, {
        "line": [
            row("128575", "A", 48, 48, 0, 0, 0), row("128576", "C", 48, 8, 28, 0, 12), row("128576", "A", 48, 36, 0, 0, 12, 2),
            row("128576", "C", 48, 47, 1, 0, 0, 5, OF_SECOND.encode()), row("128577", "A", 48, 48, 0, 0, 0),
            row("128577", "N", 30, 0, 18, 0, 12, 2),
        ]
    }


# Despatches


def despatches():
    """B13 before all that is wrong in a unit; B11 and B12 of a unit, then B05, B06, B09 and B10 of its lines, then the next unit."""
    play = Told().tell(RETAILER, ordering("128576", (1, ITEM, 48))).tell(RETAILER, ordering("128577", (1, ITEM, 48)))
    play.tell(RETAILER, ordering("128576", (1, ITEM, 48), parties=(RETAILER, BETA)), reference="O1")
    play.tell(ALPHA, answering("128576", (1, ITEM, 24)))
    play.tell(BETA, despatching("DA1", (OF_BETA, ("128576", None, ITEM, 1)), parties=(RETAILER, BETA)))
    play.tell(ALPHA, despatching("DA1", (PALLETS[1], ("128577", 1, ITEM, 12))))
    used, free, third, fourth = PALLETS[1:5]
    unknown, much = (NOBODYS, None, ITEM, 99), ("128576", 1, ITEM, 25)
    open_ = lambda quantity: ("128576", None, ITEM, quantity)
    for number, code, *units in [
        ("DA1", "B13", (OF_BETA, unknown)),
        ("DA1", "B13", (used, unknown)),
        ("DA1", "B13", (free, much)),
        ("DA2", "B11", (OF_BETA, unknown)),
        ("DA2", "B12", (used, unknown)),
        ("DA2", "B05", (free, unknown, unknown)),
        ("DA2", "B05", (free, (NOBODYS, 1, SECOND_ITEM, 99))),
        ("DA2", "B06", (free, ("128576", 2, SECOND_ITEM, 99))),
        ("DA2", "B06", (free, ("128576", None, SECOND_ITEM, 99))),
        ("DA2", "B09", (free, ("128576", 1, SECOND_ITEM, 99))),
        ("DA2", "B09", (free, ("128576", 1, SECOND_ITEM, 1))),
        ("DA2", "B10", (free, much)),
        ("DA2", "B10", (free, open_(20), open_(5))),
        ("DA2", "B10", (free, ("128576", 1, ITEM, 20), open_(5))),
        ("DA2", "B10", (free, open_(20), ("128576", 1, ITEM, 5))),
        # of several units
        ("DA2", "B11", (OF_BETA, open_(20)), (free, unknown)),
        ("DA2", "B11", (free, open_(20)), (OF_BETA, unknown)),
        ("DA2", "B05", (free, open_(20)), (third, unknown)),
        ("DA2", "B12", (free, open_(20)), (used, unknown)),
        ("DA2", "B10", (free, much), (used, open_(4))),
        ("DA2", "B10", (free, open_(20)), (third, open_(5))),
        ("DA2", "B10", (free, open_(10)), (third, open_(9)), (fourth, open_(6))),
        # two units of one pallet are no advice
        ("DA2", "M10", (free, open_(20)), (free, open_(4))),
        ("DA2", "M10", (free, open_(10)), (third, open_(9)), (free, open_(4))),
    ]:
        play.tell(ALPHA, despatching(number, *units), f"refused {code}")
    first = [line("128576", "C", 48, 24, 24, 0, 0), line("128577", "W", 48, 36, 0, 0, 12), announced(used, 12)]
    play.status(*first)
    play.tell(ALPHA, despatching("DA2", (free, open_(20), open_(4))), reference="S9")
    play.status(line("128576", "C", 48, 0, 24, 0, 24), *first[1:], announced(free, 24))
    play.tell(ALPHA, despatching("DA2", (free, open_(20), open_(4))), "repeated", "S9")
    play.tell(ALPHA, despatching("DA2", (free, open_(20), open_(3))), "refused B03", "S9")
    beta = BETA.encode()
    return play, {
        "advice": [(SUPPLIER, b"DA1"), (SUPPLIER, b"DA2"), (beta, b"DA1")],
        "pallet": [(used.encode(), SUPPLIER, b"DA1", 0), (free.encode(), SUPPLIER, b"DA2", 0), (OF_BETA.encode(), beta, b"DA1", 0)],
        "content": [
            (used.encode(), 1, b"128577", 1, 12), (free.encode(), 1, b"128576", 1, 20), (free.encode(), 2, b"128576", 1, 4),
            (OF_BETA.encode(), 1, b"128576", 1, 1),
        ],
        "line": [
            row("128576", "C", 48, 0, 24, 0, 24), row("128577", "W", 48, 36, 0, 0, 12),
            row("128576", "W", 48, 47, 0, 0, 1, supplier=beta),
        ],
    }


def kept_lines():
    """In one upload: lines that are named by number and by article in turn, each as the messages before left it, and each order looked up
    once, also one that is not there."""
    play = Told().tell(RETAILER, ordering("128575", (1, ITEM, 48)))
    play.tell(RETAILER, ordering("128577", (1, ITEM, 48)))
    play.tell(RETAILER, ordering("128576", (1, ITEM, 48), (2, ITEM, 48), (5, SECOND_ITEM, 48))).say("mend")
    of = lambda named, quantity, item=SECOND_ITEM, order="128576": (order, named, item, quantity)
    one = lambda named, quantity: of(named, quantity, ITEM, "128575")
    told = [
        (answering("128576", (None, SECOND_ITEM, 40), reference=1), "accepted"),
        (answering("128576", (5, SECOND_ITEM, "A"), reference=2), "refused B07"),
        (despatching("DA1", (PALLETS[1], of(None, 41)), reference=3), "refused B10"),
        (despatching("DA1", (PALLETS[1], of(5, 10), of(None, 10), of(5, 10)), reference=4), "accepted"),
        (despatching("DA2", (PALLETS[2], of(None, 11)), reference=5), "refused B10"),
        (despatching("DA2", (PALLETS[2], of(None, 10)), reference=6), "accepted"),
        (despatching("DA3", (PALLETS[3], of(5, 1)), reference=7), "refused B10"),
        # the same number in two orders, by number and by article
        (
            despatching("DA3", (PALLETS[3], one(None, 20), of(1, 20, ITEM), one(1, 28), of(1, 28, ITEM)), reference=8), "accepted"
        ),
        (despatching("DA4", (PALLETS[4], one(None, 1)), reference=9), "refused B10"),
        (despatching("DA4", (PALLETS[4], of(1, 1, ITEM)), reference=10), "refused B10"),
        (despatching("DA4", (PALLETS[4], of(None, 1, ITEM)), reference=11), "refused B06"),
        (despatching("DA4", (PALLETS[4], of(3, 1, ITEM)), reference=12), "refused B06"),
        (despatching("DA4", (PALLETS[4], of(2, 99)), reference=13), "refused B09"),
        (despatching("DA4", (PALLETS[4], of(2, 49, ITEM)), reference=14), "refused B10"),
        (despatching("DA4", (PALLETS[4], of(None, 1, ITEM, NOBODYS)), reference=15), "refused B05"),
        (despatching("DA4", (PALLETS[4], of(None, 1, ITEM, NOBODYS)), reference=16), "refused B05"),
        (answering("128576", function=27, reference=17), "accepted"),
        (answering("128576", function=29, reference=18), "refused B07"),
        (answering("128575", (None, ITEM, 48), reference=19), "accepted"),
        (answering("128575", (1, ITEM, 48), reference=20), "refused B07"),
        # lines that are looked up by their numbers, beside what is kept
        (answering("128577", (1, ITEM, 40), reference=21), "accepted"),
        (despatching("DA4", (PALLETS[4], of(1, 41, ITEM, "128577")), reference=22), "refused B10"),
        (despatching("DA4", (PALLETS[4], of(1, 40, ITEM, "128577")), reference=23), "accepted"),
        (despatching("DA5", (PALLETS[5], of(None, 1, ITEM, "128577")), reference=24), "refused B10"),
        (answering("128576", function=27, reference=25), "refused B07"),
    ]
    # of a response one for what is remembered, of an advice three, two for each order, and two for each message that names only numbers
    play.together(ALPHA, "S1", *told).counts(8 * 1 + 17 * 3 + 4 * 2 + 3 * 2, 8)
    return play.status(
        line("128575", "C", 48, 0, 0, 0, 48), line("128576", "N", 48, 0, 0, 0, 48), line("128576", "N", 48, 0, 48, 0, 0, number=2),
        line("128576", "C", 48, 0, 8, 0, 40, number=5, item=OF_SECOND), line("128577", "C", 48, 0, 8, 0, 40),
        announced(PALLETS[1], 30, OF_SECOND), announced(PALLETS[2], 10, OF_SECOND), announced(PALLETS[3], 96), announced(PALLETS[4], 40),
    ), {
        "line": [
            row("128575", "C", 48, 0, 0, 0, 48), row("128576", "N", 48, 0, 0, 0, 48), row("128576", "N", 48, 0, 48, 0, 0, 2),
            row("128576", "C", 48, 0, 8, 0, 40, 5, OF_SECOND.encode()), row("128577", "C", 48, 0, 8, 0, 40),
        ]
    }


def most_kept(lines=25_000, orders=16):
    """So many lines of orders are kept within an upload; with one more, all are forgotten before the next message. What is looked up by the
    numbers of its lines is not kept, and does not count."""
    play, least, numbers = Told(), "96385074", [str(number) for number in range(orders)]
    for number in numbers:
        play.tell(RETAILER, ordering(number, *((it, least, 1) for it in range(1, lines + 1))))
    play.tell(RETAILER, ordering("one", (1, least, 1))).say("mend")
    # the whole order is looked up for its article, which is on several lines
    first, all_of_one = (numbers[0], "B06", 1), ("one", "B08", 3)
    asked = [(it, "B06", 3) for it in numbers] + [first, ("one", "B10", 5), first, all_of_one, (*first[:2], 3), all_of_one, first]
    told = []
    for reference, (number, code, _) in enumerate(asked, 1):
        text = answering(number, (None, least, 2), reference=reference)
        if code == "B10":
            text = despatching("DA1", (PALLETS[1], (number, 1, least, 2)), reference=reference)
        told.append((text, f"refused {code}"))
    return play.together(ALPHA, "S1", *told).counts(sum(look_ups for _, _, look_ups in asked), 0)


# Receipts and cancellations

# two articles on one pallet, with a line of one between two of the other; and one on another
MIXED = ((ITEM, (194, 7), (195, 1)), (SECOND_ITEM, (194, 3)), (ITEM, (194, 3), (196, 2)))
RETURNED = ((ITEM, (195, 12)),)


def receipts():
    """B14 and B15 of a unit before those of the next; sums for each article; and what a receipt that replaces leaves."""
    play, known, none = Told().tell(RETAILER, ordering("128576", (1, ITEM, 48))), PALLETS[1:5], PALLETS[0]
    play.tell(ALPHA, despatching("DA1", *((it, ("128576", 1, ITEM, 12)) for it in known)))
    both = lambda *pallets: [(it, *(RETURNED if place else MIXED)) for place, it in enumerate(pallets)]
    play.tell(RETAILER, receiving("G1", *both(none, known[0])), "refused B14").tell(
        RETAILER, receiving("G1", *both(known[0], none)), "refused B14"
    )
    play.tell(RETAILER, receiving("G1", *both(*known[:2])))
    head = line("128576", "W", 48, 0, 0, 0, 48)
    mixed = lambda letter, pallet: (
        article(pallet, OF_ITEM.decode(), letter, 12, 10, 1, 2, "+1"), article(pallet, OF_SECOND, letter, 0, 3, 0, 0, "+3")
    )
    returned = lambda letter, pallet: article(pallet, OF_ITEM.decode(), letter, 12, 0, 12, 0, "+0")
    rest = [announced(it, 12) for it in known[2:]]
    play.status(head, *mixed("R", known[0]), returned("R", known[1]), *rest)
    for code, function, *pallets in [
        ("B15", 9, known[0], none), ("B14", 9, none, known[0]), ("B15", 9, known[2], known[0]), ("B14", 9, known[2], none),
        ("B14", 5, known[0], none), ("B14", 5, none, known[0]),
        # two units of one pallet are no advice
        ("M10", 9, known[2], known[2]), ("M10", 9, none, none), ("M10", 5, known[0], known[0]),
    ]:
        play.tell(RETAILER, receiving("G2", *both(*pallets), function=function), f"refused {code}")
    play.status(head, *mixed("R", known[0]), returned("R", known[1]), *rest)
    play.tell(RETAILER, receiving("G3", *both(known[1], known[2]), function=5))
    play.status(head, *mixed("R", known[0]), *mixed("C", known[1]), returned("C", known[2]), rest[1])
    play.tell(RETAILER, receiving("G4", *both(known[3], known[2])), "refused B15")
    play.tell(RETAILER, receiving("G4", *both(known[2], known[1]), function=5))
    play.status(head, *mixed("R", known[0]), returned("C", known[1]), *mixed("C", known[2]), rest[1])
    # a buyer need not be named
    play.tell(RETAILER, receiving("G5", (known[3], *RETURNED), parties=(None, ALPHA)))
    play.list(1, (2, "RECADV", "G1"), (3, "RECADV", "G3"), (4, "RECADV", "G4"), (5, "RECADV", "G5"))
    states, item, second = (1, 2, 2, 1), OF_ITEM, OF_SECOND.encode()
    sums = [(0, item, 10, 1, 2), (0, second, 3, 0, 0), (1, item, 0, 12, 0), (2, item, 10, 1, 2), (2, second, 3, 0, 0), (3, item, 0, 12, 0)]
    return play, {
        "pallet": [(it.encode(), SUPPLIER, b"DA1", state) for it, state in zip(known, states)],
        "receipt": [(known[place].encode(), *its) for place, *its in sums],
    }


def cancellations():
    """B02, B03, B05, B06 and B17, and all that is open."""
    play = Told().tell(RETAILER, ordering("128576", (1, ITEM, 48))).tell(RETAILER, ordering("128577", (1, ITEM, 48)))
    play.tell(ALPHA, answering("128576", (1, ITEM, 36)))
    play.cancel("C1", 1, 37, "refused B17").cancel("C1", 2, 37, "refused B06").cancel("C1", 2, 37, "refused B05", NOBODYS)
    play.cancel("C1", 1, 37, "refused B02", NOBODYS, DELTA)
    play.cancel("C1", 1, 10, "accepted").cancel("C1", 1, 10, "repeated").cancel("C1", 2, 37, "refused B03", NOBODYS)
    play.cancel("C1", 1, 10, "refused B02", supplier=DELTA)
    play.status(line("128576", "C", 48, 26, 12, 10, 0), line("128577", "W", 48, 48, 0, 0, 0))
    play.cancel("C2", 1, 27, "refused B17").cancel("C2", 1, 26, "accepted").cancel("C3", 1, 1, "refused B17")
    # what is cancelled can no longer be changed to, nor despatched
    play.cancel("C4", 1, 8, "accepted", "128577").tell(ALPHA, answering("128577", (1, ITEM, 41)), "refused B08")
    play.tell(ALPHA, despatching("DA1", (PALLETS[1], ("128577", 1, ITEM, 41))), "refused B10")
    play.tell(ALPHA, answering("128577", (1, ITEM, 40)))
    play.status(line("128576", "C", 48, 0, 12, 36, 0), line("128577", "C", 48, 40, 0, 8, 0))
    return play, {"line": [row("128576", "C", 48, 0, 12, 36, 0), row("128577", "C", 48, 40, 0, 8, 0)]}


# Parties, and what is remembered


def parties():
    """B01, B02 and B03 come first, in this order; then B04, and B13."""
    play = Told().tell(RETAILER, ordering("128576", (1, ITEM, 48)), reference="O1")
    play.tell(ALPHA, answering("128576", (1, ITEM, "A")), reference="S1")
    play.tell(ALPHA, despatching("DA1", (PALLETS[1], ("128576", 1, ITEM, 12))), reference="S2")
    play.tell(RETAILER, receiving("G1", (PALLETS[1], *RETURNED)), reference="G1")
    others, unknown = (BETA, GAMMA), (RETAILER, GAMMA)
    for reference in ("O1", "O2"):
        play.tell(RETAILER, ordering("128576", (1, ITEM, 1), parties=others), "refused B01", reference)
        play.tell(RETAILER, ordering("128576", (1, ITEM, 1), parties=(BETA, ALPHA)), "refused B01", reference)
        play.tell(RETAILER, ordering("128576", (1, ITEM, 1), parties=unknown), "refused B02", reference)
        play.tell(RETAILER, receiving("G1", (PALLETS[0], *RETURNED), parties=others), "refused B01", reference)
        play.tell(RETAILER, receiving("G1", (PALLETS[0], *RETURNED), parties=(BETA, ALPHA)), "refused B01", reference)
        play.tell(RETAILER, receiving("G1", (PALLETS[0], *RETURNED), parties=unknown), "refused B02", reference)
        play.tell(RETAILER, receiving("G1", (PALLETS[0], *RETURNED), parties=(None, GAMMA)), "refused B02", reference)
    for reference in ("S1", "S2", "S3"):
        for of, code in ((others, "B01"), ((BETA, ALPHA), "B01"), ((RETAILER, BETA), "B02"), (unknown, "B02")):
            play.tell(ALPHA, answering(NOBODYS, (9, ITEM, 99), parties=of), f"refused {code}", reference)
            play.tell(ALPHA, despatching("DA1", (OF_BETA, (NOBODYS, 9, ITEM, 99)), parties=of), f"refused {code}", reference)
        play.tell(ALPHA, despatching("DA1", (OF_BETA, (NOBODYS, 9, ITEM, 99)), parties=(None, BETA)), "refused B02", reference)
    for reference in ("O1", "G1"):
        play.tell(RETAILER, ordering("128576", (1, ITEM, 1)), "refused B03", reference)
        play.tell(RETAILER, receiving("G1", (PALLETS[0], *RETURNED)), "refused B03", reference)
        play.tell(RETAILER, receiving("G1", (PALLETS[1], *RETURNED), function=5), "refused B03", reference)
    for reference in ("S1", "S2"):
        play.tell(ALPHA, answering(NOBODYS, (9, ITEM, 99)), "refused B03", reference)
        play.tell(ALPHA, answering(NOBODYS, function=27), "refused B03", reference)
        play.tell(ALPHA, despatching("DA1", (OF_BETA, (NOBODYS, 9, ITEM, 99))), "refused B03", reference)
    play.tell(RETAILER, ordering("128576", (1, ITEM, 1)), "refused B04", "O2")
    play.tell(ALPHA, despatching("DA1", (OF_BETA, (NOBODYS, 9, ITEM, 99))), "refused B13", "S3")
    # the same once more, whatever is true by now
    play.tell(RETAILER, ordering("128576", (1, ITEM, 48)), "repeated", "O1")
    play.tell(ALPHA, answering("128576", (1, ITEM, "A")), "repeated", "S1")
    play.tell(ALPHA, despatching("DA1", (PALLETS[1], ("128576", 1, ITEM, 12))), "repeated", "S2")
    play.tell(RETAILER, receiving("G1", (PALLETS[1], *RETURNED)), "repeated", "G1")
    play.status(line("128576", "A", 48, 36, 0, 0, 12), article(PALLETS[1], OF_ITEM.decode(), "R", 12, 0, 12, 0, "+0"))
    return play.list(0, (1, "ORDERS", "128576"), (2, "RECADV", "G1")), {'"order"': [(SUPPLIER, NUMBER)], "advice": [(SUPPLIER, b"DA1")]}


# Over files


def full_by_an_order():
    """The last number of a mailbox is given to an order; after it B03 and B04 come before B16, and B16 before B14 and B15."""
    number, last = PALLETS[1], ordering("N1", (1, ITEM, 48))
    play = Told().tell(RETAILER, last, reference="O1").list(LAST - 1, (LAST, "ORDERS", "N1")).item(LAST, mail_text(last, LAST))
    play.tell(RETAILER, last, "repeated", "O1").tell(RETAILER, ordering("N1", (1, ITEM, 49)), "refused B03", "O1")
    play.tell(RETAILER, last, "refused B04", "O2").tell(RETAILER, ordering("N2", (1, ITEM, 48)), "refused B16", "O2")
    for function in (9, 5):
        play.tell(RETAILER, receiving("G1", (number, *RETURNED), function=function), "refused B03", "O1")
        play.tell(RETAILER, receiving("G1", (number, *RETURNED), function=function), "refused B16")
        play.tell(RETAILER, receiving("G1", (PALLETS[0], *RETURNED), function=function), "refused B16")
    # another supplier's mailbox has room
    return play.tell(RETAILER, ordering("N1", (1, ITEM, 48), parties=(RETAILER, BETA))).list(0, (1, "ORDERS", "N1"), who=BETA)


def full_by_a_receipt():
    """The last number is given to a receipt; the pallet is received, and B16 comes before B15."""
    last = receiving("G1", (PALLETS[1], *RETURNED))
    play = Told().tell(RETAILER, last, reference="G1").list(LAST - 1, (LAST, "RECADV", "G1")).item(LAST, mail_text(last, LAST))
    play.tell(RETAILER, last, "repeated", "G1").tell(RETAILER, receiving("G1", (PALLETS[1], *MIXED)), "refused B03", "G1")
    play.tell(RETAILER, last, "refused B16", "G2").tell(RETAILER, ordering("N2", (1, ITEM, 48)), "refused B16", "G2")
    return play.status(line("128576", "C", 48, 24, 12, 0, 12), article(PALLETS[1], OF_ITEM.decode(), "R", 12, 0, 12, 0, "+0"))


def changed_again():
    """A line that waits although some of it is refused and cancelled, which no message makes: a change adds to what is refused."""
    play = Told().tell(ALPHA, answering("128576", (1, ITEM, 11)), "refused B08")
    play.tell(ALPHA, answering("128576", (1, ITEM, 43)), "refused B08")
    return play.tell(ALPHA, answering("128576", (1, ITEM, 20))).status(line("128576", "C", 48, 8, 26, 2, 12), announced(PALLETS[1], 12))


def of_nobody():
    """What is remembered of a supplier that is not registered: B02 comes before B03."""
    play = Told().tell(RETAILER, ordering("1", (1, ITEM, 48), parties=(RETAILER, GAMMA)), "refused B02", "O1")
    play.tell(RETAILER, receiving("G1", (PALLETS[1], *RETURNED), parties=(RETAILER, GAMMA)), "refused B02", "O1")
    return play.cancel("C1", 1, 10, "refused B02", supplier=GAMMA)


def unusable():
    """A line of which more is open, refused and cancelled than is ordered stops whatever names its order, and nothing changes."""
    texts = [
        ("a whole answer", answering("128576", function=27)),
        ("an answer by number", answering("128576", (1, ITEM, "A"))),
        ("an answer by article", answering("128576", (None, ITEM, "A"))),
        ("an advice by number", despatching("DA2", (PALLETS[2], ("128576", 1, ITEM, 1)))),
        ("an advice by article", despatching("DA2", (PALLETS[2], ("128576", None, ITEM, 1)))),
    ]
    for quantities in ((49, 0, 0), (30, 19, 0), (30, 4, 15)):
        data = file_of(TABLES, {**ROWS, "line": [(SUPPLIER, NUMBER, 1, OF_ITEM, 48, *quantities, ord("W"))]})
        plays = [
            (name, Play().upload(ALPHA, interchange(ALPHA, "S9", text), "interchange S9 messages 1", "stopped", outcome="stopped"))
            for name, text in texts
        ]
        plays.append(("a cancellation", Play().ask(RETAILER, "cancel", "stopped", "stopped\n", f"{ALPHA}\nC1\n128576\n1\n1\n")))
        for name, play in plays:
            named = f"48 ordered, of which {'+'.join(map(str, quantities))} are open, refused and cancelled: {name}"
            yield named, play, {NAME: data}, is_still(data)


BEGUN = [(SUPPLIER, NUMBER, 1, OF_ITEM, 48, 30, 4, 2, ord("W"))]
REMEMBERED = [(GAMMA.encode(), ord("R"), b"O1", b"1", b"UNH"), (GAMMA.encode(), ord("C"), b"C1", b"", b"other")]
BY_FILES = [
    ("a mailbox that an order fills", full_by_an_order(), last_mail(LAST - 1)),
    ("a mailbox that a receipt fills", full_by_a_receipt(), last_mail(LAST - 1)),
    ("a line that waits, of which some is refused and cancelled", changed_again(), {NAME: file_of(TABLES, {**ROWS, "line": BEGUN})}),
    ("what is remembered of nobody", of_nobody(), {NAME: file_of(TABLES, {**ROWS, "remembered": REMEMBERED})}),
]
PLAYS = [
    ("answers to a line, at each edge", *answers_to_a_line()),
    ("answers to several lines", *answers_to_several_lines()),
    ("despatches that break several rules", *despatches()),
    ("lines as the messages of one upload leave them", *kept_lines()),
    ("receipts that break several rules", *receipts()),
    ("cancellations that break several rules", *cancellations()),
    ("parties, and what is remembered, before all else", *parties()),
]
ORDER = [play.case(name) for name, play, _ in PLAYS]
ORDER += [replace(it, name=f"{it.name}, over SQL", words=["sql"]) for it in ORDER]
# what is played on a file: its first content, and what is wrong with it then
ON_FILES = [
    *((name, play, {}, has_rows(left)) for name, play, left in PLAYS),
    *((name, play, files, is_whole) for name, play, files in BY_FILES),
    *unusable(),
    ("orders of 400,000 lines in one upload, and of one more", most_kept(), {}, is_whole),
]
