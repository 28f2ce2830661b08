"""A retailer's trade with many suppliers: the messages of each order, the requests that carry them, and the status that a supplier then
sees. The right answers are computed here from the rules, and never taken from the program."""
from bench.hub import gtin
from bench.loads import with_check_digit
from tests.harness.http_texts import asking
from tests.harness.hub_scripts import KEYS, article, interchange, message, parties
from tests.harness.hub_steps import told
from tests.harness.register_texts import HUB, RETAILER, gln

LINES, ITEMS = 10, 50_000
# what the moment of every request is in a mailbox interchange
WRITTEN = "250603:0920"
KINDS = ("ORDERS", "ORDRSP", "DESADV", "RECADV")


def supplier_of(number):
    """The GLN of a supplier, as `register_texts.crowd` has them."""
    return gln(number)


def request(method, who, rest, text=None):
    """A request of the retailer, or of the supplier of this number, with the name of the host, for which nginx asks."""
    party, key = (RETAILER, KEYS[RETAILER]) if who is None else (supplier_of(who), f"key-{who:04}")
    return asking(method, f"/p/{party}/{rest}", None, text, f"X-Hub-Key: {key}", "Host: hub.example.com")


class Order:
    """An order of a supplier, and all messages that follow it. One in three is answered with changes, the others as a whole."""

    def __init__(self, number, suppliers):
        self.number, self.supplier, self.document = number, number % suppliers, f"{number:08}"
        self.who = supplier_of(self.supplier)
        self.items = [gtin((LINES * number + line) % ITEMS) for line in range(1, LINES + 1)]
        self.ordered = [12 + (number + line) % 50 for line in range(1, LINES + 1)]
        self.is_changed = number % 3 == 2
        # what is answered to each line: its letter, and how much of it stays open
        self.answers = [self.answer(line) for line in range(1, LINES + 1)]
        # what stays open on line 5 of a changed order is never despatched
        self.despatched = [max(0, left - 2) if self.is_changed and line == 5 else left for line, (_, left) in enumerate(self.answers, 1)]
        # one piece of one line is sent back, and one of it was not on the pallet
        self.returned = [1 if quantity and line == number % LINES + 1 else 0 for line, quantity in enumerate(self.despatched, 1)]
        self.sscc = with_check_digit(f"34{self.supplier:07}{number // suppliers:08}")

    def answer(self, line):
        ordered = self.ordered[line - 1]
        if self.is_changed and line == 1:
            return "C", ordered - 6
        if self.is_changed and line == 2:
            return "N", 0
        return "A", ordered

    def orders(self, reference=1):
        groups = (it for line in range(LINES) for it in (f"LIN+{line + 1}++{self.items[line]}:SRV", f"QTY+21:{self.ordered[line]}"))
        head = (f"BGM+220+{self.document}+9", "DTM+137:20250603:102", *parties(self.who))
        return message("ORDERS:D:01B:UN:EAN010", reference, *head, *groups, "UNS+S", f"CNT+2:{LINES}")

    def ordrsp(self, reference=1):
        function = 4 if self.is_changed else 29
        head = (f"BGM+231+R{self.document}+{function}", "DTM+137:20250603:102", f"RFF+ON:{self.document}", *parties(self.who))
        groups = []
        for line, (letter, left) in enumerate(self.answers if self.is_changed else [], 1):
            groups.append(f"LIN+{line}+{'5' if letter == 'A' else '7' if letter == 'N' else '3'}+{self.items[line - 1]}:SRV")
            groups += [f"QTY+113:{left}"] if letter == "C" else []
        return message("ORDRSP:D:01B:UN:EAN009", reference, *head, *groups, "UNS+S")

    def desadv(self, reference=1):
        head = (f"BGM+351+D{self.document}+9", "DTM+137:20250604:102", f"RFF+ON:{self.document}", *parties(self.who))
        sent = [(item, quantity) for item, quantity in zip(self.items, self.despatched) if quantity]
        groups = (it for line, (item, quantity) in enumerate(sent, 1) for it in (f"LIN+{line}++{item}:SRV", f"QTY+12:{quantity}"))
        return message("DESADV:D:01B:UN:EAN007", reference, *head, "CPS+1", f"GIN+BJ+{self.sscc}", *groups)

    def recadv(self, reference=1):
        groups = []
        for line, (item, quantity, back) in enumerate(zip(self.items, self.despatched, self.returned), 1):
            groups += [f"LIN+{line}++{item}:SRV", f"QTY+194:{quantity - 2 * back}"] if quantity else []
            groups += [f"QTY+195:{back}"] if back else []
        head = (f"BGM+632+G{self.document}+9", "DTM+137:20250605:102", *parties(self.who))
        return message("RECADV:D:01B:UN:EAN005", reference, *head, "CPS+1", f"GIN+BJ+{self.sscc}", *groups)

    def upload(self, kind):
        """The request that uploads its message of a kind, and the body of the right answer."""
        of_retailer = kind in ("ORDERS", "RECADV")
        reference = f"{kind[0]}{self.number}"
        text = interchange(RETAILER if of_retailer else self.who, reference, getattr(self, kind.lower())())
        body = told(f"interchange {reference} messages 1", f"1 {kind} accepted")
        return request("POST", None if of_retailer else self.supplier, "interchanges", text), body

    def mail(self, kind, number):
        """Its message as the supplier's mailbox entry of a number."""
        return f"UNA:+.? 'UNB+UNOC:3+{HUB}:14+{self.who}:14+{WRITTEN}+{number}'{getattr(self, kind.lower())()}UNZ+1+{number}'"

    def line_lines(self, stage):
        """The lines of its order lines in a status, after so many of its four messages."""
        for line, (item, ordered, (letter, left), sent) in enumerate(zip(self.items, self.ordered, self.answers, self.despatched), 1):
            letter, left = (letter, left) if stage > 1 else ("W", ordered)
            sent = sent if stage > 2 else 0
            refused = ordered - self.answers[line - 1][1] if stage > 1 else 0
            yield f"L {self.document:<35} {line:>6} {item} {letter} {ordered:>9} {left - sent:>9} {refused:>9} {0:>9} {sent:>9}"

    def pallet_lines(self, stage):
        """Those of its pallet."""
        rows = sorted((item, sent, back) for item, sent, back in zip(self.items, self.despatched, self.returned) if sent)
        for item, sent, back in rows if stage > 2 else []:
            received = ("R", sent, sent - 2 * back, back, 0, f"{-back:+}")
            yield article(self.sscc, item, *(received if stage > 3 else ("A", sent, 0, 0, 0, "+0")))


def status_body(orders, stage=len(KINDS)):
    """The status of a supplier that has these orders, in their order, each after so many of its messages."""
    lines, pallets = ([line for it in orders for line in of(it, stage)] for of in (Order.line_lines, Order.pallet_lines))
    return told(*lines, *pallets, "end")
