"""How a script for the program `trial_script` is written, and what it then prints: interchanges of each type, the hub's mail, a supplier's
status; and a run of orders, answers, despatches and receipts."""
from tests.harness.case import Case
from tests.harness.first_order import ORDERS
from tests.harness.register_texts import ALPHA, BETA, HUB, RETAILER, register

MOMENT = "1748942400"
KEYS = {RETAILER: "retail-key", ALPHA: "alpha-key-1", BETA: "beta-key-1"}
TWO_SUPPLIERS = register((ALPHA, "40123455", KEYS[ALPHA]), (BETA, "8712345", KEYS[BETA]))
PALLET, OTHER_PALLET, THIRD_PALLET = "340123455000000012", "340123455000000029", "340123455000000036"
PALLET_OF_BETA = "387123450000000012"


def bytes_of(text):
    return text if isinstance(text, bytes) else text.encode("latin-1")


# the words with which `trial_script` keeps a hub in a file and its log, in memory, neither of which stops
IN_FILES = ["stop-log", str(1 << 40)]


class Play:
    """A script, and what it prints."""

    def __init__(self, store="", of=TWO_SUPPLIERS):
        self.script, self.printed, self.who, self.moment = b"", b"", None, MOMENT
        self.say("hub", of, store)

    def say(self, word, payload=None, rest=""):
        """A line, with the bytes whose number it names."""
        data = b"" if payload is None else bytes_of(payload)
        words = [word] + ([] if payload is None else [str(len(data))]) + ([rest] if rest else [])
        self.script += " ".join(words).encode() + b"\n" + (b"" if payload is None else data + b"\n")
        return self

    def ask(self, who, line, outcome, body, payload=None, refused=False, key=None):
        caller = (who, key or KEYS.get(who, "a-key-of-nobody"), self.moment)
        if caller != self.who:
            self.say(f"as {caller[2]} {caller[0]} {caller[1]}")
            self.who = caller
        self.say(line, payload)
        body = bytes_of(body)
        self.printed += f"{outcome}{' refused' if refused else ''} {len(body)}\n".encode() + body
        return self

    def upload(self, who, text, *lines, outcome="done", key=None):
        """An upload, and the lines of its reply."""
        body = "".join(line + "\n" for line in lines)
        return self.ask(who, "upload", outcome, body, text, " refused " in f" {body}".replace("\n", " "), key)

    def stopping(self, upload):
        """An upload whose reply ends in `stopped`."""
        printed = self.printed
        upload()
        reply = self.printed[len(printed) :].split(b"\n", 1)[1]
        self.printed = printed + f"stopped {len(reply)}\n".encode() + reply
        return self

    def cancel(self, reference, line, quantity, told, order="128576", supplier=ALPHA):
        body = f"{supplier}\n{reference}\n{order}\n{line}\n{quantity}\n"
        return self.ask(RETAILER, "cancel", "done", told + "\n", body, told.startswith("refused"))

    def status(self, *lines, who=ALPHA, line="status"):
        return self.ask(who, line, "done", "".join(it + "\n" for it in (*lines, "end")))

    def list(self, after, *entries, who=ALPHA, last="end"):
        """A mailbox list: its entries are number, type and document number."""
        lines = [f"{number:>14} {kind} {document}" for number, kind, document in entries]
        return self.ask(who, f"after {after}", "done", "".join(it + "\n" for it in (*lines, last)))

    def item(self, number, text, who=ALPHA):
        return self.ask(who, f"item {number}", "done", text)

    def take(self, number, who=ALPHA):
        return self.ask(who, f"taken {number}", "done", "taken\n")

    def counts(self, look_ups, commits):
        self.say("counts")
        self.printed += f"look-ups {look_ups} commits {commits}\n".encode()
        return self

    def case(self, name):
        return Case(name, [], self.script, self.printed)


def message(kind, reference, *segments):
    """A message of these segments, counted."""
    body = "".join(it + "'" for it in segments)
    return f"UNH+{reference}+{kind}'{body}UNT+{len(segments) + 2}+{reference}'"


def interchange(sender, reference, *messages, to=HUB):
    return f"UNA:+.? 'UNB+UNOC:3+{sender}:14+{to}:14+250603:0915+{reference}'{''.join(messages)}UNZ+{len(messages)}+{reference}'"


def parties(supplier):
    return f"NAD+BY+{RETAILER}::9", f"NAD+SU+{supplier}::9"


def order(number="128576", quantity="48", supplier=ALPHA, reference=1, count=True):
    line = ("LIN+1++4000862141404:SRV", f"QTY+21:{quantity}", "UNS+S", *(["CNT+2:1"] if count else []))
    return message("ORDERS:D:01B:UN:EAN010", reference, f"BGM+220+{number}+9", "DTM+137:20250603:102", *parties(supplier), *line)


def response(number, function, *lines, order="128576", supplier=ALPHA):
    head = (f"BGM+231+{number}+{function}", "DTM+137:20250603:102", f"RFF+ON:{order}", *parties(supplier))
    return message("ORDRSP:D:01B:UN:EAN009", 1, *head, *lines, "UNS+S")


def despatch(number, sscc, *quantities, order="128576", supplier=ALPHA):
    return advice(number, (sscc, *((order, quantity) for quantity in quantities)), order=order, supplier=supplier)


def advice(number, *units, order="128576", supplier=ALPHA):
    """A despatch advice. A unit is its SSCC and its lines, each an order and a quantity."""
    segments = [f"BGM+351+{number}+9", "DTM+137:20250604:102", f"RFF+ON:{order}", *parties(supplier)]
    for place, (sscc, *lines) in enumerate(units, 1):
        segments += [f"CPS+{place}", "PAC+1", "PCI+33E", f"GIN+BJ+{sscc}"]
        for line, (named, quantity) in enumerate(lines, 1):
            segments += [f"LIN+{line}++4000862141404:SRV", f"QTY+12:{quantity}", *([] if named == order else [f"RFF+ON:{named}"])]
    return message("DESADV:D:01B:UN:EAN007", 1, *segments)


def receipt(number, *pallets, supplier=ALPHA):
    segments = [f"BGM+632+{number}+9", "DTM+137:20250605:102", *parties(supplier)]
    for place, sscc in enumerate(pallets or [PALLET], 1):
        segments += [f"CPS+{place}", "PAC+1", "PCI+33E", f"GIN+BJ+{sscc}"]
        segments += ["LIN+1++4000862141404:SRV", "QTY+194:10", "QTY+195:1", "LIN+2++4000862141411:SRV", "QTY+194:3"]
    return message("RECADV:D:01B:UN:EAN005", 1, *segments)


CHANGED = ("LIN+1+3+4000862141404:SRV", "QTY+113:36")
RESPONSE = interchange(ALPHA, "S1", response("R1", 4, *CHANGED))
DESPATCH = interchange(ALPHA, "S2", despatch("DA1", PALLET, 12))
RECEIPT = interchange(RETAILER, "1005", receipt("G1"))

# The order again, and a second one, in other service characters.
SPELLED = (
    "UNA*|,! ~\r\nUNB|UNOC*3|5412345000013*14|5412345000006*14|250603*0915|1001~\r\nUNH|1|ORDERS*D*01B*UN*EAN010~\r\nBGM|220|128576|9~\r\n"
    "DTM|137*20250603*102~\r\nNAD|BY|5412345000013**9~\r\nNAD|SU|4012345500004**9~\r\nLIN|1||4000862141404*SRV~\r\nQTY|21*48~\r\nUNS|S~\r\n"
    "CNT|2*1~\r\nUNT|10|1~\r\nUNZ|1|1001~\r\n"
)
SECOND = (
    "UNA*|,! ~UNB|UNOC*3|5412345000013*14|5412345000006*14|250603*0915|1002~UNH|1|ORDERS*D*01B*UN*EAN010~BGM|220|128577|9~"
    "DTM|137*20250603*102~FTX|AAI|||Dock 3+4, O'Neill?~NAD|BY|5412345000013**9~NAD|SU|4012345500004**9~LIN|1||4000862141404*SRV~QTY|21*30~"
    "UNS|S~CNT|2*1~UNT|11|1~UNZ|1|1002~"
)

FIRST_MAIL = (
    "UNA:+.? 'UNB+UNOC:3+5412345000006:14+4012345500004:14+250603:0920+1'"
    "UNH+1+ORDERS:D:01B:UN:EAN010'BGM+220+128576+9'DTM+137:20250603:102'"
    "NAD+BY+5412345000013::9'NAD+SU+4012345500004::9'"
    "LIN+1++4000862141404:SRV'QTY+21:48'UNS+S'CNT+2:1'UNT+10+1'UNZ+1+1'"
)
SECOND_MAIL = (
    "UNA:+,? 'UNB+UNOC:3+5412345000006:14+4012345500004:14+250603:0920+2'"
    "UNH+1+ORDERS:D:01B:UN:EAN010'BGM+220+128577+9'DTM+137:20250603:102'FTX+AAI+++Dock 3?+4, O?'Neill??'"
    "NAD+BY+5412345000013::9'NAD+SU+4012345500004::9'"
    "LIN+1++4000862141404:SRV'QTY+21:30'UNS+S'CNT+2:1'UNT+11+1'UNZ+1+2'"
)
STATUS = (
    "L 128576                                   1 04000862141404 C        48        24        12         0        12",
    "L 128577                                   1 04000862141404 N        30         0        18         0        12",
    "P 340123455000000012 04000862141404 R             12             10              1              0              -1",
    "P 340123455000000012 04000862141411 R              0              3              0              0              +3",
    "P 340123455000000029 04000862141404 A             12              0              0              0              +0",
)
THIRD_MAIL = (
    "UNA:+.? 'UNB+UNOC:3+5412345000006:14+4012345500004:14+250603:0920+3'"
    "UNH+1+RECADV:D:01B:UN:EAN005'BGM+632+G1+9'DTM+137:20250605:102'"
    "NAD+BY+5412345000013::9'NAD+SU+4012345500004::9'CPS+1'PAC+1'PCI+33E'GIN+BJ+340123455000000012'"
    "LIN+1++4000862141404:SRV'QTY+194:10'QTY+195:1'LIN+2++4000862141411:SRV'QTY+194:3'UNT+15+1'UNZ+1+3'"
)
assert len(FIRST_MAIL) == 249 and sum(len(it) + 1 for it in STATUS) + 4 == 570


def line_status(order, answer, ordered, opened, refused, cancelled, despatched, line=1, gtin="04000862141404"):
    return f"L {order:<35} {line:>6} {gtin} {answer} {ordered:>9} {opened:>9} {refused:>9} {cancelled:>9} {despatched:>9}"


def article(sscc, gtin, letter, despatched, accepted_, returned, destroyed, difference):
    return f"P {sscc} {gtin} {letter} {despatched:>14} {accepted_:>14} {returned:>14} {destroyed:>14} {difference:>15}"


def accepted(play, who, reference, kind, text):
    return play.upload(who, text, f"interchange {reference} messages 1", f"1 {kind} accepted")


def ordered(store=""):
    """The first order."""
    return accepted(Play(store), RETAILER, "1001", "ORDERS", ORDERS)


def goods_in_turn():
    """Orders, answers, despatches and receipts, one after another."""
    play = ordered()
    play.item(1, FIRST_MAIL)
    play.upload(RETAILER, SPELLED, "interchange 1001 messages 1", "1 ORDERS repeated")
    play.list(0, (1, "ORDERS", "128576"))
    play.upload(RETAILER, ORDERS.replace("QTY+21:48", "QTY+21:49"), "interchange 1001 messages 1", "1 ORDERS refused B03")
    accepted(play, RETAILER, "1002", "ORDERS", SECOND)
    play.item(2, SECOND_MAIL)
    play.upload(RETAILER, ORDERS.replace("1001'", "1003'").replace("UNT+10+1", "UNT+9+1"), "refused E12", outcome="bad")
    play.list(0, (1, "ORDERS", "128576"), (2, "ORDERS", "128577"))
    play.list(0, who=BETA)
    play.upload(RETAILER, ORDERS[: ORDERS.index("QTY+21:4") + 8], "refused E04", outcome="bad")
    play.upload(RETAILER, "", "refused E06", outcome="bad")
    play.upload(RETAILER, interchange(RETAILER, "1004"), "interchange 1004 messages 0")
    accepted(play, ALPHA, "S1", "ORDRSP", RESPONSE)
    waiting = line_status("128577", "W", 30, 30, 0, 0, 0)
    play.status(line_status("128576", "C", 48, 36, 12, 0, 0), waiting)
    accepted(play, ALPHA, "S2", "DESADV", DESPATCH)
    announced = f"P {PALLET} 04000862141404 A {12:>14} {0:>14} {0:>14} {0:>14} {'+0':>15}"
    play.status(line_status("128576", "C", 48, 24, 12, 0, 12), waiting, announced)
    refused = ("interchange {} messages 1", "1 DESADV refused {}")
    for reference, code, text in (
        ("S3", "B10", despatch("DA2", OTHER_PALLET, 20, 5)),
        ("S4", "B12", despatch("DA3", PALLET, 1)),
        ("S5", "B11", despatch("DA3", PALLET_OF_BETA, 1)),
    ):
        play.upload(ALPHA, interchange(ALPHA, reference, text), *(it.format(v) for it, v in zip(refused, (reference, code))))
    play.status(line_status("128576", "C", 48, 24, 12, 0, 12), waiting, announced)
    accepted(play, ALPHA, "S6", "DESADV", interchange(ALPHA, "S6", despatch("DA4", OTHER_PALLET, 12, order="128577")))
    play.status(line_status("128576", "C", 48, 24, 12, 0, 12), line_status("128577", "W", 30, 18, 0, 0, 12), announced, STATUS[4])
    accepted(play, ALPHA, "S7", "ORDRSP", interchange(ALPHA, "S7", response("R2", 27, order="128577")))
    accepted(play, RETAILER, "1005", "RECADV", RECEIPT)
    play.upload(RETAILER, interchange(RETAILER, "1006", receipt("G2")), "interchange 1006 messages 1", "1 RECADV refused B15")
    play.status(*STATUS)
    play.list(2, (3, "RECADV", "G1")).item(3, THIRD_MAIL)
    play.take(1).list(0, (2, "ORDERS", "128577"), (3, "RECADV", "G1")).item(1, FIRST_MAIL)
    return play
