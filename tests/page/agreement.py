"""The page's readers and writers of interchanges beside `edihub show`: on the examples, on all cases of `show` that the other tests have,
and on 1,000 interchanges that are made by chance, the same each time. Node runs the page's own modules for this (show.mjs, write.mjs)."""
import json
import os
import random
import re
import subprocess

from tests.cases import goods, orders
from tests.page.stage import ALPHA, BETA, EXAMPLES, HUB, RETAILER, gtin, interchange, message, released

NUMBER, SEED = 1_000, 48
HERE = os.path.dirname(os.path.abspath(__file__))


def shown(program, text):
    """The lines of `show`; of a refusal only that it is one, since the page does not say why it does not understand."""
    ran = subprocess.run([program, "show"], input=text.encode("latin-1"), stdout=subprocess.PIPE)
    lines = ran.stdout.decode("latin-1").split("\n")[:-1]
    return [re.sub(r"^  refused [A-Z]\d\d .*", "  refused", line) for line in lines]


def by_node(script, words):
    ran = subprocess.run(["node", os.path.join(HERE, script)], input=json.dumps(words), stdout=subprocess.PIPE, text=True, check=True)
    return json.loads(ran.stdout)


def example_files():
    for folder, _, names in sorted(os.walk(EXAMPLES)):
        for name in sorted(it for it in names if it.endswith(".edi")):
            with open(os.path.join(folder, name), encoding="latin-1", newline="") as file:
                yield os.path.relpath(os.path.join(folder, name), EXAMPLES), file.read()


def canonical(text):
    """A text in the usual characters without the ends of lines between its segments."""
    return re.sub(r"[\r\n]+", "", text)


def compared(program, texts):
    """How many of these texts the page understands; each as `show` does. Of the others `show` says that they are no interchange."""
    understood = 0
    for text, found in zip(texts, by_node("show.mjs", texts)):
        wanted = shown(program, text)
        if found is None:
            assert wanted and wanted[0].startswith("refused E"), f"not understood: {text!r:.2000}, but {wanted}"
        else:
            assert found == wanted, f"of {text!r:.2000} the page reads {found}, and show {wanted}"
            understood += 1
    return understood


def examples(program):
    files = dict(example_files())
    texts = [canonical(it) for name, it in files.items() if name != "other_separators.edi"]
    assert compared(program, texts) == len(texts) >= 10, len(texts)
    # what has line ends or other separators is not the hub's spelling, and left raw; the hub's spelling of it is read
    spelled = list(files.values())
    assert by_node("show.mjs", spelled) == [None] * len(spelled)
    words = ["relay", "--hub", HUB, "--owner", ALPHA, "--moment", "1748942400", "--number", "1"]
    with open(os.path.join(EXAMPLES, "other_separators.edi"), "rb") as file:
        relayed = subprocess.run([program, *words], stdin=file, stdout=subprocess.PIPE, check=True).stdout.decode("latin-1")
    assert compared(program, [relayed]) == 1
    return f"{len(texts)} examples and one that is relayed"


DATA = r"(?:[^?'+:\r\n]|\?[?'+:])"
ELEMENT = rf"(?:{DATA}*:)*{DATA}+"
CANONICAL = re.compile(rf"UNA:\+[.,]\? '(?:[A-Z][A-Z0-9]{{2}}(?:(?:\+(?:{ELEMENT})?)*\+{ELEMENT})?')*")


def cases(program):
    """The texts of all cases of `show` on orders, answers, despatches and receipts, behind a service string."""
    texts = [it.input.decode("latin-1") for it in orders.CASES + goods.CASES if it.words == ["show"]]
    texts = [it if it.startswith("UNA") else "UNA:+.? '" + it for it in texts]
    usual = [it for it in texts if CANONICAL.fullmatch(it)]
    others = [it for it in texts if not CANONICAL.fullmatch(it)]
    assert len(usual) > 1_000 and others, (len(usual), len(others))
    assert compared(program, usual) > 1_000
    # of what is spelled otherwise the page says nothing
    assert by_node("show.mjs", others) == [None] * len(others)
    return f"{len(usual)} cases in the hub's spelling, and {len(others)} in others"


class Maker:
    """Interchanges by chance: right ones, and ones with a wrong place."""

    def __init__(self, seed):
        self.chance = random.Random(seed)

    def pick(self, *among):
        return self.chance.choice(among)

    def word(self, longest=35):
        letters = "AZaz09 .-/?'+:<>&\"%#"
        return released("".join(self.chance.choice(letters) for _ in range(self.chance.randint(1, longest))).strip() or "x")

    def number(self):
        odd = ("1", "7", "12", "000012", "999999", "0", "1000000", "x", "")
        return self.pick(*odd) if self.chance.random() < 0.03 else str(self.chance.randint(1, 9_999))

    def quantity(self, least=0):
        odd = ("0", "1.0", "12,000", "999999999", "1000000000", "1.5", "-1", "", "12:PCE", "12:KGM", "000012")
        return self.pick(*odd) if self.chance.random() < 0.02 else str(self.chance.randint(least, 500))

    def article(self):
        odd = ("4000862141405", "96385074", "036000291452", "10012345000017", "", "400086214140x")
        return self.pick(*odd) if self.chance.random() < 0.02 else gtin(self.chance.randint(1, 40))

    def head(self, code, functions):
        document = "" if self.chance.random() < 0.02 else self.word()
        function = self.pick("4", "5", "27", "1") if self.chance.random() < 0.02 else self.pick(*functions)
        odd = ("137:20250230:102", "137:202506030915:203", "137:250603:101", "2:20250603:102")
        date = self.pick(*odd) if self.chance.random() < 0.05 else "137:20250603:102"
        return [f"BGM+{code}+{document}+{function}", f"DTM+{date}"]

    def parties(self, buyer=True):
        found = [*([f"NAD+BY+{RETAILER}::9"] if buyer else []), f"NAD+SU+{self.pick(ALPHA, BETA)}::9"]
        odd = (found[:1], [*found, found[-1]], [found[0], "NAD+SU+4012345500005::9"])
        return self.pick(*odd) if self.chance.random() < 0.03 else found

    def reference(self, order):
        """A line's reference to an order, mostly this one, and to a line of it."""
        odd = ("0", "x", "1000000", "000007")
        line = self.pick(*odd) if self.chance.random() < 0.1 else str(self.chance.randint(1, 99))
        return f"RFF+ON:{order if self.chance.random() < 0.95 else self.word(8)}" + self.pick("", f":{line}", f":{line}")

    def line(self, action, *quantities, order=""):
        named = [f"QTY+{it}" for it in quantities]
        reference = [self.reference(order)] if order and self.chance.random() < 0.4 else []
        return [f"LIN+{self.number()}+{action}+{self.article()}:SRV", *named, *reference]

    def units(self, line):
        found = []
        pallets = ["340123455000000012", "340123455000000029", "340123455000000036", "387123450000000012"]
        for place, sscc in enumerate(self.chance.sample(pallets, self.chance.randint(1, 3))):
            named = self.pick(sscc[:-1] + "0", pallets[0]) if self.chance.random() < 0.03 else sscc
            found += [f"CPS+{place + 1}", *self.pick(["PAC+1", "PCI+33E"], []), f"GIN+BJ+{named}"]
            found += [it for _ in range(self.chance.randint(1, 3)) for it in line()]
        return found

    def segments(self, kind):
        some = range(self.chance.randint(1, 6))
        if kind == "ORDERS":
            lines = [it for _ in some for it in self.line("", f"21:{self.quantity(1)}")]
            return [*self.head("220", ["9"]), *self.parties(), *lines, "UNS+S"]
        if kind == "ORDRSP":
            action = lambda: self.pick("3", "5", "6", "7", "8" if self.chance.random() < 0.1 else "5")
            none = lambda: [] if self.chance.random() < 0.1 else ["113:0"]
            quantities = lambda: self.pick(["113:" + self.quantity()], ["21:" + self.quantity()], ["113:3", "21:4"], none())
            order = self.word()
            lines = [it for _ in some for it in self.line(action(), *quantities(), order=order)]
            return [*self.head("231", ["4", "9", "27", "29"]), f"RFF+ON:{order}", *self.parties(), *lines, "UNS+S"]
        if kind == "DESADV":
            order = self.word()
            header = [f"RFF+ON:{order}"] if self.chance.random() < 0.8 else []
            units = self.units(lambda: self.line("", f"12:{self.quantity(1)}", order=order))
            return [*self.head("351", ["9"]), *header, *self.parties(self.chance.random() < 0.8), *units]
        kinds = lambda: self.chance.sample(["194", "195", "196"], self.chance.randint(1, 3))
        units = self.units(lambda: self.line("", *(f"{it}:{self.quantity()}" for it in kinds())))
        return [*self.head("632", ["9", "5"]), *self.parties(self.chance.random() < 0.8), *units]

    def meddled(self, segments):
        """The same, or with a segment lost, doubled, moved or another between."""
        segments = list(segments)
        place = self.chance.randrange(len(segments))
        chance = self.chance.random()
        if chance < 0.04:
            del segments[place]
        elif chance < 0.08:
            segments.insert(place, segments[place])
        elif chance < 0.12:
            segments.insert(self.chance.randrange(len(segments)), segments.pop(place))
        elif chance < 0.35:
            others = ("NAD+DP+x", "DTM+2:20250606:102", "IMD+F++:::\xe4\xf6\xfc", "CNT+2:1", "UNS+S", "RFF+ON:1")
            segments.insert(place, self.pick("FTX+AAI+++" + self.word(), *others))
        return segments

    def interchange(self):
        kinds = {"ORDERS": "EAN010", "ORDRSP": "EAN009", "DESADV": "EAN007", "RECADV": "EAN005"}
        messages = []
        for place in range(self.chance.randint(1, 3)):
            kind = self.pick(*kinds)
            segments = self.meddled(self.segments(kind))
            counted = [*segments, f"CNT+2:{sum(it.startswith('LIN') for it in segments)}"] if self.chance.random() < 0.3 else segments
            messages.append(message(f"{kind}:D:01B:UN:{kinds[kind]}", *counted, reference=place + 1))
        text = interchange(self.pick(RETAILER, ALPHA), self.word(6)[:6].rstrip("?") or "1", *messages)
        odd = (("UNT+1", "UNT+2"), ("UNOC:3", "UNOC:4"), ("UNOC:3", "UNOA:3"), (":14+25", ":9+25"), ("UNZ+1", "UNZ+4"))
        return text if self.chance.random() < 0.95 else text.replace(*self.pick(*odd))

    def texts(self):
        """Those in the hub's spelling: what the page would leave raw for its spelling alone is made anew."""
        found = []
        while len(found) < NUMBER:
            text = self.interchange()
            text = "UNA:+,? '" + text[9:] if self.chance.random() < 0.2 else text
            found += [text] if CANONICAL.fullmatch(text) else []
        return found


def made(program):
    texts = Maker(SEED).texts()
    understood = compared(program, texts)
    assert NUMBER * 0.85 < understood < NUMBER, understood
    lines = [line for it in by_node("show.mjs", texts) for line in it or []]
    refused = lines.count("  refused")
    messages = sum(it.startswith("  type ") for it in lines)
    assert messages > 1.5 * NUMBER and NUMBER / 4 < refused < messages / 2, (messages, refused)
    return f"{understood} of {NUMBER} made interchanges have no fault of their own; {refused} of their {messages} messages have one"


def record(chance):
    """What an answer or a despatch says, by chance, with the lines that `show` has for it."""
    text = lambda longest: "".join(chance.choice("AZaz09 .-/?'+:<>&\"") for _ in range(chance.randint(1, longest)))
    order, document = text(35), text(35)
    common = {"document": document, "date": "20250603", "buyer": RETAILER, "supplier": ALPHA}
    parties = [f"buyer {RETAILER}", f"supplier {ALPHA}"]
    if chance.random() < 0.5:
        function = chance.choice(["4", "4", "27", "29"])
        answers = [("accepted", 0), ("refused", 0), ("changed", chance.randint(0, 999_999_999))]
        chosen = [chance.choice(answers) for _ in range(chance.randint(1, 12))]
        lines = [{"line": n, "gtin": gtin(n).rjust(14, "0"), "answer": it[0], "quantity": it[1]} for n, it in enumerate(chosen, 1)]
        to = lambda it: f" {it['quantity']}" if it["answer"] == "changed" else ""
        said = [f"line {it['line']} item {it['gtin']} {it['answer']}{to(it)}" for it in lines]
        said = {"4": said, "27": ["all refused"], "29": ["all accepted"]}[function]
        words = {**common, "order": order, "function": function, "lines": lines if function == "4" else []}
        return {"kind": "ORDRSP", "message": words}, [f"response {document}", *parties, f"answers {order}", *said]
    units, said = [], []
    for sscc in chance.sample(["340123455000000012", "340123455000000029", "340123455000000036"], chance.randint(1, 3)):
        numbers = range(1, chance.randint(1, 4) + 1)
        lines = [{"order": text(35), "line": n, "gtin": gtin(n).rjust(14, "0"), "quantity": chance.randint(1, 999)} for n in numbers]
        units.append({"sscc": sscc, "lines": lines})
        said.append(f"unit {sscc}")
        said += [f"  item {it['gtin']} despatched {it['quantity']} line {it['line']} order {it['order']}" for it in lines]
    return {"kind": "DESADV", "message": {**common, "units": units}}, [f"despatch {document}", *parties, *said]


def written(program):
    """What the page writes says in `show` what it was asked to say, and the page reads it so too."""
    chance = random.Random(SEED)
    records = [record(chance) for _ in range(300)]
    texts = by_node("write.mjs", [{**it, "reference": f"R{place}"} for place, (it, _) in enumerate(records)])
    for place, ((it, said), text) in enumerate(zip(records, texts)):
        head = ["service component : element + decimal . release ? terminator '", f"interchange R{place}"]
        head += [f"  sender {ALPHA}", f"  recipient {HUB}", "  prepared 250603 0915", "  messages 1", "message 1"]
        wanted = [*head, *(f"  {line}" for line in ("reference 1", f"type {it['kind']}", *said))]
        found = shown(program, text)
        assert found == wanted, f"{text!r:.1000} says {found}, not {wanted}"
    assert compared(program, texts) == len(texts)
    return f"{len(texts)} written messages"


TRIALS = {
    "the examples as show reads them": examples,
    "the cases of show": cases,
    "made interchanges": made,
    "what the page writes": written,
}
