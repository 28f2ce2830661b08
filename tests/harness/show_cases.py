"""How a case of `show` is written: an interchange, and the lines that say what it says."""
import re
from dataclasses import dataclass, field

from tests.harness.case import Case
from tests.harness.code_list import read_codes

RETAILER, SUPPLIER, HUB = "5412345000013", "4012345500004", "5412345000006"
USUAL_MARKS = "service component : element + decimal . release ? terminator '"
HEAD = f"UNB+UNOC:3+{RETAILER}:14+{HUB}:14+250603:0915+1001'"


# the names of faults in words, by their codes
NAMES = {code: said["name"] for code, said in read_codes().items() if "name" in said}


@dataclass
class Interchange:
    """What is shown of an interchange before its messages, and the types of these."""
    service: str = USUAL_MARKS
    reference: str = "1001"
    kinds: list = field(default_factory=list)
    sender: str = RETAILER
    # the messages' references, where they are not the numbers from 1 on
    references: list = field(default_factory=list)

    def lines(self):
        return [
            self.service,
            f"interchange {self.reference}",
            f"  sender {self.sender}",
            f"  recipient {HUB}",
            "  prepared 250603 0915",
            f"  messages {len(self.kinds)}",
        ]


# in the place of a number that a case leaves open: what shows each fault stands in cases/fault_places.py
ANY = "{any}"


def refusal(code, segment=ANY):
    """The lines of a message, or of an interchange, that is refused, with the segment that shows it."""
    return [f"refused {code} {NAMES[code]} at segment {segment}"]


def refusal_of_text(code, offset=ANY, line=ANY, segment=ANY):
    """The same of a text that spells no segments."""
    return [f"refused {code} {NAMES[code]} at offset {offset} line {line} segment {segment}"]


def wanted(output):
    """What a case compares with: the output, or a test of it where it leaves a number open."""
    if ANY.encode() not in output:
        return output
    pattern = re.compile(re.escape(output).replace(re.escape(ANY.encode()), rb"(?:[1-9][0-9]*|0)"), re.DOTALL)
    return lambda it: pattern.fullmatch(it) is not None


def is_refused(lines):
    return any(line.startswith("refused ") for line in lines)


def shown_text(interchange, messages):
    """All lines, those of each message behind its number, its reference and its type."""
    lines, references = interchange.lines(), interchange.references or range(1, len(messages) + 1)
    for number, (reference, kind, message) in enumerate(zip(references, interchange.kinds, messages), 1):
        lines += [f"message {number}", f"  reference {reference}", f"  type {kind}", *(f"  {line}" for line in message)]
    return "".join(line + "\n" for line in lines)


def shown_lines(interchange, messages):
    """The same as bytes."""
    return shown_text(interchange, messages).encode()


def shown(name, text, interchange, messages):
    """A case: the text is an interchange, and its messages say these lines."""
    status = 1 if any(is_refused(lines) for lines in messages) else 0
    return Case(f"show: {name}", ["show"], text.encode(), wanted(shown_lines(interchange, messages)), status=status)


def closed(segments, number=1):
    """A message, from UNH up to where UNT stands, with its UNT."""
    return f"{segments}UNT+{segments.count(chr(39)) + 1}+{number}'"


def of_one(segments, service=""):
    """The interchange of one message."""
    return f"{service}{HEAD}{closed(segments)}UNZ+1+1001'"


def in_a_row(*parts, marks=""):
    """An interchange of these messages, each from UNH up to where UNT stands, numbered from 1."""
    body = "".join(closed(part.replace("UNH+1+", f"UNH+{number}+"), number) for number, part in enumerate(parts, 1))
    return f"{marks}{HEAD}{body}UNZ+{len(parts)}+1001'"


def kind_of(segments):
    """The message type in UNH."""
    return segments.split("+", 2)[2].split(":")[0]


def told(name, segments, lines, service=""):
    """A case of one message, which says these lines."""
    marks = f"service component : element + decimal {service[5]} release ? terminator '" if service else USUAL_MARKS
    return shown(name, of_one(segments, service), Interchange(service=marks, kinds=[kind_of(segments)]), [lines])


def taken(name, segments):
    """A case of one message that is not refused, whatever it says."""
    start = shown_lines(Interchange(kinds=[kind_of(segments)]), [[]])
    return Case(
        f"show: {name}",
        ["show"],
        of_one(segments).encode(),
        lambda it: it.startswith(start) and len(it) > len(start) and b"\n  refused " not in it,
    )


def edited(text, place, words):
    """The text with other words in the place of its first ones like these."""
    before, found, behind = text.partition(place)
    assert found, f"no {place} in {text}"
    return before + words + behind


def rows(table):
    """The rows of a table in lines, their parts parted by `|`."""
    return [tuple(row.split("|", 2)) for row in table.split("\n")]


def edits(text, table):
    """A case for each edit of the text by itself. A row is `ok` or a code; the place of the edit; what then stands there."""
    for want, place, words in table:
        segments = edited(text, place, words)
        name = f"{kind_of(text)} with {words} for {place}: {want}"
        yield taken(name, segments) if want == "ok" else told(name, segments, refusal(want))


def both(text, faults, count):
    """A case for each pair of these edits that leave one another's place: the lower fault is told. There are so many."""
    cases = [
        told(
            f"{kind_of(text)} with {want} beside {code}: {words}, {others}",
            edited(edited(text, place, words), other, others),
            refusal(want),
        )
        for index, (want, place, words) in enumerate(faults)
        for code, other, others in faults[index + 1 :]
        if place not in other
    ]
    assert len(cases) == count, len(cases)
    return cases
