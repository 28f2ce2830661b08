"""Inputs drawn by chance: uploads of each kind, of suppliers of the register and of others. Some are drawn towards the limits: numbers of
35 bytes, the greatest quantities, many units and lines, segments of many elements, uploads as long as they may be."""
from tests.harness.hub_scripts import KEYS, advice, interchange, message, order, parties, response
from tests.harness.register_texts import ALPHA, BETA, DELTA, GAMMA, RETAILER

KINDS = ("order", "order", "answer", "despatch", "despatch", "receipt", "two")
PREFIXES = {ALPHA: "40123455", BETA: "8712345", GAMMA: "7612345", DELTA: "3512345"}
KEYS_OF_ALL = {**KEYS, GAMMA: "gamma-key-1", DELTA: "delta-key-1"}
# whom the inputs are of: mostly suppliers of the register, and at times one that joins or does not
SUPPLIERS = (ALPHA, ALPHA, ALPHA, BETA, BETA, BETA, GAMMA, DELTA)
ITEM, SECOND_ITEM = "4000862141404", "4000862141411"
# order numbers: short ones, and one as long as it may be
NUMBERS = ("0", "1", "2", "N" * 35)
GREATEST = 999_999_999
# the longest reference, segment and upload, in bytes
REFERENCE, SEGMENT, UPLOAD = 14, 8192, 1_048_576
# how often an input has many units or lines, free text, and as many bytes as there may be
MANY, WITH_TEXT, FULL = 0.04, 0.05, 0.002


def with_check_digit(digits):
    return digits + str(-sum(int(it) * (3, 1)[place % 2] for place, it in enumerate(reversed(digits))) % 10)


def sscc(supplier, number):
    """A pallet of a supplier."""
    prefix = PREFIXES[supplier]
    return with_check_digit("3" + prefix + f"{number:0{16 - len(prefix)}}")


def pallets(draw, supplier):
    """One or two of four pallets, or now and then many others, the same each time."""
    if draw.random() < MANY:
        return [sscc(supplier, 100 + number) for number in range(draw.choice((3, 40, 200)))]
    return [sscc(supplier, draw.randrange(4)) for _ in range(draw.choice((1, 1, 2)))]


def document(draw, begun, count):
    """A document number: one of so many, the last of them as long as it may be."""
    number = draw.randrange(count)
    return f"{begun}{number}".ljust(35 if number == count - 1 else 0, "-")


def lines_of_answer(draw):
    action = draw.choice("3567")
    quantity = [f"QTY+113:{draw.choice((6, 12, 12, 20, 20, GREATEST))}"] if action in "36" else []
    return (f"LIN+1+{action}+{ITEM}:SRV", *quantity)


def receipt_of(draw, supplier):
    segments = [f"BGM+632+{document(draw, 'G', 9)}+{draw.choice('9955')}", "DTM+137:20250605:102", *parties(supplier)]
    for place, unit in enumerate(pallets(draw, supplier), 1):
        segments += [f"CPS+{place}", f"GIN+BJ+{unit}"]
        for line in range(1, draw.choice((1, 1, 1, 2, 3)) + 1):
            kinds = draw.choice(((194,), (194,), (194,), (195, 196), (194, 195, 196)))
            quantity = draw.choice((draw.randrange(20), draw.randrange(20), draw.randrange(20), GREATEST))
            segments += [f"LIN+{line}++{draw.choice((ITEM, SECOND_ITEM))}:SRV", *(f"QTY+{kind}:{quantity}" for kind in kinds)]
    return message("RECADV:D:01B:UN:EAN005", 1, *segments)


def despatch_of(draw, supplier, number):
    units = [
        (unit, *((number, draw.choice((1, 1, 3, 3, 8, 8, GREATEST))) for _ in range(draw.choice((1, 1, 2)))))
        for unit in pallets(draw, supplier)
    ]
    return advice(document(draw, "DA", 6), *units, order=number, supplier=supplier)


def free_text(draw):
    """A segment of many parts: elements, components, released bytes, or one long part."""
    part = draw.choice(("+a", ":a", "+", ":", "??", "x", "+a:b"))
    return ("FTX+a" + part * ((draw.choice((40, SEGMENT)) - 8) // len(part)) + "a")[: SEGMENT - 2].rstrip("?") + "z'"


def counted(text):
    """The counts of UNT as the segments are, so that what is behind the envelope is reached."""
    parts, begun = text.split("'"), 0
    for place, part in enumerate(parts):
        if part.startswith("UNH"):
            begun = place
        elif part.startswith("UNT+"):
            rest = part.split("+", 2)[2:]
            parts[place] = "+".join(["UNT", str(place - begun + 1), *rest])
    return "'".join(parts)


def towards_the_limits(draw, text):
    """An interchange, now and then with segments of free text, or with line ends up to the longest upload."""
    if draw.random() < WITH_TEXT:
        texts = [free_text(draw) for _ in range(draw.choice((1, 1, 2, 20)))]
        text = counted(text.replace(":102'", ":102'" + "".join(texts), 1))
    if draw.random() < FULL:
        text += "\n" * (UPLOAD - len(text))
    return text


def order_of(draw, place):
    """An order of one line, or now and then of many."""
    number, supplier = draw.choice(NUMBERS), draw.choice(SUPPLIERS)
    if draw.random() >= MANY:
        return order(number, draw.choice((12, 12, 20, 20, 48, 48, GREATEST)), supplier, place)
    lines = [it for line in range(1, draw.choice((3, 50, 400))) for it in (f"LIN+{1_000_000 - line}++{ITEM}:SRV", f"QTY+21:{GREATEST}")]
    head = (f"BGM+220+{number}+9", "DTM+137:20250603:102", *parties(supplier))
    return message("ORDERS:D:01B:UN:EAN010", place, *head, *lines, "UNS+S")


def message_of(draw, kind, supplier, reference):
    """Who sends a message of this kind, and the message, or two."""
    number = draw.choice(NUMBERS)
    if kind == "answer":
        whole = draw.random() < 0.3
        lines = () if whole else lines_of_answer(draw)
        return supplier, [response(f"R{reference}", draw.choice((27, 29)) if whole else 4, *lines, order=number, supplier=supplier)]
    if kind == "despatch":
        return supplier, [despatch_of(draw, supplier, number)]
    if kind == "receipt":
        return RETAILER, [receipt_of(draw, supplier)]
    return RETAILER, [order_of(draw, place) for place in range(1, 3 if kind == "two" else 2)]


def upload_of(draw, kinds=KINDS):
    """Who uploads, and what."""
    supplier, kind = draw.choice(SUPPLIERS), draw.choice(kinds)
    number = draw.randrange(30)
    reference = f"{kind[0]}{number}".ljust(REFERENCE if number > 24 else 0, "-")
    who, messages = message_of(draw, kind, supplier, reference)
    return who, towards_the_limits(draw, interchange(who, reference, *messages))
