"""Messages of each type whose parts are given as they are spelled, with what `show` says of them and how the hub then shows their rows."""
from tests.cases import goods, orders
from tests.harness.doors import UPLOAD_LIMIT, Message, sent
from tests.harness.hub_scripts import message, parties
from tests.harness.register_texts import ALPHA, RETAILER

ITEM = "4000862141404"


def released(data):
    """Data as it is written between the usual separators."""
    return "".join(f"?{it}" if it in "?'+:" else it for it in data)


def whole(quantity):
    """The number that a quantity says."""
    return int(quantity.replace(",", ".").partition(".")[0])


def ordering(number="128576", lines=(("1", ITEM, "48"),), more=(), spelled=None, supplier=ALPHA, **how):
    """An order. A line is its number, its GTIN and its quantity; `more` stands behind the date, and is perhaps spelled otherwise."""

    def made(reference, between):
        segments = [f"BGM+220+{released(number)}+9", "DTM+137:20250603:102", *between, *parties(supplier)]
        for line, gtin, quantity in lines:
            segments += [f"LIN+{line}++{gtin}:SRV", f"QTY+21:{quantity}"]
        return message("ORDERS:D:01B:UN:EAN010", reference, *segments, "UNS+S", f"CNT+2:{len(lines)}")

    shown = orders.order(number, supplier, [f"{int(line)} item {gtin:0>14} ordered {whole(quantity)}" for line, gtin, quantity in lines])
    return Message(lambda reference: made(reference, more), shown, spelled=made(1, spelled) if spelled else "", **how)


def answering(number="R1", lines=(("1", "3", "113:36", ""),), order="128576", **how):
    """A response. A line is its number, its action, its quantity and what stands behind `RFF+ON:`, or nothing."""
    segments = [f"BGM+231+{number}+4", "DTM+137:20250603:102", f"RFF+ON:{order}", *parties(ALPHA)]
    for line, action, quantity, reference in lines:
        segments += [f"LIN+{line}+{action}+{ITEM}:SRV", f"QTY+{quantity}", *([f"RFF+ON:{reference}"] if reference else [])]
    told = [
        f"line {reference.partition(':')[2].lstrip('0') or '-'} item {ITEM:0>14} changed {whole(quantity.partition(':')[2])}"
        for _, _, quantity, reference in lines
    ]
    shown = orders.response(*told, number=number, answered=order)
    return Message(lambda reference: message("ORDRSP:D:01B:UN:EAN009", reference, *segments, "UNS+S"), shown, **how)


def despatching(number, *units, order="128576", **how):
    """A despatch advice. A unit is its SSCC and its lines, each a line number, a GTIN, a quantity and what stands behind `RFF+ON:`, or
    nothing."""
    segments, told = [f"BGM+351+{number}+9", "DTM+137:20250604:102", f"RFF+ON:{order}", *parties(ALPHA)], []
    for place, (sscc, *lines) in enumerate(units, 1):
        segments += [f"CPS+{place}", f"GIN+BJ+{sscc}"]
        told.append([sscc])
        for line, gtin, quantity, reference in lines:
            segments += [f"LIN+{line}++{gtin}:SRV", f"QTY+12:{quantity}", *([f"RFF+ON:{reference}"] if reference else [])]
            of, _, of_line = reference.partition(":")
            told[-1].append(goods.despatched(whole(quantity), of_line.lstrip("0") or "-", of or order, f"{gtin:0>14}"))
    return Message(
        lambda reference: message("DESADV:D:01B:UN:EAN007", reference, *segments), goods.advice("despatch", number, *told), **how
    )


def receiving(number, *units, function="9", **how):
    """A receiving advice. A unit is its SSCC and its lines, each a GTIN and its quantities by their kinds."""
    segments, told = [f"BGM+632+{number}+{function}", "DTM+137:20250605:102", *parties(ALPHA)], []
    for place, (sscc, *lines) in enumerate(units, 1):
        segments += [f"CPS+{place}", f"GIN+BJ+{sscc}"]
        told.append([sscc])
        for line, (gtin, quantities) in enumerate(lines, 1):
            segments += [f"LIN+{line}++{gtin}:SRV", *(f"QTY+{kind}:{quantity}" for kind, quantity in quantities.items())]
            told[-1].append(goods.received(*(whole(quantities.get(kind, "0")) for kind in (194, 195, 196)), item=f"{gtin:0>14}"))
    shown = goods.advice("receipt", number, *told)
    if function == "5":
        shown.insert(3, "replaces what was received")
    return Message(lambda reference: message("RECADV:D:01B:UN:EAN005", reference, *segments), shown, **how)


def full_of(segment, size=UPLOAD_LIMIT):
    """An order with such segments, as many as make an interchange of this many bytes; `segment` makes one of a length."""
    most = 8192
    count = (size - 1000) // most
    length_with = lambda last: len(sent(RETAILER, ordering(more=[segment(most)] * count + last)).text)
    rest = size - length_with([segment(100)]) + 100
    last = [segment(rest)] if rest <= most else [segment(rest // 2), segment(rest - rest // 2)]
    found = sent(RETAILER, ordering(more=[segment(most)] * count + last))
    assert len(found.text) == size, len(found.text)
    return found
