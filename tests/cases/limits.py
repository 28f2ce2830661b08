"""Limits of the formats and the profile: each exactly at its edge, and one past it, through every door at which a user can meet it.

A row of the tables below is a limit: what comes first, what lies past it, what lies at its edge, and what is seen of that. Each row is
tried by `relay`, `show` and an import here, and over HTTP by trials/served_limits.py. Words of commands, registers and names of files
are at the end."""
import os
from dataclasses import replace

from tests.cases.limit_messages import ITEM, answering, despatching, full_of, ordering, receiving, released
from tests.harness import doors, show_cases
from tests.harness.case import Case
from tests.harness.database_files import NAME, ROWS, SUPPLIER, TABLES, file_of
from tests.harness.doors import UPLOAD_LIMIT, Limit, Sent, cancelled, faulty, faulty_text, item, mail_text, mailbox, sent, status
from tests.harness.doors import status_for_retailer, taken
from tests.harness.first_order import ORDERS
from tests.harness.hub_scripts import PALLET, article, bytes_of, despatch, interchange, line_status, order
from tests.harness.hub_steps import REGISTER, founded, imported, init, over, step, steps, told
from tests.harness.random_inputs import SECOND_ITEM, with_check_digit
from tests.harness.register_texts import ALPHA, BETA, GAMMA, RETAILER, gln, register

GREATEST = 999_999_999
# numbers and references of as many bytes as there may be: of any bytes, and of bytes that are all released where they are written
LONG, MARKS, LONG_REFERENCE = " 1!\"#$%&()*,-./2345;<=>@AZ[]^_`az{~", "?'+:" * 8 + "?'+", "~!#$%&*,-./09Z"
assert [len(it) for it in (LONG, MARKS, LONG_REFERENCE)] == [35, 35, 14]
OF_ITEM = f"{ITEM:0>14}"


def pallets(count):
    """So many SSCC of supplier A."""
    return [with_check_digit(f"340123455{number:08}") for number in range(count)]


# Texts


def data(size):
    return "FTX+" + "x" * (size - 5)


def elements(size):
    return "FTX" + "+a" * ((size - 4) // 2) + "a" * (size % 2)


def components(size):
    return "FTX+a" + ":a" * ((size - 6) // 2) + "a" * (size % 2)


def empty_elements(size):
    return "FTX" + "+" * (size - 5) + "a"


def empty_components(size):
    return "FTX+" + ":" * (size - 6) + "a"


def released_marks(size):
    return "FTX+" + "a" * ((size - 5) % 2) + "?+" * ((size - 5) // 2)


SEGMENTS = (data, elements, components, empty_elements, empty_components, released_marks)
# segments of 8,192 bytes whose last elements or components are empty, and what is left of them
DROPPED = [
    ("elements that are all empty", "FTX" + "+" * 8188, "FTX"),
    ("components that are all empty", "FTX+" + ":" * 8187, "FTX"),
    ("elements with an empty component each", "FTX+aaa" + "+a:" * 2728, "FTX+aaa" + "+a" * 2728),
]


def long_segment(name, spelled, written):
    """An order with a segment of 8,192 bytes, which the hub writes so; and with one byte more."""
    assert len(spelled) == 8191, name
    at, past = sent(RETAILER, ordering(more=[written], spelled=[spelled])), ordering(spelled=[spelled.replace("FTX+", "FTX+x", 1)])
    text = interchange(RETAILER, "1001", past.text())
    shown_at = text.index("FTX") + 8192
    return Limit(
        f"a segment of 8,192 bytes: {name}",
        [at],
        [faulty_text(RETAILER, text, "E20", shown_at, 5)],
        looks=[item(ALPHA, 1, mail_text(ordering(more=[written]).make(1)))],
    )


def segment_that_grows():
    """A segment of 8,192 bytes in other characters, of which nearly each is released where the hub writes it."""
    many = "?'+:" * 2046 + "'''"
    marks = str.maketrans({":": "*", "+": "|", "'": "~"})
    text_of = lambda note: interchange(RETAILER, "1001", ordering(more=["FTX+Q"]).make(1)).replace("UNA:+.? '", "UNA:+,! '").translate(
        marks
    ).replace("FTX|Q", f"FTX|{note}")
    message = ordering(more=["FTX+" + released(many)])
    at = sent(RETAILER, message)
    at.text, past = text_of(many), text_of(many + "'")
    at.mails = mail_text(message.make(1), mark=",")
    at.shown = at.shown.replace(show_cases.USUAL_MARKS, "service component * element | decimal , release ! terminator ~")
    return Limit(
        "a segment of 8,192 bytes that is written in twice as many",
        [at],
        [faulty_text(RETAILER, past, "E20", past.index("FTX") + 8192, 5)],
        looks=[item(ALPHA, 1, at.mails)],
    )


def full_text(segment):
    """An upload of 1,048,576 bytes full of such segments, and one of a byte more."""
    at = full_of(segment)
    longer = faulty_text(RETAILER, at.text + "\n", "E01", UPLOAD_LIMIT, at.text.count("'", 9) + 1)
    return Limit(
        f"a text of 1,048,576 bytes: {segment.__name__.replace('_', ' ')}",
        [at],
        [longer] if segment is data else [],
        looks=[status(ALPHA, line_status("128576", "W", 48, 48, 0, 0, 0))],
    )


def most_segments():
    """As many segments as fit."""
    count = (UPLOAD_LIMIT - 300) // 4
    at = sent(RETAILER, ordering(more=["FTX"] * count))
    at.text += "\n" * (UPLOAD_LIMIT - len(at.text))
    assert len(at.text) == UPLOAD_LIMIT
    return Limit(f"a message of {count + 10:,} segments", [at])


def most_messages():
    """999 messages, and 1,000."""
    orders = [ordering(str(k), reference=str(k)) for k in range(1, 1001)]
    too_many = faulty(RETAILER, interchange(RETAILER, "1001", *(it.text() for it in orders)), "E18", 2 + 11 * 999 - 999)
    entries = [(k, "ORDERS", k) for k in range(900, 1000)]
    return Limit(
        "999 messages",
        [sent(RETAILER, *orders[:999])],
        [too_many],
        looks=[
            mailbox(ALPHA, 899, *entries),
            mailbox(ALPHA, 898, (899, "ORDERS", 899), *entries[:-1], last="more"),
            item(ALPHA, 999, mail_text(orders[998].make(1), 999)),
        ],
        large=True,
    )


# References, numbers, counts


def of_envelope(name, code, segment, edit_at, edit_past, control="1001", reply=None):
    """The first order with a part of its envelope at its limit and past it."""
    at = sent(RETAILER, ordering(), control=control, reply=reply)
    at.text, at.mails, at.shown = (edit_at(it) for it in (at.text, at.mails, at.shown))
    return Limit(name, [at], [faulty(RETAILER, edit_past(interchange(RETAILER, "1001", order())), code, segment)])


def swapped(old, new):
    assert old
    return lambda text: text.replace(old, new)


ENVELOPES = [
    of_envelope("a control reference of 14 bytes", "E07", 1, str, swapped("+1001'", f"+{LONG_REFERENCE}x'"), LONG_REFERENCE),
    of_envelope("a control reference of 14 released bytes", "E07", 1, str, swapped("+1001'", f"+{'??' * 15}'"), "?" * 14),
    of_envelope("an association of 6 bytes", "E11", 2, swapped(":EAN010", ":EAN010"), swapped(":EAN010", ":EAN0101")),
    of_envelope("a count of segments of 6 digits", "E11", 10 + 1, swapped("UNT+10+", "UNT+000010+"), swapped("UNT+10+", "UNT+0000010+")),
    of_envelope(
        "a count of messages of 6 digits", "E14", 10 + 2, lambda it: it.replace("UNZ+1+1001", "UNZ+000001+1001"),
        swapped("UNZ+1+", "UNZ+0000001+")
    ),
]


def senders():
    """A sender of 35 bytes, which is nobody's GLN, and of 36."""
    at, past = (interchange("S" * size, "1001", order()) for size in (35, 36))
    shown = sent(RETAILER, ordering()).shown.replace(f"sender {RETAILER}", f"sender {'S' * 35}")
    return Limit(
        "a sender of 35 bytes",
        [Sent(RETAILER, at, ["refused E08"], mail_text(order()), shown)],
        [faulty(RETAILER, past, "E07", 1)],
        looks=[mailbox(ALPHA, 0)],
    )


def message_references():
    """References of 14 bytes, of two messages that differ in the last; and one of 15."""
    two = [ordering(str(k), reference="REFERENCE-000" + str(k)) for k in (1, 2)]
    past = interchange(RETAILER, "1001", order(reference="REFERENCE-00001"))
    return Limit(
        "a message reference of 14 bytes",
        [sent(RETAILER, *two)],
        [faulty(RETAILER, past, "E11", 2)],
        looks=[mailbox(ALPHA, 0, (1, "ORDERS", 1), (2, "ORDERS", 2)), item(ALPHA, 2, mail_text(two[1].make(1), 2))],
    )


def order_numbers(number):
    """An order number of 35 bytes, all the way: in the status, the list, the mail and a cancellation."""
    one = ordering(number)
    return Limit(
        f"an order number of 35 bytes: {number}",
        [sent(RETAILER, one)],
        [sent(RETAILER, ordering(number + "x", word="refused M02"))],
        looks=[
            mailbox(ALPHA, 0, (1, "ORDERS", number)),
            item(ALPHA, 1, mail_text(one.make(1))),
            cancelled("accepted", reference=LONG_REFERENCE, order=number),
            cancelled("repeated", reference=LONG_REFERENCE, order=number),
            status(ALPHA, line_status(number, "W", 48, 38, 0, 10, 0)),
            status_for_retailer(ALPHA, line_status(number, "W", 48, 38, 0, 10, 0)),
        ],
    )


FIRST = sent(RETAILER, ordering(LONG), control="1000")
ADVISED = sent(ALPHA, despatching(LONG, (PALLET, ("1", ITEM, "12", "")), order=LONG), control="S0")


def answer_numbers():
    """A response of 35 bytes to an order of 35; each past its limit."""
    at = answering(LONG, order=LONG, lines=[("1", "3", "113:36", f"{LONG}:1")])
    past = [
        answering(LONG + "x", order=LONG, word="refused M02"),
        answering(order=LONG + "x", word="refused M09"),
        answering(order=LONG, lines=[("1", "3", "113:36", f"{LONG}x:1")], word="refused M09"),
    ]
    looks = [status(ALPHA, line_status(LONG, "C", 48, 36, 12, 0, 0))]
    return Limit("a response and its order of 35 bytes", [sent(ALPHA, at)], [sent(ALPHA, it) for it in past], [FIRST], looks=looks)


def advice_numbers():
    """A despatch advice of 35 bytes, its order of 35 in the header and at a line, and a receipt of 35."""
    at = despatching(LONG, (PALLET, ("1", ITEM, "12", ""), ("2", ITEM, "1", f"{LONG}:1")), order=LONG)
    past = [
        despatching(LONG + "x", (PALLET, ("1", ITEM, "1", "")), order=LONG, word="refused M02"),
        despatching("DA2", (PALLET, ("1", ITEM, "1", LONG)), order=LONG + "x", word="refused M09"),
        despatching("DA2", (PALLET, ("1", ITEM, "1", LONG + "x")), order=LONG, word="refused M09"),
    ]
    looks = [status(ALPHA, line_status(LONG, "W", 48, 35, 0, 0, 13), article(PALLET, OF_ITEM, "A", 13, 0, 0, 0, "+0"))]
    return Limit("an advice and its order of 35 bytes", [sent(ALPHA, at)], [sent(ALPHA, it) for it in past], [FIRST], looks=looks)


def receipt_numbers(function):
    """A receiving advice of 35 bytes."""
    at = receiving(LONG, (PALLET, (ITEM, {194: "12"})), function=function)
    letter = {"9": "R", "5": "C"}[function]
    return Limit(
        f"a receipt of 35 bytes, function {function}",
        [sent(RETAILER, at)],
        [sent(RETAILER, receiving(LONG + "x", (PALLET, (ITEM, {194: "12"})), function=function, word="refused M02"))],
        [FIRST, ADVISED],
        looks=[
            mailbox(ALPHA, 1, (2, "RECADV", LONG)),
            item(ALPHA, 2, mail_text(at.make(1), 2)),
            status(ALPHA, line_status(LONG, "W", 48, 36, 0, 0, 12), article(PALLET, OF_ITEM, letter, 12, 12, 0, 0, "+0")),
        ],
    )


def line_numbers():
    """Line 999999, and line 1 in six digits; in an order, a response, an advice and a cancellation."""
    at = ordering(lines=[("999999", ITEM, "48"), ("000001", SECOND_ITEM, "7")])
    past = [ordering(lines=[(line, ITEM, "48")], word="refused M07") for line in ("1000000", "0000001")]
    lines = lambda opened, cancelled_: [
        line_status("128576", "W", 7, 7, 0, 0, 0, gtin=f"{SECOND_ITEM:0>14}"),
        line_status("128576", "W", 48, opened, 0, cancelled_, 0, line=999999),
    ]
    looks = [
        status(ALPHA, *lines(48, 0)),
        cancelled("accepted", line="999999"),
        cancelled("refused B06", reference="C2", line="999998"),
        status(ALPHA, *lines(38, 10)),
    ]
    return Limit("a line number of 6 digits", [sent(RETAILER, at)], [sent(RETAILER, it) for it in past], looks=looks)


GREATEST_LINE = sent(RETAILER, ordering(lines=[("999999", ITEM, "48")]), control="1000")


def lines_of_answers():
    at = answering(lines=[("999999", "3", "113:36", "128576:999999")])
    past = [
        answering(lines=[("1000000", "3", "113:36", "128576:999999")], word="refused M07"),
        answering(lines=[("1", "3", "113:36", "128576:1000000")], word="refused M09"),
        answering(lines=[("1", "3", "113:36", "128576:0999999")], word="refused M09"),
    ]
    looks = [status(ALPHA, line_status("128576", "C", 48, 36, 12, 0, 0, line=999999))]
    return Limit("line 999999 answered", [sent(ALPHA, at)], [sent(ALPHA, it) for it in past], [GREATEST_LINE], looks=looks)


def lines_of_advices():
    at = despatching("DA1", (PALLET, ("999999", ITEM, "12", "128576:999999")))
    past = [
        despatching("DA1", (PALLET, ("1000000", ITEM, "12", "128576:999999")), word="refused M07"),
        despatching("DA1", (PALLET, ("1", ITEM, "12", "128576:1000000")), word="refused M09"),
    ]
    lines = line_status("128576", "W", 48, 36, 0, 0, 12, line=999999), article(PALLET, OF_ITEM, "A", 12, 0, 0, 0, "+0")
    looks = [status(ALPHA, *lines)]
    return Limit("line 999999 despatched", [sent(ALPHA, at)], [sent(ALPHA, it) for it in past], [GREATEST_LINE], looks=looks)


# Quantities

# the greatest quantity in 35 bytes, and as long as one more byte
ROOM = 35 - len(str(GREATEST))
SPELLED = [str(GREATEST), "0" * ROOM + str(GREATEST), *(f"{GREATEST}{mark}".ljust(35, "0") for mark in ".,")]
PAST = [str(GREATEST + 1), "0" * (ROOM + 1) + str(GREATEST), *(f"{GREATEST}{mark}".ljust(36, "0") for mark in ".,"), "0" * 32 + "48.1"]


def quantities_ordered():
    """The greatest quantity, in as many bytes as there may be."""
    at = [ordering(str(k), lines=[("1", ITEM, it)], reference=str(k)) for k, it in enumerate(SPELLED)]
    past = [sent(RETAILER, ordering(lines=[("1", ITEM, it)], word="refused M08")) for it in PAST]
    lines = [line_status(str(k), "W", GREATEST, GREATEST, 0, 0, 0) for k in range(len(SPELLED))]
    gone = line_status("0", "W", GREATEST, 0, 0, GREATEST, 0)
    looks = [
        status(ALPHA, *lines),
        cancelled("accepted", order="0", quantity=str(GREATEST)),
        cancelled("refused B17", reference="C2", order="0", quantity="1"),
        status(ALPHA, gone, *lines[1:]),
    ]
    return Limit("999,999,999 ordered", [sent(RETAILER, *at)], past, looks=looks)


ALL_OF_IT = sent(RETAILER, ordering(lines=[("1", ITEM, str(GREATEST))]), control="1000")


def quantities_answered(kind):
    at, past = answering(lines=[("1", "3", f"{kind}:{SPELLED[1]}", "")]), [
        sent(ALPHA, answering(lines=[("1", "3", f"{kind}:{it}", "")], word="refused M08")) for it in PAST
    ]
    lines = line_status("128576", "C", GREATEST, GREATEST, 0, 0, 0)
    return Limit(f"999,999,999 answered by QTY {kind}", [sent(ALPHA, at)], past, [ALL_OF_IT], looks=[status(ALPHA, lines)])


def quantities_despatched():
    at, past = despatching("DA1", (PALLET, ("1", ITEM, SPELLED[2], ""))), [
        sent(ALPHA, despatching("DA1", (PALLET, ("1", ITEM, it, "")), word="refused M08")) for it in PAST
    ]
    lines = [line_status("128576", "W", GREATEST, 0, 0, 0, GREATEST), article(PALLET, OF_ITEM, "A", GREATEST, 0, 0, 0, "+0")]
    none = receiving("G1", (PALLET, (ITEM, {194: "0"})))
    looks = [status(ALPHA, lines[0], article(PALLET, OF_ITEM, "R", GREATEST, 0, 0, 0, f"-{GREATEST}"))]
    return Limit("999,999,999 despatched", [sent(ALPHA, at)], past, [ALL_OF_IT], [sent(RETAILER, none, control="1002")], looks)


def quantities_received(function):
    """The greatest sum of each kind on one pallet, in one line and in two; and one more."""
    letter = {"9": "R", "5": "C"}[function]
    both = [{kind: str(GREATEST - 1) for kind in (194, 195, 196)}, {kind: "1" for kind in (194, 195, 196)}]
    at = receiving("G1", (PALLET, *((ITEM, it) for it in both), (SECOND_ITEM, {194: SPELLED[3]})), function=function)
    more = lambda kind: [both[0], {**both[1], kind: "2"}]
    past = [
        *(receiving("G1", (PALLET, *((ITEM, it) for it in more(kind))), function=function, word="refused M08") for kind in both[0]),
        *(receiving("G1", (PALLET, (ITEM, {kind: it})), function=function, word="refused M08") for kind in both[0] for it in PAST),
    ]
    lines = [
        line_status("128576", "W", GREATEST, GREATEST - 1, 0, 0, 1),
        article(PALLET, OF_ITEM, letter, 1, GREATEST, GREATEST, GREATEST, f"+{3 * GREATEST - 1}"),
        article(PALLET, f"{SECOND_ITEM:0>14}", letter, 0, GREATEST, 0, 0, f"+{GREATEST}"),
    ]
    first = [ALL_OF_IT, sent(ALPHA, despatching("DA1", (PALLET, ("1", ITEM, "1", ""))), control="S0")]
    return Limit(
        f"999,999,999 received of each kind, function {function}",
        [sent(RETAILER, at)],
        [sent(RETAILER, it) for it in past],
        first,
        looks=[status(ALPHA, *lines)],
    )


def items():
    """Each length of a GTIN, and those between."""
    right = [with_check_digit("4000862141411"[: size - 1]) for size in (8, 12, 13)] + [with_check_digit("1400086214140")]
    wrong = [with_check_digit("14000862141404"[: size - 1]) for size in (7, 9, 11, 15)]
    lines = [(str(k), it, "1") for k, it in enumerate(right, 1)]
    past = [sent(RETAILER, ordering(lines=[("1", it, "1")], word="refused M07")) for it in wrong]
    looks = [status(ALPHA, *(line_status("128576", "W", 1, 1, 0, 0, 0, k, f"{it:0>14}") for k, it in enumerate(right, 1)))]
    return Limit("GTINs of 8, 12, 13 and 14 digits", [sent(RETAILER, ordering(lines=lines))], past, looks=looks)


def counts_of_lines():
    at, past = ordering(), ordering(word="refused M11")
    for one, count in ((at, "000001"), (past, "0000001")):
        one.make = lambda reference, made=one.make, count=count: made(reference).replace("CNT+2:1'", f"CNT+2:{count}'")
    return Limit("a count of lines of 6 digits", [sent(RETAILER, at)], [sent(RETAILER, past)])


# Units and lines, as many as there can be


def received_units(count, function):
    """So many pallets, despatched in one advice and received in one of either function, the units of 1 to 3 articles each; and all of them
    again with one that is not known."""
    known, letter = pallets(count + 1), {"9": "R", "5": "C"}[function]
    articles = [with_check_digit(f"400086214{k:03}") for k in range(3)]
    lines = [[(it, {194: str(k % 7), 196: "1"}) for it in articles[: k % 3 + 1]] for k in range(count)]
    advised = despatching("DA1", *((it, ("1", ITEM, "1", "")) for it in known[:count]))
    units = [(it, *its) for it, its in zip(known, lines)]
    shown = [line_status("128576", "W", GREATEST, GREATEST - count, 0, 0, count)]
    for k, it in enumerate(known[:count]):
        rows = {f"{gtin:0>14}": (0, k % 7) for gtin in articles[: k % 3 + 1]}
        rows[OF_ITEM] = (1, rows.get(OF_ITEM, (0, None))[1])
        for gtin in sorted(rows):
            despatched, taken_ = rows[gtin]
            received = 0 if taken_ is None else taken_ + 1
            shown.append(article(it, gtin, letter, despatched, taken_ or 0, 0, 0 if taken_ is None else 1, f"{received - despatched:+}"))
    unknown = receiving("G1", *units, (known[count], *lines[0]), function=function, word="refused B14")
    return Limit(
        f"{count} units received, function {function}",
        [sent(RETAILER, receiving("G1", *units, function=function))],
        [sent(RETAILER, unknown)],
        [ALL_OF_IT, sent(ALPHA, advised, control="S0")],
        [sent(RETAILER, receiving("G2", *units, word="refused B15"), control="1002")],
        [status(ALPHA, *shown)],
    )


def replaced_units(count):
    """So many pallets that were received are counted again, each in one article fewer: only what the last advice says of them stands."""
    known = pallets(count)
    advised = despatching("DA1", *((it, ("1", ITEM, "2", "")) for it in known))
    first = receiving("G1", *((it, (ITEM, {194: "1"}), (SECOND_ITEM, {195: "5"})) for it in known))
    again = receiving("G2", *((it, (ITEM, {194: "2"})) for it in known), function="5")
    shown = [article(it, OF_ITEM, "C", 2, 2, 0, 0, "+0") for it in known]
    return Limit(
        f"{count} units received again",
        [sent(RETAILER, again)],
        first=[ALL_OF_IT, sent(ALPHA, advised, control="S0"), sent(RETAILER, first, control="1002")],
        looks=[status(ALPHA, line_status("128576", "W", GREATEST, GREATEST - 2 * count, 0, 0, 2 * count), *shown)],
    )


def sums_of_many_lines(count=10_001):
    """So many lines of the greatest quantity on one pallet: a sum of 14 digits and a difference of 15 places."""
    numbers = [str(k) for k in range(1, count + 1)]
    ordered = sent(RETAILER, ordering("1", [(it, ITEM, str(GREATEST)) for it in numbers]))
    advised = sent(ALPHA, despatching("DA1", (PALLET, *(("1", ITEM, str(GREATEST), f"1:{it}") for it in numbers)), order="1"), control="S0")
    none = receiving("G1", (PALLET, (ITEM, {194: "0"})))
    total = count * GREATEST
    assert len(str(total)) == 14 and len(ordered.text) < UPLOAD_LIMIT
    lines = [line_status("1", "W", GREATEST, 0, 0, 0, GREATEST, line=int(it)) for it in numbers]
    shown = article(PALLET, OF_ITEM, "R", total, 0, 0, 0, f"-{total}")
    return Limit(
        f"{count:,} lines of the greatest quantity on one pallet",
        [sent(RETAILER, none, control="1002")],
        first=[ordered, advised],
        looks=[status(ALPHA, *lines, shown)],
        large=True,
    )


def most_lines():
    """An order of as many lines as an upload has room for, and its answer line by line."""
    least = "96385074"
    count, size = 0, len(sent(RETAILER, ordering("1", [])).text) + 8
    while size + len(f"LIN+{count + 1}++{least}:SRV'QTY+21:2'") <= UPLOAD_LIMIT:
        count += 1
        size += len(f"LIN+{count}++{least}:SRV'QTY+21:2'")
    numbers = [str(k) for k in range(1, count + 1)]
    at = sent(RETAILER, ordering("1", [(it, least, "2") for it in numbers]))
    assert UPLOAD_LIMIT - 40 < len(at.text) <= UPLOAD_LIMIT, len(at.text)
    lines = [line_status("1", "W", 2, 2, 0, 0, 0, int(it), f"{least:0>14}") for it in numbers]
    last = line_status("1", "W", 2, 1, 0, 1, 0, count, f"{least:0>14}")
    looks = [status(ALPHA, *lines), cancelled("accepted", order="1", line=str(count), quantity="1"), status(ALPHA, *lines[:-1], last)]
    return Limit(f"an order of {count:,} lines", [at], looks=looks, large=True)


# The mailbox


def last_mail(number):
    """A file whose last entry of supplier A has this number."""
    entry = (SUPPLIER, number, 1748942400, ord("."), ord("O"), b"1", b"UNH+1'UNT+2+1'", 0)
    return {NAME: file_of(TABLES, {**ROWS, "mail": [entry]})}


LAST = 99_999_999_999_999


def last_numbers():
    """999 messages up to the last number of a mailbox, and then one more of each type."""
    orders = [ordering(f"N{k}", reference=str(k)) for k in range(1, 1000)]
    at = sent(RETAILER, *orders, control="2001")
    behind = [
        sent(RETAILER, ordering("N1000", word="refused B16"), control="1002"),
        sent(RETAILER, receiving("G1", (PALLET, (ITEM, {194: "12"})), word="refused B16"), control="1003"),
    ]
    looks = [
        mailbox(ALPHA, LAST - 1, (LAST, "ORDERS", "N999")),
        mailbox(ALPHA, LAST),
        item(ALPHA, LAST, mail_text(orders[998].make(1), LAST)),
        taken(ALPHA, LAST),
        mailbox(ALPHA, LAST - 1),
    ]
    return Limit("999 messages up to the last mailbox number", [at], behind=behind, looks=looks, files=last_mail(LAST - 999), large=True)


TEXTS = [
    *(long_segment(it.__name__.replace("_", " "), it(8192), it(8192)) for it in SEGMENTS),
    *(long_segment(*row) for row in DROPPED),
    segment_that_grows(),
    *(full_text(it) for it in SEGMENTS),
    most_segments(),
    most_messages(),
]
NUMBERS = [
    *ENVELOPES,
    senders(),
    message_references(),
    order_numbers(LONG),
    order_numbers(MARKS),
    answer_numbers(),
    advice_numbers(),
    *(receipt_numbers(it) for it in "95"),
    line_numbers(),
    lines_of_answers(),
    lines_of_advices(),
    items(),
    counts_of_lines(),
]
QUANTITIES = [
    quantities_ordered(),
    *(quantities_answered(it) for it in (113, 21)),
    quantities_despatched(),
    *(quantities_received(it) for it in "95"),
]
CROWDS = [
    *(received_units(count, function) for count in (1, 3, 200) for function in "95"),
    *(replaced_units(count) for count in (1, 3, 200)),
    sums_of_many_lines(),
    most_lines(),
    last_numbers(),
]
ROWS_OF_LIMITS = TEXTS + NUMBERS + QUANTITIES + CROWDS

# Words of commands, registers, and names of files

SHORT_KEY, LONG_KEY = "!~345678", "k" * 64


def relayed_up_to_the_last():
    """999 messages whose mails go up to the last number that a mailbox can have."""
    orders = [ordering(reference=str(k)) for k in range(1, 1000)]
    mails = "".join(mail_text(it.make(1), LAST - 999 + k) for k, it in enumerate(orders, 1))
    text = bytes_of(sent(RETAILER, *orders).text)
    return Case("relay: 999 mails up to the last mailbox number", doors.relay(number=str(LAST - 998)), text, bytes_of(mails))


def keys():
    """Keys of 8 and of 64 bytes, by each command; and such as have a byte more or fewer."""
    of_two = register((ALPHA, "40123455", SHORT_KEY), (BETA, "8712345", LONG_KEY), key=LONG_KEY)
    cancel = ("--supplier", ALPHA, "--reference", "C1", "--order", "128576", "--line", "1", "--quantity", "10")
    join = ("--supplier", GAMMA, "--supplier-key", LONG_KEY, "--prefixes", ",".join(f"761234{k}" for k in range(8)))
    denied = [(ALPHA, SHORT_KEY[:-1]), (ALPHA, SHORT_KEY + "8"), (BETA, LONG_KEY[:-1]), (BETA, LONG_KEY + "k"), (GAMMA, LONG_KEY)]
    return steps(
        "keys of 8 and of 64 bytes",
        step(init(), told("ok 2 suppliers"), files={REGISTER: of_two}),
        *(step(over("status", who, key=key), told("denied"), 1) for who, key in denied),
        imported(RETAILER, "in", ("a.edi", ORDERS, "interchange 1001 messages 1", "1 ORDERS accepted"), key=LONG_KEY),
        step(over("cancel", RETAILER, *cancel, key=LONG_KEY), told("accepted")),
        step(over("mail", ALPHA, "--do", "taken", "--n", "1", key=SHORT_KEY), told("taken")),
        step(over("join", RETAILER, *join, key=LONG_KEY), told("accepted")),
        step(over("status", GAMMA, key=LONG_KEY), told("end")),
        step(over("status", GAMMA, key=LONG_KEY[:-1]), told("denied"), 1),
        step(over("status", BETA, key=LONG_KEY), told("end")),
    )


def crowd(count, last=()):
    """A register of so many suppliers with eight prefixes each, and of the last perhaps with others."""
    prefixes = lambda number: [f"4{number:07}{k}" for k in range(8)]
    return register(*((gln(k), last if last and k == count - 1 else prefixes(k), f"key-{k:04}") for k in range(count)))


def on_the_last_pallet(number, prefix):
    """A despatch of supplier `number` on a pallet under this prefix, and what is told of it."""
    sscc = with_check_digit("3" + prefix.ljust(16, "0"))
    text = interchange(gln(number), "S1", despatch("DA1", sscc, 12, supplier=gln(number)))
    return imported(gln(number), "out", ("a.edi", text, "interchange S1 messages 1", "1 DESADV accepted"), key=f"key-{number:04}")


def order_of(number):
    text = interchange(RETAILER, "1001", order(supplier=gln(number)))
    return imported(RETAILER, "in", ("a.edi", text, "interchange 1001 messages 1", "1 ORDERS accepted"))


def join_of(supplier, key, prefixes, word):
    words = ("--supplier", supplier, "--supplier-key", key, "--prefixes", ",".join(prefixes))
    return step(over("join", RETAILER, *words), told(word), 1 if word.startswith("refused") else 0)


def prefixes_of_all():
    """1,000 suppliers with 8,000 prefixes: the last of them is used; a supplier more is too many; and what overlaps the last one."""
    last = "400009997"
    check, with_register = ["check", "--register", REGISTER], lambda text: {REGISTER: text.encode()}
    longest = [f"{400009990000 + k}" for k in range(8)]
    full = crowd(1000, longest)
    yield steps(
        "8,000 prefixes, the last of which is used",
        step(init(), told("ok 1000 suppliers"), files={REGISTER: crowd(1000)}),
        order_of(999),
        on_the_last_pallet(999, last),
        join_of(GAMMA, "gamma-key-1", ["7612345"], "refused B20"),
        join_of(GAMMA, "gamma-key-1", ["7612345", last], "refused B19"),
        join_of(GAMMA, "gamma-key-1", ["7612345", last + "1"], "refused B19"),
        join_of(gln(999), "gamma-key-1", ["7612345"], "refused B18"),
    )
    yield steps(
        "a supplier with eight prefixes of 12 digits and a key of 64 bytes joins as the 1,000th",
        step(init(), told("ok 999 suppliers"), files={REGISTER: crowd(999)}),
        join_of(gln(999), "key-0999".ljust(64, "k"), longest, "accepted"),
        order_of(999),
        step(over("status", gln(999), key="key-0999".ljust(64, "k")), told(line_status("128576", "W", 48, 48, 0, 0, 0), "end")),
        join_of(GAMMA, "gamma-key-1", ["7612345"], "refused B20"),
    )
    for name, text, told_, status_ in (
        ("8,000 prefixes", full, "ok 1000 suppliers", 0),
        ("8,000 prefixes in as many bytes as a register may have", full + "\n" * (UPLOAD_LIMIT - len(full)), "ok 1000 suppliers", 0),
        ("8,000 prefixes of 1,000 suppliers, and one supplier more", crowd(1001), "fault many", 1),
        ("8,001 prefixes", crowd(1000, [*longest, "7612345"]), "fault prefix", 1),
        ("8,000 prefixes, of which the last is the first", crowd(1000, [*longest[:7], "400000000"]), "fault overlap 1 1000", 1),
        ("8,000 prefixes, of which the last begins those before", crowd(1000, [*longest[:7], "40000998"]), "fault overlap 999 1000", 1),
    ):
        yield Case(f"check: {name}", check, output=told(told_).encode(), status=status_, files=with_register(text))


def registers_of_any_length():
    """A hub is founded of a register of 1,048,576 bytes, and of none that is longer."""
    text = register().ljust(UPLOAD_LIMIT)
    return steps(
        "a register of 1,048,576 bytes",
        step(init(), "", 3, "file\n", files={REGISTER: text + "\n"}),
        step(init(), told("ok 0 suppliers"), files={REGISTER: text}),
    )


def moments():
    """The first moment, and the last."""
    uploads = [(moment, ordering(moment), when) for moment, when in (("0", "700101:0000"), ("4102444799", "991231:2359"))]
    made = [(moment, sent(RETAILER, it, control=moment)) for moment, it, _ in uploads]
    imports = [imported(RETAILER, f"in{moment}", ("a.edi", it.text, *it.reply), moment=moment) for moment, it in made]
    mails = [mail_text(it.make(1), place, when=when) for place, (_, it, when) in enumerate(uploads, 1)]
    return founded("the first and the last moment", *imports, *(item(ALPHA, place, it).command for place, it in enumerate(mails, 1)))


# names of plain files, hidden ones among them, and such as could be taken for something else
PLAIN_NAMES = [
    ".a.edi", "..a", "...", ".hidden", "-", "--help", "-rf", " ", " a", "a ", "a b", "a.edi", "a.edi~", "A.edi", "B", "0", "'", '"', "\\",
    "*", "?", "#a#", "$HOME", "%0A", "fault", "file a.edi", "stopped", "1 ORDERS accepted", "n" * 255, "\u00e9.edi", "\u00e9" * 127 + "x",
    "\u00a0", "\u6f22\u5b57", "\U0001f69a", "~"
]
# and such as cannot be printed: control bytes, and what is no UTF-8
CONTROL_NAMES = [f"a{chr(it)}b" for it in (*range(1, 0x20), 0x7F)]
NO_UTF_8 = [os.fsdecode(it) for it in (b"\xff", b"\xc0\xaf", b"\xed\xa0\x80", b"a\xe2\x82", b"\xf5\x80\x80\x80", b"\x80" * 255)]


def names_of_files():
    """Every kind of name: plain files in the order of the bytes of their names, hidden ones too; then a fault for each other name."""
    names = sorted(PLAIN_NAMES, key=os.fsencode)
    texts = {it: sent(RETAILER, ordering(str(place)), control=str(place)) for place, it in enumerate(names)}
    told_of = lambda texts: told(*(line for it in names for line in (f"file {it}", *texts[it].reply)))
    first, again = told_of(texts), told_of({it: text.again() for it, text in texts.items()})
    files = {f"in/{it}": one.text for it, one in texts.items()}
    other = {f"in/{it}": ORDERS for it in CONTROL_NAMES + NO_UTF_8}
    lines = [line_status(number, "W", 48, 48, 0, 0, 0) for number in sorted(map(str, range(len(names))))]
    words = over("import", RETAILER, "--folder", "in")
    return founded(
        "every kind of file name",
        step(words, first.encode(), files={**files, "in/.folder/a.edi": ORDERS}),
        step(words, (again + told(*["fault"] * len(other))).encode(), 3, files=other),
        status(ALPHA, *lines).command,
    )


OTHERS = [relayed_up_to_the_last(), keys(), registers_of_any_length(), moments(), names_of_files()]
OTHERS += [replace(it, large=True) for it in prefixes_of_all()]

LIMITS = [case for row in ROWS_OF_LIMITS for case in (*row.alone(), row.by_commands())] + OTHERS
