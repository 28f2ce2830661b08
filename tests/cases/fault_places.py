"""Cases of `show`: which byte or segment it says shows each fault."""
from tests.cases import goods, orders
from tests.cases.broken_texts import TEXT_LIMIT, long_segment, padded
from tests.cases.envelopes import FIRST, HIGH, PLAIN, SECOND, TEST, crowd
from tests.harness.case import Case
from tests.harness.first_order import END, HEAD, ORDERS
from tests.harness.show_cases import Interchange, edited, in_a_row, kind_of, refusal, refusal_of_text, shown

# A text, its fault, and the offset, the line and the segment of the byte that shows it, or of the end of the text.
OF_TEXTS = [
    ("a longer text, line ends at its end", ORDERS.encode().ljust(TEXT_LIMIT + 1, b"\n"), "E01", 1_048_576, 1_048_322, 13),
    ("a longer text, a segment across the limit", padded(TEXT_LIMIT - 3, b"UNS+S'"), "E01", 1_048_576, 1_048_319, 13),
    ("the ninth byte of a service string", b"\r\nUNA:+;? '", "E02", 10, 2, 1),
    ("a service string cut", b"UNA:+.?", "E02", 7, 1, 1),
    ("a service string cut behind its tag", b"\n\nUNA", "E02", 5, 3, 1),
    ("0x7F in data", b"UNS+S'\r\nUNS+\x7f'", "E03", 12, 2, 2),
    ("a line end in data", b"UNS+S\n'", "E03", 5, 1, 1),
    ("a line end that is released", b"UNA:+.? '\nUNS+S?\n'", "E03", 16, 2, 1),
    ("a text cut in data", b"UNS+S'\nUNS+S", "E04", 12, 2, 2),
    ("a text cut in a tag", b"UN", "E04", 2, 1, 1),
    ("a text cut behind a release character", b"UNA:+.? '\r\n\r\nUNS+S'UNS+S?", "E04", 25, 3, 2),
    ("the first byte", b" UNS'", "E05", 0, 1, 1),
    ("a line end in a tag", b"UNS+S'\r\nUN\nS'", "E05", 10, 2, 2),
    ("a tag of four letters", b"UNSS'", "E05", 3, 1, 1),
    ("a tag behind empty lines", b"UNS+S'\n\nuNS'", "E05", 8, 3, 2),
    ("CR ends no line", b"UNS'\r\r1", "E05", 6, 1, 2),
    ("the last byte", b"UNB'UNZ'.", "E05", 8, 1, 3),
    ("a second service string", b"UNA:+.? 'UNA:+.? '", "E05", 12, 1, 1),
    ("byte 8,193 of a segment", long_segment(8193, b"'"), "E20", 8194, 2, 1),
    ("byte 8,193 of the second segment", b"UNA:+.? 'UNS+S'" + long_segment(8193, b"a"), "E20", 8209, 2, 2),
]

UNH_2 = "UNH+2+ORDERS:D:01B:UN'"
END_2 = "UNZ+2+1001'"
UNDER_UNOA = "UNB+UNOA:3+S:14+R:14+250603:0915+1001'"

# An interchange, its fault, and the number of the segment that shows it.
OF_ENVELOPES = [
    ("no UNB", FIRST + END, "E06", 1),
    ("a segment before UNB", "UNA:+.? 'ABC'" + HEAD + FIRST + END, "E06", 1),
    ("UNB twice", HEAD + FIRST + HEAD + SECOND + END_2, "E06", 4),
    ("a message behind UNZ", HEAD + FIRST + END + SECOND, "E06", 4),
    ("no UNZ", "UNA:+.? '" + HEAD + FIRST, "E06", 3),
    ("UNB alone", HEAD, "E06", 1),
    ("another qualifier", HEAD.replace(":14", ":1") + FIRST + END, "E07", 1),
    ("a segment before the first message", HEAD + "BGM'" + FIRST + END, "E10", 2),
    ("a segment between messages", HEAD + FIRST + "BGM'" + SECOND + END_2, "E10", 4),
    ("a segment behind the last message", HEAD + FIRST + SECOND + "BGM'" + END_2, "E10", 6),
    ("UNH twice", HEAD + FIRST + UNH_2 + SECOND + END_2, "E10", 5),
    ("UNG in a message", HEAD + UNH_2 + "BGM'UNG'UNT+4+2'" + END, "E10", 4),
    ("UNE in a message", HEAD + UNH_2 + "UNE'UNT+3+2'" + END, "E10", 3),
    ("UNT twice", HEAD + FIRST + "UNT+2+1'" + END, "E10", 4),
    ("a message without UNT", HEAD + FIRST + UNH_2 + "BGM'" + END_2, "E10", 6),
    ("a type of 7 bytes", HEAD + FIRST + SECOND.replace("ORDERS", "ORDERSX") + END_2, "E11", 4),
    ("no message reference", HEAD + FIRST + "UNH++ORDERS:D:01B:UN'BGM'UNT+3'" + END_2, "E11", 4),
    ("a count with a letter", HEAD + FIRST + UNH_2 + "BGM'UNT+x+2'" + END_2, "E11", 6),
    ("a wrong UNH and a wrong UNT", HEAD + UNH_2.replace("ORDERS", "ORDERSX") + "BGM'UNT+x+2'" + END, "E11", 2),
    ("a count of segments", HEAD + FIRST + UNH_2 + "BGM'UNT+2+2'" + END_2, "E12", 6),
    ("the first of two wrong counts", HEAD + FIRST.replace("UNT+2", "UNT+1") + UNH_2 + "BGM'UNT+2+2'" + END_2, "E12", 3),
    ("a message reference", HEAD + FIRST + UNH_2 + "BGM'UNT+3+1'" + END_2, "E13", 6),
    ("a count of messages", HEAD + FIRST + END_2, "E14", 4),
    ("a control reference", HEAD + FIRST + "UNZ+1+1009'", "E15", 4),
    ("a repeated reference", HEAD + FIRST + SECOND + FIRST + SECOND + "UNZ+4+1001'", "E16", 6),
    ("a test", TEST + FIRST + END, "E17", 1),
    ("1,000 messages", crowd(PLAIN, 1000, 1000), "E18", 2000),
    ("20,000 messages", crowd(PLAIN, 20_000, 20_000), "E18", 2000),
    ("a byte past 0x9F", UNDER_UNOA + f"UNH+1+ORDERS:D:01B:UN'FTX+a:b{HIGH}'FTX+{HIGH}'UNT+4+1'" + END, "E19", 3),
    ("a byte past 0x9F in UNB", UNDER_UNOA.replace("S:14", HIGH + ":14") + FIRST + END, "E19", 1),
]

# What is told of a message that is edited: the code, the number in the message of the segment that shows the fault, UNH
# counted as 1, the place that the edit replaces, and what then stands there.
OF_ORDERS = [
    ("M01", 1, ":D:", ":S:"),
    ("M01", 1, "ORDERS", "INVOIC"),
    ("M02", 2, "BGM+220+128576+9'", ""),
    ("M02", 2, "BGM+220", "BGM+231"),
    ("M02", 2, "BGM+220", "FTX+AAI'BGM+220"),
    ("M02", 9, "UNS+S'", "UNS+S'BGM+220+128576+9'"),
    ("M03", 2, "+9'", "+4'"),
    ("M04", 1, "DTM+137:20250603:102'", ""),
    ("M04", 1, "DTM", "UNS+S'DTM"),
    ("M04", 3, "20250603", "20250229"),
    ("M04", 4, "DTM+137", "DTM+137:x:102'DTM+137"),
    ("M05", 1, "NAD+BY+5412345000013::9'", ""),
    ("M05", 1, "NAD+SU+4012345500004::9'", ""),
    ("M05", 4, "5412345000013::9", "5412345000014::9"),
    ("M05", 5, "NAD+BY", "NAD+BY'NAD+BY"),
    ("M05", 5, "4012345500004::9", "401234550000::9"),
    ("M05", 6, "NAD+SU", "NAD+SU+8712345000004::9'NAD+SU"),
    ("M05", 4, "5412345000013::9'NAD+SU+4012345500004::9'", "'NAD+SU'"),
    ("M06", 1, "UNS+S'", ""),
    ("M06", 8, "UNS+S'", "UNS+D'"),
    ("M06", 9, "UNS+S'", "UNS+S'UNS+S'"),
    ("M06", 9, "UNS+S'CNT+2:1'", "UNS+S'LIN+2++96385074:SRV'QTY+21:9'CNT+2:2'"),
    ("M07", 6, "LIN+1+", "LIN+0+"),
    ("M07", 8, "UNS+S'CNT+2:1'", "LIN+01++96385074:SRV'QTY+21:9'UNS+S'CNT+2:2'"),
    ("M07", 8, "UNS+S'CNT+2:1'", "LIN+1++96385074:SRV'LIN+0++96385074:SRV'UNS+S'"),
    ("M07", 8, "UNS+S'CNT+2:1'", "LIN+2++96385073:SRV'LIN+1++96385074:SRV'UNS+S'"),
    ("M08", 6, "QTY+21:48'", ""),
    ("M08", 6, "QTY", "CPS+1'QTY"),
    ("M08", 7, "QTY+21:48'", "QTY+21:x'"),
    ("M08", 9, "QTY+21:48'", "FTX'QTY+21:48'QTY+21:x'"),
    ("M08", 10, "UNS+S'CNT+2:1'", "LIN+2++96385074:SRV'IMD+F'QTY+21:0'UNS+S'CNT+2:2'"),
    ("M11", 9, "CNT+2:1'", "CNT+2:2'"),
    ("M11", 10, "CNT+2:1'", "CNT+2:1'CNT+2:1'"),
    ("M11", 10, "CNT+2:1'", "CNT+1:9'CNT+2:x'"),
    ("M12", 1, "LIN+1++4000862141404:SRV'QTY+21:48'UNS+S'CNT+2:1'", "UNS+S'CNT+2:0'"),
]

OF_RESPONSES = [
    ("M03", 2, "+4'", "+5'"),
    ("M07", 7, "LIN+1+3+", "LIN+1+4+"),
    ("M08", 7, "QTY+113:36'", "QTY+12:9'"),
    ("M08", 8, "QTY+113:36'", "QTY+113:3x'"),
    ("M08", 9, "QTY+113:36'", "QTY+21:9'QTY+21:9'"),
    ("M08", 9, "QTY+113:36'", "QTY+21:9'QTY+113:x'"),
    ("M09", 1, "RFF+ON:128576'", ""),
    ("M09", 4, "RFF+ON:128576'", "RFF+ON'"),
    ("M09", 5, "RFF+ON:128576'", "RFF+ON:128576'RFF+ON:128576'"),
    ("M09", 9, "UNS+S'", "RFF+ON:128577'UNS+S'"),
    ("M09", 9, "UNS+S'", "RFF+ON:128576:x'UNS+S'"),
    ("M09", 10, "UNS+S'", "RFF+ON:128576'RFF+ON:128576'UNS+S'"),
]

OF_DESPATCHES = [
    ("M05", 6, "NAD+BY", "NAD+BY+x'NAD+BY"),
    ("M05", 6, "4012345500004::9", "4012345500004"),
    ("M05", 1, "NAD+SU+4012345500004::9'", ""),
    ("M07", 11, "LIN+1+", "LIN+0+"),
    ("M08", 11, "QTY+12:12'", ""),
    ("M08", 12, "QTY+12:12'", "QTY+12:0'"),
    ("M09", 10, "RFF+ON:128576'", ""),
    ("M09", 4, "RFF+ON:128576'", "RFF+ON'"),
    ("M09", 5, "RFF+ON:128576'", "RFF+ON:128576'RFF+ON:128576'"),
    ("M09", 13, "QTY+12:12'", "QTY+12:12'RFF+ON'"),
    ("M10", 7, "CPS+1'", "LIN+9++x'CPS+1'"),
    ("M10", 7, "CPS+1'", "CPS'"),
    ("M10", 7, "GIN+BJ+340123455000000012'", ""),
    ("M10", 10, "GIN+BJ+340123455000000012'", "GIN+BJ+340123455000000013'"),
    ("M10", 11, "GIN+BJ+340123455000000012'", "GIN+BJ+340123455000000012'GIN+BJ+340123455000000012'"),
    ("M10", 15, "QTY+12:12'", "QTY+12:12'CPS+2'PAC'GIN+BJ+340123455000000012'LIN+2++96385074:SRV'QTY+12:1'"),
    ("M10", 10, "CPS+1'PAC+1'PCI+33E'GIN+BJ+340123455000000012'", "CPS'PAC+1'PCI+33E'CPS+1'"),
    ("M11", 13, "QTY+12:12'", "QTY+12:12'CNT+2:2'"),
    ("M12", 1, "LIN+1++4000862141404:SRV'QTY+12:12'", ""),
]

OF_RECEIPTS = [
    ("M05", 1, "NAD+SU+4012345500004::9'", ""),
    ("M07", 13, "LIN+2++4000862141411", "LIN+2++4000862141412"),
    ("M08", 10, "QTY+194:10'QTY+195:1'", ""),
    ("M08", 12, "QTY+195:1'", "QTY+195:x'"),
    ("M08", 13, "QTY+195:1'", "QTY+195:1'QTY+195:1'"),
    ("M08", 12, "QTY+194:10'QTY+195:1'", "QTY+195:x'QTY+194:x'"),
    ("M08", 12, "QTY+194:10'QTY+195:1'", "QTY+194:10'QTY+196:x'"),
    ("M08", 15, "QTY+194:3'", "QTY+194:3'QTY+194:3'"),
    ("M08", 1, "QTY+194:10'QTY+195:1'LIN+2++4000862141411", "QTY+194:999999999'LIN+2++4000862141404"),
    ("M10", 6, "CPS+1'", "CPS'"),
    ("M10", 9, "340123455000000012", "340123455000000013"),
    ("M11", 15, "QTY+194:3'", "QTY+194:3'CNT+2:1'"),
]


def whole(name, source, lines):
    """A case of a text that is refused as a whole."""
    output = "".join(line + "\n" for line in lines).encode()
    return Case(f"show: where, {name}", ["show"], source if isinstance(source, bytes) else source.encode("latin-1"), output, status=1)


def second(message, code, segment, place, words):
    """A case of a message behind an order: UNB and the ten segments of the order stand before it."""
    faulty = edited(message, place, words)
    parts = [orders.ORDER, faulty]
    kinds = [kind_of(part) for part in parts]
    name = f"where, {kind_of(message)} with {words} for {place}"
    return shown(name, in_a_row(*parts), Interchange(kinds=kinds), [orders.order(), refusal(code, 11 + segment)])


CASES = [
    *(whole(name, text, refusal_of_text(code, *place)) for name, text, code, *place in OF_TEXTS),
    whole("no segment", "\r\n", ["refused E06 frame of the interchange"]),
    *(whole(name, text, refusal(code, segment)) for name, text, code, segment in OF_ENVELOPES),
    *(
        second(message, *row)
        for message, table in (
            (orders.ORDER, OF_ORDERS),
            (orders.RESPONSE, OF_RESPONSES),
            (goods.DESPATCH, OF_DESPATCHES),
            (goods.RECEIPT, OF_RECEIPTS),
        )
        for row in table
    ),
]
