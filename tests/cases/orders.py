"""Cases of `show` on orders (ORDERS) and responses (ORDRSP)."""
from tests.harness.show_cases import RETAILER, SUPPLIER, Interchange, both, edited, edits, refusal, shown, told

# The lines of a large order. cases/limits.py has larger ones: a fault of orders with more lines than some number begins with these.
GREATEST_ORDER = 15_000

# A right order and a right response, from UNH up to where UNT stands.
ORDER = (
    "UNH+1+ORDERS:D:01B:UN:EAN010'BGM+220+128576+9'DTM+137:20250603:102'NAD+BY+5412345000013::9'NAD+SU+4012345500004::9'"
    "LIN+1++4000862141404:SRV'QTY+21:48'UNS+S'CNT+2:1'"
)

RESPONSE = (
    "UNH+1+ORDRSP:D:01B:UN:EAN009'BGM+231+AB128+4'DTM+137:20250603:102'RFF+ON:128576'NAD+BY+5412345000013::9'NAD+SU+4012345500004::9'"
    "LIN+1+3+4000862141404:SRV'QTY+113:36'UNS+S'"
)


def order(number="128576", supplier=SUPPLIER, lines=("1 item 04000862141404 ordered 48",)):
    """The lines of an order."""
    return [f"order {number}", f"buyer {RETAILER}", f"supplier {supplier}", *(f"line {line}" for line in lines)]


def response(*answers, number="AB128", answered="128576"):
    """The lines of a response."""
    return [f"response {number}", f"buyer {RETAILER}", f"supplier {SUPPLIER}", f"answers {answered}", *answers]


# The order in other service characters, with an end of line behind each segment; and another order, with a free text
# that has the usual ones as data.
RESPELLED = (
    "UNA*|,! ~\r\nUNB|UNOC*3|5412345000013*14|5412345000006*14|250603*0915|1001~\r\nUNH|1|ORDERS*D*01B*UN*EAN010~\r\nBGM|220|128576|9~\r\n"
    "DTM|137*20250603*102~\r\nNAD|BY|5412345000013**9~\r\nNAD|SU|4012345500004**9~\r\nLIN|1||4000862141404*SRV~\r\nQTY|21*48~\r\nUNS|S~\r\n"
    "CNT|2*1~\r\nUNT|10|1~\r\nUNZ|1|1001~\r\n"
)

WITH_FREE_TEXT = (
    "UNA*|,! ~UNB|UNOC*3|5412345000013*14|5412345000006*14|250603*0915|1002~UNH|1|ORDERS*D*01B*UN*EAN010~BGM|220|128577|9~"
    "DTM|137*20250603*102~FTX|AAI|||Dock 3+4, O'Neill?~NAD|BY|5412345000013**9~NAD|SU|4012345500004**9~LIN|1||4000862141404*SRV~QTY|21*30~"
    "UNS|S~CNT|2*1~UNT|11|1~UNZ|1|1002~"
)

OTHER_MARKS = "service component * element | decimal , release ! terminator ~"

# Lines whose numbers do not rise.
LINES = "LIN+20++96385074:SRV'QTY+21:7'LIN+3++036000291452:SRV'IMD+F'QTY+21:999999999:PCE'LIN+000004++10012345000017:SRV'QTY+21:1'"

READ_LINES = ["20 item 00000096385074 ordered 7", "3 item 00036000291452 ordered 999999999", "4 item 10012345000017 ordered 1"]

# Two BGM, no document date and a quantity of zero together.
MANY_FAULTS = (
    "UNH+1+ORDERS:D:01B:UN:EAN010'BGM+220+128576+9'BGM+220+128576+9'NAD+BY+5412345000013::9'NAD+SU+4012345500004::9'"
    "LIN+1++4000862141404:SRV'QTY+21:0'UNS+S'CNT+2:1'"
)

# What is told of an order that is edited: `ok` or a code; the place that the edit replaces, and what then stands there.
# A message whose type is another of the four is judged as one of that type, and its BGM is not.
HEADERS = [
    ("ok", ":EAN010", ":EAN008"),
    ("ok", ":EAN010", ""),
    ("M02", "ORDERS", "ORDRSP"),
    ("M02", "ORDERS", "DESADV"),
    ("M01", "ORDERS", "orders"),
    ("M01", "ORDERS", "ORDER"),
    ("M01", ":D:", ":S:"),
    ("M01", ":01B:", ":96A:"),
    ("M01", ":UN:", ":EN:"),
    ("M02", "BGM+220+128576+9'", ""),
    ("M02", "BGM+220", "FTX+AAI'BGM+220"),
    ("M02", "UNS+S'", "UNS+S'BGM+220+128576+9'"),
    ("M02", "QTY+21", "BGM'QTY+21"),
    ("M02", "BGM+220", "BGM+231"),
    ("M02", "BGM+220", "BGM+0220"),
    ("M02", "BGM+220", "BGM+"),
    ("M02", "+128576+", "++"),
    ("M02", "+128576+", "+:128576+"),
    ("M02", "+128576+", "+123456789012345678901234567890123456+"),
    ("M02", "+128576+", "+12857é+"),
    ("ok", "+128576+", "+12345678901234567890123456789012345+"),
    ("ok", "+128576+", "+ ~?+?:??+"),
    ("ok", "BGM+220+128576+9'", "BGM+220:x+128576:y+9:z+NA'"),
    ("M03", "+9'", "+4'"),
    ("M03", "+9'", "+5'"),
    ("M03", "+9'", "+27'"),
    ("M03", "+9'", "+29'"),
    ("M03", "+9'", "+09'"),
    ("M03", "+9'", "'"),
    ("M04", "DTM", "LIN+9++96385074:SRV'DTM"),
    ("M04", "DTM", "CPS+1'DTM"),
    ("M04", "DTM", "UNS+S'DTM"),
    ("ok", "QTY+21", "DTM+137:20250603:102'QTY+21"),
    ("M05", "NAD+BY+5412345000013::9'", ""),
    ("M05", "NAD+SU+4012345500004::9'", ""),
    ("M05", "NAD+BY", "NAD+BY+5412345000013::9'NAD+BY"),
    ("M05", "NAD+SU", "NAD+SU+8712345000004::9'NAD+SU"),
    ("M05", "NAD+SU", "LIN+9++96385074:SRV'NAD+SU"),
    ("M05", "NAD+SU", "CPS+1'NAD+SU"),
    ("M05", "NAD+SU", "UNS+S'NAD+SU"),
    ("M05", "5412345000013::9", "5412345000014::9"),
    ("M05", "4012345500004::9", "4012345500005::9"),
    ("M05", "4012345500004::9", "401234550000::9"),
    ("M05", "4012345500004::9", "04012345500004::9"),
    ("M05", "4012345500004::9", "::9"),
    ("M05", "4012345500004::9", "4012345500004"),
    ("M05", "5412345000013::9", "5412345000013::92"),
    ("M05", "5412345000013::9", "5412345000013:9"),
    ("ok", "NAD+SU", "NAD+DP+x'NAD+SU"),
    ("ok", "4012345500004::9", "4012345500004:x:9:y+z"),
    ("ok", "QTY+21", "NAD+BY+5412345000013::9'NAD+SU'QTY+21"),
    ("ok", "QTY+21", "RFF+ON:1:x'RFF+ON:2'QTY+21"),
    ("ok", "NAD+BY", "RFF+ON'NAD+BY"),
]

LINES_AND_SUMMARIES = [
    ("M06", "UNS+S'", ""),
    ("M06", "UNS+S'", "UNS+D'"),
    ("M06", "UNS+S'", "UNS'"),
    ("M06", "UNS+S'", "UNS+S'UNS+S'"),
    ("M06", "LIN+1", "UNS+D'LIN+1"),
    ("M06", "UNS+S'CNT+2:1'", "UNS+S'LIN+2++96385074:SRV'QTY+21:9'CNT+2:2'"),
    ("M06", "LIN+1++4000862141404:SRV'QTY+21:48'UNS+S'", "UNS+S'LIN+1++4000862141404:SRV'QTY+21:48'"),
    ("M07", "LIN+1+", "LIN+0+"),
    ("M07", "LIN+1+", "LIN+000000+"),
    ("M07", "LIN+1+", "LIN++"),
    ("M07", "LIN+1+", "LIN+0000001+"),
    ("M07", "LIN+1+", "LIN+1000000+"),
    ("M07", "LIN+1+", "LIN+1x+"),
    ("M07", "LIN+1+", "LIN+ 1+"),
    ("ok", "LIN+1+", "LIN+000001+"),
    ("ok", "LIN+1+", "LIN+999999+"),
    ("M07", "UNS+S'CNT+2:1'", "LIN+1++96385074:SRV'QTY+21:9'UNS+S'CNT+2:2'"),
    ("M07", "UNS+S'CNT+2:1'", "LIN+01++96385074:SRV'QTY+21:9'UNS+S'CNT+2:2'"),
    ("M07", "48'UNS+S'", "0'LIN+01++96385074:SRV'QTY+21:9'UNS+S'"),
    ("ok", "UNS+S'CNT+2:1'", "LIN+10++4000862141404:SRV'QTY+21:9'UNS+S'CNT+2:2'"),
    ("ok", "4000862141404", "96385074"),
    ("ok", "4000862141404", "036000291452"),
    ("ok", "4000862141404", "10012345000017"),
    ("ok", "4000862141404", "04000862141404"),
    # numbers that GS1 has published
    *(("ok", "4000862141404", it) for it in ("73513537", "614141999996", "6291041500213", "09501101530003", "80614141123458")),
    *(("M07", "4000862141404", it) for it in ("96385075", "80614141123459", "36000291452", "000036000291452", "0")),
    ("M07", "4000862141404", "96385073"),
    ("M07", "4000862141404", "036000291453"),
    ("M07", "4000862141404", "4000862141405"),
    ("M07", "4000862141404", "10012345000018"),
    ("M07", "4000862141404", "004000862141404"),
    ("M07", "4000862141404", "0096385074"),
    ("M07", "4000862141404", "400086214140x"),
    ("M07", "4000862141404", ""),
    ("M07", ":SRV", ":EN"),
    ("M07", ":SRV", ""),
    ("M07", ":SRV", ":SRV+1:1"),
    ("M07", ":SRV", ":SRV+:1"),
    ("ok", ":SRV", ":SRV++0"),
    ("ok", ":SRV", ":SRV+:"),
    ("ok", "LIN+1+", "LIN+1+1"),
    ("M08", "QTY+21:48'", ""),
    ("M08", "QTY", "CPS+1'QTY"),
    ("M11", "CNT+2:1'", "CNT+2:0'"),
    ("M11", "CNT+2:1'", "CNT+2:2'"),
    ("M11", "CNT+2:1'", "CNT+2:x'"),
    ("M11", "CNT+2:1'", "CNT+2:1,0'"),
    ("M11", "CNT+2:1'", "CNT+2:0000001'"),
    ("M11", "CNT+2:1'", "CNT+2'"),
    ("M11", "CNT+2:1'", "CNT+2:1'CNT+2:1'"),
    ("M11", "LIN+1", "CNT+2:1'LIN+1"),
    ("ok", "CNT+2:1'", "CNT+2:000001'"),
    ("ok", "CNT+2:1'", "CNT+02:9'"),
    ("ok", "CNT+2:1'", "CNT+02:9'CNT+1:9'CNT+2:1'"),
    ("ok", "CNT+2:1'", ""),
    ("M11", "UNS+S'", "LIN+2++96385074:SRV'QTY+21:9'UNS+S'"),
    ("M12", "LIN+1++4000862141404:SRV'QTY+21:48'UNS+S'CNT+2:1'", "UNS+S'CNT+2:0'"),
    ("M12", "LIN+1++4000862141404:SRV'QTY+21:48'UNS+S'CNT+2:1'", "QTY+21:x'UNS+S'"),
    ("M11", "LIN+1++4000862141404:SRV'QTY+21:48'UNS+S'", "UNS+S'"),
    ("ok", "UNS+S'", "QTY+12:x'MOA'UNS+S'QTY+21:x'"),
    ("ok", "LIN+1++4000862141404:SRV'QTY+21:48'", "QTY+21:x'LIN+1++4000862141404:SRV'FTX'QTY+21:48'"),
    ("ok", "UNS+S'", "FTX+AAI+++LIN'UNS+S'"),
]

# The segments of dates, and whether they give the order a date.
DATES = [
    (True, "DTM+137:20250603:102'"),
    (False, "DTM+137:20250229:102'"),
    (True, "DTM+137:20240229:102'"),
    (True, "DTM+137:00000229:102'"),
    (True, "DTM+137:00000101:102'"),
    (False, "DTM+137:19000229:102'"),
    (True, "DTM+137:20000229:102'"),
    (True, "DTM+137:99991231:102'"),
    (False, "DTM+137:20250230:102'"),
    (False, "DTM+137:20250431:102'"),
    (False, "DTM+137:20250132:102'"),
    (False, "DTM+137:20250600:102'"),
    (False, "DTM+137:20250003:102'"),
    (False, "DTM+137:20251303:102'"),
    (False, "DTM+137:2025060:102'"),
    (False, "DTM+137:202506031:102'"),
    (False, "DTM+137:202506032359:102'"),
    (False, "DTM+137:250603:102'"),
    (False, "DTM+137:2025060x:102'"),
    (False, "DTM+137:x0250603:102'"),
    (False, "DTM+137:2025 603:102'"),
    (False, "DTM+137:2025?+603:102'"),
    (False, "DTM+137::102'"),
    (False, "DTM+137:250603:101'"),
    (False, "DTM+137:20250603:101'"),
    (False, "DTM+137:20250603'"),
    (False, "DTM+137'"),
    (True, "DTM+137:202506032359:203'"),
    (True, "DTM+137:202506030000:203'"),
    (True, "DTM+137:202402291200:203'"),
    (False, "DTM+137:202506032400:203'"),
    (False, "DTM+137:202506032360:203'"),
    (False, "DTM+137:202506030960:203'"),
    (False, "DTM+137:202502291200:203'"),
    (False, "DTM+137:20250603:203'"),
    (False, "DTM+137:20250603235:203'"),
    (False, "DTM+137:2025060323595:203'"),
    (False, "DTM+137:20250603235x:203'"),
    (False, "DTM+137:20250603 959:203'"),
    (False, ""),
    (False, "DTM+137:20250603:102'DTM+137:20250603:102'"),
    (False, "DTM+137:20250603:102'DTM+137:x:102'"),
    (False, "DTM+2:20250603:102'"),
    (False, "DTM+0137:20250603:102'"),
    (True, "DTM+2:x'DTM+137:20250603:102'DTM+2:x'"),
    (True, "DTM+137:20250603:102:x+y'"),
]

# The quantities of a line, and which number is ordered by them.
QUANTITIES = [
    (999999999, "QTY+21:999999999'"),
    (None, "QTY+21:1000000000'"),
    (None, "QTY+21:4294967297'"),
    (None, "QTY+21:18446744073709551617'"),
    (None, "QTY+21:99999999999999999999999999999999999'"),
    (12, "QTY+21:12,000'"),
    (12, "QTY+21:12.000'"),
    (12, "QTY+21:12,00'"),
    (12, "QTY+21:12.0'"),
    (999999999, "QTY+21:999999999,0'"),
    (None, "QTY+21:1000000000,0'"),
    (None, "QTY+21:12.5'"),
    (None, "QTY+21:12,5'"),
    (None, "QTY+21:12,001'"),
    (None, "QTY+21:12.'"),
    (None, "QTY+21:12,'"),
    (None, "QTY+21:.5'"),
    (None, "QTY+21:,0'"),
    (None, "QTY+21:12,0,0'"),
    (None, "QTY+21:12.0,0'"),
    (None, "QTY+21:1.000.000'"),
    (None, "QTY+21:?+1'"),
    (None, "QTY+21:-1'"),
    (None, "QTY+21: 1'"),
    (None, "QTY+21:1 '"),
    (None, "QTY+21:1 000'"),
    (None, "QTY+21: '"),
    (None, "QTY+21:1x'"),
    (None, "QTY+21:0x1'"),
    (None, "QTY+21'"),
    (None, "QTY+21:0'"),
    (None, "QTY+21:0,0'"),
    (1, "QTY+21:1'"),
    (1, "QTY+21:01'"),
    (48, "QTY+21:00000000000000000000000000000000048'"),
    (None, "QTY+21:000000000000000000000000000000000048'"),
    (1, "QTY+21:1,000000000000000000000000000000000'"),
    (None, "QTY+21:1,0000000000000000000000000000000000'"),
    (48, "QTY+21:48:PCE'"),
    (48, "QTY+21:48:'"),
    (None, "QTY+21:48:KGM'"),
    (None, "QTY+21:48:pce'"),
    (None, "QTY+21:48: '"),
    (None, "QTY+21:48'QTY+21:48'"),
    (None, "QTY+21:48'QTY+21:x'"),
    (48, "QTY+12:x'QTY+21:48'QTY+113'"),
    (48, "QTY+021:1'QTY+21:48'"),
    (None, "QTY+021:48'"),
    (None, "QTY+113:48'"),
    (None, ""),
]

# The service string, a quantity, and whether 12 is ordered by it.
MARKS = [
    ("UNA:+.? '", "12.00", True),
    ("UNA:+.? '", "12,00", True),
    ("UNA:+,? '", "12.00", True),
    ("UNA:+,? '", "12,00", True),
    ("UNA:+,? '", "12,5", False),
    ("UNA:+,? '", "12.5", False),
]

ORDERS = [
    *(told(f"an order under the association '{it}'", edited(ORDER, ":EAN010", it), order()) for it in (":EAN010", ":EAN008", "")),
    told("an order for another supplier", edited(ORDER, SUPPLIER, "8712345000004"), order(supplier="8712345000004")),
    shown("an order in other characters, and line ends", RESPELLED, Interchange(service=OTHER_MARKS, kinds=["ORDERS"]), [order()]),
    shown(
        "an order with other characters in free text",
        WITH_FREE_TEXT,
        Interchange(service=OTHER_MARKS, reference="1002", kinds=["ORDERS"]),
        [order("128577", lines=["1 item 04000862141404 ordered 30"])],
    ),
    told(
        "lines stay in their order",
        edited(edited(ORDER, "LIN+1++4000862141404:SRV'QTY+21:48'", LINES), "CNT+2:1'", "CNT+2:3'"),
        order(lines=READ_LINES),
    ),
    told("the lowest of many faults", MANY_FAULTS, refusal("M02")),
    *edits(ORDER, HEADERS),
    *edits(ORDER, LINES_AND_SUMMARIES),
    *(
        told(f"an order dated {dates}", edited(ORDER, "DTM+137:20250603:102'", dates), order() if exists else refusal("M04"))
        for exists, dates in DATES
    ),
    *(
        told(
            f"an order of {quantities}",
            edited(ORDER, "QTY+21:48'", quantities),
            order(lines=[f"1 item 04000862141404 ordered {number}"]) if number else refusal("M08"),
        )
        for number, quantities in QUANTITIES
    ),
    *(
        told(
            f"{quantity} under {service}",
            edited(ORDER, "48", quantity),
            order(lines=["1 item 04000862141404 ordered 12"]) if taken else refusal("M08"),
            service=service,
        )
        for service, quantity, taken in MARKS
    ),
]

# No line is accepted of the order, and nothing is said of its lines.
REFUSAL = (
    "UNH+1+ORDRSP:D:01B:UN:EAN009'BGM+231+R2+27'DTM+137:20250603:102'RFF+ON:128577'"
    "NAD+BY+5412345000013::9'NAD+SU+4012345500004::9'UNS+S'"
)

ANSWERED_LINES = (
    "LIN+7+5+4000862141404:SRV'RFF+ON:128576:20'LIN+7+7+96385074:SRV'"
    "LIN+1+6+036000291452:SRV'QTY+21:9'RFF+ON:128576:3'QTY+113:0'"
)

READ_ANSWERS = ["line 20 item 04000862141404 accepted", "line - item 00000096385074 refused", "line 3 item 00036000291452 changed 0"]

# The answer that a line is, its action and its quantities.
ANSWERS = [
    ("changed 36", "3", "QTY+113:36'"),
    ("changed 0", "6", "QTY+113:0'QTY+21:9'"),
    ("changed 0", "3", "QTY+21:9'QTY+113:0,0'"),
    ("changed 9", "3", "QTY+21:9'"),
    ("changed 9", "6", "QTY+0113:x'QTY+21:9'"),
    ("changed 0", "6", "QTY+21:0'"),
    ("changed 4", "3", "QTY+21:x'QTY+113:4'QTY+21'"),
    ("changed 12", "6", "QTY+113:12,00:PCE'"),
    ("changed 999999999", "3", "QTY+113:999999999'"),
    (None, "3", "QTY+113:1000000000'"),
    (None, "6", "QTY+21:1000000000'"),
    (None, "3", "QTY+113:36:KGM'"),
    (None, "3", "QTY+113:36'QTY+113:36'"),
    (None, "6", "QTY+113:x'QTY+21:9'"),
    (None, "6", "QTY+113'QTY+21:9'"),
    (None, "3", "QTY+21:9'QTY+21:9'"),
    (None, "3", "QTY+12:9'"),
    (None, "3", ""),
    (None, "6", ""),
    (None, "3", "CPS+1'QTY+113:36'"),
    ("accepted", "5", ""),
    ("accepted", "5", "QTY+113:x'QTY+21:0'"),
    ("accepted", "5", "QTY+113:1'QTY+113:1:KGM'"),
    ("refused", "7", ""),
    ("refused", "7", "QTY+21:x'QTY+21'"),
]

# The order line that the references of a line group name.
REFERENCES = [
    (None, ""),
    (None, "RFF+ON:128576'"),
    (None, "RFF+ON:128576:'"),
    (None, "RFF+ON:128576::7'"),
    (None, "RFF+AAK:128576:7'RFF+on:128577:x'"),
    (7, "RFF+ON:128576:7'"),
    (7, "RFF+ON:128576:000007:x+y'"),
    (999999, "RFF+ON:128576:999999'"),
    (1, "RFF+AAK:9:9'RFF+ON:128576:1'RFF+AAK'"),
]

RESPONSE_HEADERS = [
    ("M02", "ORDRSP", "ORDERS"),
    ("M02", "ORDRSP", "RECADV"),
    ("M01", ":D:", ":S:"),
    ("M01", ":01B:", ":01A:"),
    ("M01", ":UN:", ":UM:"),
    ("M02", "BGM+231+AB128+4'", ""),
    ("M02", "BGM", "FTX'BGM"),
    ("M02", "QTY", "BGM+231+AB128+4'QTY"),
    ("M02", "BGM+231", "BGM+220"),
    ("M02", "BGM+231", "BGM+"),
    ("M02", "+AB128+", "++"),
    ("M02", "+AB128+", "+123456789012345678901234567890123456+"),
    ("M02", "+AB128+", "+é+"),
    ("ok", "+AB128+", "+12345678901234567890123456789012345+"),
    ("ok", "+4'", "+9'"),
    ("ok", "+4'", "+27'"),
    ("ok", "+4'", "+29'"),
    ("M03", "+4'", "+5'"),
    ("M03", "+4'", "+2'"),
    ("M03", "+4'", "+04'"),
    ("M03", "+4'", "'"),
    ("M04", "DTM+137:20250603:102'", ""),
    ("M04", "20250603", "20250229"),
    ("M04", "DTM", "DTM+137:20250603:102'DTM"),
    ("M04", "DTM", "LIN+9+5+96385074:SRV'DTM"),
    ("M05", "NAD+BY+5412345000013::9'", ""),
    ("M05", "NAD+SU+4012345500004::9'", ""),
    ("M05", "NAD+BY", "NAD+BY'NAD+BY"),
    ("M05", "NAD+SU", "NAD+SU'NAD+SU"),
    ("M05", "NAD+BY", "LIN+9+5+96385074:SRV'NAD+BY"),
    ("M05", "5412345000013", "5412345000014"),
    ("M05", "4012345500004::9", "4012345500004"),
    ("ok", "QTY", "NAD+SU'NAD+BY'DTM+137'QTY"),
    ("M09", "RFF+ON:128576'", ""),
    ("M09", "RFF+ON", "RFF+AAK"),
    ("M09", "RFF+ON", "RFF+ON:128576'RFF+ON"),
    ("M09", "RFF+ON", "RFF+ON:128577'RFF+ON"),
    ("M09", "RFF+ON:128576", "RFF+ON:123456789012345678901234567890123456"),
    ("M09", "RFF+ON:128576", "RFF+ON:12857é"),
    ("M09", "RFF+ON:128576", "RFF+ON"),
    ("M09", "RFF+ON:128576'", "RFF+ON::128576'"),
    ("ok", "RFF+ON:128576", "RFF+ON:12345678901234567890123456789012345"),
    ("ok", "RFF+ON:128576", "RFF+ON: ~?+"),
    ("ok", "RFF+ON:128576", "RFF+ON:128576:x"),
    ("ok", "RFF+ON", "RFF+AAK:é'RFF+AAK'RFF+ON"),
    ("M09", "UNS+S'", "RFF+ON'UNS+S'"),
]

RESPONSE_LINES_AND_SUMMARIES = [
    ("M06", "UNS+S'", ""),
    ("M06", "UNS+S'", "UNS+D'"),
    ("M06", "UNS+S'", "UNS+S'UNS+S'"),
    ("M06", "LIN+1", "UNS+D'LIN+1"),
    ("M06", "UNS+S'", "UNS+S'LIN+2+5+96385074:SRV'"),
    ("M07", "LIN+1+", "LIN+0+"),
    ("M07", "LIN+1+", "LIN++"),
    ("M07", "LIN+1+", "LIN+x+"),
    ("M07", "LIN+1+", "LIN+0000001+"),
    ("ok", "LIN+1+", "LIN+999999+"),
    ("ok", "UNS+S'", "LIN+1+5+96385074:SRV'UNS+S'"),
    ("ok", "UNS+S'", "LIN+01+5+4000862141404:SRV'UNS+S'"),
    ("ok", "4000862141404", "96385074"),
    ("ok", "4000862141404", "036000291452"),
    ("ok", "4000862141404", "10012345000017"),
    ("M07", "4000862141404", "4000862141405"),
    ("M07", "4000862141404", "40008621414"),
    ("M07", ":SRV", ":EN"),
    ("M07", ":SRV", ""),
    ("M07", ":SRV", ":SRV+1:1"),
    ("M07", ":SRV", ":SRV+:1"),
    ("ok", ":SRV", ":SRV++0"),
    ("M07", "LIN+1+3+", "LIN+1+1+"),
    ("M07", "LIN+1+3+", "LIN+1++"),
    ("M07", "LIN+1+3+", "LIN+1+4+"),
    ("M07", "LIN+1+3+", "LIN+1+03+"),
    ("M07", "LIN+1+3+", "LIN+1+:3+"),
    ("M07", "LIN+1+3+", "LIN+1+35+"),
    ("M07", "UNS+S'", "LIN+2+2+96385074:SRV'UNS+S'"),
    ("M08", "QTY+113:36'", ""),
    ("M08", "UNS+S'", "LIN+2+6+96385074:SRV'UNS+S'"),
    ("M08", "QTY+113:36'UNS+S'", "UNS+S'QTY+113:36'"),
    ("ok", "UNS+S'", "UNS+S'QTY+113:x'RFF+ON:1:x'"),
    ("M09", "QTY", "RFF+ON:128576:1'RFF+ON:128576:1'QTY"),
    ("M09", "QTY", "RFF+ON:128576'RFF+ON:128577'QTY"),
    ("M09", "QTY", "RFF+ON:128577'QTY"),
    ("M09", "QTY", "RFF+ON:0128576:1'QTY"),
    ("M09", "QTY", "RFF+ON::1'QTY"),
    ("M09", "QTY", "RFF+ON'QTY"),
    ("M09", "QTY", "RFF+ON:128576:0'QTY"),
    ("M09", "QTY", "RFF+ON:128576:x'QTY"),
    ("M09", "QTY", "RFF+ON:128576:0000001'QTY"),
    ("M09", "QTY", "RFF+ON:128576:1000000'QTY"),
    ("M09", "QTY", "RFF+ON:128576: 1'QTY"),
    ("M09", "QTY", "RFF+ON:123456789012345678901234567890123456'QTY"),
    ("M09", "UNS+S'", "LIN+2+7+96385074:SRV'RFF+ON:1'UNS+S'"),
    ("M11", "UNS+S'", "UNS+S'CNT+2:0'"),
    ("M11", "UNS+S'", "UNS+S'CNT+2:0000001'"),
    ("M11", "UNS+S'", "UNS+S'CNT+2:1'CNT+2:1'"),
    ("ok", "UNS+S'", "UNS+S'CNT+2:1'CNT+02:9'"),
    ("ok", "UNS+S'", "LIN+1+5+96385074:SRV'UNS+S'CNT+2:02'"),
    ("M12", "LIN+1+3+4000862141404:SRV'QTY+113:36'", ""),
    ("M12", "LIN+1+3+4000862141404:SRV'QTY+113:36'UNS+S'", "UNS+S'CNT+2:0'"),
    ("M12", "LIN+1+3+4000862141404:SRV'QTY+113:36'", "QTY+113:x'"),
    ("M11", "LIN+1+3+4000862141404:SRV'QTY+113:36'UNS+S'", "UNS+S'CNT+2:1'"),
    ("M09", "4'DTM", "9'RFF+ON:1'DTM"),
]

# No line is accepted; the lines are wrong in each way that is judged where lines are read.
UNREAD_LINES = (
    "UNH+1+ORDRSP:D:01B:UN'BGM+231+R2+27'DTM+137:20250603:102'RFF+ON:128577'NAD+BY+5412345000013::9'NAD+SU+4012345500004::9'"
    "LIN+0+1+1:EN+1:1'LIN+1+3+96385074:SRV'QTY+113:x'LIN+2+5+96385074:SRV'RFF+ON:1:x'RFF+ON:2'UNS+S'"
)

UNREAD_LINES_TOLD = [
    ("ok", "+27'", "+27'"),
    ("ok", "+27'", "+29'"),
    ("M07", "+27'", "+4'"),
    ("M07", "+27'", "+9'"),
    ("ok", "UNS+S'", "UNS+S'CNT+2:3'"),
    ("M11", "UNS+S'", "UNS+S'CNT+2:0'"),
    ("M11", "UNS+S'", "UNS+S'CNT+2:2'"),
    ("M11", "27'DTM", "29'CNT+2:1'DTM"),
    ("M09", "RFF+ON:128577'", ""),
    ("M09", "RFF+ON:128577'", "RFF+ON:128577'RFF+ON:128577'"),
    ("M09", "27'DTM", "29'RFF+ON'DTM"),
    ("M06", "UNS+S'", "UNS+S'LIN'"),
    ("M05", "NAD+BY", "NAD+DP"),
    ("M02", "QTY+113:x'", "BGM'"),
    ("M04", "DTM", "LIN'DTM"),
]

REFUSAL_TOLD = [
    ("ok", "UNS+S'", "UNS+S'CNT+2:0'"),
    ("M11", "UNS+S'", "UNS+S'CNT+2:1'"),
]


def answered(action, quantities):
    """The response to a line with this action and these quantities."""
    return edited(edited(RESPONSE, "QTY+113:36'", quantities), "LIN+1+3+", f"LIN+1+{action}+")


RESPONSES = [
    *(
        told(f"a response under the association '{it}'", edited(RESPONSE, ":EAN009", it), response("line - item 04000862141404 changed 36"))
        for it in (":EAN009", ":EAN008", "")
    ),
    told("no line is accepted", REFUSAL, response("all refused", number="R2", answered="128577")),
    told("all lines are accepted", edited(REFUSAL, "+27'", "+29'"), response("all accepted", number="R2", answered="128577")),
    told(
        "answers stay in their order",
        edited(edited(RESPONSE, "LIN+1+3+4000862141404:SRV'QTY+113:36'", ANSWERED_LINES), "+4'", "+9'"),
        response(*READ_ANSWERS),
    ),
    *(
        told(
            f"a response with action {action} and {quantities}",
            answered(action, quantities),
            response(f"line - item 04000862141404 {answer}") if answer else refusal("M08"),
        )
        for answer, action, quantities in ANSWERS
    ),
    *(
        told(
            f"a response by {references}",
            edited(RESPONSE, "UNS+S'", references + "UNS+S'"),
            response(f"line {line or '-'} item 04000862141404 changed 36"),
        )
        for line, references in REFERENCES
    ),
    *edits(RESPONSE, RESPONSE_HEADERS),
    *edits(RESPONSE, RESPONSE_LINES_AND_SUMMARIES),
    *edits(UNREAD_LINES, UNREAD_LINES_TOLD),
    *edits(REFUSAL, REFUSAL_TOLD),
]

# Right messages with room for faults: FTX and MOA are not read, and there is no CNT, which no line at all would make
# wrong.
ROOMY_ORDER = (
    "UNH+1+ORDERS:D:01B:UN'BGM+220+128576+9'FTX+AAI'NAD+SU+4012345500004::9'NAD+BY+5412345000013::9'DTM+137:20250603:102'"
    "LIN+1++4000862141404:SRV'QTY+21:48'LIN+2++4000862141411:SRV'QTY+21:9'UNS+S'MOA+86'"
)

ROOMY_RESPONSE = (
    "UNH+1+ORDRSP:D:01B:UN'BGM+231+AB128+4'FTX+AAI'RFF+ON:128576'NAD+SU+4012345500004::9'NAD+BY+5412345000013::9'DTM+137:20250603:102'"
    "LIN+1+5+4000862141404:SRV'RFF+ON:128576:1'LIN+2+3+4000862141411:SRV'QTY+113:36'LIN+3+7+4000862141404:SRV'UNS+S'MOA+86'"
)

# An edit for each fault of an order, by rising code. Higher ones stand earlier in the text wherever they can.
ORDER_FAULTS = [
    ("M01", "ORDERS:D:", "ORDERS:S:"),
    ("M02", "MOA+86'", "BGM+220+128576+9'"),
    ("M03", "BGM+220+128576+9'", "BGM+220+128576+4'"),
    ("M04", "DTM+137:20250603:102'", "DTM+137:20250229:102'"),
    ("M05", "NAD+SU+4012345500004::9'", "NAD+SU+4012345500005::9'"),
    ("M06", "UNS+S'", "UNS+D'"),
    ("M07", "LIN+2++4000862141411:SRV'", "LIN+0++4000862141411:SRV'"),
    ("M08", "QTY+21:48'", "QTY+21:0'"),
    ("M11", "FTX+AAI'", "CNT+2:9'"),
    ("M12", "LIN+1++4000862141404:SRV'QTY+21:48'LIN+2++4000862141411:SRV'QTY+21:9'", ""),
]

# The same for a response, with a wrong reference in a line and in the header.
RESPONSE_FAULTS = [
    ("M01", "ORDRSP:D:", "ORDRSP:S:"),
    ("M02", "MOA+86'", "BGM+231+AB128+4'"),
    ("M03", "BGM+231+AB128+4'", "BGM+231+AB128+5'"),
    ("M04", "DTM+137:20250603:102'", "DTM+137:20250229:102'"),
    ("M05", "NAD+SU+4012345500004::9'", "NAD+SU+4012345500005::9'"),
    ("M06", "UNS+S'", "UNS+D'"),
    ("M07", "LIN+3+7+4000862141404:SRV'", "LIN+3+1+4000862141404:SRV'"),
    ("M08", "QTY+113:36'", "QTY+113:x'"),
    ("M09", "RFF+ON:128576:1'", "RFF+ON:128577:1'"),
    ("M09", "RFF+ON:128576'", ""),
    ("M11", "FTX+AAI'", "CNT+2:9'"),
    ("M12", "LIN+1+5+4000862141404:SRV'RFF+ON:128576:1'LIN+2+3+4000862141411:SRV'QTY+113:36'LIN+3+7+4000862141404:SRV'", ""),
]

# All pairs of ten but the two faults of a line beside no line; all pairs of twelve but the three.
PAIRS = [
    *edits(ROOMY_ORDER, ORDER_FAULTS),
    *both(ROOMY_ORDER, ORDER_FAULTS, 43),
    *edits(ROOMY_RESPONSE, RESPONSE_FAULTS),
    *both(ROOMY_RESPONSE, RESPONSE_FAULTS, 63),
]

CASES = ORDERS + RESPONSES + PAIRS
