"""Functions of the page that stand alone, called in Node (call.mjs): identifiers, references, replies, dates and the words of codes."""
import re

from tests.harness.code_list import read_codes
from tests.page.agreement import by_node

IDENTIFIERS = [
    (("checkDigit", "34012345500000001"), "2"),
    (("checkDigit", "401234550000"), "4"),
    (("isGln", "4012345500004"), True),
    (("isGln", "4012345500005"), False),
    (("isGln", "401234550000"), False),
    (("isGtin", "96385074"), True),
    (("isGtin", "96385075"), False),
    (("isGtin", "036000291452"), True),
    (("isGtin", "10012345000017"), True),
    (("isSscc", "340123455000000012"), True),
    (("isSscc", "340123455000000013"), False),
    (("isSscc", "34012345500000001"), False),
    (("withCheckDigit", "34012345500000001"), "340123455000000012"),
    (("withCheckDigit", "3401"), "3401"),
    (("gtinAsPrinted", "00000096385074"), "96385074"),
    (("gtinAsPrinted", "00036000291452"), "036000291452"),
    (("gtinAsPrinted", "04000862141404"), "4000862141404"),
    (("gtinAsPrinted", "10012345000017"), "10012345000017"),
]
SSCCS = [
    *((("ssccOf", it), "340123455000000012") for it in ("340123455000000012", "00340123455000000012", "(00)340123455000000012")),
    *((("ssccOf", it), "340123455000000012") for it in ("]C100340123455000000012", " (00) 3 4012345 500000001 2 ")),
    (("ssccOf", "]C1 00 34012345500000001 2"), "340123455000000012"),
    (("ssccOf", "3 4012345 500000001"), "340123455000000012"),
    # 18 digits that begin with 00 are an SSCC already, and what is not 18 digits after the application identifier stays
    (("ssccOf", "004012345500000000"), "004012345500000000"),
    (("ssccOf", "(00)34012345500000001"), "(00)34012345500000001"),
    (("ssccOf", "(01)340123455000000012"), "(01)340123455000000012"),
    (("nextSscc", "40123455", []), "340123455000000012"),
    (("nextSscc", "40123455", ["340123455000000012", "340123455000000029"]), "340123455000000036"),
    # those of another prefix do not count
    (("nextSscc", "8712345", ["340123455000000012"]), "387123450000000012"),
    # after the last serial number of an extension digit come those of the next one, and after 9 comes 0
    (("nextSscc", "40123455", ["340123455999999991"]), "440123455000000002"),
    (("nextSscc", "401234551234", ["340123455123499991"]), "440123455123400000"),
    (("nextSscc", "40123455", ["940123455999999993"]), "040123455000000004"),
    (("nextSscc", "40123455", ["940123455999999993", "040123455000000004"]), "040123455000000011"),
    # the first serial number is the person's
    (("nextSscc", "40123455", [], 500), "340123455000005000"),
    (("nextSscc", "40123455", ["340123455000005000", "340123455000000012"], 500), "340123455000005017"),
    (("nextSscc", "40123455", ["340123455000005000"], 1), "340123455000000012"),
    (("nextSscc", "40123455", ["340123455999999991"], 99_999_999), "440123455000000002"),
    (("nextSscc", "", ["340123455000000029"]), "340123455000000036"),
    (("nextSscc", "", []), ""),
    (("nextSscc", "123", []), ""),
]
DATES = [
    (("isDate", "20240229", "102"), True),
    (("isDate", "20250229", "102"), False),
    (("isDate", "19000229", "102"), False),
    (("isDate", "202506032359", "203"), True),
    (("isDate", "202506032400", "203"), False),
    (("isDate", "20250603", "203"), False),
    (("dateInWords", "20250603", "102"), "3 June 2025"),
    (("dateInWords", "202506030915", "203"), "3 June 2025, 09:15"),
    (("dateInWords", "<b>", "102"), "<b>"),
    (("preparedInWords", "250603", "0920"), "3 June 2025, 09:20"),
    (("cameInInWords", {"date": "991332", "time": "0920"}), "209913320920"),
]
TEXTS = [
    (("released", "?+:'a "), "???+?:?'a "),
    (("segmentText", "QTY", ["21", "48", ""], ""), "QTY+21:48'"),
    (("segmentText", "BGM", "220", "a:", "9"), "BGM+220+a?:+9'"),
    (("canBeSent", "\x80"), False),
    (("canBeSent", "\xe4"), True),
    (("canBeSent", "\u20ac"), False),
]
TAKEN = {"line": 1, "ordered": 48, "waits": True, "known": "waiting", "least": 8, "most": 48}
DONE = {**TAKEN, "line": 2, "waits": False, "known": "accepted"}
GIVEN = {"line": 1, "quantity": ""}
FILES = [
    *((("harmless", it), "'" + it) for it in ("=1+1", "+1", "-1", "@x", " =1", "\t=1", "'x")),
    *((("harmless", it), "'" + it) for it in ("0012", "12-06", "1E5", "123456789012", "1,5")),
    *((("harmless", it), it) for it in ("128590", "0", "A-1", "3 June 2025", "a=b", "")),
    (("separatorOf", "en-GB"), ","),
    (("separatorOf", "de-DE"), ";"),
    (("csvText", [["a", 'b"c', "d,e"], ["f;g", " h", ""]], ","), 'a,"b""c","d,e"\r\nf;g," h",\r\n'),
    (("csvText", [["d,e", "f;g"]], ";"), 'd,e;"f;g"\r\n'),
    (("readRows", '\ufeffa,"b""c","d,\r\ne"\r\n\r\n\'=1, f ,'), [["a", 'b"c', "d,\r\ne"], [""], ["=1", "f", ""]]),
    (("readRows", "1\ta;b,c\n2\t"), [["1", "a;b,c"], ["2", ""]]),
    (("readRows", ""), [[""]]),
]
ANSWERS = [
    (("readAnswers", "1,Accepted,\n\n2,accepted,", [TAKEN, DONE]), {"answers": [{**GIVEN, "answer": "accepted"}], "wrong": []}),
    (("readAnswers", "Quantity,Line,Answer\n9,1,", [TAKEN]), {"answers": [{**GIVEN, "answer": "changed", "quantity": "9"}], "wrong": []}),
    (("readAnswers", "1,,", [TAKEN]), {"answers": [], "wrong": []}),
    (("readAnswers", "Line;Answer", [TAKEN]), {"answers": [], "wrong": ["Row 1: name the columns Line, Your answer and Changed to."]}),
    (("readAnswers", "2;refused", [DONE]), {"answers": [], "wrong": ["Row 1: Line 2 is answered already: accepted."]}),
    (("readAnswers", "1;changed;7", [TAKEN]), {"answers": [], "wrong": ["Row 1: Line 1: give a whole number from 8 to 48."]}),
]
SPLITS = [
    (("evenSplit", [100, 30, 101, 2], 3), [[34, 10, 33, 1], [33, 10, 34, 1], [33, 10, 34, 0]]),
    # of all lines together no pallet gets more than one piece more either
    (("evenSplit", [1, 1, 1, 1], 2), [[1, 0, 1, 0], [0, 1, 0, 1]]),
    (("evenSplit", [1, 1], 3), [[1, 0], [0, 1], [0, 0]]),
]
ON_PALLET = [{"order": "A", "line": 1}, {"order": "A", "line": 12}, {"order": "B ", "line": 1}]
ENDS = [{"order": "B", "line": 1}, {"order": "B ", "line": 1}]
SSCC = "340123455000000012"
NAME_COLUMNS = "Row 1: name the columns Order, Line, Quantity and Pallet."


def placed(*rows):
    return {"rows": [dict(zip(("place", "quantity", "pallet"), it)) for it in rows], "wrong": []}


def unplaced(*wrong):
    return {"rows": [], "wrong": list(wrong)}


PALLET_ROWS = [
    (("readPalletRows", "A\t12\t5\t1\nA\t1\t\t1\nB\t1\t7\t2", ON_PALLET, [""]), placed((1, 5, 1), (2, 7, 2))),
    (("readPalletRows", "Pallet;Line;x;Order;Quantity\r\n3;1;;A;5\r\n", ON_PALLET, [""] * 3), placed((0, 5, 3))),
    (("readPalletRows", f"A,1,5,'{SSCC}\nA,1,6,00{SSCC}", ON_PALLET, [""]), unplaced(
        "Row 2: the same line and pallet are in row 1 too.")),
    (("readPalletRows", "Order;Line;Amount\nA;1;5", ON_PALLET, [""]), unplaced(NAME_COLUMNS)),
    (("readPalletRows", "A;1;5;3", ON_PALLET, [""]), unplaced("No row is for pallet 2: number the pallets without gaps.")),
    (("readPalletRows", "A;1;5;0\n;1;5;1", ON_PALLET, [""]), unplaced(
        "Row 1: “0” is not a pallet. Give its number in the form, from 1 to 500, or its SSCC.", "Row 2: the order is missing.")),
    (("readPalletRows", "A;1;5;3,40E+17", ON_PALLET, [""]), unplaced(
        "Row 1: the spreadsheet shortened the SSCC to 3,40E+17. Format its column as text.")),
    (("readPalletRows", "B;1;5;1", ENDS, [""]), unplaced(
        "Row 1: several orders are called B, but for blanks at the end. Type their quantities instead.")),
    (("readPalletRows", f"A;1;5;1\nA;1;5;{SSCC}", ON_PALLET, [SSCC] * 500), placed((0, 5, 1), (0, 5, SSCC))),
    (("readPalletRows", f"A;1;5;{SSCC}", ON_PALLET, [""] * 500), unplaced("These are more than 500 pallets.")),
]
HEAD = "service component : element + decimal . release ? terminator '\ninterchange a b\n  sender A\n  recipient B\n"
HEAD += "  prepared 250603 0915\n  messages 2\n"
HEAD_READ = {"reference": "a b", "sender": "A", "recipient": "B", "date": "250603", "time": "0915"}
FIRST = "message 1\n  reference 1 2\n  type ORDERS\n  order a\n  line 1 item 04000862141404 ordered 48\n"
FIRST_READ = {"place": 1, "reference": "1 2", "type": "ORDERS", "fault": None}
FIRST_READ |= {"lines": ["order a", "line 1 item 04000862141404 ordered 48"]}
FAULTY = "message 2\n  reference 2\n  type DESADV\n  refused M08 quantity at segment 9\n"
FAULTY_READ = {"place": 2, "reference": "2", "type": "DESADV", "fault": {"code": "M08", "segment": 9, "offset": None}, "lines": []}
SHOWN = [
    (("readShown", HEAD + FIRST + FAULTY), {"fault": None, "head": HEAD_READ, "messages": [FIRST_READ, FAULTY_READ]}),
    (("readShown", "refused E06 frame\n"), {"fault": {"code": "E06", "segment": None, "offset": None}, "head": None, "messages": []}),
    *((("readShown", it), None) for it in ("", "<html>", HEAD[:-9], HEAD + "message 1\n", "refused E06 frame\nmore\n")),
]
SPOT = "UNA:+.? '\r\nAAA+?''\r\nBBB'\r\nCCC'\n"
SPOTS = [
    (("placeOfSegment", SPOT, 1), {"line": 2, "before": "", "it": "AAA+?''", "after": "\nBBB'"}),
    (("placeOfSegment", SPOT, 3), {"line": 4, "before": "AAA+?''\nBBB'\n", "it": "CCC'", "after": ""}),
    *((("placeOfSegment", SPOT, it), None) for it in (0, 4)),
    # a release character of blank releases nothing
    (("placeOfSegment", "UNA:+.  'A+ 'B'", 2), {"line": 1, "before": "A+ '\n", "it": "B'", "after": ""}),
    (("placeOfByte", "AB\nCD", 4), {"line": 2, "before": "AB\nC", "it": "D", "after": ""}),
    (("placeOfByte", "AB", 2), {"line": 1, "before": "AB", "it": "", "after": ""}),
]
GLNS = ("4012345500004", "8712345000004", "5412345000006")
ALPHA, BETA = ({"gln": it, "name": name} for it, name in zip(GLNS, ("Alpha", "Beta")))
SHORTENED = "Row 1: the spreadsheet shortened the GLN to 4,01E+12. Format its column as text."
TWICE = f"Row 2: {GLNS[0]} is in an earlier row too."
SUPPLIERS = [
    (("readSuppliers", f"GLN;Name\r\n{GLNS[0]};Alpha\r\n'{GLNS[1]};Beta\r\n"), {"suppliers": [ALPHA, BETA], "wrong": []}),
    (("readSuppliers", f"\ufeffTown,Supplier,gln\nBonn,Alpha,{GLNS[0]}\n\n"), {"suppliers": [ALPHA], "wrong": []}),
    (("readSuppliers", f"4012345 50000 4\tAlpha\n{GLNS[0]}\tTwice"), {"suppliers": [ALPHA], "wrong": [TWICE]}),
    (("readSuppliers", f"{GLNS[2]}"), {"suppliers": [{"gln": GLNS[2], "name": ""}], "wrong": []}),
    (("readSuppliers", "4,01E+12;Alpha"), {"suppliers": [], "wrong": [SHORTENED]}),
    (("readSuppliers", ";Alpha\n<html>"), {"suppliers": [], "wrong": ["Row 1: the GLN is missing.", "Row 2: “<html>” is not a GLN."]}),
]
CANONICAL = "UNA:+.? 'UNB+UNOC:3+A:14+B:14+250603:0915+7'UNH+1+ORDERS:D:01B:UN'BGM+220+a ?+?:?'+9'NAD+SU+4012345500004::9'UNT+4+1'UNZ+1+7'"
OTHERS = "UNB*UNOC|3*A|14*B|14*250603|0915*7~UNH*1*ORDERS|D|01B|UN~BGM*220*a +:'*9~NAD*SU*4012345500004||9~UNT*4*1~UNZ*1*7~"
NAMED = {"document": "a +:'", "supplier": "4012345500004"}
SPELLED = {
    "": CANONICAL,
    "no service string": CANONICAL[9:],
    "lines": "\n" + CANONICAL.replace("'U", "'\r\nU"),
    "others": "UNA|*,! ~" + OTHERS,
    "no release": "UNA|*,  ~" + OTHERS,
    "empty ends": CANONICAL.replace("+9'NAD", "+9+:+'NAD").replace("::9'", "::9:+'"),
}
CUT = ("", "UNA:+.?", CANONICAL[:-1], CANONICAL + "x", "<html>", CANONICAL.replace("UNT+4", "UNT+5"))
FILE_NAMES = [(("namesInFile", it), [["1", NAMED]]) for it in SPELLED.values()] + [(("namesInFile", it), []) for it in CUT]
MESSAGE = {"reference": "1 2", "type": "ORDRSP", "outcome": "refused", "code": "B07"}
ENTRY = {"number": 7, "type": "ORDERS", "document": " a end"}
MOST = 999_999_999
LINE = f"L {'1  x':<35} 999999 04000862141404 W {MOST} {0:>9} {1:>9} {MOST} {0:>9}\n"
LINE_READ = {"order": "1  x", "line": 999_999, "gtin": "04000862141404", "answer": "W"}
LINE_READ |= {"ordered": MOST, "open": 0, "refused": 1, "cancelled": MOST, "despatched": 0}
PALLET = f"P 340123455000000012 04000862141404 C {48:>14} {40:>14} {1:>14} {2:>14} {-5:>+15}\n"
PALLET_READ = {"sscc": "340123455000000012", "gtin": "04000862141404", "state": "C"}
PALLET_READ |= {"despatched": 48, "accepted": 40, "returned": 1, "destroyed": 2, "difference": -5}
FOUND = {"lines": [], "pallets": [], "isCut": False}
REPORT = [["5412345000006", {"text": LINE + PALLET + "end\n"}], ["4012345500004", {"text": "end\n"}]]
LINE_FOUND = {**FOUND, "lines": [{**LINE_READ, "gln": "5412345000006"}]}
PALLET_FOUND = {**FOUND, "pallets": [{**PALLET_READ, "gln": "5412345000006"}]}
SEARCHES = [
    (("search", REPORT, "1  X"), LINE_FOUND),
    (("search", REPORT, "4000862141404"), {**LINE_FOUND, **{"pallets": PALLET_FOUND["pallets"]}}),
    (("search", REPORT, "]C100 340123455000000012"), PALLET_FOUND),
    # quantities, answers and parts of two columns do not count
    *((("search", REPORT, it), FOUND) for it in ("999999999", "48", "W", "000012 0400", "", " ")),
]
PLACES = [
    (("isSafePlace", {"protocol": protocol, "hostname": name}), right)
    for protocol, name, right in (
        ("https:", "hub.example.com", True),
        ("http:", "localhost", True),
        ("http:", "127.0.0.1", True),
        ("http:", "127.8.9.10", True),
        ("http:", "[::1]", True),
        ("http:", "hub.example.com", False),
        ("http:", "127.0.0.1.example.com", False),
        ("http:", "localhost.example.com", False),
        ("http:", "10.0.0.1", False),
        ("http:", "[::2]", False),
        ("ftp:", "localhost", False),
    )
]
REPLIES = [
    (("readUpload", "refused E12\n"), {"reference": "", "code": "E12", "messages": []}),
    (("readUpload", "interchange a b messages 1\n1 2 ORDRSP refused B07\n"), {"reference": "a b", "code": "", "messages": [MESSAGE]}),
    (("readUpload", "interchange 1 messages 2\n1 ORDRSP accepted\n"), None),
    (("readUpload", "interchange 1 messages 1\nstopped\n"), None),
    (("readUpload", "<html>"), None),
    (("readCancellation", "repeated\n"), {"outcome": "repeated", "code": ""}),
    (("readCancellation", "refused B17\n"), {"outcome": "refused", "code": "B17"}),
    (("readCancellation", "denied\n"), None),
    (("readList", "             7 ORDERS  a end\nmore\n"), {"entries": [ENTRY], "more": True, "raw": []}),
    (("readList", "?\n"), {"entries": [], "more": False, "raw": ["?"]}),
    (("readStatus", LINE + PALLET + "end\n"), {"lines": [LINE_READ], "pallets": [PALLET_READ], "raw": []}),
    (("readStatus", LINE[:-2]), {"lines": [], "pallets": [], "raw": [LINE[:-2], "(the report has no end)"]}),
]
# what of a file's messages becomes of the file
VERDICTS = [
    (("readFile", f"interchange 1 messages 2\n1 ORDERS {first}\n2 ORDERS {second}\n"), {"outcome": outcome, "code": ""})
    for first, second, outcome in (
        ("accepted", "accepted", "accepted"),
        ("accepted", "repeated", "accepted"),
        ("accepted", "refused B04", "partly"),
        ("repeated", "refused B04", "partly"),
        ("refused B04", "refused B05", "refused"),
    )
]
# what is wrong with a segment, as far as it tells by itself
KNOWN = [
    (("knownCause", code, segment), cause and {"cause": cause, "text": text})
    for code, segment, cause, text in (
        ("M08", "QTY+21:2O'", "notWhole", "2O"),
        ("M08", "QTY+21:1.5'", "notWhole", "1.5"),
        ("M08", "QTY+21:5:KGM'", "notPieces", "KGM"),
        ("M08", "QTY+21:0'", "nothing", "0"),
        ("M08", "QTY+21:12,000:PCE'", None, ""),
        ("M08", "QTY+21'", None, ""),
        ("M08", "LIN+1'", None, ""),
        ("M07", "LIN+1++4000862000016:SRV'", "notAGtin", "4000862000016"),
        ("M07", "LIN+x++4000862000015:SRV'", None, ""),
        ("M05", "NAD+SU+4012345500005::9'", "notAGln", "4012345500005"),
        ("M10", "GIN+BJ+340123455000000013'", "notAnSscc", "340123455000000013"),
        ("M04", "DTM+137:20250631:102'", "notADate", "20250631"),
        ("M04", "DTM+137:250603:101'", None, ""),
        ("E14", "UNZ+2+9~", None, ""),
    )
]


def called(_program):
    tables = {"edi/identifiers.js": IDENTIFIERS, "edi/sscc.js": SSCCS, "edi/dates.js": DATES, "edi/segments.js": TEXTS}
    tables |= {"suppliers/file.js": SUPPLIERS, "suppliers/search.js": SEARCHES, "edi/document_names.js": FILE_NAMES}
    tables |= {"hub/replies.js": REPLIES, "hub/place.js": PLACES, "parts/csv.js": FILES, "parts/answer_rows.js": ANSWERS}
    tables |= {"despatch/even_split.js": SPLITS, "despatch/pallet_rows.js": PALLET_ROWS}
    tables |= {"edi/shown.js": SHOWN, "edi/fault_place.js": SPOTS, "edi/known_cause.js": KNOWN, "hub/kinds.js": VERDICTS}
    calls = [(module, *words) for module, table in tables.items() for words, _ in table]
    wanted = [it for table in tables.values() for _, it in table]
    for call, found, want in zip(calls, by_node("call.mjs", calls), wanted, strict=True):
        assert found == want, f"{call} answers {found!r}, not {want!r}"
    return f"{len(calls)} calls"


def references(_program):
    """Each is another one, also within a millisecond, and the longest has eleven characters until 2059."""
    asked = ("edi/references.js", "newReference")
    found = by_node("call.mjs", [asked] * 5_000 + [(*asked, 1_748_938_200_000)] * 5_000)
    latest = by_node("call.mjs", [("edi/references.js", "newReference", 4_102_444_799_000)])[0]
    assert len(set(found)) == 10_000 and all(re.fullmatch("[0-9A-Z]{11}", it) for it in found), found[:5]
    assert len(latest) <= 14, latest
    return "10,000 references"


def words_of_codes(_program):
    """The page has the list's words for each code, and others for a code that it does not know."""
    codes = read_codes()
    assert len(codes) == 20 + 12 + 20, list(codes)
    *found, unknown = by_node("call.mjs", [("parts/code.js", "wordsOf", it) for it in (*codes, "B99")])
    for (code, said), words in zip(codes.items(), found):
        assert words == {it: said[it] for it in ("meaning", "cause", "remedy")}, f"{code}: {words}"
    assert unknown["meaning"] == "The page does not know this code.", unknown
    return f"{len(codes)} codes"


TRIALS = {"functions of the page": called, "references": references, "words of codes": words_of_codes}
