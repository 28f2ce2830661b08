"""Interchanges, and what `edihub relay` refuses each with, or the messages of its mail texts."""
from tests.harness.first_order import END, HEAD, MESSAGE

# An empty message, numbered 1 or 2.
FIRST = "UNH+1+ORDERS:D:01B:UN'UNT+2+1'"
SECOND = "UNH+2+ORDERS:D:01B:UN'UNT+2+2'"
HIGH = "\xa0"


def alone(message):
    """An interchange of one message."""
    return HEAD + message + END


def crowd(head, count, last):
    """An interchange of so many empty messages, numbered from 1, the last of which has this number."""
    numbers = [*range(1, count), last]
    return head + "".join(f"UNH+{k}+ORDERS:D:01B:UN'UNT+2+{k}'" for k in numbers) + f"UNZ+{count}+1001'"


FRAMES = [
    *(
        (f"the first {count} segments of an order", "".join(it + "'" for it in alone(MESSAGE).split("'")[:count]), "E06")
        for count in range(12)
    ),
    ("no UNB", MESSAGE + END, "E06"),
    ("a message behind UNZ", alone(MESSAGE) + MESSAGE, "E06"),
    ("UNZ twice", alone(MESSAGE) + END, "E06"),
    ("two interchanges", alone("") + alone(""), "E06"),
]

HEADERS = [
    ("a header and no message", HEAD + "UNZ+0+1001'", []),
    ("the shortest header", "UNB+UNOA:3+S:14+R:14+000000:0000+1:x++++++:1'UNZ+0+1'", []),
    (
        "the longest header, with bytes that its syntax does not have",
        "UNB+UNOB:3+\xc4123456789012345678901234567890123\xe4:14+x:14+999999:9999+ !~45678901234'UNZ+0+ !~45678901234'",
        "E19",
    ),
    ("a syntax identifier that is not there", "UNB+UNOD:3+S:14+R:14+250603:0915+1'UNZ+0+1'", "E07"),
    ("version 2 of the syntax", "UNB+UNOC:2+S:14+R:14+250603:0915+1'UNZ+0+1'", "E07"),
    ("no sender", "UNB+UNOC:3+:14+R:14+250603:0915+1'UNZ+0+1'", "E07"),
    ("a sender of 36 bytes", "UNB+UNOC:3+123456789012345678901234567890123456:14+R:14+250603:0915+1'UNZ+0+1'", "E07"),
    ("another qualifier of the sender", "UNB+UNOC:3+S:1+R:14+250603:0915+1'UNZ+0+1'", "E07"),
    ("no qualifier of the recipient", "UNB+UNOC:3+S:14+R+250603:0915+1'UNZ+0+1'", "E07"),
    ("no recipient", "UNB+UNOC:3+S:14+:14+250603:0915+1'UNZ+0+1'", "E07"),
    ("a date of eight digits", "UNB+UNOC:3+S:14+R:14+20250603:0915+1'UNZ+0+1'", "E07"),
    ("a time of two components", "UNB+UNOC:3+S:14+R:14+250603:09:15+1'UNZ+0+1'", "E07"),
    ("a date with a letter", "UNB+UNOC:3+S:14+R:14+25060x:0915+1'UNZ+0+1'", "E07"),
    ("no control reference", "UNB+UNOC:3+S:14+R:14+250603:0915'UNZ+0'", "E07"),
    ("a control reference of 15 bytes", "UNB+UNOC:3+S:14+R:14+250603:0915+123456789012345'UNZ+0+123456789012345'", "E07"),
    ("a control reference with a byte past 0x7E", f"UNB+UNOC:3+S:14+R:14+250603:0915+1{HIGH}'UNZ+0+1{HIGH}'", "E07"),
    ("a test indicator of 2", "UNB+UNOC:3+S:14+R:14+250603:0915+1++++++2'UNZ+0+1'", "E07"),
]

MESSAGES = [
    (
        "the longest header of a message, and counts with zeros",
        HEAD + "UNH+1+ABCDEF:1:2:3:123456'UNT+000002+1'UNZ+000001+1001'",
        ["UNH+1+ABCDEF:1:2:3:123456'UNT+000002+1'"],
    ),
    ("a segment before the first message", alone("BGM+220'" + MESSAGE), "E10"),
    ("a segment behind the last message", alone(MESSAGE + "BGM+220'"), "E10"),
    ("a message without UNT", alone("UNH+1+ORDERS:D:01B:UN'BGM+220'"), "E10"),
    ("UNH twice", alone("UNH+1+ORDERS:D:01B:UN'" + FIRST), "E10"),
    ("UNG in a message", alone("UNH+1+ORDERS:D:01B:UN'UNG+1'UNT+3+1'"), "E10"),
    ("UNE in a message", alone("UNH+1+ORDERS:D:01B:UN'UNE+1'UNT+3+1'"), "E10"),
    ("UNT twice", alone(FIRST + "UNT+2+1'"), "E10"),
    ("no message reference", alone("UNH++ORDERS:D:01B:UN'UNT+2'"), "E11"),
    ("a message reference of 15 bytes", alone("UNH+123456789012345+ORDERS:D:01B:UN'UNT+2+123456789012345'"), "E11"),
    ("no message type", alone("UNH+1+:D:01B:UN'UNT+2+1'"), "E11"),
    ("a message type of 7 bytes", alone("UNH+1+ORDERSX:D:01B:UN'UNT+2+1'"), "E11"),
    ("a release of 4 bytes", alone("UNH+1+ORDERS:D:01BX:UN'UNT+2+1'"), "E11"),
    ("no agency", alone("UNH+1+ORDERS:D:01B'UNT+2+1'"), "E11"),
    ("an association code of 7 bytes", alone("UNH+1+ORDERS:D:01B:UN:EAN0101'UNT+2+1'"), "E11"),
    ("an association code past 0x7E", alone(f"UNH+1+ORDERS:D:01B:UN:{HIGH}'UNT+2+1'"), "E11"),
    ("a count of segments of 7 digits", alone("UNH+1+ORDERS:D:01B:UN'UNT+0000002+1'"), "E11"),
    ("no count of segments", alone("UNH+1+ORDERS:D:01B:UN'UNT++1'"), "E11"),
    ("a count of messages of 7 digits", HEAD + MESSAGE + "UNZ+0000001+1001'", "E14"),
    ("a count of messages with a letter", HEAD + MESSAGE + "UNZ+1x+1001'", "E14"),
]

# Two faults in one interchange, of which the one with the higher number stands earlier wherever it can.
PAIRS = [
    ("a wrong header before a second UNB", "UNB+UNOC:2+S:14+R:14+250603:0915+1001'UNB'" + FIRST + END, "E06"),
    ("a wrong header before a stray segment", "UNB+UNOC:2+S:14+R:14+250603:0915+1001'BGM'" + FIRST + END, "E07"),
    ("a wrong UNT before a stray segment", alone("UNH+1+ORDERS:D:01B:UN'UNT+x+1'BGM'"), "E10"),
    ("a wrong count before a wrong UNH", HEAD + "UNH+1+ORDERS:D:01B:UN'UNT+3+1'UNH+2+ORDERSX:D:01B:UN'UNT+2+2'UNZ+2+1001'", "E11"),
    ("a wrong reference before a wrong UNH", HEAD + "UNH+1+ORDERS:D:01B:UN'UNT+2+9'UNH+2+ORDERSX:D:01B:UN'UNT+2+2'UNZ+2+1001'", "E11"),
    ("a wrong reference before a wrong count", HEAD + "UNH+1+ORDERS:D:01B:UN'UNT+2+9'UNH+2+ORDERS:D:01B:UN'UNT+1+2'UNZ+2+1001'", "E12"),
    ("a wrong reference and a wrong count of messages", HEAD + "UNH+1+ORDERS:D:01B:UN'UNT+2+9'UNZ+2+1001'", "E13"),
    ("wrong counts and references of UNZ", HEAD + FIRST + "UNZ+2+1009'", "E14"),
    ("a repeated reference and a wrong one of UNZ", HEAD + FIRST + FIRST + "UNZ+2+1009'", "E15"),
    ("a test and a repeated reference", "UNB+UNOC:3+S:14+R:14+250603:0915+1001++++++1'" + FIRST + SECOND + FIRST + "UNZ+3+1001'", "E16"),
    ("a test of one message", "UNB+UNOC:3+S:14+R:14+250603:0915+1001++++++1'" + FIRST + END, "E17"),
    ("a wrong count and a wrong reference of UNZ", HEAD + "UNH+1+ORDERS:D:01B:UN'UNT+1+1'UNZ+1+1009'", "E12"),
    ("a count of one segment too many", alone("UNH+1+ORDERS:D:01B:UN'UNT+3+1'"), "E12"),
    (
        "a byte past 0x9F in data under UNOA",
        f"UNB+UNOA:3+S:14+R:14+250603:0915+1001'UNH+1+ORDERS:D:01B:UN'FTX+a:b{HIGH}'UNT+3+1'" + END,
        "E19",
    ),
    ("the same under UNOC", alone(f"UNH+1+ORDERS:D:01B:UN'FTX+a:b{HIGH}'UNT+3+1'"), [f"UNH+1+ORDERS:D:01B:UN'FTX+a:b{HIGH}'UNT+3+1'"]),
]

PLAIN = "UNB+UNOC:3+S:14+R:14+250603:0915+1001'"
TEST = "UNB+UNOC:3+S:14+R:14+250603:0915+1001++++++1'"
WRONG_BYTES = f"UNB+UNOA:3+{HIGH}:14+R:14+250603:0915+1001'"

CROWDS = [
    ("999 empty messages", crowd(PLAIN, 999, 999), [FIRST] * 999),
    ("1,000 empty messages", crowd(PLAIN, 1000, 1000), "E18"),
    ("1,000 messages and one reference twice", crowd(PLAIN, 1000, 1), "E16"),
    ("a test of 1,000 messages", crowd(TEST, 1000, 1000), "E17"),
    ("1,000 messages and a byte past 0x9F under UNOA", crowd(WRONG_BYTES, 1000, 1000), "E18"),
    ("999 messages and a byte past 0x9F under UNOA", crowd(WRONG_BYTES, 999, 999), "E19"),
    ("20,000 messages", crowd(PLAIN, 20_000, 20_000), "E18"),
]

ENVELOPES = FRAMES + HEADERS + MESSAGES + PAIRS + CROWDS
