"""Texts that are no segments, or whose segments are no interchange, and what `edihub relay` refuses each with."""
from tests.harness.first_order import ORDERS

TEXT_LIMIT = 1_048_576


def long_segment(size, end):
    """A line end and a segment of so many bytes, which ends so."""
    return b"\r\nFTX+?+".ljust(size + 2 - len(end), b"a") + end


def padded(size, end):
    """The order, line ends up to so many bytes, and then this."""
    return ORDERS.encode().ljust(size, b"\n") + end


TEXTS = [
    ("a tag of two letters", b"UN", "E04"),
    ("a tag alone", b"UNS", "E04"),
    ("a release character at the end", b"UNS+S?", "E04"),
    ("the start of a service string", b"UNA", "E02"),
    ("a service string without its terminator", b"UNA:+.? ", "E02"),
    ("one separator for components and elements", b"UNA::.? '", "E02"),
    ("a semicolon for the decimal mark", b"UNA:+;? '", "E02"),
    ("a colon for the release character", b"UNA:+.:  '", "E02"),
    ("a control character in a service string", b"UNA:+.?\x1F'", "E02"),
    ("a letter for a separator", b"UNAa+.? '", "E02"),
    ("a comma for the release character", b"UNA:+,, '", "E02"),
    ("a segment that ends as the service string does not say", b"UNA:+.? \"UNS'", "E05"),
    ("a blank before a tag", b" UNS'", "E05"),
    ("a small letter first in a tag", b"uNS'", "E05"),
    ("a digit first in a tag", b"1NS'", "E05"),
    ("small letters in a tag", b"Uns'", "E05"),
    ("a line end in a tag", b"UN\nS'", "E05"),
    ("a line end behind a tag", b"UNS\r\n'", "E05"),
    ("a component separator behind a tag", b"UNS:S'", "E05"),
    ("a tag of four letters", b"UNSS'", "E05"),
    ("a line end in data", b"UNS+S\n'", "E03"),
    ("a line end that is released", b"UNS+S?\n'", "E03"),
    ("0x7F in data", b"UNS+\x7F'", "E03"),
    ("0x9F in data", b"UNS+\x9F'", "E03"),
    ("the longest segment, which is no interchange", long_segment(8192, b"'"), "E06"),
    ("the longest segment, cut", long_segment(8192, b""), "E04"),
    *((f"a segment of 8,193 bytes that ends in {end}", long_segment(8193, end), "E20") for end in (b"'", b"\n", b"a", b"+", b"?'")),
    ("a longer text with a segment across the limit", padded(TEXT_LIMIT - 3, b"UNS+S'"), "E01"),
    ("a longer text with a wrong tag at the limit", padded(TEXT_LIMIT - 3, b"UN+'"), "E05"),
]
