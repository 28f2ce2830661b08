"""The first order, which nearly all stands on: an interchange of one message, and what it is refused with where it is cut."""

MESSAGE = (
    "UNH+1+ORDERS:D:01B:UN:EAN010'BGM+220+128576+9'DTM+137:20250603:102'"
    "NAD+BY+5412345000013::9'NAD+SU+4012345500004::9'"
    "LIN+1++4000862141404:SRV'QTY+21:48'UNS+S'CNT+2:1'UNT+10+1'"
)
HEAD = "UNB+UNOC:3+5412345000013:14+5412345000006:14+250603:0915+1001'"
END = "UNZ+1+1001'"
ORDERS = "UNA:+.? '" + HEAD + MESSAGE + END


def cut(length):
    """What the order of 255 bytes, cut to a length, is refused with."""
    whole = length in (0, 9) or length > 9 and ORDERS[length - 1] == "'"
    return "E06" if whole else "E02" if 3 <= length <= 8 else "E04"


assert [sum(cut(length) == code for length in range(255)) for code in ("E06", "E02", "E04")] == [13, 6, 236]
