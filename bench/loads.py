"""The interchanges that `make bench` relays, each a little below 1 MiB, and the same at 1/16 of the size."""

LIMIT = 1_048_576
USUAL = (":", "+", ".", "?", "'")


def order(reference, number, lines, marks=USUAL, end=""):
    """One ORDERS message, its segments as a list of texts."""
    c, e, _, _, t = marks
    segments = [
        f"UNH{e}{reference}{e}ORDERS{c}D{c}01B{c}UN{c}EAN010",
        f"BGM{e}220{e}{number}{e}9",
        f"DTM{e}137{c}20250603{c}102",
        f"NAD{e}BY{e}5412345000013{c}{c}9",
        f"NAD{e}SU{e}4012345500004{c}{c}9",
    ]
    for line in range(1, lines + 1):
        segments += [
            f"LIN{e}{line}{e}{e}4000862141404{c}SRV",
            f"QTY{e}21{c}{line}",
            f"FTX{e}AAI{e}{e}{e}Dock {line}, gate O?{t}Neill" if marks is USUAL else f"FTX{e}AAI{e}{e}{e}Dock {line}, gate O'Neill",
        ]
    segments += [f"UNS{e}S", f"CNT{e}2{c}{lines}"]
    segments.append(f"UNT{e}{len(segments) + 1}{e}{reference}")
    return "".join(segment + t + end for segment in segments)


def interchange(messages, marks=USUAL, end=""):
    c, e, d, r, t = marks
    head = f"UNA{c}{e}{d}{r} {t}{end}UNB{e}UNOC{c}3{e}5412345000013{c}14{e}5412345000006{c}14{e}250603{c}0915{e}1001{t}{end}"
    return (head + "".join(messages) + f"UNZ{e}{len(messages)}{e}1001{t}{end}").encode("latin-1")


def largest(make, limit):
    """The largest of `make(1)`, `make(2)`, .. that keeps within the limit."""
    low, high = 1, 2
    while len(make(high)) <= limit:
        low, high = high, 2 * high
    while high - low > 1:
        middle = (low + high) // 2
        low, high = (middle, high) if len(make(middle)) <= limit else (low, middle)
    return make(low)


def many_orders(limit):
    count = 999 if limit == LIMIT else 62
    return largest(lambda n: interchange([order(k, 128576 + k, n) for k in range(1, count + 1)]), limit)


def huge_orders(limit):
    return largest(lambda n: interchange([order(k, 128576 + k, n) for k in range(1, 5)]), limit)


def other_characters(limit):
    marks = ("*", "|", ",", "!", "~")
    count = 999 if limit == LIMIT else 62
    return largest(lambda n: interchange([order(k, 128576 + k, n, marks, "\r\n") for k in range(1, count + 1)], marks, "\r\n"), limit)


def one_byte_components(limit):
    count = 500_000 * limit // LIMIT
    segments, left = ["UNH+1+ORDERS:D:01B:UN:EAN010'"], count
    while left:
        n = min(left, 4_000)
        segments.append("FTX+" + ":".join("abcdefghij"[k % 10] for k in range(n)) + "'")
        left -= n
    segments.append(f"UNT+{len(segments) + 1}+1'")
    return interchange(["".join(segments)])


LOADS = {
    "999 orders": many_orders,
    "4 huge orders": huge_orders,
    "other separators, CR LF": other_characters,
    "500,000 components": one_byte_components,
}


def with_check_digit(digits):
    """A key of GS1, from the digits before its check digit."""
    return digits + str(-sum(int(digit) * (1 if place % 2 else 3) for place, digit in enumerate(reversed(digits))) % 10)


def register(count):
    """Returns a register of this many suppliers."""
    parties = [with_check_digit(f"541{number:09}") for number in range(count + 2)]
    entries = "".join(
        f'\n[[supplier]]\ngln = "{gln}"\nprefix = "4{number:07}"\nkey = "key-{number:08}"\n' for number, gln in enumerate(parties[2:])
    )
    return f'hub = "{parties[0]}"\n\n[retailer]\ngln = "{parties[1]}"\nkey = "retail-key"\n{entries}'.encode()
