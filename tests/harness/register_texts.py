"""How a register is written, and what `edihub check` says of one in which nothing but prefixes can be wrong."""
import re

HUB, RETAILER = "5412345000006", "5412345000013"
ALPHA, BETA, GAMMA, DELTA = "4012345500004", "8712345000004", "7612345000008", "3512345000005"


def written(prefix):
    """A prefix as a string of TOML, or a list of prefixes as an array of them."""
    return f'"{prefix}"' if isinstance(prefix, str) else "[" + ", ".join(f'"{it}"' for it in prefix) + "]"


def register(*suppliers, hub=HUB, retailer=RETAILER, key="retail-key"):
    """The text of a register. A supplier is its GLN, its prefix or a list of them, and its key."""
    entries = (f'\n[[supplier]]\ngln = "{gln}"\nprefix = {written(prefix)}\nkey = "{secret}"\n' for gln, prefix, secret in suppliers)
    return f'hub = "{hub}"\n\n[retailer]\ngln = "{retailer}"\nkey = "{key}"\n' + "".join(entries)


def of_prefixes(*prefixes):
    """A register of suppliers with these prefixes, each a string or a list of strings."""
    return register(*((gln, prefix, f"key-of-{gln}") for gln, prefix in zip((ALPHA, BETA, GAMMA, DELTA), prefixes)))


def are_prefixes_of_one(prefixes):
    """Whether these can be the prefixes of a supplier."""
    return 1 <= len(prefixes) <= 8 and len(set(prefixes)) == len(prefixes) and all(re.fullmatch("[0-9]{4,12}", it) for it in prefixes)


def overlap(some, others):
    """Whether a prefix of one list begins one of the other."""
    return any(p.startswith(q) or q.startswith(p) for p in some for q in others)


def verdict_on_prefixes(suppliers):
    """What `edihub check` prints of suppliers in which nothing but their lists of prefixes can be wrong."""
    if not all(are_prefixes_of_one(it) for it in suppliers):
        return "fault prefix"
    for j in range(len(suppliers)):
        for k in range(j + 1, len(suppliers)):
            if overlap(suppliers[j], suppliers[k]):
                return f"fault overlap {j + 1} {k + 1}"
    return f"ok {len(suppliers)} suppliers"


def gln(number):
    """The GLN of a number of nine digits at most."""
    digits = f"350{number:09}"
    weighted = sum(int(digit) * (3, 1)[place % 2] for place, digit in enumerate(reversed(digits)))
    return f"{digits}{-weighted % 10}"


def crowd(count):
    """A register of so many suppliers, all of them right."""
    return register(*((gln(number), f"4{number:07}", f"key-{number:04}") for number in range(count)))


# Eight prefixes, of which none begins another.
EIGHT = [f"4012345{last}" for last in range(8)]
