"""Tests of calls: `trial_script calls` makes them, and prints the name of each."""
from tests.harness.case import Case

NAMES = [
    "failed-writes",
    "limits",
    "failed-read",
    "lasting-fault",
    "pieces",
    "failed-reads",
    "key-of-input",
    "key",
    "relayed-order",
    "last-mail",
    "canonical-texts",
    "failed-writes-of-text",
    "long-text",
]


def passed(*names):
    return "".join(f"{it}\n" for it in names).encode()


CALLS = [
    Case("all tests of calls", ["calls"], output=passed(*NAMES)),
    *(Case(f"the test of calls {it}", ["calls", it], output=passed(it)) for it in NAMES),
    Case("a test of calls that there is not", ["calls", "none"], error=b"line\n", status=1),
]
