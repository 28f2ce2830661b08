"""Cases of usage errors: which option is against its limit."""
from tests.harness.database_files import NAME
from tests.harness.hub_steps import step, steps
from tests.harness.register_texts import ALPHA, HUB, RETAILER

ONE_PARTY = "exactly one of --supplier and --retailer is given"
MOMENT = "--moment is 0 to 4102444799"
PREFIXES = "--prefixes are 1 to 8 different ones of 4 to 12 digits, with commas between them"
WRONG_DIGIT = ALPHA[:-1] + "5"


def a_gln(option):
    return f"--{option} is a GLN: 13 digits, the last one a valid check digit"


def refused_words(text):
    return f"error: {text}\n\nUsage: edihub <COMMAND>\n\nFor more information, try '--help'.\n"


def over_a_hub(command, *more, caller=RETAILER):
    return [command, "--db", NAME, "--as", caller, "--key", "retail-key", *more]


def cancel(supplier=ALPHA, reference="C1", order="128576", line="1", quantity="10"):
    texts = ("--supplier", supplier, "--reference", reference, "--order", order, "--line", line, "--quantity", quantity)
    return over_a_hub("cancel", *texts)


def join(supplier=ALPHA, key="gamma-key-1", prefixes="7612345"):
    return over_a_hub("join", "--supplier", supplier, "--supplier-key", key, "--prefixes", prefixes)


def mail(do="after", n="0"):
    return over_a_hub("mail", "--do", do, "--n", n)


def serve(port="8080", count="1", *more):
    return ["serve", "--db", NAME, "--port", port, "--count", count, *more]


def relay(hub=HUB, owner=ALPHA, moment="0", number="1"):
    return ["relay", "--hub", hub, "--owner", owner, "--moment", moment, "--number", number]


# words, and what is said of them
NAMED = [
    (over_a_hub("import", "--folder", "out", caller="541234500001"), a_gln("as")),
    (over_a_hub("import", "--folder", "out", "--moment", "4102444800"), MOMENT),
    (over_a_hub("status", caller=WRONG_DIGIT), a_gln("as")),
    (over_a_hub("status", "--of", WRONG_DIGIT), a_gln("of")),
    (mail(do="later"), "--do is after, item or taken"),
    (mail(n="x1"), "--n is a number of 1 to 14 digits"),
    (mail(n="123456789012345"), "--n is a number of 1 to 14 digits"),
    (cancel(supplier=WRONG_DIGIT), a_gln("supplier")),
    (cancel(reference=""), "--reference is 1 to 14 printable ASCII characters"),
    (cancel(reference="C" * 15), "--reference is 1 to 14 printable ASCII characters"),
    (cancel(order="1" * 36), "--order is 1 to 35 printable ASCII characters"),
    (cancel(line="0"), "--line is 1 to 999999"),
    (cancel(line="0000001"), "--line is 1 to 999999"),
    (cancel(quantity="1000000000"), "--quantity is 1 to 999999999"),
    (join(supplier="1"), a_gln("supplier")),
    (join(key="gamma"), "--supplier-key is 8 to 64 visible ASCII characters"),
    (join(prefixes="761"), PREFIXES),
    (join(prefixes="7612345,7612345"), PREFIXES),
    (join(prefixes=","), PREFIXES),
    (join(prefixes="7612,"), PREFIXES),
    (serve(port="0"), "--port is 1 to 65535"),
    (serve(port="65536"), "--port is 1 to 65535"),
    (serve(count="0"), "--count is 1 to 1000000"),
    (serve("8080", "1", "--moment", "x"), MOMENT),
    (relay(hub=HUB[:-1]), "--hub is a GLN of 13 digits"),
    (relay(owner="4012345500004 "), "--owner is a GLN of 13 digits"),
    (relay(moment="4102444800"), MOMENT),
    (relay(number="0"), "--number is 1 to 99999999999001"),
    (relay(number="99999999999002"), "--number is 1 to 99999999999001"),
    # the first of two is named
    (over_a_hub("status", "--of", WRONG_DIGIT, "--moment", "x", caller=WRONG_DIGIT), a_gln("as")),
]

CASES = [steps(f"a usage error names the option: {' '.join(words)[:60]}", step(words, "", 2, refused_words(text))) for words, text in NAMED]
