"""The cases of the built program: words, standard input, and the expected standard output, standard error and status."""
import os

from bench import loads
from tests.cases import fault_places, goods, orders
from tests.cases.broken_texts import TEXTS, TEXT_LIMIT
from tests.cases.envelopes import ENVELOPES
from tests.cases.registers import REGISTERS
from tests.harness import show_cases
from tests.harness.case import Case
from tests.harness.doors import OWNER, mail_text, relay
from tests.harness.first_order import HEAD, MESSAGE, ORDERS, cut
from tests.harness.register_texts import ALPHA, GAMMA, HUB, RETAILER, of_prefixes, register
from tests.harness.tree import EXAMPLES

def mail(number=1, message=MESSAGE, mark="."):
    """The hub's interchange with the first order, or with another message."""
    return mail_text(message, number, mark)


def text(it):
    return it.encode("latin-1")


def relayed(name, source, target, **words):
    return Case(name, relay(**words), text(source), text(target))


def refused(name, source, code):
    source = source if isinstance(source, bytes) else text(source)
    return Case(name, relay(), source, error=text(f"refused {code}\n"), status=1)


def is_usage(found):
    """A fault of the command line: a text that says so, and how the command is called."""
    return found.startswith(b"error: ") and b"Usage:" in found


def wrong_words(name, words):
    return Case(name, words, text(ORDERS), error=is_usage, status=2)


def respelled(source, marks, end=""):
    """The segments in other service characters, with `end` after each. The source has no released character."""
    component, element, decimal, release, terminator = marks
    body = source.removeprefix("UNA:+.? '").translate(str.maketrans({":": component, "+": element, "'": terminator + end}))
    return f"UNA{component}{element}{decimal}{release} {terminator}{end}{body}"


def with_note(note, source=ORDERS):
    """A free text behind the date, and the segment counted."""
    return source.replace("20250603:102'", "20250603:102'FTX+AAI+++" + note).replace("UNT+10", "UNT+11")


def messages(count, source=MESSAGE):
    """So many messages, numbered from 1, in one interchange."""
    body = "".join(source.replace("UNH+1+", f"UNH+{k}+").replace("UNT+10+1'", f"UNT+10+{k}'") for k in range(1, count + 1))
    return "UNA:+.? '" + HEAD + body + f"UNZ+{count}+1001'"


def mails(count, first=1):
    return "".join(mail(first + k) for k in range(count))


# moments, and the date and the time of a mail at each: ends of years and of February
MOMENTS = (
    (946_684_799, "991231:2359"),
    (946_684_800, "000101:0000"),
    (951_782_399, "000228:2359"),
    (951_782_400, "000229:0000"),
    (951_868_800, "000301:0000"),
    (1_709_164_800, "240229:0000"),
    (1_709_251_199, "240229:2359"),
    (1_740_787_200, "250301:0000"),
)

RELAY = [
    relayed("an order becomes the supplier's mail", ORDERS, mail()),
    relayed("an order without a service string", ORDERS.removeprefix("UNA:+.? '"), mail()),
    relayed("other separators, and CR LF after each segment", respelled(ORDERS, "*|,! ~".replace(" ", ""), "\r\n"), mail(mark=",")),
    relayed(
        "characters that are released in another place",
        respelled(ORDERS, ("*", "|", ",", "!", "~"), "\r\n")
        .replace("20250603*102~\r\n", "20250603*102~\r\nFTX|AAI|||Dock 3+4, O'Neill?~\r\n")
        .replace("UNT|10", "UNT|11"),
        mail(message=with_note("Dock 3?+4, O?'Neill??'", MESSAGE), mark=","),
    ),
    relayed(
        "no release character: ? is data",
        with_note("Gate 3?'").replace("UNA:+.? '", "UNA:+.  '"),
        mail(message=with_note("Gate 3??'", MESSAGE)),
    ),
    relayed("a released terminator does not end its segment", with_note("it?'s'"), mail(message=with_note("it?'s'", MESSAGE))),
    relayed("empty last components and elements are dropped", ORDERS.replace("QTY+21:48'", "QTY+21:48:+'"), mail()),
    relayed(
        "an empty element in the middle stays",
        ORDERS.replace("QTY+21:48'", "QTY+21:48++7'"),
        mail(message=MESSAGE.replace("QTY+21:48'", "QTY+21:48++7'")),
    ),
    relayed("two messages become two mail texts", messages(2), mails(2, 7), number="7"),
    relayed("no message, no mail", HEAD.replace("1001", "1004") + "UNZ+0+1004'", ""),
    relayed("the greatest first number", ORDERS, mail(99_999_999_999_001), number="99999999999001"),
    relayed("leading zeros in a number", ORDERS, mail(7), number="0007"),
    relayed("the first moment", ORDERS, mail().replace("250603:0920", "700101:0000"), moment="0"),
    relayed("the last moment", ORDERS, mail().replace("250603:0920", "991231:2359"), moment="4102444799"),
    *(relayed(f"the moment {at}", ORDERS, mail().replace("250603:0920", day), moment=str(at)) for at, day in MOMENTS),
    relayed(
        "components behind a message reference stay",
        ORDERS.replace("UNH+1+", "UNH+7:x+").replace("UNT+10+1'", "UNT+10+7:y'"),
        mail().replace("UNH+1+", "UNH+1:x+").replace("UNT+10+1'", "UNT+10+1:y'"),
    ),
    Case("line ends up to 1,048,576 bytes", relay(), text(ORDERS).ljust(TEXT_LIMIT, b"\n"), text(mail())),
    refused("one byte more", text(ORDERS).ljust(TEXT_LIMIT + 1, b"\n"), "E01"),
    refused("a service string whose characters are equal", ORDERS.replace("UNA:+.? '", "UNA++.? '"), "E02"),
    refused("a cut service string", "UNA:+.?", "E02"),
    refused("a line end inside of a segment", ORDERS.replace("BGM+220", "BGM+\n220"), "E03"),
    refused("a cut text", ORDERS[: ORDERS.index("QTY+21:4") + len("QTY+21:4")], "E04"),
    refused("a tag in small letters", ORDERS.replace("BGM", "bgm"), "E05"),
    refused("a segment of 8,193 bytes", with_note("x" * (8193 - len("FTX+AAI+++'")) + "'"), "E20"),
    refused("an empty text", "", "E06"),
    refused("a wrong segment count", ORDERS.replace("UNT+10", "UNT+9"), "E12"),
    refused(
        "a wrong segment count and a wrong control reference", ORDERS.replace("UNT+10", "UNT+9").replace("UNZ+1+1001", "UNZ+1+1009"), "E12"
    ),
    relayed("999 messages", messages(999), mails(999)),
    refused("1,000 messages", messages(1000), "E18"),
    refused("a segment before UNB", ORDERS.replace("UNB+", "ABC+x'UNB+"), "E06"),
    refused("an unknown syntax identifier", ORDERS.replace("UNOC", "UNOD"), "E07"),
    refused("a qualifier other than 14", ORDERS.replace("5412345000013:14", "5412345000013:9"), "E07"),
    refused("a test indicator other than 1", ORDERS.replace("+1001'UNH", "+1001++++++2'UNH"), "E07"),
    refused("a segment between messages", ORDERS.replace("UNZ+1", "ABC+x'UNZ+1"), "E10"),
    refused("a group", ORDERS.replace("UNH+1", "UNG+x'UNH+1"), "E10"),
    refused("a message type of seven bytes", ORDERS.replace("ORDERS", "ORDERSX"), "E11"),
    refused(
        "a wrong count in message 2 beside a wrong reference in message 1",
        messages(2).replace("UNT+10+1'", "UNT+10+9'").replace("UNT+10+2", "UNT+9+2"),
        "E12",
    ),
    refused("a wrong message reference", ORDERS.replace("UNT+10+1", "UNT+10+2"), "E13"),
    refused("a wrong number of messages", ORDERS.replace("UNZ+1", "UNZ+2"), "E14"),
    refused("a wrong number of messages and a wrong control reference", ORDERS.replace("UNZ+1+1001", "UNZ+2+1009"), "E14"),
    refused("a wrong control reference", ORDERS.replace("UNZ+1+1001", "UNZ+1+1009"), "E15"),
    refused("one message reference twice", messages(2).replace("UNH+2+", "UNH+1+").replace("UNT+10+2", "UNT+10+1"), "E16"),
    refused("control reference 1003 with a wrong count", ORDERS.replace("1001", "1003").replace("UNT+10", "UNT+9"), "E12"),
    refused("a test interchange", ORDERS.replace("+1001'UNH", "+1001++++++1'UNH"), "E17"),
    refused("a byte from 0xA0 on under UNOA", with_note("caf\xe9'").replace("UNOC", "UNOA"), "E19"),
    relayed("a byte from 0xA0 on under UNOC", with_note("caf\xe9'"), mail(message=with_note("caf\xe9'", MESSAGE))),
    relayed(
        "a segment of 8,192 bytes",
        with_note("x" * (8192 - len("FTX+AAI+++'")) + "'"),
        mail(message=with_note("x" * (8192 - len("FTX+AAI+++'")) + "'", MESSAGE)),
    ),
    refused("8,192 bytes of a segment that does not end", with_note("x" * 9000 + "'")[: ORDERS.index("NAD+BY") + 8192], "E04"),
    Case("the help of the program", ["--help"], output=lambda it: b"Usage: edihub" in it and b"relay" in it),
    Case("the help of relay", ["relay", "--help"], output=lambda it: b"Usage: edihub relay" in it and b"--moment" in it),
    Case("help that cannot be printed", ["--help"], output_to="/dev/full", error=b"file\n", status=3),
    Case("a word that is not UTF-8", ["relay", "--hub", b"\xff"], error=b"error: a word is not UTF-8\n", status=2),
    wrong_words("no command", []),
    wrong_words("an unknown command", ["deliver"]),
    wrong_words("no words for relay", ["relay"]),
    wrong_words("a GLN of twelve digits", relay(hub="541234500000")),
    wrong_words("a GLN with a letter", relay(owner="401234550000x")),
    wrong_words("the number 0", relay(number="0")),
    wrong_words("a number past the greatest", relay(number="99999999999002")),
    wrong_words("a number with a sign", relay(number="+5")),
    wrong_words("a number of fifteen digits", relay(number="000000000000001")),
    wrong_words("a moment past 2099", relay(moment="4102444800")),
    wrong_words("a moment that is no number", relay(moment="now")),
    wrong_words("an option twice", [*relay(), "--number", "2"]),
    Case("a failed read", relay(), input_is_folder=True, error=b"file\n", status=3),
    Case("a failed write", relay(), text(ORDERS), output_to="/dev/full", error=b"file\n", status=3),
]


CUTS = [refused(f"the order cut to {length} bytes", ORDERS[:length], cut(length)) for length in range(255)]

# the words of `edirelay`: the hub, the supplier, the moment of the mail and the number of its first text
ALONE = [HUB, OWNER, "1748942400", "1"]
CALLED = b"usage: edirelay HUB OWNER MOMENT NUMBER < INTERCHANGE > MAIL\n"
NOT_ALONE = [
    ("no words", []),
    ("a word too few", ALONE[:3]),
    ("a word too many", [*ALONE, "1"]),
    ("a GLN of twelve digits", [HUB[1:], *ALONE[1:]]),
    ("a moment past 2099", [*ALONE[:2], "4102444800", "1"]),
    ("the number 0", [*ALONE[:3], "0"]),
    ("words in another order", [HUB, "1748942400", OWNER, "1"]),
]
RELAY_ALONE = [
    Case("edirelay: the order", ALONE, text(ORDERS), text(mail())),
    Case("edirelay: two messages from number 41", [*ALONE[:3], "41"], text(messages(2)), text(mails(2, 41))),
    Case("edirelay: a cut order", ALONE, text(ORDERS[:200]), error=text(f"refused {cut(200)}\n"), status=1),
    Case("edirelay: a failed read", ALONE, input_is_folder=True, error=b"file\n", status=3),
    *(Case(f"edirelay: {what}", words, text(ORDERS), error=CALLED, status=2) for what, words in NOT_ALONE),
]

# so little memory in all that the mail texts of an interchange of 1 MiB cannot be held, and a little more
MEMORY = [
    *(
        Case(f"out of memory, {mib} MiB in all", relay(), loads.many_orders(TEXT_LIMIT), error=b"memory\n", status=3, memory=mib << 20)
        for mib in (6, 7)
    ),
    Case(
        "an interchange of 1 MiB in 10 MiB in all",
        relay(),
        loads.many_orders(TEXT_LIMIT),
        output=lambda it: it.count(b"'UNZ+1+") == 999,
        memory=10 << 20,
    ),
]


def example(name):
    with open(os.path.join(EXAMPLES, name), encoding="latin-1", newline="") as it:
        return it.read()


RELAYED_EXAMPLES = [
    relayed("the example orders.edi", example("orders.edi"), mail()),
    relayed(
        "the example two_orders.edi",
        example("two_orders.edi"),
        mail() + mail(2, MESSAGE.replace("128576", "128577").replace("QTY+21:48", "QTY+21:12")),
    ),
    relayed(
        "the example other_separators.edi",
        example("other_separators.edi"),
        mail(message=with_note("Dock 3?+4, O?'Neill??'", MESSAGE), mark=","),
    ),
]

CHECK_WORDS = ["check", "--register", "register.toml"]


def checked(name, source, line, status=0, **more):
    source = source if isinstance(source, bytes) else source.encode()
    return Case(name, CHECK_WORDS, output=text(line + "\n"), status=status, files={"register.toml": source}, **more)


def faulty(name, source, fault):
    return checked(name, source, f"fault {fault}", 1)


def unread(name, **files):
    return Case(name, CHECK_WORDS, error=b"file\n", status=3, **files)


CHECK = [
    checked("two suppliers", of_prefixes("40123455", "8712345"), "ok 2 suppliers"),
    checked("no supplier", register(), "ok 0 suppliers"),
    checked("one supplier", of_prefixes("40123455"), "ok 1 suppliers"),
    checked("a prefix of four and one of twelve digits", of_prefixes("4012", "871234500000"), "ok 2 suppliers"),
    checked("keys that are ignored", 'name = "Hub"\n' + of_prefixes("40123455") + "name = 1\n[more]\nx = 2\n", "ok 1 suppliers"),
    checked("the example register.toml", example("register.toml"), "ok 2 suppliers"),
    faulty("a prefix that begins the next", of_prefixes("4012345", "40123455"), "overlap 1 2"),
    faulty("a prefix that the next begins", of_prefixes("40123455", "4012345"), "overlap 1 2"),
    faulty("the first of two overlaps", of_prefixes("8712345", "40123455", "4012345", "8712"), "overlap 1 4"),
    faulty("equal prefixes", of_prefixes("4012345", "4012345"), "overlap 1 2"),
    faulty("a prefix of three digits", of_prefixes("401"), "prefix"),
    faulty("a prefix of thirteen digits", of_prefixes("4012345500004"), "prefix"),
    faulty("a prefix that is empty", of_prefixes(""), "prefix"),
    faulty("the retailer's GLN as a supplier's", register((RETAILER, "40123455", "alpha-key-1")), "twice"),
    faulty("the hub's GLN as the retailer's", register(retailer=HUB), "twice"),
    faulty("a supplier twice", register((ALPHA, "40123455", "alpha-key-1"), (ALPHA, "8712345", "beta-key-1")), "twice"),
    faulty("a wrong GLN behind a wrong key", register((ALPHA, "40123455", "short"), ("8712345000005", "8712345", "beta-key-1")), "gln"),
    faulty("a wrong GLN of the hub", register(hub="5412345000007"), "gln"),
    faulty("a key of seven bytes", register(key="retail7"), "key"),
    faulty("a key of 65 bytes", register((ALPHA, "40123455", "k" * 65)), "key"),
    checked("a key of 64 bytes", register((ALPHA, "40123455", "k" * 64)), "ok 1 suppliers"),
    faulty("a blank in a key", register((ALPHA, "40123455", "alpha key")), "key"),
    faulty("a letter past ASCII in a key", register((ALPHA, "40123455", "schl\u00fcssel")), "key"),
    faulty("an empty text", "", "text"),
    faulty("no TOML", "hub = 5412345000006 0", "text"),
    faulty("a GLN that is a number", register().replace(f'"{HUB}"', HUB), "text"),
    faulty("no key of the retailer", register().replace("key = ", "secret = "), "text"),
    checked("a list of prefixes", of_prefixes(["40123455", "5012"]), "ok 1 suppliers"),
    faulty("a list of prefixes with a number", of_prefixes(["40123455", "5012"]).replace('"5012"', "5012"), "text"),
    faulty(
        "a later prefix that begins a later one of another supplier",
        of_prefixes(["8712345", "4012"], ["7612345", "40123455"]),
        "overlap 1 2",
    ),
    faulty("one key twice", 'hub = "x"\n' + register(), "text"),
    faulty("1,001 suppliers, none of them right", register(*[("", "", "")] * 1001), "many"),
    faulty("1,000 suppliers, none of them right", register(*[("", "", "")] * 1000), "gln"),
    checked("line ends up to 1,048,576 bytes", register().encode().ljust(TEXT_LIMIT, b"\n"), "ok 0 suppliers"),
    unread("a register of 1,048,577 bytes", files={"register.toml": register().encode().ljust(TEXT_LIMIT + 1, b"\n")}),
    unread("a register that is not UTF-8", files={"register.toml": b"\xff" + register().encode()}),
    unread("no such file"),
    Case("a folder for a register", ["check", "--register", "."], error=b"file\n", status=3),
    Case(
        "a verdict that cannot be printed",
        CHECK_WORDS,
        output_to="/dev/full",
        error=b"file\n",
        status=3,
        files={"register.toml": register().encode()},
    ),
    Case(
        "the help of check",
        ["check", "--help"],
        output=lambda it: b"Usage: edihub check" in it and b"--register" in it and b"overlap I J" in it,
    ),
    Case("the help of the program names check", ["--help"], output=lambda it: b"check" in it),
    wrong_words("no register for check", ["check"]),
    wrong_words("two registers for check", [*CHECK_WORDS, "--register", "other.toml"]),
    wrong_words("a word too many for check", [*CHECK_WORDS, "more"]),
    *(
        Case(
            f"out of memory for a register, {mib} MiB in all",
            CHECK_WORDS,
            error=b"memory\n",
            status=3,
            memory=mib << 20,
            files={"register.toml": register(*[("", "", "")] * 15000).encode()},
        )
        for mib in (6, 7, 8)
    ),
]


def is_empty(folder):
    """The command left no file."""
    found = os.listdir(folder)
    return f"there are {found}" if found else None


def over_a_hub(command, *more, **words):
    """The words of a command over a hub; an option is left out by None."""
    named = {"db": "hub.db", "as": RETAILER, "key": "retail-key", **words}
    options = [word for name, value in named.items() if value is not None for word in (f"--{name}", value)]
    return [command, *options, *more]


def hub_words(command, **more):
    """Words of a command over a hub that are right, with its own options."""
    own = {
        "import": {"folder": "out"},
        "status": {"of": ALPHA},
        "mail": {"do": "after", "n": "0"},
        "cancel": {"supplier": ALPHA, "reference": "C1", "order": "128576", "line": "1", "quantity": "10"},
        "join": {"supplier": GAMMA, "supplier-key": "gamma-key-1", "prefixes": "7612345,7612346"},
    }
    return over_a_hub(command, **{**own[command], **more})


OVER_A_HUB = ("import", "status", "mail", "cancel", "join")
WANTED = {
    "import": ("db", "as", "key", "folder"),
    "status": ("db", "as", "key"),
    "mail": ("db", "as", "key", "do", "n"),
    "cancel": ("db", "as", "key", "supplier", "reference", "order", "line", "quantity"),
    "join": ("db", "as", "key", "supplier", "supplier-key", "prefixes"),
}
FIFTEEN = "0" * 14 + "1"
NINE = [f"761234{last}" for last in range(1, 10)]
# each option, and the values that are against its limits
WRONG = {
    "as": ("12", "5412345000014", "541234500001x", " 5412345000013", ""),
    "moment": ("4102444800", "99999999999999", FIFTEEN, "+5", "1 ", "now", ""),
    "of": ("12", "4012345500005", ""),
    "do": ("send", "After", "after ", ""),
    "n": (FIFTEEN, "+5", "-", "1.0", "one", ""),
    "supplier": ("12", "4012345500005", ALPHA + "\n", ""),
    "reference": ("C" * 15, "C\t1", "C\n1", "caf\u00e9", ""),
    "order": ("1" * 36, "128\n576", "\u20ac", ""),
    "line": ("0", "0000000", "1000000", "+1", "1\n", ""),
    "quantity": ("0", "1000000000", "0000000001", "+1", "1.0", "1\n2", ""),
    "supplier-key": ("gamma-k", "k" * 65, "gamma key 1", "gamma\tkey", "schl\u00fcssel", ""),
    "prefixes": (
        "", ",", "761", "7612345678901", "761234x", "7612345,", ",7612345", "7612345,,7612346", "7612345, 7612346", "7612345;7612346",
        "7612345,761", "7612345,7612345", "7612,7612345,7612", ",".join(NINE), ",".join(NINE * 100), "7612345\n",
    ),
}
HAS = {
    "import": ("as", "moment"),
    "status": ("as", "moment", "of"),
    "mail": ("as", "moment", "do", "n"),
    "cancel": ("as", "moment", "supplier", "reference", "order", "line", "quantity"),
    "join": ("as", "moment", "supplier", "supplier-key", "prefixes"),
}
# values of `join` at their limits, after which the database is looked for
RIGHT_TO_JOIN = {
    "supplier-key": ("gamma-k1", "k" * 64, "!~345678"),
    "prefixes": ("7612", "761234567890", "7612345,7612,76123456", ",".join(NINE[:8])),
}
HUB_WORDS = [
    *(wrong_words(f"no words for {command}", [command]) for command in OVER_A_HUB),
    *(wrong_words(f"{command} without --{name}", hub_words(command, **{name: None})) for command in OVER_A_HUB for name in WANTED[command]),
    *(
        wrong_words(f"{command} with --{name} {value!r}", hub_words(command, **{name: value}))
        for command in OVER_A_HUB
        for name in HAS[command]
        for value in WRONG[name]
    ),
    *(wrong_words(f"{command} with --key twice", [*hub_words(command), "--key", "retail-key"]) for command in OVER_A_HUB),
    *(wrong_words(f"{command} with a word too many", [*hub_words(command), "more"]) for command in OVER_A_HUB),
    *(wrong_words(f"{command} with a register", [*hub_words(command), "--register", "register.toml"]) for command in OVER_A_HUB),
    *(
        Case(
            f"join with --{name} {value!r}, and no database",
            hub_words("join", **{name: value}),
            error=b"store version\n",
            status=3,
            after=is_empty,
        )
        for name, values in RIGHT_TO_JOIN.items()
        for value in values
    ),
    wrong_words("a key that begins with -, parted", hub_words("status", key="-x")),
    wrong_words("the option of another command", hub_words("status", folder="out")),
    *(
        Case(
            f"the help of {command}",
            [command, "--help"],
            output=lambda it, command=command: f"Usage: edihub {command}".encode() in it and b"--moment" in it and b"Exit status: 0" in it,
        )
        for command in OVER_A_HUB
    ),
    *(
        Case(f"the help of the program names {command}", ["--help"], output=lambda it, command=command: command.encode() in it)
        for command in OVER_A_HUB
    ),
    Case(
        "the help of status shows both ways to ask",
        ["status", "--help"],
        output=lambda it: b"--of 4012345500004" in it and b"--as 4012345500004" in it,
    ),
    Case(
        "the help of join shows how a supplier is let in",
        ["join", "--help"],
        output=lambda it: b"--prefixes 7612345,7612346" in it and b"B18" in it and b"B19" in it and b"B20" in it,
    ),
    *(
        Case(f"the help of {command} has no option for a register", [command, "--help"], output=lambda it: b"--register" not in it)
        for command in (*OVER_A_HUB, "serve")
    ),
    Case(
        "the help of mail has its three steps",
        ["mail", "--help"],
        output=lambda it: all(b"--do " + what in it for what in (b"after", b"item", b"taken")),
    ),
]


def serve_words(**more):
    """Words of `serve` that are right, but for these; an option is left out by None."""
    named = {"db": "hub.db", "port": "8080", "count": "1", **more}
    return ["serve", *(word for name, value in named.items() if value is not None for word in (f"--{name}", value))]


# each option of `serve`, and the values that are against its limits
WRONG_TO_SERVE = {
    "port": ("0", "65536", "99999999999999", "0" * 11 + "8080", "+80", "-1", " 80", "80 ", "http", ""),
    "count": ("0", "1000001", "99999999999999", FIFTEEN, "+5", "1.0", "all", ""),
    "moment": WRONG["moment"],
}
# values at the limits, after which the database is looked for
RIGHT_TO_SERVE = {
    "port": ("1", "65535", "00000000000080"),
    "count": ("1", "1000000", "00000001000000"),
    "moment": ("0", "4102444799"),
    "journal": ("journal", "none/journal", ""),
}
SERVE_WORDS = [
    wrong_words("no words for serve", ["serve"]),
    *(wrong_words(f"serve without --{name}", serve_words(**{name: None})) for name in ("db", "port", "count")),
    *(
        wrong_words(f"serve with --{name} {value!r}", serve_words(**{name: value}))
        for name, values in WRONG_TO_SERVE.items()
        for value in values
    ),
    *(
        Case(
            f"serve with --{name} {value!r}, and no database",
            serve_words(**{name: value}),
            error=b"store version\n",
            status=3,
            after=is_empty,
        )
        for name, values in RIGHT_TO_SERVE.items()
        for value in values
    ),
    *(wrong_words(f"serve with --{name} twice", [*serve_words(journal="1"), f"--{name}", "1"]) for name in ("port", "count", "journal")),
    wrong_words("serve with a word too many", [*serve_words(), "more"]),
    wrong_words("serve for a caller", [*serve_words(), "--as", RETAILER]),
    wrong_words("serve with a register", [*serve_words(), "--register", "register.toml"]),
    Case(
        "the help of serve",
        ["serve", "--help"],
        output=lambda it: all(
            has in it for has in (b"Usage: edihub serve", b"--port", b"--journal", b"connection 3 fault", b"Exit status: 0")
        ),
    ),
    Case("the help of the program names serve", ["--help"], output=lambda it: b"serve" in it),
]

INIT_WORDS = ["init", "--register", "register.toml", "--db", "hub.db"]
INIT_CASES = [
    wrong_words("no words for init", ["init"]),
    wrong_words("init without --register", ["init", "--db", "hub.db"]),
    wrong_words("init without --db", ["init", "--register", "register.toml"]),
    *(wrong_words(f"init with --{name} twice", [*INIT_WORDS, f"--{name}", "other"]) for name in ("register", "db")),
    *(
        wrong_words(f"init with --{name}", [*INIT_WORDS, f"--{name}", value])
        for name, value in (("as", RETAILER), ("key", "retail-key"), ("moment", "0"))
    ),
    wrong_words("init with a word too many", [*INIT_WORDS, "more"]),
    Case(
        "the help of init",
        ["init", "--help"],
        output=lambda it: b"Usage: edihub init" in it and b"--register" in it and b"--db" in it and b"Exit status: 0" in it,
    ),
    Case("the help of the program names init", ["--help"], output=lambda it: b"init" in it),
]

REGISTER_CASES = [
    checked(name, source, f"{verdict} suppliers") if verdict.startswith("ok") else faulty(name, source, verdict)
    for name, source, verdict in REGISTERS
]

ENVELOPE_CASES = [
    refused(name, source, told)
    if isinstance(told, str)
    else relayed(name, source, "".join(mail(place, message) for place, message in enumerate(told, 1)))
    for name, source, told in ENVELOPES
]

TEXT_CASES = [refused(name, source, code) for name, source, code in TEXTS]


def show(name, source, lines, status=0, **more):
    """A case of `show` whose lines stand here in full."""
    source = source if isinstance(source, bytes) else source.encode()
    output = show_cases.wanted("".join(line + "\n" for line in lines).encode())
    return Case(f"show: {name}", ["show"], source, output, status=status, **more)


def refused_whole(case):
    """The case of `show` for a case of `relay` that is refused, where what shows the fault is left open."""
    code = case.error.decode().removeprefix("refused ").removesuffix("\n")
    of_text = code in ("E01", "E02", "E03", "E04", "E05", "E20")
    lines = show_cases.refusal_of_text(code) if of_text else show_cases.refusal(code)
    if case.input.strip() in (b"", b"UNA:+.? '"):
        lines = ["refused E06 frame of the interchange"]
    return show(case.name, case.input, lines, 1)


ALL_TYPES = [
    orders.ORDER,
    orders.RESPONSE,
    goods.DESPATCH,
    show_cases.edited(goods.RECEIPT, "LIN+2++4000862141411:SRV'QTY+194:3'", ""),
]


ALL_LINES = """\
service component : element + decimal . release ? terminator '
interchange 1001
  sender 5412345000013
  recipient 5412345000006
  prepared 250603 0915
  messages 4
message 1
  reference 1
  type ORDERS
  order 128576
  buyer 5412345000013
  supplier 4012345500004
  line 1 item 04000862141404 ordered 48
message 2
  reference 2
  type ORDRSP
  response AB128
  buyer 5412345000013
  supplier 4012345500004
  answers 128576
  line - item 04000862141404 changed 36
message 3
  reference 3
  type DESADV
  despatch DA1
  buyer 5412345000013
  supplier 4012345500004
  unit 340123455000000012
    item 04000862141404 despatched 12 line - order 128576
message 4
  reference 4
  type RECADV
  receipt G1
  buyer 5412345000013
  supplier 4012345500004
  unit 340123455000000012
    item 04000862141404 accepted 10 returned 1 destroyed 0
""".splitlines()


def said(name, parts, messages, marks="", line=show_cases.USUAL_MARKS):
    """A case of several messages, and the lines of each."""
    kinds = [show_cases.kind_of(part) for part in parts]
    return show_cases.shown(name, show_cases.in_a_row(*parts, marks=marks), show_cases.Interchange(service=line, kinds=kinds), messages)


# A right message of each type from BGM on, as the header names the supplier.
FROM_BGM = [
    (
        "ORDERS",
        (
            "BGM+220+128576+9'DTM+137:20250603:102'NAD+BY+5412345000013::9'NAD+SU+4012345500004::9'"
            "LIN+1++4000862141404:SRV'QTY+21:48'UNS+S'CNT+2:1'"
        ),
        orders.order(),
    ),
    (
        "ORDRSP",
        (
            "BGM+231+AB128+4'DTM+137:20250603:102'RFF+ON:128576'NAD+BY+5412345000013::9'NAD+SU+4012345500004::9'"
            "LIN+1+3+4000862141404:SRV'QTY+113:36'UNS+S'"
        ),
        orders.response("line - item 04000862141404 changed 36"),
    ),
    (
        "DESADV",
        (
            "BGM+351+DA1+9'DTM+137:20250604:102'RFF+ON:128576'NAD+BY+5412345000013::9'NAD+SU+4012345500004::9'"
            "CPS+1'PAC+1'PCI+33E'GIN+BJ+340123455000000012'LIN+1++4000862141404:SRV'QTY+12:12'"
        ),
        goods.despatch(),
    ),
    (
        "RECADV",
        (
            "BGM+632+G1+9'DTM+137:20250605:102'NAD+BY+5412345000013::9'NAD+SU+4012345500004::9'"
            "CPS+1'GIN+BJ+340123455000000012'LIN+1++4000862141404:SRV'QTY+194:10'"
        ),
        goods.advice("receipt", "G1", [goods.SSCC, goods.received(10, 0, 0)]),
    ),
]

NAMED = [
    show_cases.edited(orders.RESPONSE, "UNS+S'", "RFF+ON:128576:1'UNS+S'"),
    show_cases.edited(goods.DESPATCH, "QTY+12:12'", "QTY+12:12'RFF+ON:128577:7'"),
]

SHOW = [
    show("all four types", show_cases.in_a_row(*ALL_TYPES), ALL_LINES),
    said(
        "one of three messages is refused",
        [ALL_TYPES[0], show_cases.edited(ALL_TYPES[1], "QTY+113:36'", "QTY+113:3x'"), ALL_TYPES[2]],
        [orders.order(), show_cases.refusal("M08"), goods.despatch()],
    ),
    said(
        "the lines of an order are named",
        NAMED,
        [orders.response("line 1 item 04000862141404 changed 36"), goods.despatch(goods.despatched(12, 7, "128577"))],
    ),
    *(show_cases.told(f"the header of {kind}", f"UNH+1+{kind}:D:01B:UN:EAN010'{behind}", lines) for kind, behind, lines in FROM_BGM),
    said("no release character", ALL_TYPES[:1], [orders.order()], "UNA:+.  '", show_cases.USUAL_MARKS.replace("release ?", "release none")),
    said("another decimal mark", ALL_TYPES[:1], [orders.order()], "UNA:+,? '", show_cases.USUAL_MARKS.replace("decimal .", "decimal ,")),
    said("no message", [], []),
    said("a type that is none of the four", [ALL_TYPES[0].replace("ORDERS", "INVOIC")], [show_cases.refusal("M01")]),
    show(
        "a sender of other bytes",
        show_cases.in_a_row().replace(RETAILER, "caf\xe9 1"),
        [*ALL_LINES[:2], "  sender caf\xe9 1", *ALL_LINES[3:5], "  messages 0"],
    ),
    *(refused_whole(case) for case in RELAY + CUTS if case.words[:1] == ["relay"] and case.status == 1),
    Case("show: a failed read", ["show"], input_is_folder=True, error=b"file\n", status=3),
    Case("show: a failed write", ["show"], show_cases.in_a_row(*ALL_TYPES).encode(), output_to="/dev/full", error=b"file\n", status=3),
    *(
        Case(
            f"show: out of memory, {mib} MiB in all", ["show"], loads.many_orders(TEXT_LIMIT), error=b"memory\n", status=3, memory=mib << 20
        )
        for mib in (6, 7, 8, 10, 12, 16)
    ),
    Case("the help of show", ["show", "--help"], output=lambda it: b"Usage: edihub show" in it and b"refused M08 quantity" in it),
    Case("the help of the program names show", ["--help"], output=lambda it: b"show" in it),
    wrong_words("a word too many for show", ["show", "more"]),
    wrong_words("an option for show", ["show", "--hub", HUB]),
]

CASES = (
    RELAY
    + CUTS
    + MEMORY
    + RELAYED_EXAMPLES
    + CHECK
    + HUB_WORDS
    + SERVE_WORDS
    + INIT_CASES
    + REGISTER_CASES
    + ENVELOPE_CASES
    + TEXT_CASES
    + SHOW
    + orders.CASES
    + goods.CASES
    + fault_places.CASES
)
