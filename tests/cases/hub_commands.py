"""Cases of the founding and of the commands over a hub: words, a register, folders and a database file, step by step in one folder."""
import os
import re

from tests.cases import hub_files, key_files, rekey, unopened, usage
from tests.cases.corrections import CORRECTED, CORRECTION, FOURTH_MAIL, TWELVE, corrected
from tests.cases.registers import REGISTERS
from tests.harness import database_files, hub_scripts
from tests.harness.case import Case
from tests.harness.database_files import NAME, REGISTERED, has_rows, is_still
from tests.harness.first_order import ORDERS, cut
from tests.harness.hub_scripts import DESPATCH, FIRST_MAIL, KEYS, OTHER_PALLET, PALLET, RECEIPT, RESPONSE, SECOND, STATUS
from tests.harness.hub_scripts import TWO_SUPPLIERS, despatch, interchange, line_status, message, order, parties, response
from tests.harness.hub_steps import EACH, FIRST_TWO, REGISTER, cancelled, founded, imported, init, mail, mode_of, one
from tests.harness.hub_steps import over, rows_of_register, status_of, step, steps, told
from tests.harness.register_texts import ALPHA, BETA, DELTA, GAMMA, HUB, RETAILER, crowd, of_prefixes, register


def goods():
    """What comes of two orders, each by a command of its own: answers, despatches, a receipt, and then the status."""
    return [
        one(ALPHA, "8", "S1", "ORDRSP", RESPONSE),
        one(ALPHA, "9", "S2", "DESADV", DESPATCH),
        one(ALPHA, "12", "S6", "DESADV", interchange(ALPHA, "S6", despatch("DA4", OTHER_PALLET, 12, order="128577"))),
        one(ALPHA, "12b", "S7", "ORDRSP", interchange(ALPHA, "S7", response("R2", 27, order="128577"))),
        one(RETAILER, "13", "1005", "RECADV", RECEIPT),
        status_of(ALPHA, *STATUS),
    ]


def in_turn():
    """Orders, answers, despatches, receipts and cancellations of one supplier, each by a command of its own."""
    return founded(
        "orders, answers, despatches and receipts, each by a command of its own",
        one(RETAILER, "1", "1001", "ORDERS", ORDERS),
        mail(ALPHA, "item", 1, FIRST_MAIL),
        one(RETAILER, "1", "1001", "ORDERS", ORDERS, "repeated"),
        one(RETAILER, "3", "1001", "ORDERS", ORDERS.replace("QTY+21:48", "QTY+21:49"), "refused B03"),
        one(RETAILER, "4", "1002", "ORDERS", SECOND),
        imported(RETAILER, "5", ("5.edi", ORDERS.replace("1001'", "1003'").replace("UNT+10+1", "UNT+9+1"), "refused E12"), status=1),
        imported(RETAILER, "6", ("6.edi", "", "refused E06"), status=1),
        *goods(),
        step(over("status", RETAILER, "--of", ALPHA), told(*STATUS, "end")),
        status_of(BETA),
        mail(ALPHA, "after", 0, told("             1 ORDERS 128576", "             2 ORDERS 128577", "             3 RECADV G1", "end")),
        mail(ALPHA, "taken", 1, told("taken")),
        mail(ALPHA, "after", 0, told("             2 ORDERS 128577", "             3 RECADV G1", "end")),
        mail(ALPHA, "item", "00000000000001", FIRST_MAIL),
        cancelled("C1", "10", "accepted"),
        status_of(ALPHA, line_status("128576", "C", 48, 14, 12, 10, 12), *STATUS[1:]),
        cancelled("C1", "10", "repeated"),
        cancelled("C1", "010", "repeated", line="01"),
        cancelled("C2", "15", "refused B17", status=1),
        cancelled("C1", "11", "refused B03", status=1),
    )


def corrections():
    """A pallet is received, and then counted again, each by a command of its own."""
    entries = ("             1 ORDERS 128576", "             2 ORDERS 128577", "             3 RECADV G1", "             4 RECADV G3")
    return founded(
        "a receiving advice that replaces, by commands",
        one(RETAILER, "1", "1001", "ORDERS", ORDERS),
        one(RETAILER, "4", "1002", "ORDERS", SECOND),
        *goods(),
        one(RETAILER, "14", "1007", "RECADV", CORRECTION),
        status_of(ALPHA, *CORRECTED),
        step(over("status", RETAILER, "--of", ALPHA), told(*CORRECTED, "end")),
        mail(ALPHA, "after", 0, told(*entries, "end")),
        mail(ALPHA, "item", 4, FOURTH_MAIL),
        one(RETAILER, "14", "1007", "RECADV", CORRECTION, "repeated"),
        one(RETAILER, "15", "1008", "RECADV", corrected("1008", "G4", TWELVE, function="9"), "refused B15"),
        one(RETAILER, "16", "1009", "RECADV", corrected("1009", "G5", TWELVE, function="4"), "refused M03"),
        status_of(ALPHA, *CORRECTED),
    )


def folder_in_order():
    """The files of a folder by the bytes of their names, and the same folder again."""
    uploads = {name: interchange(RETAILER, f"100{k}", order(f"12857{k}")) for k, name in enumerate(("B.edi", "a.edi", "b.edi"))}
    lines = lambda word: [
        (name, text, f"interchange 100{k} messages 1", f"1 ORDERS {word}") for k, (name, text) in enumerate(uploads.items())
    ]
    rows = {'"order"': [(ALPHA.encode(), f"12857{k}".encode()) for k in range(3)]}
    return founded(
        "the files of a folder in the order of their names, twice",
        imported(RETAILER, "in", *lines("accepted")),
        imported(RETAILER, "in", *lines("repeated")),
        step(over("status", ALPHA), told(*(line_status(f"12857{k}", "W", 48, 48, 0, 0, 0) for k in range(3)), "end"), after=has_rows(rows)),
    )


def refused_among_others():
    """A folder with an order and a text that is refused, twice: the order is repeated, the text refused again."""
    wrong = ORDERS.replace("1001'", "1003'").replace("UNT+10+1", "UNT+9+1")
    replies = lambda word: (
        ("a.edi", ORDERS, "interchange 1001 messages 1", f"1 ORDERS {word}"),
        ("b.edi", wrong, "refused E12"),
    )
    return founded(
        "a folder of an order and a text that is refused, twice",
        imported(RETAILER, "in", *replies("accepted"), status=1),
        imported(RETAILER, "in", *replies("repeated"), status=1),
        mail(ALPHA, "after", 0, told("             1 ORDERS 128576", "end")),
    )


def others_parties_and_articles():
    """A buyer that is not the retailer, and a line of an order that is despatched with another article."""
    line = ("RFF+ON:128576", *parties(ALPHA), "CPS+1", "PAC+1", "PCI+33E", f"GIN+BJ+{PALLET}", "LIN+1++{}:SRV", "QTY+12:12", "RFF+ON:128576:1")
    advice = lambda gtin: message(
        "DESADV:D:01B:UN:EAN007", 1, "BGM+351+DA1+9", "DTM+137:20250604:102", *(it.format(gtin) for it in line)
    )
    return founded(
        "another buyer, and another article of a line",
        one(RETAILER, "1", "1002", "ORDERS", SECOND.replace(f"NAD|BY|{RETAILER}", f"NAD|BY|{HUB}"), "refused B01"),
        one(RETAILER, "2", "1001", "ORDERS", ORDERS),
        one(ALPHA, "3", "S1", "DESADV", interchange(ALPHA, "S1", advice("4000862141411")), "refused B09"),
        status_of(ALPHA, line_status("128576", "W", 48, 48, 0, 0, 0)),
        one(ALPHA, "4", "S2", "DESADV", interchange(ALPHA, "S2", advice("4000862141404"))),
    )


# each has a byte with which a name could write a line that looks like a reply, or change a terminal
FORGED = ("a.edi\n1 ORDERS accepted", "\x1b[2J.edi", "b.edi\x7f", "\t")


def make_folder(folder):
    """What is no plain file, beside one that is; two names that are no UTF-8, and names that have a control byte."""
    base = os.path.join(folder, "in")
    os.mkdir(os.path.join(base, "more"))
    os.symlink("a.edi", os.path.join(base, "link.edi"))
    os.mkfifo(os.path.join(base, "pipe.edi"))
    for name in (b"\xff.edi", b"a\xc3.edi", *(it.encode() for it in FORGED)):
        with open(os.path.join(os.fsencode(base), name), "wb") as file:
            file.write(ORDERS.encode())


def what_is_no_file():
    upload = ("a.edi", ORDERS, "interchange 1001 messages 1", "1 ORDERS accepted")
    first = imported(RETAILER, "in", upload)
    first.after = make_folder
    again = told("file a.edi", "interchange 1001 messages 1", "1 ORDERS repeated", *["fault"] * (2 + len(FORGED)))
    return founded(
        "what is no plain file, and names that cannot be printed", first, step(over("import", RETAILER, "--folder", "in"), again, 3)
    )


def cuts():
    """An interchange cut at each of its lengths: each is refused, by its code, and nothing of it is taken."""
    uploads = [(f"{length:03}.edi", ORDERS[:length], f"refused {cut(length)}") for length in range(len(ORDERS))]
    return founded("an interchange cut at each of its lengths", imported(RETAILER, "in", *uploads, status=1), status_of(ALPHA))


def long_mailbox():
    orders = [order(str(1000 + k), reference=k) for k in range(1, 102)]
    lines = [f"{k} ORDERS accepted" for k in range(1, 102)]
    entries = [f"{k:>14} ORDERS {1000 + k}" for k in range(1, 102)]
    return founded(
        "a mailbox of 101 entries, by commands",
        imported(RETAILER, "in", ("in.edi", interchange(RETAILER, "1001", *orders), "interchange 1001 messages 101", *lines)),
        mail(ALPHA, "after", 0, told(*entries[:100], "more")),
        mail(ALPHA, "after", 100, told(entries[100], "end")),
        mail(ALPHA, "taken", 102, told("unknown"), 1),
        mail(ALPHA, "item", 102, told("unknown"), 1),
    )


def long_reply():
    """A reply that is longer than a head of HTTP, and than each buffer on its way."""
    orders = [order(str(2000 + k), reference=k) for k in range(1, 601)]
    upload = ("in.edi", interchange(RETAILER, "1001", *orders), "interchange 1001 messages 600")
    return founded(
        "a reply of 600 lines, twice",
        *(imported(RETAILER, "in", (*upload, *(f"{k} ORDERS {word}" for k in range(1, 601)))) for word in ("accepted", "repeated")),
    )


def too_long():
    """A text of a byte too many is refused, and the next file comes; one of as many as a text may have is taken."""
    padded = lambda length: ORDERS + "\n" * (length - len(ORDERS))
    return founded(
        "a file past the limit of a text",
        imported(
            RETAILER,
            "in",
            ("a.edi", padded(1_048_577), "refused E01"),
            ("b.edi", padded(1_048_576), "interchange 1001 messages 1", "1 ORDERS accepted"),
            ("c.edi", SECOND, "interchange 1002 messages 1", "1 ORDERS accepted"),
            status=1,
        ),
    )


def kept_mode():
    """A database file that is there keeps the mode that somebody gave it, also where a hub is founded in it."""

    def opened(folder):
        os.chmod(os.path.join(folder, NAME), 0o640)

    def is_kept(folder):
        return None if (found := mode_of(folder)) == 0o640 else f"mode {found:o}"

    before = step(["check", "--register", REGISTER], told("ok 2 suppliers"), files={NAME: ""}, after=opened)
    upload, again = one(RETAILER, "1", "1001", "ORDERS", ORDERS), status_of(ALPHA, line_status("128576", "W", 48, 48, 0, 0, 0))
    upload.after = again.after = is_kept
    return steps("the mode of a database file that is there", before, step(init(), told("ok 2 suppliers"), after=is_kept), upload, again)


def sums_of_pages():
    """A new file keeps a sum of each page, by which a byte that has changed is found."""

    def changed(folder):
        path = os.path.join(folder, NAME)
        with open(path, "r+b") as file:
            data = file.read()
            # how many bytes of each page are kept for its sum
            if data[20] != 8:
                return f"{data[20]} bytes of a page are no row's"
            file.seek(data.index(b"128576"))
            file.write(b"128577")
        return None

    first = one(RETAILER, "1", "1001", "ORDERS", ORDERS)
    first.after = changed
    return founded("a byte of a page that has changed", first, step(over("status", ALPHA), "", 3, "store disk\n"))


def two_suppliers():
    alike = line_status("128576", "W", 48, 48, 0, 0, 0)
    return founded(
        "one order number for two suppliers, by commands",
        *(one(RETAILER, supplier, "1001", "ORDERS", interchange(RETAILER, "1001", order(supplier=supplier))) for supplier in (BETA, ALPHA)),
        *(status_of(supplier, alike) for supplier in (ALPHA, BETA)),
        *(mail(supplier, "after", 0, told("             1 ORDERS 128576", "end")) for supplier in (ALPHA, BETA)),
    )


def denied():
    """Who is not known, or may not ask it, is denied: of a folder for each file."""
    uploads = (("a.edi", ORDERS, "denied"), ("b.edi", SECOND, "denied"))
    return founded(
        "a wrong key, and what a side may not ask",
        imported(RETAILER, "in", *uploads, status=1, key="another-key"),
        step(over("status", RETAILER), told("denied"), 1),
        step(over("status", ALPHA, key=KEYS[BETA]), told("denied"), 1),
        step(over("status", ALPHA, "--of", BETA), told("denied"), 1),
        step(over("status", RETAILER, "--of", HUB), told("unknown"), 1),
        mail(RETAILER, "after", 0, told("denied"), 1),
    )


def no_file(folder):
    """No database file was left, and nothing beside one."""
    found = [name for name in os.listdir(folder) if name != REGISTER]
    return f"there is {found}" if found else None


def no_tables(folder):
    """The file is empty, or a database in which nothing was made."""
    with open(os.path.join(folder, NAME), "rb") as file:
        return "tables were made in it" if b"CREATE TABLE" in file.read() else None


def elsewhere(words, db):
    return [db if word == NAME else word for word in words]


def begins():
    """Faults are looked for in the order store, clock, folder, and the first is told alone. What is no hub's file stays as it is."""
    nine = database_files.file_of(database_files.TABLES, database_files.ROWS, "UPDATE schema SET number = 9")
    words = over("import", RETAILER, "--folder", "none")
    two_hubs = database_files.file_of(
        database_files.TABLES, {**database_files.ROWS, "hub": [*REGISTERED["hub"], (DELTA.encode(), BETA.encode(), b"retail-key")]}
    )
    return [
        founded("a folder that is not there", step(words, "", 3, "file\n")),
        founded("a folder that is a file", step(over("import", RETAILER, "--folder", REGISTER), "", 3, "file\n")),
        founded("an empty folder", step(over("import", RETAILER, "--folder", "in"), files={"in/x/y": ""})),
        *(steps(f"{it[0]} without a database", step(it, "", 3, "store version\n", after=no_file)) for it in EACH),
        *(
            steps(
                f"{it[0]} with a database in a folder that is not there",
                step(elsewhere(it, "none/hub.db"), "", 3, "store disk\n", after=no_file),
            )
            for it in EACH
        ),
        *(steps(f"{it[0]} with an empty database file", step(it, "", 3, "store version\n", {NAME: ""}, no_tables)) for it in EACH),
        *(steps(f"{it[0]} with a file of schema 9", step(it, "", 3, "store version\n", {NAME: nine}, is_still(nine))) for it in EACH),
        steps("a database file that is none", step(words, "", 3, "store disk\n", {NAME: b"no database\n" * 1000})),
        steps("a database file with two hubs", step(words, "", 3, "store unclean\n", {NAME: two_hubs}, is_still(two_hubs))),
        steps(
            "a row that is none of the kinds",
            step(
                over("status", ALPHA),
                told("stopped"),
                3,
                files={NAME: database_files.file_of(database_files.TABLES, database_files.ROWS, hub_files.SPOILED[0][1])},
            ),
        ),
    ]


def founded_hubs():
    """Files and registers of which a hub is founded."""
    whole = has_rows(rows_of_register(*FIRST_TWO))
    ok, version = told("ok 2 suppliers"), step(init(), "", 3, "store version\n", after=whole)
    lists = rows_of_register((ALPHA, ["40123455", "4012345", "5012"], f"key-of-{ALPHA}"), (BETA, ["8712345"], f"key-of-{BETA}"))
    with_lists = of_prefixes(["40123455", "4012345", "5012"], "8712345")
    full = Case("", init(), output_to="/dev/full", error=b"file\n", status=3, after=whole)
    return [
        steps("a hub is founded, and not again", step(init(), ok, after=whole), version, step(over("status", ALPHA), told("end")), version),
        steps("a hub is founded in an empty file", step(init(), ok, files={NAME: ""}, after=whole)),
        steps("a hub is founded in a file without tables", step(init(), ok, files={NAME: database_files.file_of("", {})}, after=whole)),
        steps("a hub with lists of prefixes", step(init(), ok, files={REGISTER: with_lists}, after=has_rows(lists))),
        steps(
            "a hub without suppliers",
            step(init(), told("ok 0 suppliers"), files={REGISTER: register()}, after=has_rows(rows_of_register())),
        ),
        steps("a hub of 1,000 suppliers", step(init(), told("ok 1000 suppliers"), files={REGISTER: crowd(1000)})),
        steps("a founding that cannot be told is done", full, version, step(over("status", ALPHA), told("end"))),
    ]


def foundings():
    """Faults are looked for in the order register, store, and the first is told alone."""
    wrong, no_database = of_prefixes("4012345", "40123455"), b"no database\n" * 1000
    nine = database_files.file_of(database_files.TABLES, database_files.ROWS, "UPDATE schema SET number = 9")
    known = database_files.file_of()
    not_text = {REGISTER: b"\xff" + TWO_SUPPLIERS.encode()}
    overlap = told("fault overlap 1 2")
    return [
        *founded_hubs(),
        *(
            steps(f"no hub is founded of {name}", step(init(), told(f"fault {verdict}"), 1, files={REGISTER: text}, after=no_file))
            for name, text, verdict in REGISTERS
            if not verdict.startswith("ok")
        ),
        steps("no hub is founded of a register that is not there", step(init("none.toml"), "", 3, "file\n", after=no_file)),
        steps("no hub is founded of a register that is not UTF-8", step(init(), "", 3, "file\n", not_text, no_file)),
        steps("a folder that is not there, for a founding", step(init(db="none/hub.db"), "", 3, "store disk\n", after=no_file)),
        steps(
            "prefixes that overlap, before a folder that is not there",
            step(init(db="none/hub.db"), overlap, 1, files={REGISTER: wrong}, after=no_file),
        ),
        steps(
            "prefixes that overlap, before a schema of number 9",
            step(init(), overlap, 1, files={REGISTER: wrong, NAME: nine}, after=is_still(nine)),
        ),
        steps("a schema of number 9, for a founding", step(init(), "", 3, "store version\n", {NAME: nine}, is_still(nine))),
        steps(
            "a founded file with orders, for a founding",
            step(init(), "", 3, "store version\n", {NAME: known}, is_still(known)),
            status_of(ALPHA, line_status("128576", "C", 48, 24, 12, 0, 12), ANNOUNCED),
        ),
        steps(
            "a file that is no database, for a founding", step(init(), "", 3, "store disk\n", {NAME: no_database}, is_still(no_database))
        ),
    ]


def is_usage(found):
    """A fault of the command line."""
    return found.startswith(b"error: ") and b"Usage:" in found


ANNOUNCED = f"P {hub_scripts.PALLET} 04000862141404 A {12:>14} {0:>14} {0:>14} {0:>14} {'+0':>15}"


def join(supplier, prefixes, printed, status=0, key="gamma-key-1", after=None, **how):
    """A join by the retailer, or by who is named."""
    words = ("--supplier", supplier, "--supplier-key", key, "--prefixes", prefixes)
    return step(over("join", how.pop("who", RETAILER), *words, **how), told(printed), status, after=after)


def of_gamma(command, *more):
    return over(command, GAMMA, *more, key="gamma-key-1")


# gamma once it joined, and a despatch of it
THIRD = (*FIRST_TWO, (GAMMA, ["7612345", "7612346"], "gamma-key-1"))
SENT_BY_GAMMA = (
    "50b.edi",
    interchange(GAMMA, "S50", despatch("DA1", "376123460000000015", 12, supplier=GAMMA)),
    "interchange S50 messages 1",
    "1 DESADV accepted",
)


def registered(*suppliers):
    return has_rows({table: rows for table, rows in rows_of_register(*suppliers).items() if table in REGISTERED})


def not_joined():
    """Joins that are refused, and one with nine prefixes, which is a fault of usage."""
    nine = ",".join(f"351234{last}" for last in range(9))
    words = over("join", RETAILER, "--supplier", DELTA, "--supplier-key", "delta-key-1", "--prefixes", nine)
    return [
        join(GAMMA, "7612345,7612346", "refused B18", 1),
        join(DELTA, "401234", "refused B19", 1, "delta-key-1", registered(*THIRD)),
        step(words, "", 2, is_usage, after=registered(*THIRD)),
    ]


def joined():
    """A supplier joins while the hub has orders: before that it is not known, and from then on it is."""
    upload = interchange(RETAILER, "1020", order(supplier=GAMMA))
    its_mail = f"UNA:+.? 'UNB+UNOC:3+{HUB}:14+{GAMMA}:14+250603:0920+1'{order(supplier=GAMMA)}UNZ+1+1'"
    fourth = (DELTA, ["3512345", "35123456"], "delta-key-1")
    pallet = f"P 376123460000000015 04000862141404 A {12:>14} {0:>14} {0:>14} {0:>14} {'+0':>15}"
    return founded(
        "a supplier joins, and then it is ordered from and despatches",
        one(RETAILER, "1", "1001", "ORDERS", ORDERS),
        one(RETAILER, "50", "1020", "ORDERS", upload, "refused B02"),
        step(of_gamma("status"), told("denied"), 1),
        step(over("status", RETAILER, "--of", GAMMA), told("unknown"), 1),
        join(GAMMA, "7612345,7612346", "accepted", after=registered(*THIRD)),
        one(RETAILER, "50", "1020", "ORDERS", upload),
        one(RETAILER, "50", "1020", "ORDERS", upload, "repeated"),
        step(of_gamma("mail", "--do", "item", "--n", "1"), its_mail),
        imported(GAMMA, "50b", SENT_BY_GAMMA, key="gamma-key-1"),
        *not_joined(),
        join(DELTA, "3512345,35123456", "accepted", key="delta-key-1", after=registered(*THIRD, fourth)),
        step(of_gamma("status"), told(line_status("128576", "W", 48, 36, 0, 0, 12), pallet, "end")),
        step(over("status", RETAILER, "--of", DELTA), told("end")),
        status_of(ALPHA, line_status("128576", "W", 48, 48, 0, 0, 0)),
    )


def refused_joins():
    """The first of B18, B19 and B20 is told; who is not the retailer is denied."""
    as_before = has_rows(rows_of_register(*FIRST_TWO))
    full = step(init(), told("ok 1000 suppliers"), files={REGISTER: crowd(1000)})
    almost = step(init(), told("ok 999 suppliers"), files={REGISTER: crowd(999)})
    return [
        founded(
            "joins that are refused or denied",
            *(join(known, "7612345", "refused B18", 1, after=as_before) for known in (HUB, RETAILER, ALPHA, BETA)),
            join(ALPHA, "8712345", "refused B18", 1),
            *(
                join(GAMMA, prefixes, "refused B19", 1, after=as_before)
                for prefixes in ("8712345", "8712", "871234500000", "4012345", "401234559", "7612345,87123451", "7612,87123")
            ),
            join(GAMMA, "7612345", "denied", 1, who=ALPHA, after=as_before),
            join(GAMMA, "7612345", "denied", 1, who=GAMMA, after=as_before),
            step(
                over("join", RETAILER, "--supplier", GAMMA, "--supplier-key", "gamma-key-1", "--prefixes", "7612345", key="another-key"),
                told("denied"),
                1,
                after=as_before,
            ),
            join(GAMMA, "76123,7612,76123456", "accepted", key=KEYS[ALPHA]),
            step(over("status", GAMMA, key=KEYS[ALPHA]), told("end")),
            step(over("status", ALPHA), told("end")),
        ),
        steps(
            "a join as the 1,001st",
            full,
            join(GAMMA, "7612345", "refused B20", 1),
            join(GAMMA, "4000", "refused B19", 1),
            join(HUB, "4000", "refused B18", 1),
        ),
        steps("a join as the 1,000th", almost, join(GAMMA, "7612345", "accepted"), join(DELTA, "3512345", "refused B20", 1)),
    ]


def by_the_clock():
    """Without a moment the clock tells it: the mail has a date of this century."""
    pattern = FIRST_MAIL.replace("250603:0920", "DATE").replace("+", r"\+").replace("?", r"\?").replace(".", r"\.")
    now = re.compile(pattern.replace("DATE", r"\d{6}:\d{4}").encode())
    return founded(
        "without a moment",
        imported(RETAILER, "in", ("a.edi", ORDERS, "interchange 1001 messages 1", "1 ORDERS accepted"), moment=None),
        step(over("mail", ALPHA, "--do", "item", "--n", "1", moment=None), lambda found: bool(now.fullmatch(found))),
    )


def broken_output():
    """Where standard output breaks off, what was accepted stays accepted."""
    full = Case(
        "",
        over("import", RETAILER, "--folder", "in"),
        output_to="/dev/full",
        error=b"file\n",
        status=3,
        files={"in/a.edi": ORDERS.encode()},
    )
    return founded(
        "standard output is full",
        full,
        imported(RETAILER, "in", ("a.edi", ORDERS, "interchange 1001 messages 1", "1 ORDERS accepted")),
        imported(RETAILER, "in", ("a.edi", ORDERS, "interchange 1001 messages 1", "1 ORDERS repeated")),
    )


COMMANDS = [
    in_turn(),
    corrections(),
    folder_in_order(),
    refused_among_others(),
    others_parties_and_articles(),
    what_is_no_file(),
    cuts(),
    long_mailbox(),
    long_reply(),
    too_long(),
    kept_mode(),
    sums_of_pages(),
    two_suppliers(),
    denied(),
    *begins(),
    *foundings(),
    joined(),
    *refused_joins(),
    by_the_clock(),
    broken_output(),
    *map(key_files.by_files, (in_turn(), corrections(), folder_in_order(), denied(), joined(), *refused_joins(), broken_output())),
    *key_files.CASES,
    *rekey.CASES,
    *usage.CASES,
    *unopened.CASES,
]
