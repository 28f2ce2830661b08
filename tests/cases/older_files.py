"""Cases of database files of before. One of schema 1 knew no register: no command opens it, and `edihub init` brings it to the schema of
today, with a register that fits to its rows. One of schema 2 is brought there by whichever command opens it. What a file had stays."""
from tests.cases.corrections import CORRECTED, CORRECTION
from tests.harness import database_files
from tests.harness.database_files import NAME, OLD_ROWS, OLD_TABLES, REGISTERED, file_of, has_rows, is_still
from tests.harness.first_order import ORDERS
from tests.harness.hub_scripts import DESPATCH, KEYS, OTHER_PALLET, PALLET, RECEIPT, RESPONSE, SECOND, STATUS
from tests.harness.hub_scripts import TWO_SUPPLIERS, line_status
from tests.harness.hub_steps import EACH, FIRST_TWO, REGISTER, cancelled, init, mail, one, over, rows_of_register
from tests.harness.hub_steps import status_of, step, steps, told
from tests.harness.older_files import FOUNDED, MISFIT, VERSION, beside, older_file, rows_of
from tests.harness.register_texts import ALPHA, BETA, GAMMA, RETAILER, register

A, B = (ALPHA, "40123455", KEYS[ALPHA]), (BETA, "8712345", KEYS[BETA])
# the rows of one of each kind that names a supplier
ONE_OF_EACH = {
    '"order"': [(ALPHA.encode(), b"128576")],
    "line": [(ALPHA.encode(), b"128576", 1, b"04000862141404", 48, 24, 12, 0, ord("C"))],
    "advice": [(ALPHA.encode(), b"DA1")],
    "pallet": [(PALLET.encode(), ALPHA.encode(), b"DA1", 0)],
    "remembered": [(ALPHA.encode(), ord("R"), b"1001", b"1", b"UNH")],
    "mail": [(ALPHA.encode(), 1, 1748942400, ord("."), ord("O"), b"128576", b"UNH", 0)],
}


def old_file(rows=OLD_ROWS, *changes):
    return file_of(OLD_TABLES, {"schema": [(1,)], **rows}, *changes)


def brought_over(name):
    """No command opens it before, each does afterwards, and a register that does not fit changes nothing."""
    data, status = older_file(name)
    still, whole = is_still(data), has_rows(beside(rows_of(data)))
    return steps(
        f"a database file of schema 1, {name}",
        step(EACH[0], "", 3, VERSION, {NAME: data}, still),
        *(step(words, "", 3, VERSION, after=still) for words in EACH[1:]),
        step(init("beta.toml"), MISFIT, 1, files={"beta.toml": register(B)}, after=still),
        step(init("prefix.toml"), MISFIT, 1, files={"prefix.toml": register((ALPHA, "40123456", KEYS[ALPHA]), B)}, after=still),
        step(init(), FOUNDED, after=whole),
        step(over("status", ALPHA), status),
        step(over("status", RETAILER, "--of", ALPHA), status),
        status_of(BETA),
        step(init(), "", 3, VERSION, after=whole),
    )


def of_schema_2():
    """A file of schema 2 as it was once written: a command opens it, and shows what it showed; of its rows none but the schema's number
    changes. Its receipt can then be corrected."""
    data, status = older_file("schema2_received")
    rows = {**rows_of(data, database_files.ROWS), "schema": REGISTERED["schema"]}
    return steps(
        "a database file of schema 2, in which a pallet was received",
        step(init(), "", 3, VERSION, {NAME: data}, is_still(data)),
        step(over("status", ALPHA), status, after=has_rows(rows)),
        step(over("status", RETAILER, "--of", ALPHA), status),
        one(RETAILER, "5", "1005", "RECADV", RECEIPT, "repeated"),
        mail(ALPHA, "after", 2, told("             3 RECADV G1", "end")),
        step(init(), "", 3, VERSION, after=has_rows(rows)),
        one(RETAILER, "6", "1007", "RECADV", CORRECTION),
        status_of(ALPHA, *CORRECTED),
    )


def of_schema_2_by_each():
    """Each command that opens it sets the number, whatever else it does."""
    data, status = older_file("schema2_received")
    join = ("--supplier", GAMMA, "--supplier-key", "gamma-key-1", "--prefixes", "7612345")
    firsts = {
        "status": step(over("status", ALPHA), status),
        "mail": mail(ALPHA, "after", 2, told("             3 RECADV G1", "end")),
        "import": one(RETAILER, "5", "1005", "RECADV", RECEIPT, "repeated"),
        "cancel": cancelled("C1", "10", "accepted"),
        "join": step(over("join", RETAILER, *join), told("accepted")),
    }
    for first in firsts.values():
        first.files[NAME], first.after = data, has_rows({"schema": REGISTERED["schema"]})
    return [steps(f"{command} with a database file of schema 2", first) for command, first in firsts.items()]


def of_schema_2_and_unclean():
    """A file of schema 2 whose rows hold no register is refused before its number is set."""
    unclean = file_of(database_files.TABLES, {**database_files.ROWS, "schema": [(2,)]}, "DELETE FROM hub")
    return [
        steps(
            f"{words[0]} with a file of schema 2 that holds no register",
            step(words, "", 3, "store unclean\n", {NAME: unclean}, is_still(unclean)),
        )
        for words in EACH
    ]


def works_on():
    """What was accepted before is repeated, what comes is judged by what was there, and a supplier that joins begins with nothing."""
    data, _ = older_file("schema1_received")
    join = ("--supplier", GAMMA, "--supplier-key", "gamma-key-1", "--prefixes", "7612345")
    return steps(
        "a file that was brought over goes on",
        step(init(), FOUNDED, files={NAME: data}),
        one(RETAILER, "1", "1001", "ORDERS", ORDERS, "repeated"),
        one(RETAILER, "2", "1002", "ORDERS", SECOND, "repeated"),
        one(ALPHA, "3", "S1", "ORDRSP", RESPONSE, "repeated"),
        one(ALPHA, "4", "S2", "DESADV", DESPATCH, "repeated"),
        one(RETAILER, "5", "1005", "RECADV", RECEIPT, "repeated"),
        one(RETAILER, "6", "1006", "ORDERS", ORDERS.replace("1001'", "1006'"), "refused B04"),
        mail(ALPHA, "after", 2, told("             3 RECADV G1", "end")),
        step(over("join", RETAILER, *join), told("accepted")),
        step(over("status", GAMMA, key="gamma-key-1"), told("end")),
        cancelled("C1", "10", "accepted"),
        status_of(ALPHA, line_status("128576", "C", 48, 14, 12, 10, 12), *STATUS[1:]),
        one(RETAILER, "7", "1007", "RECADV", CORRECTION),
        status_of(ALPHA, line_status("128576", "C", 48, 14, 12, 10, 12), *CORRECTED[1:]),
    )


def with_rows(rows):
    """Rows of a file that has no others."""
    return {**{table: [] for table in OLD_ROWS if table != "schema"}, **rows}


def misfit(name, rows, text=TWO_SUPPLIERS):
    """A register does not fit to these rows, and the file stays as it is."""
    data = old_file(with_rows(rows))
    founding = step(init(), MISFIT, 1, files={REGISTER: text, NAME: data}, after=is_still(data))
    return steps(f"a register that does not fit to {name}", founding)


def of_supplier(table, bytes_of):
    """The row of a kind with these bytes for its supplier."""
    row = list(ONE_OF_EACH[table][0])
    row[1 if table == "pallet" else 0] = bytes_of
    return {table: [tuple(row)]}


def pallets(*rows):
    """Pallets of these SSCCs."""
    return {"pallet": [(sscc, ALPHA.encode(), b"DA1", 0) for sscc in rows]}


def misfits():
    """Each kind of row is looked at, and each cell: a register fits where it knows every supplier and has each pallet under a prefix of its
    own."""
    one = {"pallet": ONE_OF_EACH["pallet"]}
    others = register((ALPHA, "40123456", KEYS[ALPHA]), (BETA, "40123455", KEYS[BETA]))
    last_of_three = register((ALPHA, ["40123456", "40123457", "40123455"], KEYS[ALPHA]), B)
    three = {"pallet": one["pallet"] + pallets(OTHER_PALLET.encode(), b"387123450000000018")["pallet"]}
    sound = with_rows(ONE_OF_EACH)
    return [
        steps(
            "a register that fits to a row of each kind",
            step(init(), FOUNDED, files={NAME: old_file(sound)}, after=has_rows(beside(sound))),
        ),
        *(misfit(f"a row of {table} whose supplier it does not know", {table: rows}, register(B)) for table, rows in ONE_OF_EACH.items()),
        *(
            misfit(f"a row of {table} of no GLN", of_supplier(table, bytes_of))
            for table in ONE_OF_EACH
            for bytes_of in (b"", ALPHA.encode()[:12], b"4012345500005")
        ),
        misfit("a pallet under a prefix of another supplier", one, others),
        misfit("a pallet of no SSCC", pallets(PALLET.encode()[:17])),
        misfit("the last pallet of three", three),
        misfit("the retailer as the supplier of an order", {'"order"': [(RETAILER.encode(), b"128576")]}),
        steps(
            "a pallet under the last of three prefixes",
            step(init(), FOUNDED, files={REGISTER: last_of_three, NAME: old_file(with_rows(one))}),
        ),
    ]


def not_of_this_schema():
    """What is no file of schema 1 is `store version`, and stays as it was."""
    others = [
        ("number 9", old_file(OLD_ROWS, "UPDATE schema SET number = 9")),
        ("number 2 over the tables of schema 1", old_file(OLD_ROWS, "UPDATE schema SET number = 2")),
        ("number 0", old_file(OLD_ROWS, "UPDATE schema SET number = 0")),
        ("no number", old_file(OLD_ROWS, "DELETE FROM schema")),
        ("two numbers", old_file(OLD_ROWS, "INSERT INTO schema VALUES (1)")),
        ("one table more", old_file(OLD_ROWS, "CREATE TABLE more (number INTEGER NOT NULL) STRICT")),
        ("an index more", old_file(OLD_ROWS, "CREATE INDEX more ON line (gtin)")),
        ("a view", old_file(OLD_ROWS, "CREATE VIEW more AS SELECT * FROM line")),
        (
            "no table of mail",
            file_of(
                "".join(line + "\n" for line in OLD_TABLES.split("\n") if "mail" not in line),
                {t: r for t, r in OLD_ROWS.items() if t != "mail"},
            ),
        ),
        ("a column of another name", file_of(OLD_TABLES.replace("gtin BLOB NOT NULL, ordered", "ean BLOB NOT NULL, ordered"), OLD_ROWS)),
    ]
    return [
        steps(f"a file of schema 1 with {name}, for a founding", step(init(), "", 3, VERSION, {NAME: data}, is_still(data)))
        for name, data in others
    ]


def bare():
    """A file of schema 1 without rows becomes a hub as if it had been founded; the register's faults come first."""
    data = old_file({})
    wrong = register((ALPHA, "4012345", KEYS[ALPHA]), (BETA, "40123455", KEYS[BETA]))
    return [
        steps("a file of schema 1 without rows", step(init(), FOUNDED, files={NAME: data}, after=has_rows(rows_of_register(*FIRST_TWO)))),
        steps(
            "prefixes that overlap, before rows that do not fit",
            step(init(), told("fault overlap 1 2"), 1, files={REGISTER: wrong, NAME: old_file()}, after=is_still(old_file())),
        ),
    ]


MIGRATIONS = [
    brought_over("schema1"),
    brought_over("schema1_received"),
    of_schema_2(),
    *of_schema_2_by_each(),
    *of_schema_2_and_unclean(),
    works_on(),
    *misfits(),
    *not_of_this_schema(),
    *bare(),
]
