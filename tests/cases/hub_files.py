"""A hub over a file of SQL: scripts that are played on `edihub`, files as SQLite itself writes them, and what is told of a file that is
none of a hub."""
from tests.cases.hub_rules import all_taken, some_taken
from tests.harness.database_files import NAME, OLD_ROWS, OLD_TABLES, REGISTERED, ROWS, TABLES, file_of
from tests.harness.database_files import has_rows, is_still, is_whole
from tests.harness.first_order import ORDERS
from tests.harness.hub_scripts import DESPATCH, FIRST_MAIL, PALLET, RESPONSE, Play, accepted, line_status
from tests.harness.hub_steps import over, step, steps
from tests.harness.register_texts import ALPHA, BETA, DELTA, GAMMA, RETAILER, gln


def despatched():
    """The first order, its answer and its despatch."""
    play = accepted(Play(), RETAILER, "1001", "ORDERS", ORDERS)
    accepted(play, ALPHA, "S1", "ORDRSP", RESPONSE)
    return accepted(play, ALPHA, "S2", "DESADV", DESPATCH)


def looked_at(play):
    """What a file with these rows says."""
    announced = f"P {PALLET} 04000862141404 A {12:>14} {0:>14} {0:>14} {0:>14} {'+0':>15}"
    play.status(line_status("128576", "C", 48, 24, 12, 0, 12), announced)
    play.list(0, (1, "ORDERS", "128576")).item(1, FIRST_MAIL)
    play.upload(RETAILER, ORDERS, "interchange 1001 messages 1", "1 ORDERS repeated")
    return play.upload(ALPHA, DESPATCH, "interchange S2 messages 1", "1 DESADV repeated")


def opened_anew():
    """Written, closed and opened again, in one script."""
    play = despatched()
    again = Play()
    play.script += again.script
    play.who = None
    return looked_at(play)


def taken_anew():
    """Entries taken, and the rest of them once the file is opened again."""
    play = some_taken()
    play.script += Play().script
    play.who = None
    return all_taken(play.list(0, (3, "ORDERS", "1003"), (5, "ORDERS", "1005")))


def without(word, tables=TABLES):
    assert word in tables
    return tables.replace(word, "", 1)


OTHERS = [
    ("a schema of number 9", file_of(TABLES, ROWS, "UPDATE schema SET number = 9")),
    ("a schema of number 0", file_of(TABLES, ROWS, "UPDATE schema SET number = 0")),
    ("a schema without its number", file_of(TABLES, ROWS, "DELETE FROM schema")),
    ("a schema with two numbers", file_of(TABLES, ROWS, "INSERT INTO schema VALUES (2)")),
    ("the tables of schema 1 and number 2", file_of(OLD_TABLES, {**OLD_ROWS, "schema": [(2,)]})),
    ("the tables of schema 1 and number 3", file_of(OLD_TABLES, {**OLD_ROWS, "schema": [(3,)]})),
    ("the tables of schema 2 and number 1", file_of(TABLES, {**ROWS, "schema": [(1,)]})),
    ("no table of prefixes", file_of(TABLES, ROWS, "DROP TABLE prefix")),
    ("tables without that of the number", file_of(without("CREATE TABLE schema (number INTEGER NOT NULL) STRICT;"), {})),
    ("one table of something else", file_of("CREATE TABLE note (text TEXT);", {})),
    ("a table more", file_of(TABLES + "CREATE TABLE note (text TEXT);", ROWS)),
    ("a table less", file_of(TABLES, ROWS, "DROP TABLE advice")),
    ("an index more", file_of(TABLES, ROWS, "CREATE INDEX lines_by_item ON line (gtin)")),
    ("a view", file_of(TABLES, ROWS, "CREATE VIEW waiting AS SELECT * FROM line WHERE answer = 87")),
    ("a column that takes NULL", file_of(TABLES.replace("content BLOB NOT NULL, PRIMARY", "content BLOB, PRIMARY"), ROWS)),
    ("a column less", file_of(TABLES.replace(", cancelled INTEGER NOT NULL", ""), {"schema": ROWS["schema"]})),
    ("pallets without their second key", file_of(TABLES.replace(", UNIQUE (supplier, sscc)", ""), ROWS)),
    ("a table that is not strict", file_of(TABLES.replace("PRIMARY KEY (sscc, gtin)) STRICT", "PRIMARY KEY (sscc, gtin))"), ROWS)),
]

CROWD = [gln(number).encode() for number in range(1001)]
OF_CROWD = {"supplier": [(it, b"a-key-of-many") for it in CROWD], "prefix": [(b"%08d" % place, it) for place, it in enumerate(CROWD)]}
# Rows of the parties that are those of no register.
NO_REGISTERS = [
    ("no row of the hub", "DELETE FROM hub"),
    ("a second row of the hub", f"INSERT INTO hub VALUES (x'{GAMMA.encode().hex()}', x'{DELTA.encode().hex()}', x'{b'retail-key'.hex()}')"),
    ("a hub with a wrong check digit", "UPDATE hub SET hub = CAST('5412345000007' AS BLOB)"),
    ("a retailer that is the hub", "UPDATE hub SET retailer = hub"),
    ("a retailer with a key of seven bytes", "UPDATE hub SET \"key\" = CAST('retail7' AS BLOB)"),
    (
        "a supplier that is the retailer",
        (
            f"UPDATE supplier SET supplier = CAST('{RETAILER}' AS BLOB) WHERE supplier = CAST('{BETA}' AS BLOB); UPDATE prefix SET "
            f"supplier = CAST('{RETAILER}' AS BLOB) WHERE supplier = CAST('{BETA}' AS BLOB)"
        ),
    ),
    ("a supplier with a key of 65 bytes", f"UPDATE supplier SET \"key\" = CAST('{'k' * 65}' AS BLOB)"),
    ("a supplier with a blank in its key", "UPDATE supplier SET \"key\" = CAST('alpha key' AS BLOB)"),
    (
        "a supplier with a wrong check digit",
        (
            f"UPDATE supplier SET supplier = CAST('4012345500005' AS BLOB) WHERE supplier = CAST('{ALPHA}' AS BLOB); UPDATE prefix SET "
            f"supplier = CAST('4012345500005' AS BLOB) WHERE supplier = CAST('{ALPHA}' AS BLOB)"
        ),
    ),
    ("a supplier without a prefix", f"DELETE FROM prefix WHERE supplier = CAST('{BETA}' AS BLOB)"),
    (
        "a supplier with nine prefixes",
        *(f"INSERT INTO prefix VALUES (CAST('9999{last}' AS BLOB), CAST('{BETA}' AS BLOB))" for last in range(8)),
    ),
    ("a prefix of no supplier", f"DELETE FROM supplier WHERE supplier = CAST('{BETA}' AS BLOB)"),
    ("a prefix of three digits", f"UPDATE prefix SET prefix = CAST('871' AS BLOB) WHERE supplier = CAST('{BETA}' AS BLOB)"),
    ("a prefix with a letter", f"UPDATE prefix SET prefix = CAST('871234x' AS BLOB) WHERE supplier = CAST('{BETA}' AS BLOB)"),
    ("a prefix that begins another supplier's", f"UPDATE prefix SET prefix = CAST('4012' AS BLOB) WHERE supplier = CAST('{BETA}' AS BLOB)"),
]
UNCLEAN = [
    *((name, file_of(TABLES, ROWS, *"; ".join(changes).split("; "))) for name, *changes in NO_REGISTERS),
    ("1,001 suppliers", file_of(TABLES, {**REGISTERED, **OF_CROWD})),
]

# A cell of a row that is none of the kinds, and what is asked that meets it.
SPOILED = [
    ("more open and refused than ordered", "UPDATE line SET open_qty = 48, refused = 1, cancelled = 0", "status"),
    ("more cancelled than ordered", "UPDATE line SET cancelled = 13", "status"),
    ("an item with a wrong check digit", "UPDATE line SET gtin = CAST('04000862141405' AS BLOB)", "status"),
    ("an item of 13 digits", "UPDATE line SET gtin = CAST('4000862141404' AS BLOB)", "status"),
    ("an order number of 36 bytes", "UPDATE line SET number = CAST('123456789012345678901234567890123456' AS BLOB)", "status"),
    ("an order number without bytes", "UPDATE line SET number = x''", "status"),
    ("an order number with a line end", "UPDATE line SET number = x'31320a'", "status"),
    ("an answer that is no case", "UPDATE line SET answer = 88", "status"),
    ("a quantity below zero", "UPDATE line SET refused = -1", "status"),
    ("a quantity past its limit", "UPDATE line SET ordered = 1000000000", "status"),
    ("nothing ordered", "UPDATE line SET ordered = 0, open_qty = 0, refused = 0", "status"),
    ("line 0", "UPDATE line SET line = 0", "status"),
    ("a pallet neither announced nor received", "UPDATE pallet SET received = 3", "status"),
    ("a pallet with a wrong check digit", "UPDATE pallet SET sscc = CAST('340123455000000013' AS BLOB)", "status"),
    ("an advice number of 36 bytes", "UPDATE pallet SET advice = CAST('123456789012345678901234567890123456' AS BLOB)", "status"),
    ("a content of nothing", "UPDATE content SET quantity = 0", "status"),
    ("a content at place 0", "UPDATE content SET place = 0", "status"),
    ("an entry of no type", "UPDATE mail SET kind = 0", "after 0"),
    ("an entry with another decimal mark", "UPDATE mail SET decimal = 45", "item 1"),
    ("an entry later than 2099", "UPDATE mail SET moment = 4102444800", "item 1"),
    ("an entry that is half taken", "UPDATE mail SET taken = 2", "item 1"),
    ("an entry below zero", "UPDATE mail SET number = -1", "after 0"),
]


def spoiled(name, change, line):
    """What meets the row is stopped, and so is all that comes after it, until the file is opened anew."""
    data = file_of(TABLES, ROWS, change)
    play = Play().ask(ALPHA, line, "stopped", "stopped\n").ask(ALPHA, "taken 1", "stopped", "stopped\n")
    play.ask(ALPHA, "upload", "stopped", "interchange S1 messages 1\nstopped\n", RESPONSE)
    return f"a stored row that is none: {name}", play, {NAME: data}, is_still(data)


def half_shown():
    """An entry is listed by what a list shows of it, and stops whom it belongs to when it is asked for."""
    return Play().list(0, (1, "ORDERS", "128576")).ask(ALPHA, "item 1", "stopped", "stopped\n").ask(
        ALPHA, "after 0", "stopped", "stopped\n"
    )


def of_another():
    """Another supplier asks in vain for none of it: a row that is none of the kinds stops whom it belongs to."""
    play = Play().status(who="8712345000004").ask(ALPHA, "status", "stopped", "stopped\n")
    return play.ask("8712345000004", "status", "stopped", "stopped\n")


# scripts that are played on a file: its first content, and what is wrong with it then
ON_FILES = [
    ("what a file has after an order, its answer and its despatch", despatched(), {}, has_rows(ROWS)),
    ("a file that is opened again", opened_anew(), {}, has_rows(ROWS)),
    ("a mailbox of a file that is opened again", taken_anew(), {}, is_whole),
    ("a file that SQLite wrote", looked_at(Play()), {NAME: file_of()}, has_rows(ROWS)),
    ("a file that SQLite wrote with a log", looked_at(Play()), {NAME: file_of(TABLES, ROWS, "PRAGMA journal_mode = WAL")}, has_rows(ROWS)),
    *(spoiled(*row) for row in SPOILED),
    (
        "an entry that is none beside what a list shows",
        half_shown(),
        {NAME: file_of(TABLES, ROWS, "UPDATE mail SET decimal = 45")},
        is_whole,
    ),
    ("a row that is none stops whom it belongs to, and then all", of_another(), {NAME: file_of(TABLES, ROWS, SPOILED[0][1])}, is_whole),
]

# the command of each line of a script
COMMANDS = {
    "status": over("status", ALPHA),
    "after 0": over("mail", ALPHA, "--do", "after", "--n", "0"),
    "item 1": over("mail", ALPHA, "--do", "item", "--n", "1"),
}


def by_command(name, data, line, output, error):
    return steps(f"{line} over a file with {name}", step(COMMANDS[line], output, 3, error, {NAME: data}, is_still(data)))


# files that are none of a hub, or have a row that is none
OPENED = [
    *(by_command(name, data, "status", "", "store version\n") for name, data in OTHERS),
    *(by_command(name, data, "status", "", "store unclean\n") for name, data in UNCLEAN),
    by_command("no database", b"no database\n" * 1000, "status", "", "store disk\n"),
    by_command("a half of itself", file_of()[: len(file_of()) // 2], "status", "", "store disk\n"),
    *(by_command(f"a row that is none: {name}", file_of(TABLES, ROWS, change), line, "stopped\n", "") for name, change, line in SPOILED),
]
