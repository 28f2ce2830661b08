"""Cases of `verify`: sound databases and what is counted of them, databases that SQLite changed and the row that shows it, those of
earlier schemas, and files that hold no hub. Of none of them a byte changes."""
import os
import re

from tests.harness.database_files import NAME, ROWS, TABLES, file_of, has_rows, is_still
from tests.harness.first_order import ORDERS
from tests.harness.hub_scripts import DESPATCH, PALLET, RESPONSE
from tests.harness.hub_steps import cancelled, founded, mail, one, step, steps, told
from tests.harness.older_files import older_file
from tests.harness.register_texts import ALPHA, BETA, GAMMA, HUB, RETAILER

VERIFY = ["verify", "--db", NAME]
ITEM = "04000862141404"
# an SSCC under ALPHA's prefix that no pallet has, and one with a wrong check digit
OTHER_PALLET, NO_PALLET = "340123455000000029", "340123450000000013"
NAMES = (
    "suppliers",
    "orders",
    "order lines",
    "open lines",
    "pallets",
    "received pallets",
    "mailbox entries",
    "entries not taken",
    "remembered messages",
)


def sound(size, *counts):
    """What is printed of a sound database, with these counts in their order and a file of this size."""
    return told("ok", *(f"{name} {count}" for name, count in zip(NAMES, counts, strict=True)), f"file size {size}", "schema 3")


def verified(name, data, printed, status=0, error=""):
    """A file with these bytes, which stay as they are."""
    return steps(name, step(VERIFY, printed, status, error, {NAME: data}, is_still(data)))


def damaged(why, line, *changes):
    """A database that holds an order, its answer and its despatch, after these statements."""
    data = file_of(TABLES, ROWS, *changes)
    return verified(f"verify: {why}", data, told(line), 1)


def blob(text):
    return f"CAST('{text}' AS BLOB)"


def cell(value):
    return value if str(value).startswith("x'") else blob(value) if isinstance(value, str) else str(value)


def insert(table, *values):
    """A statement that puts a row: texts are stored as bytes, and `x'..'` stands for the bytes that it spells."""
    return f"INSERT INTO {table} VALUES ({', '.join(map(cell, values))})"


def receipt_of(article):
    """A statement that puts a receipt of the announced pallet."""
    return f"INSERT INTO receipt VALUES ({blob(PALLET)}, {blob(article)}, 12, 0, 0)"


# the name of each case, what is printed, and the statement that damages the rows
UNCLEAN = [
    ("a key of 65 bytes", f"hub {HUB}", "UPDATE hub SET \"key\" = zeroblob(65)"),
    ("a key of 7 bytes", f"supplier {ALPHA}", f"UPDATE supplier SET \"key\" = x'61626364656667' WHERE supplier = {blob(ALPHA)}"),
    ("a prefix of 3 digits", "prefix 401", "UPDATE prefix SET prefix = CAST('401' AS BLOB) WHERE prefix = CAST('40123455' AS BLOB)"),
    ("a text in the place of a GLN", "order nobody 128576", "UPDATE \"order\" SET supplier = CAST('nobody' AS BLOB)"),
    ("less than nothing open", f"line {ALPHA} 128576 1", "UPDATE line SET open_qty = -1"),
    ("a line number below zero", f"line {ALPHA} 128576 %?", "UPDATE line SET line = -1"),
    ("a line that orders nothing", f"line {ALPHA} 128576 1", "UPDATE line SET ordered = 0"),
    ("an advice number with a line feed", f"advice {ALPHA} DA1%0A", "UPDATE advice SET number = x'4441310A'"),
    ("blanks and a percent sign in a key", f"advice {ALPHA} D%20A%25%FF", "UPDATE advice SET number = x'44204125FF'"),
    ("an advice without a number", f"advice {ALPHA} %", "UPDATE advice SET number = x''"),
    ("a number of 36 bytes", f"advice {ALPHA} {'7' * 36}", f"UPDATE advice SET number = CAST('{'7' * 36}' AS BLOB)"),
    ("a check digit that is wrong", "pallet 340123450000000013", "UPDATE pallet SET sscc = CAST('340123450000000013' AS BLOB)"),
    ("a pallet neither announced nor received", f"pallet {PALLET}", "UPDATE pallet SET received = 3"),
    ("a place of zero", f"content {PALLET} 0", "UPDATE content SET place = 0"),
    ("an article of 13 digits", f"receipt {PALLET} {ITEM[1:]}", receipt_of(ITEM[1:])),
    ("a message of no side", f"remembered {ALPHA} 88 1001 1", "UPDATE remembered SET side = 88 WHERE side = 82"),
    ("a cancellation with a message reference", f"remembered {ALPHA} 67 1001 1", "UPDATE remembered SET side = 67 WHERE side = 82"),
    ("an entry with another decimal mark", f"mail {ALPHA} 1", "UPDATE mail SET decimal = 45"),
    ("an entry of number zero", f"mail {ALPHA} 0", "UPDATE mail SET number = 0"),
    # of a GLN that is not registered, between the two that are
    ("another's order without a number", f"order {GAMMA} %", insert('"order"', GAMMA, "x''")),
    ("another's line of number zero", f"line {GAMMA} 7 0", insert("line", GAMMA, "7", 0, ITEM, 1, 1, 0, 0, 87)),
    ("another's advice without a number", f"advice {GAMMA} %", insert("advice", GAMMA, "x''")),
    ("another's pallet of a wrong SSCC", f"pallet {NO_PALLET}", insert("pallet", NO_PALLET, GAMMA, "D", 0)),
    ("a content of a wrong SSCC", f"content {NO_PALLET} 1", insert("content", NO_PALLET, 1, "7", 1, 1)),
    ("a receipt of a wrong SSCC", f"receipt {NO_PALLET} {ITEM}", insert("receipt", NO_PALLET, ITEM, 1, 0, 0)),
    ("another's message of no side", f"remembered {GAMMA} 88 1 1", insert("remembered", GAMMA, 88, "1", "1", "m")),
    ("another's entry of number zero", f"mail {GAMMA} 0", insert("mail", GAMMA, 0, 1748942400, 46, 79, "7", "m", 0)),
    # the first supplier's rows are clean, those of the last are not
    ("the last supplier's advice without a number", f"advice {BETA} %", insert("advice", BETA, "x''")),
    ("the last supplier's entry of number zero", f"mail {BETA} 0", insert("mail", BETA, 0, 1748942400, 46, 79, "7", "m", 0)),
    # suppliers below and above all GLNs
    ("an advice of no bytes as its supplier", "advice % D", insert("advice", "x''", "D")),
    ("an advice of a byte of eight ones as its supplier", "advice %FF D", insert("advice", "x'FF'", "D")),
]
UNSOUND = [
    ("no register", "hub", "DELETE FROM hub"),
    ("a prefix that begins another's", "hub", f"INSERT INTO prefix VALUES (CAST('4012' AS BLOB), {blob(BETA)})"),
    ("a prefix of nobody", "hub", "INSERT INTO prefix VALUES (CAST('7612345' AS BLOB), CAST('7612345000008' AS BLOB))"),
    ("a pallet under another's prefix", f"pallet {PALLET}", f"UPDATE pallet SET supplier = {blob(BETA)}"),
    ("a line without its order", f"line {ALPHA} 128576 1", "DELETE FROM \"order\""),
    ("contents without their pallet", f"content {PALLET} 1", "DELETE FROM pallet"),
    ("a receipt of an announced pallet", f"receipt {PALLET} {ITEM}", receipt_of(ITEM)),
    ("a gap in a mailbox", f"mail {ALPHA} 2", "UPDATE mail SET number = 2"),
    ("contents that exceed a line", f"line {ALPHA} 128576 1", "UPDATE content SET quantity = 13"),
    ("contents without their line", f"content {PALLET} 1", "UPDATE content SET line = 2"),
    ("a line of which too much is open", f"line {ALPHA} 128576 1", "UPDATE line SET open_qty = 25"),
    ("a line of which too little is open", f"line {ALPHA} 128576 1", "UPDATE line SET open_qty = 23"),
    ("another's line without its order", f"line {GAMMA} 7 1", insert("line", GAMMA, "7", 1, ITEM, 1, 1, 0, 0, 87)),
    ("another's pallet", f"pallet {OTHER_PALLET}", insert("pallet", OTHER_PALLET, GAMMA, "D", 0)),
    ("a content of a pallet that is not there", f"content {OTHER_PALLET} 1", insert("content", OTHER_PALLET, 1, "128576", 1, 1)),
    ("a receipt of a pallet that is not there", f"receipt {OTHER_PALLET} {ITEM}", insert("receipt", OTHER_PALLET, ITEM, 1, 0, 0)),
    ("a gap in another's mailbox", f"mail {GAMMA} 2", insert("mail", GAMMA, 2, 1748942400, 46, 79, "7", "m", 0)),
    ("a gap in the last supplier's mailbox", f"mail {BETA} 2", insert("mail", BETA, 2, 1748942400, 46, 79, "7", "m", 0)),
]


def of_its_size(*counts, after=None):
    """`verify` of a sound database, which prints the size that its file has."""
    sizes = []

    def printed(output):
        sizes[:] = [int(it) for it in re.findall(rb"file size (\d+)\n", output)]
        return output == sound(*sizes, *counts).encode()

    def has_size(folder):
        size = os.path.getsize(os.path.join(folder, NAME))
        return f"the file has {size} bytes" if sizes != [size] else after and after(folder)

    return step(VERIFY, printed, after=has_size)


def of_sound_files():
    """A founded hub, and one after a day of messages."""
    data = file_of()
    entry = insert("mail", GAMMA, 1, 1748942400, 46, 79, "7", "m", 1)
    more = file_of(TABLES, ROWS, insert('"order"', GAMMA, "7"), entry, insert("remembered", GAMMA, 82, "1", "1", "m"))
    return [
        verified("verify: an order, its answer and its despatch", data, sound(len(data), 2, 1, 1, 1, 1, 0, 1, 1, 3)),
        verified("verify: rows of a GLN that is not registered", more, sound(len(more), 2, 2, 1, 1, 1, 0, 2, 1, 4)),
        founded("verify: a hub that was founded", of_its_size(2, 0, 0, 0, 0, 0, 0, 0, 0)),
        founded(
            "verify: a day of messages",
            one(RETAILER, "a", "1001", "ORDERS", ORDERS),
            one(ALPHA, "b", "S1", "ORDRSP", RESPONSE),
            one(ALPHA, "c", "S2", "DESADV", DESPATCH),
            of_its_size(2, 1, 1, 1, 1, 0, 1, 1, 3, after=has_rows(ROWS)),
            cancelled("C1", "10", "accepted"),
            of_its_size(2, 1, 1, 1, 1, 0, 1, 1, 4),
            mail(ALPHA, "taken", 1, told("taken")),
            of_its_size(2, 1, 1, 1, 1, 0, 1, 0, 4),
        ),
    ]


def has_no_file(folder):
    return "a file was made" if NAME in os.listdir(folder) else None


def of_other_files():
    """Files of earlier schemas, and such as hold no hub."""
    first, second = older_file("schema1_received")[0], older_file("schema2_received")[0]
    empty = older_file("schema1")[0]
    other = file_of(TABLES, ROWS, "UPDATE schema SET number = 9")
    nothing = [
        ("tables without their rows", file_of(TABLES, {}), "store version\n"),
        ("a schema of number 9", other, "store version\n"),
        ("no database", b"no database, but a text that is longer than one\n" * 40, "store disk\n"),
    ]
    return [
        verified("verify: a file of schema 1", empty, told("schema 1"), 1),
        verified("verify: a file of schema 1 with its pallets", first, told("schema 1"), 1),
        verified("verify: a file of schema 2", second, told("schema 2"), 1),
        steps("verify: no file", step(VERIFY, "", 3, "store version\n", after=has_no_file)),
        steps("verify: a folder that is not there", step(["verify", "--db", "none/hub.db"], "", 3, "store disk\n")),
        *(verified(f"verify: {name}", data, "", 3, error) for name, data, error in nothing),
    ]


def all_cases():
    unclean = [damaged(name, f"unclean {row}", change) for name, row, change in UNCLEAN]
    unsound = [damaged(name, f"unsound {row}", change) for name, row, change in UNSOUND]
    return of_sound_files() + unclean + unsound + of_other_files()


VERIFIED = all_cases()
