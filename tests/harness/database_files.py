"""Database files as SQLite itself writes and reads them: tables, rows, and what is wrong with the file of a folder."""
import os
import sqlite3
import tempfile

from tests.harness.first_order import ORDERS
from tests.harness.hub_scripts import DESPATCH, FIRST_MAIL, KEYS, PALLET, RESPONSE
from tests.harness.register_texts import ALPHA, BETA, HUB, RETAILER

NAME = "hub.db"

# The tables of schema 1, which knew no register.
OLD_TABLES = """
CREATE TABLE schema (number INTEGER NOT NULL) STRICT;
CREATE TABLE "order" (supplier BLOB NOT NULL, number BLOB NOT NULL, PRIMARY KEY (supplier, number)) STRICT;
CREATE TABLE line (supplier BLOB NOT NULL, number BLOB NOT NULL, line INTEGER NOT NULL, gtin BLOB NOT NULL, ordered INTEGER NOT NULL, \
open_qty INTEGER NOT NULL, refused INTEGER NOT NULL, cancelled INTEGER NOT NULL, answer INTEGER NOT NULL, PRIMARY KEY (supplier, number, \
line)) STRICT;
CREATE TABLE advice (supplier BLOB NOT NULL, number BLOB NOT NULL, PRIMARY KEY (supplier, number)) STRICT;
CREATE TABLE pallet (sscc BLOB NOT NULL, supplier BLOB NOT NULL, advice BLOB NOT NULL, received INTEGER NOT NULL, PRIMARY KEY (sscc), \
UNIQUE (supplier, sscc)) STRICT;
CREATE TABLE content (sscc BLOB NOT NULL, place INTEGER NOT NULL, number BLOB NOT NULL, line INTEGER NOT NULL, \
quantity INTEGER NOT NULL, PRIMARY KEY (sscc, place)) STRICT;
CREATE TABLE receipt (sscc BLOB NOT NULL, gtin BLOB NOT NULL, accepted INTEGER NOT NULL, returned INTEGER NOT NULL, \
destroyed INTEGER NOT NULL, PRIMARY KEY (sscc, gtin)) STRICT;
CREATE TABLE remembered (supplier BLOB NOT NULL, side INTEGER NOT NULL, control BLOB NOT NULL, message BLOB NOT NULL, \
content BLOB NOT NULL, PRIMARY KEY (supplier, side, control, message)) STRICT;
CREATE TABLE mail (supplier BLOB NOT NULL, number INTEGER NOT NULL, moment INTEGER NOT NULL, decimal INTEGER NOT NULL, \
kind INTEGER NOT NULL, document BLOB NOT NULL, body BLOB NOT NULL, taken INTEGER NOT NULL, PRIMARY KEY (supplier, number)) STRICT;
"""

# Those of schema 2 and 3, as every file has them.
TABLES = OLD_TABLES + """
CREATE TABLE hub (hub BLOB NOT NULL, retailer BLOB NOT NULL, "key" BLOB NOT NULL, PRIMARY KEY (hub)) STRICT;
CREATE TABLE supplier (supplier BLOB NOT NULL, "key" BLOB NOT NULL, PRIMARY KEY (supplier)) STRICT;
CREATE TABLE prefix (prefix BLOB NOT NULL, supplier BLOB NOT NULL, PRIMARY KEY (prefix)) STRICT;
"""

# What stands in them of the register of two suppliers.
REGISTERED = {
    "schema": [(3,)],
    "hub": [(HUB.encode(), RETAILER.encode(), KEYS[RETAILER].encode())],
    "supplier": [(it.encode(), KEYS[it].encode()) for it in (ALPHA, BETA)],
    "prefix": [(b"40123455", ALPHA.encode()), (b"8712345", BETA.encode())],
}

# And then after the first order, its changed answer and its despatch.
SUPPLIER, NUMBER, ITEM = ALPHA.encode(), b"128576", b"04000862141404"
BODY = FIRST_MAIL[FIRST_MAIL.index("UNH") : FIRST_MAIL.index("UNZ")].encode()


def canonical(interchange):
    """The canonical text of its one message."""
    return interchange[interchange.index("UNH") : interchange.index("UNZ")].encode()


OLD_ROWS = {
    "schema": [(1,)],
    '"order"': [(SUPPLIER, NUMBER)],
    "line": [(SUPPLIER, NUMBER, 1, ITEM, 48, 24, 12, 0, ord("C"))],
    "advice": [(SUPPLIER, b"DA1")],
    "pallet": [(PALLET.encode(), SUPPLIER, b"DA1", 0)],
    "content": [(PALLET.encode(), 1, NUMBER, 1, 12)],
    "receipt": [],
    "remembered": [
        (SUPPLIER, ord("R"), b"1001", b"1", canonical(ORDERS)),
        (SUPPLIER, ord("S"), b"S1", b"1", canonical(RESPONSE)),
        (SUPPLIER, ord("S"), b"S2", b"1", canonical(DESPATCH)),
    ],
    "mail": [(SUPPLIER, 1, 1748942400, ord("."), ord("O"), NUMBER, BODY, 0)],
}
ROWS = {**OLD_ROWS, **REGISTERED}


def file_of(tables=TABLES, rows=ROWS, *changes):
    """The bytes of a file that SQLite made of tables and rows, with these statements after them."""
    with tempfile.TemporaryDirectory() as folder:
        path = os.path.join(folder, NAME)
        made = sqlite3.connect(path, isolation_level=None)
        # nothing here has to outlast a crash, and a sync for each row takes long
        made.execute("PRAGMA synchronous = OFF")
        made.executescript(tables)
        for table, its_rows in rows.items():
            for row in its_rows:
                made.execute(f"INSERT INTO {table} VALUES ({', '.join('?' * len(row))})", row)
        for change in changes:
            made.execute(change)
        made.close()
        with open(path, "rb") as file:
            return file.read()


def rows_in(folder):
    """All rows of all tables of the file, as SQLite reads them, and what it says of the file's integrity."""
    read = sqlite3.connect(os.path.join(folder, NAME))
    try:
        whole = read.execute("PRAGMA integrity_check").fetchall()
        return whole, {table: sorted(read.execute(f"SELECT * FROM {table}").fetchall()) for table in ROWS}
    finally:
        read.close()


def is_whole(folder):
    """What SQLite finds wrong with the file, which may have no tables yet."""
    read = sqlite3.connect(os.path.join(folder, NAME))
    try:
        whole = read.execute("PRAGMA integrity_check").fetchall()
    finally:
        read.close()
    return None if whole == [("ok",)] else f"integrity: {whole}"


def has_rows(wanted):
    def after(folder):
        whole, rows = rows_in(folder)
        if whole != [("ok",)]:
            return f"integrity: {whole}"
        wrong = [table for table in wanted if rows[table] != sorted(wanted[table])]
        return f"rows of {wrong}: {rows[wrong[0]]}" if wrong else None

    return after


def is_still(data):
    """The file is as it was, with no change in a log beside it."""

    def after(folder):
        with open(os.path.join(folder, NAME), "rb") as file:
            if file.read() != data:
                return "the file changed"
        log = os.path.join(folder, NAME + "-wal")
        # a log without a frame has a head of 32 bytes
        return "a log stands beside it" if os.path.exists(log) and os.path.getsize(log) >= 32 + 24 else None

    return after
