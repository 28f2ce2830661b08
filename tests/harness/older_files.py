"""Database files as earlier versions wrote them (tests/older_files), and the rows that today's have then."""
import os
import sqlite3
import tempfile

from tests.harness.database_files import NAME, OLD_ROWS
from tests.harness.hub_steps import FIRST_TWO, rows_of_register, told
from tests.harness.tree import OLDER_FILES

FOUNDED, MISFIT, VERSION = told("ok 2 suppliers"), told("fault rows"), "store version\n"


def older_file(name):
    """A file as it was once written, and the status of the first supplier in it."""
    with open(os.path.join(OLDER_FILES, f"{name}.db"), "rb") as file:
        data = file.read()
    with open(os.path.join(OLDER_FILES, f"{name}.status"), encoding="ascii") as file:
        return data, file.read()


def rows_of(data, tables=OLD_ROWS):
    """All rows of a file, by default of schema 1."""
    with tempfile.TemporaryDirectory() as folder:
        with open(os.path.join(folder, NAME), "wb") as file:
            file.write(data)
        read = sqlite3.connect(os.path.join(folder, NAME))
        rows = {table: read.execute(f"SELECT * FROM {table}").fetchall() for table in tables}
        read.close()
        return rows


def beside(rows, *suppliers):
    """The rows of a file of schema 1 with those of a register beside them."""
    return {**rows_of_register(*(suppliers or FIRST_TWO)), **{table: its for table, its in rows.items() if table != "schema"}}
