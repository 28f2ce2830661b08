"""What several hostile trials use: folders with a hub and orders, commands run in them, the rows that these leave, and counts."""
import contextlib
import os
import shutil
import sqlite3
import subprocess
import tempfile
from concurrent.futures import ThreadPoolExecutor

from tests.harness.database_files import NAME, OLD_ROWS, OLD_TABLES
from tests.harness.hub_scripts import TWO_SUPPLIERS, interchange, order
from tests.harness.hub_steps import REGISTER, found, over
from tests.harness.register_texts import ALPHA, RETAILER
from tests.harness.servers import upload

# the bytes of a page of a database file
PAGE = 4096
TABLES = ("order", "line", "advice", "pallet", "content", "receipt", "remembered", "mail", "hub", "supplier", "prefix")
# how many moments have to be in the midst of an import or of what a server does, and how many different counts of orders are kept at them
IN_THE_MIDST, DIFFERENT = 20, 10
# what a founding answers, and what it answers over a file that has a hub
FOUNDED, KNOWN = (0, b"ok 2 suppliers\n", b""), (3, b"", b"store version\n")
IMPORT = over("import", RETAILER, "--folder", "in")
LOOKS = [
    over("status", ALPHA),
    over("mail", ALPHA, "--do", "after", "--n", "0"),
    over("mail", ALPHA, "--do", "item", "--n", "7"),
    over("status", RETAILER, "--of", ALPHA),
]


def put(folder, files):
    """Writes these files, each a path in the folder and a text."""
    for path, text in files.items():
        os.makedirs(os.path.dirname(os.path.join(folder, path)), exist_ok=True)
        with open(os.path.join(folder, path), "w", encoding="latin-1") as file:
            file.write(text)


def folder_without_hub(top):
    """A folder with a register, and no hub yet."""
    folder = tempfile.mkdtemp(dir=top)
    put(folder, {REGISTER: TWO_SUPPLIERS})
    return folder


def folder_with_hub(program, top):
    folder = tempfile.mkdtemp(dir=top)
    found(program, folder)
    return folder


def folder_with_orders(program, top, count):
    """A folder with a new hub, and this many orders in one interchange, not imported yet."""
    folder = folder_with_hub(program, top)
    put(folder, {"in/a.edi": interchange(RETAILER, "U1", *(order(str(k), reference=k) for k in range(1, count + 1)))})
    return folder


def folder_with_file(top, data):
    """A folder with a register, this database file, and an order to import from `new`."""
    folder = folder_without_hub(top)
    put(folder, {"new/new.edi": interchange(RETAILER, "U7", order("700", quantity="7"))})
    with open(os.path.join(folder, NAME), "wb") as file:
        file.write(data)
    return folder


def old_file_of(count):
    """The bytes of a file of schema 1 with this many orders, as SQLite writes it."""
    supplier, body = ALPHA.encode(), OLD_ROWS["mail"][0][6]
    numbers = [(k, str(k).encode()) for k in range(1, count + 1)]
    rows = {
        '"order"': [(supplier, number) for _, number in numbers],
        "line": [(supplier, number, 1, b"04000862141404", 48, 48, 0, 0, ord("W")) for _, number in numbers],
        "remembered": [(supplier, ord("R"), b"U%d" % k, b"1", body.replace(b"128576", number)) for k, number in numbers],
        "mail": [(supplier, k, 1748942400, ord("."), ord("O"), number, body.replace(b"128576", number), 0) for k, number in numbers],
        "schema": [(1,)],
    }
    with tempfile.TemporaryDirectory() as folder:
        path = os.path.join(folder, NAME)
        made = sqlite3.connect(path)
        made.executescript("PRAGMA synchronous = OFF;" + OLD_TABLES)
        for table, its in rows.items():
            made.executemany(f"INSERT INTO {table} VALUES ({', '.join('?' * len(its[0]))})", its)
        made.commit()
        made.close()
        with open(path, "rb") as file:
            return file.read()


def one_order(k):
    """The upload of the order of this number: its name, the request, and the status and body of the response."""
    return upload(RETAILER, interchange(RETAILER, f"U{k}", order(str(k))), f"interchange U{k} messages 1", "1 ORDERS accepted")


def run(program, words, folder, **how):
    ran = subprocess.run([program, *words], cwd=folder, capture_output=True, timeout=60, **how)
    return ran.returncode, ran.stdout, ran.stderr


def looks(program, folder):
    """What the hub shows."""
    return [run(program, words, folder) for words in LOOKS]


def kept_of(ran, count):
    """How many of this many orders were there before an import of one interchange, by what it answers; `None` if that is wrong."""
    status, printed, error = ran
    words = [line.rsplit(b" ", 1)[-1] for line in printed.split(b"\n")[2:-1]]
    kept = words.count(b"repeated")
    right = [b"repeated"] * kept + [b"accepted"] * (count - kept)
    return kept if (status, words, error) == (0, right, b"") else None


def rows_of(folder):
    base = sqlite3.connect(os.path.join(folder, NAME))
    rows = {table: sorted(base.execute(f'SELECT * FROM "{table}"').fetchall()) for table in TABLES}
    base.close()
    return rows


@contextlib.contextmanager
def copied(folder):
    """A copy of a folder while it is looked at: SQLite changes the files that it opens."""
    copy = shutil.copytree(folder, folder + "looked")
    yield copy
    shutil.rmtree(copy)


def on_all_processors(tried, items):
    """What `tried` returns for each item, as many at a time as there are processors."""
    with ThreadPoolExecutor(len(os.sched_getaffinity(0))) as pool:
        return list(pool.map(tried, items))


def in_words(counts):
    """A counter in words, the highest count first."""
    return ", ".join(f"{count} {kind}" for kind, count in counts.most_common())
