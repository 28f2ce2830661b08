"""Commands over a hub: their words, what they print, step by step in one folder; and the founding of a hub."""
import os
import subprocess

from tests.harness import database_files
from tests.harness.case import SECONDS, Case
from tests.harness.database_files import NAME, REGISTERED
from tests.harness.hub_scripts import KEYS, TWO_SUPPLIERS, interchange, order
from tests.harness.register_texts import ALPHA, BETA, GAMMA, RETAILER

REGISTER = "register.toml"
MOMENT = "1748942400"


def over(command, who, *more, key=None, moment=MOMENT, db=NAME):
    words = [command, "--db", db, "--as", who, "--key", key or KEYS.get(who, "a-key-of-nobody"), *more]
    return words + (["--moment", moment] if moment else [])


# each option for a key, and the one for its file
KEY_FILES = {"--key": "--key-file", "--supplier-key": "--supplier-key-file"}


def in_files(words):
    """The same words with each key in a file, and the texts of these files."""
    given, files = [], {}
    for word in words:
        if given and given[-1] in KEY_FILES:
            name = f"{given[-1].strip('-')}.txt"
            given[-1], files[name] = KEY_FILES[given[-1]], f"{word}\n"
            word = name
        given.append(word)
    return given, files


def init(of=REGISTER, db=NAME):
    """The words that found a hub."""
    return ["init", "--register", of, "--db", db]


def step(words, output="", status=0, error="", files=(), after=None):
    """One command, and what it prints."""
    data = {name: it if isinstance(it, bytes) else it.encode("latin-1") for name, it in dict(files).items()}
    output, error = (it if callable(it) or isinstance(it, bytes) else it.encode("latin-1") for it in (output, error))
    return Case("", words, output=output, error=error, status=status, files=data, after=after)


def steps(name, first, *rest):
    """The commands, one after another, with a register beside them."""
    first.name, first.then = name, list(rest)
    first.files = {REGISTER: TWO_SUPPLIERS.encode(), **first.files}
    return first


def founded(name, *rest):
    """The commands, one after another, over a hub of two suppliers that was founded before."""
    return steps(name, step(init(), told("ok 2 suppliers")), *rest)


def told(*lines):
    return "".join(line + "\n" for line in lines)


def imported(who, folder, *uploads, status=0, **how):
    """An import of a folder: of each file its name, its text and the lines of its reply."""
    printed = "".join(told(f"file {name}", *lines) for name, _, *lines in uploads)
    return step(
        over("import", who, "--folder", folder, **how), printed, status, files={f"{folder}/{name}": text for name, text, *_ in uploads}
    )


def one(who, folder, reference, kind, text, word="accepted"):
    status = 1 if word.startswith("refused") else 0
    return imported(who, folder, (f"{folder}.edi", text, f"interchange {reference} messages 1", f"1 {kind} {word}"), status=status)


def status_of(supplier, *lines):
    return step(over("status", supplier), told(*lines, "end"))


def cancelled(reference, quantity, word, line="1", status=0):
    words = ("--supplier", ALPHA, "--reference", reference, "--order", "128576", "--line", line, "--quantity", quantity)
    return step(over("cancel", RETAILER, *words), told(word), status)


def mail(supplier, what, number, printed, status=0):
    return step(over("mail", supplier, "--do", what, "--n", str(number)), printed, status)


def mode_of(folder):
    return os.stat(os.path.join(folder, NAME)).st_mode & 0o777


# each command over a hub
EACH = [
    over("import", RETAILER, "--folder", "none"),
    over("status", ALPHA),
    over("mail", ALPHA, "--do", "after", "--n", "0"),
    over("cancel", RETAILER, "--supplier", ALPHA, "--reference", "C1", "--order", "128576", "--line", "1", "--quantity", "10"),
    over("join", RETAILER, "--supplier", GAMMA, "--supplier-key", "gamma-key-1", "--prefixes", "7612345"),
    ["serve", "--db", NAME, "--port", "8080", "--count", "1"],
]


def rows_of_register(*suppliers):
    """The rows of a file that has a register alone. A supplier is its GLN, its prefixes and its key."""
    rows = {table: [] for table in database_files.ROWS}
    keys = [(gln.encode(), key.encode()) for gln, _, key in suppliers]
    prefixes = [(prefix.encode(), gln.encode()) for gln, its, _ in suppliers for prefix in its]
    return {**rows, "schema": REGISTERED["schema"], "hub": REGISTERED["hub"], "supplier": keys, "prefix": prefixes}


FIRST_TWO = (ALPHA, ["40123455"], KEYS[ALPHA]), (BETA, ["8712345"], KEYS[BETA])


def found(program, folder, text=TWO_SUPPLIERS):
    """Founds a hub in a folder."""
    with open(os.path.join(folder, REGISTER), "w", encoding="ascii") as file:
        file.write(text)
    ran = subprocess.run([program, *init()], cwd=folder, capture_output=True, timeout=SECONDS)
    if ran.returncode:
        raise OSError(f"no hub is founded: {ran.returncode}, {ran.stdout!r:.100}, {ran.stderr!r:.100}")


def made_folder(program, folder, count=12):
    """A founded hub, and a folder of so many orders beside it."""
    os.makedirs(os.path.join(folder, "in"))
    found(program, folder)
    for k in range(count):
        with open(os.path.join(folder, "in", f"{k:02}.edi"), "w", encoding="ascii") as file:
            file.write(interchange(RETAILER, f"U{k}", order(str(k))))
    return count
