"""Cases of a path at which there is no database: each command that needs one says so, and makes and changes no file; and `init` over a
file that is none."""
import os

from tests.harness.database_files import NAME
from tests.harness.hub_scripts import TWO_SUPPLIERS
from tests.harness.hub_steps import EACH, REGISTER, init, step, steps
from tests.harness.register_texts import ALPHA

REKEY = ["rekey", "--db", NAME, "--supplier", ALPHA, "--new-key-file", "new.txt"]
COMMANDS = [*EACH, REKEY, ["verify", "--db", NAME]]
NEW_KEY = {"new.txt": "new-key-7\n"}
# what is at the path, and what is said of it
FILES = [
    ("an empty file", b"", "store version"),
    ("a key", b"alpha-key-1\n", "store disk"),
    ("one byte", b"S", "store disk"),
    ("a register", TWO_SUPPLIERS.encode(), "store disk"),
    ("the first bytes of another form", b"SQLite format 4\0" + bytes(4080), "store disk"),
]


def is_alone(data):
    """The file is as it was, and none is beside it that a database would have."""

    def after(folder):
        with open(os.path.join(folder, NAME), "rb") as file:
            changed = file.read() != data
        beside = [it for it in os.listdir(folder) if it.startswith(NAME) and it != NAME]
        return "the file changed" if changed else f"there are {beside}" if beside else None

    return after


def made_nothing(folder):
    beside = [it for it in os.listdir(folder) if it.startswith(NAME)]
    return f"there are {beside}" if beside else None


CASES = [
    *(
        steps(f"{words[0]} over {name}", step(words, "", 3, f"{fault}\n", {NAME: data, **NEW_KEY}, is_alone(data)))
        for name, data, fault in FILES
        for words in COMMANDS
    ),
    *(
        steps(f"init over {name}", step(init(), "", 3, f"{fault}\n", {NAME: data, REGISTER: TWO_SUPPLIERS}, is_alone(data)))
        for name, data, fault in FILES
        if data
    ),
    *(steps(f"{words[0]} over no file", step(words, "", 3, "store version\n", NEW_KEY, made_nothing)) for words in COMMANDS),
]
