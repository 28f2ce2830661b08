"""Each line of the list of docs/OPERATING.md that has the reasons for a status 3 has a trial here, which shows that it comes as the
list says, and where. A line without a trial is a failure, and so is a trial without a line. Where the list names more than one cause of a
line, the others are tried elsewhere: a standard output that is full, a database file that another command has."""
import os
import re
import subprocess
import tempfile

from tests.cases import hub_files
from tests.harness import database_files
from tests.harness.case import SECONDS
from tests.harness.database_files import NAME
from tests.harness.hub_steps import init, made_folder, over
from tests.harness.register_texts import ALPHA, RETAILER
from tests.harness.shims import REFUSE, built, meddled
from tests.harness.tree import ROOT
from tests.trials import refused_in_scripts

GUIDE = os.path.join(ROOT, "docs", "OPERATING.md")
# where standard error cannot be written either, nothing is printed
NOTHING = "nothing"


def lines_of_the_list():
    """The lines of the list, with where each stands."""
    with open(GUIDE, encoding="utf-8") as file:
        listed = file.read().partition("Reasons for a status 3:")[2].partition("\n\n**")[0]
    for line, where in re.findall(r"^- (.+?)(?: \((.+?)\))?:", listed, re.MULTILINE):
        for word in [NOTHING] if line == NOTHING else re.findall("`([^`]+)`", line):
            yield word, where


class Tried:
    """A command over a hub in a folder of its own: an import of three orders, or another."""

    def __init__(self, program, top):
        self.program, self.top = program, top

    def run(self, *words, data=(), env=None, error=subprocess.PIPE):
        with tempfile.TemporaryDirectory(dir=self.top) as folder:
            made_folder(self.program, folder, 3)
            for name, it in dict(data).items():
                with open(os.path.join(folder, name), "wb") as file:
                    file.write(it)
            words = words or over("import", RETAILER, "--folder", "in")
            ran = subprocess.run([self.program, *words], cwd=folder, stdout=subprocess.PIPE, stderr=error, env=env, timeout=SECONDS)
            return ran.returncode, ran.stdout, ran.stderr or b""

    def of_memory(self, wanted):
        """What comes of the import where one allocation is refused: the first such that says this on standard error."""
        shim = built(REFUSE, self.top)
        for number in range(1, refused_in_scripts.FEWEST):
            found = self.run(env={"LD_PRELOAD": shim, "REFUSE": str(number)})
            if found[2] == wanted:
                return found
        return found


def stopped(tried):
    spoiled = database_files.file_of(database_files.TABLES, database_files.ROWS, hub_files.SPOILED[0][1])
    return tried.run(*over("status", ALPHA), data={NAME: spoiled}) == (3, b"stopped\n", b"")


def fault(tried):
    status, printed, error = tried.run(env={"LD_PRELOAD": meddled(tried.top), "ENTRY": "01.edi"})
    return (status, error) == (3, b"") and b"file 01.edi\nfault\nfile 02.edi\ninterchange U2" in printed


def file(tried):
    no_register = tried.run(*init("none.toml", "new.db"))
    no_folder = tried.run(*over("import", RETAILER, "--folder", "none"))
    no_key = tried.run("status", "--db", NAME, "--as", ALPHA, "--key-file", "none.key")
    return no_register == no_folder == no_key == (3, b"", b"file\n")


def store_disk(tried):
    return tried.run(data={NAME: b"no database\n" * 1000}) == (3, b"", b"store disk\n")


def store_version(tried):
    nine = database_files.file_of(database_files.TABLES, database_files.ROWS, "UPDATE schema SET number = 9")
    no_database, again = tried.run(*over("status", ALPHA, db="none.db")), tried.run(*init())
    return tried.run(data={NAME: nine}) == no_database == again == (3, b"", b"store version\n")


def store_unclean(tried):
    """A file with the rows of no register: a prefix is of no supplier."""
    spoiled = database_files.file_of(
        database_files.TABLES, database_files.ROWS, "DELETE FROM supplier WHERE supplier = CAST('8712345000004' AS BLOB)"
    )
    return tried.run(data={NAME: spoiled}) == (3, b"", b"store unclean\n")


def clock(tried):
    """A moment before 1970, and the first after 2099."""
    words = over("import", RETAILER, "--folder", "in", moment=None)
    return all(tried.run(*words, env={"LD_PRELOAD": meddled(tried.top), "NOW": it}) == (3, b"", b"clock\n") for it in ("-5", "4102444800"))


def nothing(tried):
    with open("/dev/full", "wb") as full:
        return tried.run(*over("status", ALPHA, db="none.db"), error=full) == (3, b"", b"")


# each line, where the list says that it stands, and whether it comes so
LINES = {
    "stopped": ("standard output, last", stopped),
    "fault": ("standard output, after `file NAME`", fault),
    "file": ("standard error", file),
    "store disk": ("standard error", store_disk),
    "store version": ("standard error", store_version),
    "store unclean": ("standard error", store_unclean),
    "store memory": ("standard error", lambda tried: tried.of_memory(b"store memory\n") == (3, b"", b"store memory\n")),
    "clock": ("standard error", clock),
    "memory": ("standard error", lambda tried: tried.of_memory(b"memory\n") == (3, b"", b"memory\n")),
    NOTHING: ("", nothing),
}


def each_line(program):
    """What is wrong with a line of the list, if anything."""
    table = dict(lines_of_the_list())
    if table != {line: where for line, (where, _) in LINES.items()}:
        return f"the list has {table}"
    with tempfile.TemporaryDirectory() as top:
        wrong = [line for line, (_, comes) in LINES.items() if not comes(Tried(program, top))]
    return f"these do not come as the list says: {wrong}" if wrong else None


TRIALS = [("each line behind a status 3", each_line)]
