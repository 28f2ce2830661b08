"""Commands that bring something into the hub, each ended at each change of the database file or of the log beside it, in turn: what was told
of stands afterwards, and of what was not told of no message in part.

The file then holds the rows that it had before the command or those that it has after it, or of an upload of two messages those with the
first. The same command given again answers what is already there as repeated, and leaves the rows that it should have left. Each
change is stopped in three ways: at once, with half of a write made, and with all lost that was not synced."""
import contextlib
import os
import shutil
import subprocess
import tempfile
from collections import Counter
from concurrent.futures import ThreadPoolExecutor

from tests.harness.case import SECONDS
from tests.harness.commands_in_turn import changes, imports, questions
from tests.harness.database_files import NAME, rows_in
from tests.harness.hub_scripts import interchange, order
from tests.harness.hub_steps import found
from tests.harness.register_texts import BETA, RETAILER
from tests.harness.shims import STOP, WAYS, built

# how many changes there are at least
FEWEST = 200
# the commands that are only given, since others like them are stopped
LIKE_OTHERS = ("spelled", "second", "join_by_files")


def commands():
    """The commands, one after another: messages of each type, two of them in one upload, joins, a cancellation, and a mark."""
    two = interchange(RETAILER, "1010", order("128579", supplier=BETA), order("128580", reference=2))
    of_two = imports("two", RETAILER, two, "interchange 1010 messages 2", "1 ORDERS accepted", "2 ORDERS accepted")
    return [*changes(), of_two, *(it for it in questions() if it.name == "taken")]


class Stops:
    def __init__(self, program, top):
        self.program, self.top = program, top
        self.shim = built(STOP, top)

    def ran(self, command, folder, **variables):
        ran = subprocess.run([self.program, *command.words], cwd=folder, capture_output=True, env=variables, timeout=SECONDS)
        return ran.returncode, ran.stdout, ran.stderr

    def copied(self, folder):
        return shutil.copytree(folder, tempfile.mkdtemp(dir=self.top), dirs_exist_ok=True)

    def rows(self, folder):
        """All rows of the file, and what SQLite finds wrong with it, read in a copy of the file and its log."""
        with tempfile.TemporaryDirectory(dir=self.top) as copy:
            for name in (NAME, f"{NAME}-wal"):
                with contextlib.suppress(FileNotFoundError):
                    shutil.copyfile(os.path.join(folder, name), os.path.join(copy, name))
            return rows_in(copy)

    def variables(self, folder, number, **way):
        return {"LD_PRELOAD": self.shim, "STOP_FILE": os.path.join(folder, NAME), "STOP": str(number), **way}

    def whole(self, command, before):
        """The folder after a command that nobody stops, how many changes of the files it makes, and what is wrong with its answer."""
        folder, count = self.copied(before), os.path.join(self.top, "count")
        answer = self.ran(command, folder, COUNT=count, **self.variables(folder, 0))
        with open(count, encoding="ascii") as file:
            number = int(file.read().split()[0])
        return folder, number, answer != (0, command.printed, b"") and f"{command.name}: {answer!r:.300}"

    def stopped(self, command, before, rows, number, way):
        """What is wrong after a stop at the change of this number, or how much of the command was done: nothing, a part, or all."""
        folder, first = self.copied(before), (0, command.printed, b"")
        # what the file held when it was last synced
        shutil.copy(os.path.join(folder, NAME), os.path.join(folder, f"{NAME}.synced"))
        what = f"{command.name}, stopped at change {number}, {way}"
        status, printed, error = self.ran(command, folder, **self.variables(folder, number, **WAYS[way]))
        if status != 9 or error or not command.printed.startswith(printed):
            return f"{what}: {status}, {printed!r:.200}, {error!r:.200}"
        for name in os.listdir(folder):
            if name.endswith(".synced"):
                os.remove(os.path.join(folder, name))
        found = self.rows(folder)
        done = "all" if found == rows[1] else "nothing" if found == rows[0] else "a part"
        # the reply to a file of an import comes once all of it is done
        if printed.count(b"\n") > 1 and done != "all":
            return f"{what}: told of {printed!r:.200}, and {done} was done"
        again = self.ran(command, folder)
        part = (0, command.printed.replace(b"accepted", b"repeated", 1), b"")
        if again != {"all": command.answer_again(first), "nothing": first, "a part": part}[done]:
            return f"{what}: {done} was done, then {again!r:.300}"
        # nothing reads this folder afterwards
        left = rows_in(folder)
        shutil.rmtree(folder)
        return done if left == rows[1] else f"{what}: {done} was done, and given again it leaves other rows"


def tried(program, top):
    stops, before, counts, number = Stops(program, top), os.path.join(top, "hub"), Counter(), 0
    os.mkdir(before)
    found(program, before)
    with ThreadPoolExecutor(len(os.sched_getaffinity(0))) as pool:
        for command in commands():
            for name, data in command.files.items():
                path = os.path.join(before, name)
                os.makedirs(os.path.dirname(path), exist_ok=True)
                with open(path, "wb") as file:
                    file.write(data if isinstance(data, bytes) else data.encode("latin-1"))
            after, of_command, wrong = stops.whole(command, before)
            if wrong:
                return wrong
            if command.name not in LIKE_OTHERS:
                rows = stops.rows(before), stops.rows(after)
                turns = [(turn, way) for way in WAYS for turn in range(1, of_command + 1)]
                outcomes = list(pool.map(lambda turn: stops.stopped(command, before, rows, *turn), turns))
                counts.update(outcomes)
                number += of_command
            before = after
    if wrongs := [it for it in counts if it not in ("nothing", "a part", "all")]:
        return f"{len(wrongs)} wrong, first {wrongs[0]}"
    print(
        f"{number} changes of the files by commands stopped in turn, each in {len(WAYS)} ways: nothing was done in {counts['nothing']}, all "
        f"in {counts['all']}, and the first of two messages in {counts['a part']}"
    )
    return None if number >= FEWEST and counts["a part"] else f"{number} changes, {counts}: too few"


def stops(program):
    """What is wrong where a command ends at a change of its files, if anything."""
    with tempfile.TemporaryDirectory() as top:
        try:
            return tried(program, top)
        except (OSError, subprocess.SubprocessError) as why:
            return f"not tried: {why}"


TRIALS = [("commands stopped at each change of their files", stops)]
