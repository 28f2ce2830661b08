"""Refuses each allocation of the program in turn, command by command, foundings and `serve` with a connection of each kind among them.

The program reports `memory`, stops, or does without. The same command with ample memory then leaves the rows that it would have left, and
reports `repeated` for what was done. A script over tables of SQL is played in the same way, and so are the tests of calls
(trials/refused_in_calls.py)."""
import os
import shutil
import socket
import subprocess
from collections import Counter
from dataclasses import dataclass

from tests.harness import commands_in_turn
from tests.harness.database_files import NAME, OLD_ROWS, OLD_TABLES, file_of
from tests.harness.first_order import ORDERS
from tests.harness.http_texts import response
from tests.harness.hub_scripts import FIRST_MAIL, MOMENT, line_status
from tests.harness.hub_steps import init, over, told
from tests.harness.register_texts import ALPHA, BETA, RETAILER
from tests.harness.servers import all_of, exit_of, free_port, get, listed, post, send, upload
from tests.harness.shims import REFUSE, built
from tests.hostile.shared import FOUNDED, KNOWN, folder_with_file, folder_with_hub, folder_without_hub, in_words, on_all_processors, put
from tests.hostile.shared import rows_of, run
from tests.trials.refused_in_scripts import refusals

# how a command ends that ran out of memory before it did anything
FAULTS = {(3, b"", b"store memory\n"): "store memory", (3, b"", b"memory\n"): "memory"}


class Shim:
    """The library that counts or refuses allocations: the variables with which a program loads it."""

    def __init__(self, top):
        self.path, self.count = built(REFUSE, top), os.path.join(top, "count")

    def counting(self):
        return {"LD_PRELOAD": self.path, "COUNT": self.count}

    def refusing(self, number):
        return {"LD_PRELOAD": self.path, "REFUSE": str(number)}

    def counted(self):
        """How many allocations the last program made that counted them."""
        with open(self.count, encoding="ascii") as file:
            return int(file.read())


def each_refused(tried, allocations):
    """Refuses this many allocations in turn. `tried` refuses one, and returns what came of it and what is wrong. Returns the counts of what
    came of them, in words, and what is wrong, if anything."""
    found = on_all_processors(tried, range(1, allocations + 1))
    wrong = [why for _, why in found if why]
    return in_words(Counter(kind for kind, _ in found)), f"{len(wrong)} of {allocations} wrong, first {wrong[0]}" if wrong else None


def each_told(tried, allocations, what):
    """The same, with a line that tells it where nothing is wrong. Returns what is wrong."""
    counts, why = each_refused(tried, allocations)
    if not why:
        print(f"{what}: {counts}", flush=True)
    return why


def founding_refused(program, top):
    return foundings_refused(program, top, lambda: folder_without_hub(top), "init")


def migration_refused(program, top):
    data = file_of(OLD_TABLES, OLD_ROWS)
    return foundings_refused(program, top, lambda: folder_with_file(top, data), "init over schema 1")


def foundings_refused(program, top, new_folder, name):
    """Refuses each allocation of a founding in turn, each time in a new folder, and makes the founding again."""
    shim, whole, kinds = Shim(top), new_folder(), {FOUNDED: "as ever", **FAULTS}
    if run(program, init(), whole, env=shim.counting()) != FOUNDED:
        return "a founding with ample memory"
    wanted, allocations = rows_of(whole), shim.counted()

    def tried(number):
        folder = new_folder()
        first = run(program, init(), folder, env=shim.refusing(number))
        kind = kinds.get(first)
        if not kind:
            return kind, f"allocation {number} refused: {first!r:.300}"
        again = run(program, init(), folder)
        # a fault leaves no hub
        if again != (KNOWN if first == FOUNDED else FOUNDED) or rows_of(folder) != wanted:
            return kind, f"allocation {number} refused, {kind}, then: {again!r:.300}"
        shutil.rmtree(folder)
        return kind, None

    return each_told(tried, allocations, f"{name}: {allocations} allocations; each refused in turn")


def memory_refused(program, top):
    """Refuses each allocation of each command in turn, in the folder that the commands before it leave."""
    shim, base = Shim(top), folder_with_hub(program, top)
    for command in [*commands_in_turn.changes(), *commands_in_turn.questions()]:
        put(base, command.files)
        # the folder as the command leaves it, which the next one finds
        end = shutil.copytree(base, os.path.join(top, command.name))
        why = command_refused(program, shim, command, base, end)
        if why:
            return why
        base = end
    return None


def command_refused(program, shim, command, base, end):
    """Gives a command with ample memory in the folder `end`, and with each of its allocations refused in copies of the folder `base`."""

    def once(folder, variables):
        return run(program, command.words, folder, input=command.stdin, env=variables)

    whole = once(end, shim.counting())
    allocations, wanted = shim.counted(), rows_of(end)
    if command.printed not in (None, whole[1]):
        return f"{command.name}: {whole}"

    def tried(number):
        folder = shutil.copytree(base, f"{end}{number}")
        first = once(folder, shim.refusing(number))
        kind, refused = kind_of(command, first, whole), f"{command.name}: allocation {number} refused"
        if not kind:
            return kind, f"{refused}: {first!r:.300}"
        later = once(folder, {})
        # what was acknowledged is kept
        if later != command.answer_again(whole) and (first == whole or later != whole):
            return kind, f"{refused}, {kind}, then: {later!r:.300}"
        if rows_of(folder) != wanted:
            return kind, f"{refused}, {kind}, then other rows"
        shutil.rmtree(folder)
        return kind, None

    counts, why = each_refused(tried, allocations)
    if why:
        return why
    own = f", {allocations - opening(program, shim, base)} of them once the file is open" if command.is_over_hub() else ""
    print(f"{command.name}: {allocations} allocations{own}; each refused in turn: {counts}", flush=True)
    return None


def kind_of(command, ran, whole):
    """What came of a command with a refused allocation, if it answers `whole` with ample memory; `None` if that is wrong."""
    status, printed, error = ran
    if ran == whole:
        return "as ever"
    if ran in FAULTS:
        return FAULTS[ran]
    if (status, error) == (3, b"memory\n") and whole[1].startswith(printed):
        return "memory"
    # nothing is printed if there is no memory even for `stopped`
    is_stop = not printed or printed.endswith(b"stopped\n") or printed == whole[1].split(b"\n")[0] + b"\n"
    return "stopped" if command.is_over_hub() and (status, error) == (3, b"") and is_stop else None


def opening(program, shim, base):
    """How many allocations it takes to open the file of a folder: a caller that is denied does no more."""
    folder = shutil.copytree(base, f"{base}opened")
    run(program, over("status", BETA, key="another-key"), folder, env=shim.counting())
    return shim.counted()


def served_twice(program, folder, request, variables):
    """What comes of `serve` for two connections that ask the same: its status, lines and standard error, and what each client was sent. It
    is started again if another program took the port first."""
    how = {"stdout": subprocess.PIPE, "stderr": subprocess.PIPE, "env": {**os.environ, **variables}}
    for _ in range(3):
        port, found = free_port(), []
        words = ["serve", "--db", NAME, "--port", str(port), "--count", "2", "--moment", MOMENT]
        child = subprocess.Popen([program, *words], cwd=folder, **how)
        first = child.stdout.readline()
        for _ in range(2 if first else 0):
            with socket.create_connection(("127.0.0.1", port), 60) as one:
                send(one, request, ends=True)
                found.append(all_of(one))
        printed, error = child.communicate(timeout=60)
        if error != b"listen\n":
            break
    return (child.returncode, (first + printed).replace(str(port).encode(), b"PORT"), error), found


@dataclass
class Served:
    """A request, the status and body of its answer, the body when it is asked again, and the bodies that its answer of 503 may have."""

    name: str
    request: bytes
    status: int
    body: str
    again: str
    stops: tuple

    def ended(self, *statuses):
        """How `serve` ends that answers with these statuses."""
        lines = "".join(f"connection {number} {status}\n" for number, status in enumerate(statuses, 1))
        return exit_of(statuses), f"listening PORT\n{lines}".encode(), b""

    def kind(self, ended, found):
        """What came of it: both connections are answered as ever, or one of them is stopped and the other does it; or the file could not be
        opened. `None` if that is wrong."""
        whole, again = (response(self.status, it) for it in (self.body, self.again))
        stops = [response(503, it) for it in self.stops]
        if (ended, found) == (self.ended(self.status, self.status), [whole, again]):
            return "as ever"
        if ended == self.ended(503, self.status) and found[0] in stops and found[1] == whole:
            return "503, then done"
        if ended == self.ended(self.status, 503) and found[0] == whole and found[1] in stops:
            return "done, then 503"
        return FAULTS.get(ended) if not found else None


UPLOADED = "interchange 1001 messages 1"
# a body of `stopped`, or none where there is no memory even for it
STOPS = ("", "stopped\n")
# of a request that takes memory, how many stops there are at least
FEWEST_STOPS = 10


def uploading():
    _, request, status, body = upload(RETAILER, ORDERS, UPLOADED, "1 ORDERS accepted")
    return Served("an upload", request, status, body, told(UPLOADED, "1 ORDERS repeated"), (*STOPS, told(UPLOADED, "stopped")))


def of_uploaded():
    """What is asked once the order is there. The last three are refused, which takes no memory."""
    lines = told(line_status("128576", "W", 48, 48, 0, 0, 0), "end")
    cancel = post(RETAILER, "cancellations", f"{ALPHA}\nC5\n128576\n1\n7\n", 200, "accepted\n")
    for name, request, status, body in (
        get(ALPHA, "mail/item/1", 200, FIRST_MAIL),
        get(ALPHA, "mail/after/0", 200, listed((1, "ORDERS", "128576"))),
        post(ALPHA, "mail/item/1/taken", "", 200, "taken\n"),
        get(ALPHA, "status", 200, lines),
        get(RETAILER, f"status/{ALPHA}", 200, lines),
    ):
        yield Served(name, request, status, body, body, STOPS)
    yield Served(*cancel, "repeated\n", STOPS)
    for name, request, status, body in (
        get(ALPHA, "mail/item/x", 404, "unknown\n"),
        ("no request", b"GET /\r\n\r\n", 400, "bad request\n"),
        get(ALPHA, "status", 400, "bad request\n", "X-Hub-Key: alpha-key-1"),
    ):
        yield Served(name, request, status, body, body, ())


def serving_refused(program, top):
    """Refuses each allocation of `serve` in turn, for two connections that make the same request."""
    shim, base = Shim(top), folder_with_hub(program, top)
    counts, why = request_refused(program, shim, uploading(), base, 0)
    served_twice(program, base, uploading().request, {})
    # those of opening the file are refused once
    opening = sum(counts[it] for it in FAULTS.values())
    for served in of_uploaded():
        why = why or request_refused(program, shim, served, base, opening)[1]
    return why


def request_refused(program, shim, served, base, passed_over):
    """Refuses each allocation in turn of two connections over a copy of the folder `base`, but for the first so many. If the file could not
    be opened, asks again. Returns the counts of what came of them, and what is wrong, if anything."""
    end = shutil.copytree(base, f"{base}end")
    if served.kind(*served_twice(program, end, served.request, shim.counting())) != "as ever":
        return Counter(), f"{served.name}, with ample memory"
    wanted, numbers = rows_of(end), range(passed_over + 1, shim.counted() + 1)
    shutil.rmtree(end)

    def tried(number):
        folder = shutil.copytree(base, f"{base}{number}")
        ended, found = served_twice(program, folder, served.request, shim.refusing(number))
        kind, refused = served.kind(ended, found), f"{served.name}: allocation {number} refused"
        if not kind:
            return kind, f"{refused}: {ended!r:.300}, {found!r:.300}"
        if not found and served.kind(*served_twice(program, folder, served.request, {})) != "as ever":
            return kind, f"{refused}, {kind}, then not as ever"
        if rows_of(folder) != wanted:
            return kind, f"{refused}, {kind}, then other rows"
        shutil.rmtree(folder)
        return kind, None

    found = on_all_processors(tried, numbers)
    wrong, counts = [why for _, why in found if why], Counter(kind for kind, _ in found)
    if wrong:
        return counts, f"{len(wrong)} of {len(numbers)} wrong, first {wrong[0]}"
    print(f"serve, {served.name} twice: {len(numbers)} allocations refused in turn: {in_words(counts)}", flush=True)
    few = served.stops and counts["503, then done"] + counts["done, then 503"] < FEWEST_STOPS
    return counts, f"{served.name}: too few stops" if few else None


def script_refused(scripts, _):
    return refusals(scripts, "sql")
