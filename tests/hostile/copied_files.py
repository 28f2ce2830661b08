"""Halts an import and a server at changes of their files, a copy of the log into the file among them, and has the script of
examples/backup copy the files. Each copy has every message that was acknowledged and at most one more, and the same inputs over it end
with the same tables."""
import os
import sqlite3
import subprocess
import tempfile
import time
from concurrent.futures import ThreadPoolExecutor

from tests.harness.database_files import NAME, is_whole
from tests.harness.http_texts import response
from tests.harness.hub_scripts import interchange, order
from tests.harness.hub_steps import over
from tests.harness.register_texts import RETAILER
from tests.harness.servers import Server
from tests.harness.shims import STOP, built
from tests.harness.tree import EXAMPLES
from tests.hostile.shared import DIFFERENT, IMPORT, IN_THE_MIDST, PAGE, copied, folder_with_hub, on_all_processors, one_order, put, rows_of
from tests.hostile.shared import run

# how many orders come while copies are made, and about how many copies
ORDERS, HALTS = 500, 60
BACKUP = os.path.join(EXAMPLES, "backup", "backup.sh")
# what the script says if the copies are not on another disk
WARNING = "is on the same file system"


def folder_with_order_files(program, top):
    """A folder with a new hub, and the orders in a file each."""
    folder = folder_with_hub(program, top)
    put(folder, {f"in/{k:04}.edi": interchange(RETAILER, f"U{k}", order(str(k))) for k in range(ORDERS)})
    return folder


def halting(top, folder, **more):
    """The variables with which a program halts at some changes of its files."""
    shim = os.path.join(top, "stop.so")
    if not os.path.exists(shim):
        built(STOP, top)
    return {**os.environ, "LD_PRELOAD": shim, "STOP_FILE": os.path.join(folder, NAME), **more}


def changes_of(program, words, folder, top):
    """How many changes of its files a command makes."""
    count = os.path.join(top, "changes")
    if run(program, words, folder, env=halting(top, folder, COUNT=count))[0]:
        return 0
    with open(count, encoding="ascii") as file:
        return int(file.read().split()[0])


def halts(child):
    """Yields each time that a child halts, until it has ended."""
    while True:
        _, state = os.waitpid(child.pid, os.WUNTRACED)
        if not os.WIFSTOPPED(state):
            child.returncode = os.waitstatus_to_exitcode(state)
            return
        yield


def with_program(program, top):
    """The variables with which a script finds the program by its name."""
    folder = os.path.join(top, "programs")
    os.makedirs(folder, exist_ok=True)
    if not os.path.lexists(os.path.join(folder, "edihub")):
        os.symlink(program, os.path.join(folder, "edihub"))
    return {**os.environ, "PATH": f"{folder}:{os.environ['PATH']}"}


def backed_up(pid, folder, copies, env):
    """Copies a running program's files, as the operator does. Returns the folder of the copy."""
    words = ["sh", BACKUP, str(pid), os.path.join(folder, NAME), copies]
    ran = subprocess.run(words, capture_output=True, text=True, timeout=120, env=env)
    if ran.returncode or any(WARNING not in line for line in ran.stderr.splitlines()):
        raise OSError(f"no backup: {ran.returncode}, {ran.stderr}")
    return ran.stdout.strip()


def is_between(folder):
    """Whether the log is being copied into the file: the file has the last frame of some page already, and not yet that of another."""
    pages, path = {}, os.path.join(folder, f"{NAME}-wal")
    with open(os.path.join(folder, NAME), "rb") as file:
        data = file.read()
    if not os.path.exists(path):
        return False
    with open(path, "rb") as file:
        log = file.read()
    for at in range(32, len(log) - 24 - PAGE + 1, 24 + PAGE):
        # the frames of an earlier round have other salts
        if log[at + 8 : at + 16] != log[16:24]:
            break
        pages[int.from_bytes(log[at : at + 4], "big")] = log[at + 24 : at + 24 + PAGE]
    there = sum(data[(number - 1) * PAGE : number * PAGE] == page for number, page in pages.items())
    return 0 < there < len(pages)


def kept_in(copy):
    """How many of the messages 0, 1, .. a copy remembers, or what is wrong with it."""
    with copied(copy) as looked:
        why = is_whole(looked)
        base = sqlite3.connect(os.path.join(looked, NAME))
        found = sorted(int(control[1:]) for (control,) in base.execute("SELECT CAST(control AS TEXT) FROM remembered"))
        base.close()
    return why or (len(found) if found == [*range(len(found))] else f"it remembers {found!r:.100}")


def wrong_copies(copies, again, wanted):
    """Checks copies, each with the number of messages that were acknowledged when it was made. `again` brings the same inputs to a hub over
    a copy that has some of them, and returns what is wrong with its answers. Returns what is wrong, if anything; how many messages each
    copy has; and how many copies were made while the log was copied into the file."""

    def tried(one):
        copy, acknowledged = one
        between, kept = is_between(copy), kept_in(copy)
        if kept not in (acknowledged, acknowledged + 1):
            return f"{acknowledged} told of, {kept} kept", 0, False
        why = again(copy, kept)
        if not why and (rows_of(copy) != wanted or is_whole(copy)):
            why = f"{kept} kept, then other rows"
        return why, kept, between

    found = on_all_processors(tried, copies)
    wrong = [why for why, _, _ in found if why]
    why = f"{len(wrong)} of {len(copies)} copies are wrong, first {wrong[0]}" if wrong else None
    return why, [kept for _, kept, _ in found], sum(between for _, _, between in found)


def report(kept, between, what):
    """Prints what the copies were. Returns what is wrong if too few of them came in the midst."""
    midst = sum(0 < it < ORDERS for it in kept)
    print(f"{what}, halted and copied {len(kept)} times, {midst} in its midst, {between} while the log goes into the file", end="; ")
    print(f"from {min(kept)} to {max(kept)} orders are kept, {len(set(kept))} different counts")
    return None if midst >= IN_THE_MIDST and len(set(kept)) >= DIFFERENT and between >= 3 else "the copies did not come in the midst"


def imports_copied(program, top):
    whole, folder = folder_with_order_files(program, top), folder_with_order_files(program, top)
    changes = changes_of(program, IMPORT, whole, top)
    wanted, copies, made, env = rows_of(whole), [], tempfile.mkdtemp(dir=top), with_program(program, top)
    with open(os.path.join(folder, "printed"), "wb") as printed:
        child = subprocess.Popen([program, *IMPORT], cwd=folder, stdout=printed, env=halting(top, folder, HALT=str(changes // HALTS)))
    for _ in halts(child):
        with open(os.path.join(folder, "printed"), "rb") as printed:
            acknowledged = printed.read().count(b" accepted\n")
        copies.append((backed_up(child.pid, folder, made, env), acknowledged))
    if child.returncode or rows_of(folder) != wanted:
        return f"the import that is halted ends with {child.returncode}, or with other rows"

    def again(copy, kept):
        status, printed, error = run(program, over("import", RETAILER, "--folder", os.path.join(folder, "in")), copy)
        words = [line.rsplit(b" ", 1)[-1] for line in printed.split(b"\n")[2::3]]
        right = [b"repeated"] * kept + [b"accepted"] * (ORDERS - kept)
        return None if (status, error, words) == (0, b"", right) else f"again: {status}, {error!r}, {words!r:.200}"

    why, kept, between = wrong_copies(copies, again, wanted)
    return why or report(kept, between, f"an import of {ORDERS} orders")


def orders_served(server, answered, kept=0):
    """Uploads all orders, the first of which are kept already, and notes each that is answered. Returns what is wrong, if anything."""
    for k in range(ORDERS):
        _, request, _, body = one_order(k)
        found = server.ask(request)
        if found != response(200, body.replace("accepted", "repeated") if k < kept else body):
            return f"order {k} is answered {found!r:.200}"
        answered.append(k)
    return None


def server_copied(program, folder, top, every):
    """Uploads all orders to a server that is halted at changes of its files, and copied. Returns the copies, each with the number of
    orders that were answered, and what is wrong, if anything."""
    answered, copies, made, env = [], [], tempfile.mkdtemp(dir=top), with_program(program, top)
    server = Server(program, ORDERS, folder=folder, env=halting(top, folder, HALT=str(every)))
    with ThreadPoolExecutor(2) as pool:
        asked = pool.submit(orders_served, server, answered)
        lines = pool.submit(server.child.stdout.read)
        for _ in halts(server.child):
            # after this time the client has read what was answered
            time.sleep(0.05)
            acknowledged = len(answered)
            copies.append((backed_up(server.child.pid, folder, made, env), acknowledged))
        why = asked.result() or (None if lines.result().count(b" 200\n") == ORDERS else "the server did not answer all")
    return copies, why or (f"the server that is halted ends with {server.child.returncode}" if server.child.returncode else None)


def servers_copied(program, top):
    whole, folder = folder_with_order_files(program, top), folder_with_hub(program, top)
    changes = changes_of(program, IMPORT, whole, top)
    wanted = rows_of(whole)
    copies, why = server_copied(program, folder, top, changes // HALTS)
    if why or rows_of(folder) != wanted:
        return why or "the server that is halted leaves other rows"

    def again(copy, kept):
        it = Server(program, ORDERS, folder=copy)
        why = orders_served(it, [], kept=kept)
        return why or (None if it.end()[0] == 0 else "a server over a copy ends otherwise")

    why, kept, between = wrong_copies(copies, again, wanted)
    return why or report(kept, between, f"a server that takes {ORDERS} orders")
