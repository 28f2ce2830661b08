"""Trials of `rekey`: killed at each change of a file, while the hub is served, and over HTTP."""
import os
import subprocess
import tempfile

from tests.harness.case import SECONDS
from tests.harness.database_files import NAME, is_whole
from tests.harness.hub_scripts import KEYS
from tests.harness.hub_steps import found, over
from tests.harness.http_texts import head
from tests.harness.register_texts import ALPHA, BETA
from tests.harness.servers import Server
from tests.harness.shims import STOP, built

NEW = "new-key-7"
REKEY = ["rekey", "--db", NAME, "--supplier", ALPHA, "--new-key-file", "new.txt"]


def run(program, words, folder, **variables):
    """The exit status, and what was printed and told."""
    ran = subprocess.run([program, *words], cwd=folder, capture_output=True, env=variables, timeout=SECONDS)
    return ran.returncode, ran.stdout, ran.stderr


def with_hub(program, folder):
    """A hub is founded in the folder, with a new key beside it."""
    found(program, folder)
    with open(os.path.join(folder, "new.txt"), "w", encoding="ascii") as file:
        file.write(f"{NEW}\n")


def keys_taken(program, folder):
    """Which of the old and the new key the hub takes."""
    return [key for key in (KEYS[ALPHA], NEW) if run(program, over("status", ALPHA, key=key), folder)[0] == 0]


def after_a_kill(program, folder, told):
    """What is wrong after `rekey` was killed, and told this before."""
    taken = keys_taken(program, folder)
    if taken not in ([KEYS[ALPHA]], [NEW]) or told == b"ok\n" and taken != [NEW]:
        return f"it told {told!r}, and the hub takes {taken}"
    other = run(program, over("status", BETA), folder)
    if other[0]:
        return f"another supplier: {other}"
    again = run(program, REKEY, folder)
    if again != (0, b"ok\n", b"") or keys_taken(program, folder) != [NEW]:
        return f"again: {again}"
    return is_whole(folder)


def killed(program):
    """What is wrong where `rekey` is killed at a change of its files, if anything."""
    with tempfile.TemporaryDirectory() as top:
        shim, count_file = built(STOP, top), os.path.join(top, "count")

        def tried(number):
            with tempfile.TemporaryDirectory(dir=top) as folder:
                with_hub(program, folder)
                file = os.path.join(folder, NAME)
                ran = run(program, REKEY, folder, LD_PRELOAD=shim, STOP_FILE=file, STOP=str(number), COUNT=count_file)
                if not number:
                    return None if ran == (0, b"ok\n", b"") and keys_taken(program, folder) == [NEW] else f"whole: {ran}"
                if ran[0] != 9:
                    return f"killed at {number}: {ran}"
                why = after_a_kill(program, folder, ran[1])
                return f"killed at {number}: {why}" if why else None

        why = tried(0)
        if why:
            return why
        with open(count_file, encoding="ascii") as file:
            changes = int(file.read().split()[0])
        if not changes:
            return "it changes no file"
        for number in range(1, changes + 1):
            why = why or tried(number)
        if not why:
            print(f"a key changed, and killed at each of {changes} changes of its files")
        return why


def answers(server, *keys):
    """The status lines that a hub answers to these keys, to its end."""
    lines = [server.ask(head(f"GET /p/{ALPHA}/status HTTP/1.1", f"X-Hub-Key: {key}")).split(b"\r\n")[0] for key in keys]
    server.end()
    return lines


def over_http(program):
    """What is wrong with a key that is changed while the hub is served, and then between two servers, if anything."""
    right, denied, keys = b"HTTP/1.1 200 OK", b"HTTP/1.1 403 Forbidden", (KEYS[ALPHA], NEW)
    folder = tempfile.mkdtemp()
    with_hub(program, folder)
    with Server(program, len(keys), folder=folder) as server:
        meanwhile, before = run(program, REKEY, folder), answers(server, *keys)
        changed = run(program, REKEY, folder)
        with Server(program, len(keys), folder=folder) as again:
            after = answers(again, *keys)
    if meanwhile != (3, b"", b"store disk\n") or before != [right, denied]:
        return f"while it is served: {meanwhile}, {before}"
    return None if (changed, after) == ((0, b"ok\n", b""), [denied, right]) else f"then: {changed}, {after}"


TRIALS = [("keys that are changed, killed at each change of a file", killed), ("keys that are changed, over HTTP", over_http)]
