"""Trials of `verify`: with allocations refused in turn, with reads that give few bytes, while another program has the file, and of a
copy with its log."""
import os
import shutil
import signal
import subprocess
import tempfile

from tests.cases.verify import VERIFY, sound
from tests.harness.case import SECONDS
from tests.harness.database_files import NAME, file_of
from tests.harness.hub_scripts import KEYS
from tests.harness.hub_steps import made_folder, over
from tests.harness.register_texts import RETAILER
from tests.harness.shims import REFUSE, built, meddled

# how it says that memory ran out
OUT_OF_MEMORY = {(3, b"", b"memory\n"), (3, b"", b"store memory\n")}
# the fewest allocations of a run, and about how many of them are refused
FEWEST, MOST = 100, 600


def run(program, folder, words=VERIFY, **variables):
    """The exit status, and what was printed and told."""
    ran = subprocess.run([program, *words], cwd=folder, capture_output=True, env=variables, timeout=SECONDS)
    return ran.returncode, ran.stdout, ran.stderr


def refused(program):
    """What is wrong where an allocation is refused, if anything: it says so, or prints what it prints otherwise. The file stays."""
    data = file_of()
    right = (0, sound(len(data), 2, 1, 1, 1, 1, 0, 1, 1, 3).encode(), b"")
    with tempfile.TemporaryDirectory() as folder:
        shim, count_file, path = built(REFUSE, folder), os.path.join(folder, "count"), os.path.join(folder, NAME)
        with open(path, "wb") as file:
            file.write(data)
        whole = run(program, folder, LD_PRELOAD=shim, COUNT=count_file)
        if whole != right:
            return f"whole: {whole}"
        with open(count_file, encoding="ascii") as file:
            allocations = int(file.read())
        if allocations < FEWEST:
            return f"{allocations} allocations alone"
        turns = range(1, allocations + 1, max(1, allocations // MOST))
        for number in turns:
            ran = run(program, folder, LD_PRELOAD=shim, REFUSE=str(number))
            if ran != right and ran not in OUT_OF_MEMORY:
                return f"allocation {number} of {allocations} refused: {ran}"
            with open(path, "rb") as file:
                if file.read() != data:
                    return f"allocation {number} of {allocations} refused: the file changed"
        print(f"verify with {len(turns)} of {allocations} allocations refused")
    return None


def held(program):
    """What is wrong where another program has the file, and then of a copy of file and log, if anything."""
    with tempfile.TemporaryDirectory() as top:
        folder, copy = os.path.join(top, "hub"), os.path.join(top, "copy")
        made_folder(program, folder, 40)
        os.mkdir(copy)
        imports = over("import", RETAILER, "--folder", "in", key=KEYS[RETAILER])
        with subprocess.Popen([program, *imports], cwd=folder, stdout=subprocess.PIPE) as first:
            first.stdout.read(1)
            first.send_signal(signal.SIGSTOP)
            try:
                busy = run(program, folder)
                for name in os.listdir(folder):
                    if name.startswith(NAME):
                        shutil.copy(os.path.join(folder, name), copy)
            finally:
                first.send_signal(signal.SIGCONT)
            first.stdout.read()
        if busy != (3, b"", b"store disk\n"):
            return f"while another has it: {busy}"
        status, printed, error = run(program, copy)
        if status or error or not printed.startswith(b"ok\nsuppliers 2\n"):
            return f"of a copy with its log: {status}, {printed!r:.200}, {error!r:.100}"
        again = run(program, copy)
        size = os.path.getsize(os.path.join(copy, NAME))
        if again[0] or f"file size {size}\n".encode() not in again[1]:
            return f"of the copy again: {again}"
    return None


def read_in_pieces(program):
    """What is wrong where each read gives some bytes alone, if anything: what a file is does not depend on it."""
    data = file_of()
    files = [(data, (0, sound(len(data), 2, 1, 1, 1, 1, 0, 1, 1, 3).encode(), b"")), (b"SQLite format 4\0" + data[16:], (3, b"", b"store disk\n"))]
    with tempfile.TemporaryDirectory() as folder:
        shim, path = meddled(folder), os.path.join(folder, NAME)
        for content, right in files:
            for most in ("1", "5", "15"):
                with open(path, "wb") as file:
                    file.write(content)
                ran = run(program, folder, LD_PRELOAD=shim, SHORT=most)
                if ran != right:
                    return f"at most {most} bytes a read: {ran}, and not {right}"
    return None


TRIALS = [
    ("verify with allocations refused in turn", refused),
    ("verify with reads of few bytes", read_in_pieces),
    ("verify while another program has the file, and of a copy", held),
]
