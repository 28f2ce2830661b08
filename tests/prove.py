"""`make edihub` and `make trial_script`: proves the crates below a program, as many at a time as processors and memory allow, and
builds it.

    python3 -m tests.prove PROGRAM [WORD ..]

The program is run once, with these words, as it is built. Prints a line for each crate as it is proved: its place among all, its name
and the seconds that it took, or `as before` if nothing has changed since it was proved; the program's own line always has its seconds.
If nothing ends for half a minute, a line says what is being proved and for how long, and of the program itself how many of its
functions are checked. If a crate is not proved it prints what the check says, which is in the crate's out/log too."""
import os
import re
import shutil
import subprocess
import sys
import threading
import time
from concurrent.futures import FIRST_COMPLETED, ThreadPoolExecutor, wait

from tests.harness.tree import ROOT
from tests.harness.tree_copies import crates, lanes, library_proved
from tests.wrong import Kept

# seconds between two lines of a crate that takes long
SILENCE = 30


class Proving:
    def __init__(self, program, below):
        self.below, self.kept, self.number, self.done = below, Kept(below, []), len(below[program]) + 1, 0
        self.left = [it for it in below if it in below[program]]
        self.proved, self.begun, self.said = set(), {}, threading.Lock()

    def tell(self, crate, took):
        with self.said:
            self.done += 1
            print(f"{self.done:3} of {self.number}  {crate:15} {took}", flush=True)

    def library(self, crate):
        """Proves a library. Returns why that failed, or nothing."""
        if self.kept.is_proved(crate):
            self.tell(crate, "as before")
            self.proved.add(crate)
            return ""
        self.begun[crate] = time.time()
        why = library_proved(crate, self.below[crate])
        begun = self.begun.pop(crate)
        if why:
            return f"{said_of(crate)}\n{crate} is not proved: {why}"
        self.kept.keep_proved(crate)
        self.tell(crate, f"{time.time() - begun:5.0f} s")
        self.proved.add(crate)
        return ""

    def libraries(self):
        """Proves all libraries, each once those below it are proved. Returns why some are not, or nothing."""
        running, failed, most = set(), [], lanes()
        with ThreadPoolExecutor(most) as pool:
            while True:
                ready = [it for it in self.left if self.below[it] <= self.proved] if not failed else []
                for crate in ready[: most - len(running)]:
                    self.left.remove(crate)
                    running.add(pool.submit(self.library, crate))
                if not running:
                    return "\n".join(failed)
                done, running = wait(running, timeout=SILENCE, return_when=FIRST_COMPLETED)
                failed += filter(None, (it.result() for it in done))
                if not done:
                    waited = ", ".join(f"{it} {time.time() - since:.0f} s" for it, since in list(self.begun.items()))
                    print(f"    still at {waited}", flush=True)

    def built(self, program, words):
        """Proves, builds and runs the program itself. Returns the status."""
        folder, begun = os.path.join(ROOT, "crates", program), time.time()
        os.makedirs(os.path.join(folder, "out"), exist_ok=True)
        log = os.path.join(folder, "out", "log")
        given, asked = os.path.join(folder, "stdin"), ["rt", "run", *(["--", *words] if words else [])]
        with open(given if os.path.isfile(given) else os.devnull, "rb") as source, open(log, "wb") as errors:
            child = subprocess.Popen(asked, cwd=folder, stdin=source, stdout=subprocess.DEVNULL, stderr=errors)
            while (status := ended(child)) is None:
                print(f"    still at {program} {time.time() - begun:.0f} s{last_count(log)}", flush=True)
        if status:
            with open(log, encoding="utf-8", errors="replace") as lines:
                shutil.copyfileobj(lines, sys.stdout)
        else:
            self.tell(program, f"{time.time() - begun:5.0f} s")
        return status


def said_of(crate):
    """Returns what the check of a crate printed, without what it says of libraries."""
    with open(os.path.join(ROOT, "crates", crate, "out", "log"), encoding="utf-8") as lines:
        return "".join(it for it in lines if not it.startswith(("statements ", "logic ", "checked "))).rstrip("\n")


def ended(child):
    """Returns its status if it ends soon, else `None`."""
    try:
        return child.wait(SILENCE)
    except subprocess.TimeoutExpired:
        return None


def last_count(log):
    """Returns how many functions are checked according to the log, if it says."""
    with open(log, encoding="utf-8", errors="replace") as lines:
        counts = re.findall(r"(\d+ of \d+) functions checked|^checked .*, (\d+ of \d+)$", lines.read(), re.MULTILINE)
    return f", {next(filter(None, counts[-1]))} functions" if counts else ""


def main(words):
    below = crates()
    if not words or words[0] not in below:
        print("usage: python3 -m tests.prove PROGRAM [WORD ..]")
        return 2
    proving = Proving(words[0], below)
    why = proving.libraries()
    if why:
        print(why)
        return 1
    return 1 if proving.built(words[0], words[1:]) else 0


if __name__ == "__main__":
    try:
        sys.exit(main(sys.argv[1:]))
    except KeyboardInterrupt:
        sys.exit(130)
