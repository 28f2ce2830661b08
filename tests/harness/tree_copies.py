"""Crates proved in copies of the tree, since a check locks all that it stands on; what was proved there is taken over."""
import os
import shutil
import subprocess
import tempfile
import threading
from graphlib import TopologicalSorter

from tests.harness.tree import ROOT

# the most memory that a check is taken to need, in bytes
CHECK_MEMORY = 5 << 30
PARTS = ("src", "specs", "proofs")
# one crate's proved work is taken over at a time, and not while it is copied
TAKEN_OVER = threading.Lock()


def crates():
    """The crates and all crates of the repository below each, lowest first; crates.txt lists them by layers, in no such order."""
    needs, below = {}, {}
    with open(os.path.join(ROOT, "crates.txt"), encoding="utf-8") as lines:
        for line in lines:
            name, colon, of_crate = line.partition("#")[0].partition(":")
            if colon:
                needs[name.split()[0]] = of_crate.split()
    direct = {crate: [it for it in of_crate if it in needs] for crate, of_crate in needs.items()}
    for crate in TopologicalSorter(direct).static_order():
        below[crate] = {it for one in direct[crate] for it in below[one] | {one}}
    return below


def run(words, folder):
    told = {"stdin": subprocess.DEVNULL, "stdout": subprocess.PIPE, "stderr": subprocess.STDOUT}
    ran = subprocess.run(["rt", *words], cwd=folder, text=True, errors="replace", **told)
    return ran.returncode, ran.stdout.rstrip("\n").split("\n")


def text_copied(room):
    """A copy of the tree's crates, without their edits and what checks left."""
    shutil.copy2(os.path.join(ROOT, "crates.txt"), room)
    for crate in os.listdir(os.path.join(ROOT, "crates")):
        for part in PARTS:
            if os.path.isdir(os.path.join(ROOT, "crates", crate, part)):
                shutil.copytree(os.path.join(ROOT, "crates", crate, part), os.path.join(room, "crates", crate, part))


def copied(room, anew, used):
    """The same with the libraries of the crates that are used, and, of the crates in `anew`, with what their checks kept."""
    text_copied(room)
    for crate in [*used, *anew]:
        for part in ("rlib", "incremental") if crate in anew else ("rlib",):
            work = os.path.join(ROOT, "crates", crate, "out", part)
            with TAKEN_OVER:
                if os.path.isdir(work):
                    linked(work, os.path.join(room, "crates", crate, "out", part))


def linked(folder, to):
    """A copy of kept work, what was proved by links: a check replaces such a file, and changes none."""
    copy = lambda one, other: os.link(one, other) if one.endswith((".oantt", ".a")) else shutil.copy2(one, other)
    shutil.copytree(folder, to, symlinks=True, copy_function=copy)


def room_beside():
    """A folder on the file system of the tree, so that kept work can be shared by links."""
    return tempfile.TemporaryDirectory(prefix="copy-", dir=os.path.dirname(ROOT))


def lanes():
    with open("/proc/meminfo", encoding="ascii") as lines:
        free = next(int(it.split()[1]) for it in lines if it.startswith("MemAvailable:")) << 10
    return max(1, min(len(os.sched_getaffinity(0)), free // CHECK_MEMORY))


def library_proved(crate, below):
    """Proves a crate's library, over those below it, in a copy of the tree, since a check locks all that it stands on, and takes
    over the work. Leaves what the check printed in the crate's out/log, and says why it is not proved."""
    with room_beside() as room:
        copied(room, {crate}, below)
        status, lines = run(["lib", "--jobs", "1"], os.path.join(room, "crates", crate))
        for part in ("rlib", "incremental") if not status else ():
            work = os.path.join(ROOT, "crates", crate, "out", part)
            os.makedirs(os.path.dirname(work), exist_ok=True)
            with TAKEN_OVER:
                shutil.rmtree(work, ignore_errors=True)
                os.rename(os.path.join(room, "crates", crate, "out", part), work)
        os.makedirs(os.path.join(ROOT, "crates", crate, "out"), exist_ok=True)
        with open(os.path.join(ROOT, "crates", crate, "out", "log"), "w", encoding="utf-8") as log:
            log.writelines(f"{line}\n" for line in lines)
        return (lines[-1] or f"rt ended with {status}") if status else ""
