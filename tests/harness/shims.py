"""Libraries in C between a program and the system, each with its source: one that ends the program at a change of its file, one that
meddles with what it reads, one that cuts the reads and writes of connections and fails them, one that refuses an allocation, one that
counts the heap, and one that asks for large pages."""
import os
import subprocess

from tests.harness.tree import HARNESS

STOP, MEDDLE, WIRE, REFUSE, HEAP, PAGES = (
    os.path.join(HARNESS, f"{it}.c") for it in ("stop", "meddle", "wire", "refuse", "heap", "large_pages")
)
# how a program ends at a change of its file
WAYS = {"at once": {}, "torn": {"TORN": "1"}, "lost": {"LOST": "1"}}


def built(source, folder):
    """The library of this source, in a folder."""
    shim = os.path.join(folder, os.path.basename(source).replace(".c", ".so"))
    subprocess.run(["cc", "-O2", "-shared", "-fPIC", "-o", shim, source, "-ldl"], check=True)
    return shim


def meddled(folder):
    """The library of meddle.c."""
    return built(MEDDLE, folder)
