"""Measures what a command over files of about these sizes costs beside the database's own opening of them: processor time and memory,
and instructions if valgrind is there.

    python3 -m bench.opening EDIHUB [MB ..]"""
import os
import re
import shutil
import subprocess
import sys
import tempfile

from bench.figures import Figures
from bench.hub import order
from bench.sql import timed
from tests.harness.hub_scripts import MOMENT, interchange
from tests.harness.register_texts import ALPHA, BETA, RETAILER, register

# times of the database's own opening
MOST = 1.1
# what an upload of 999 orders of ten lines adds to a file, in MB
UPLOAD = 2.2
# the function in which the database opens a file
OWN = "hub_sql::file::open_file"


def file_of(edihub, size, folder):
    """A hub's file with orders."""
    os.mkdir(os.path.join(folder, "in"))
    for k in range(round(size / UPLOAD)):
        orders = (order(it + 1, f"{k:03}{it:05}", 10) for it in range(999))
        with open(os.path.join(folder, "in", f"{k:03}.edi"), "w", encoding="ascii") as file:
            file.write(interchange(RETAILER, f"U{k}", *orders))
    with open(os.path.join(folder, "register.toml"), "w", encoding="ascii") as file:
        file.write(register((ALPHA, "40123455", "alpha-key-1"), (BETA, "8712345", "beta-key-1")))
    told = {"cwd": folder, "check": True, "stdout": subprocess.DEVNULL}
    subprocess.run([edihub, "init", "--register", "register.toml", "--db", "hub.db"], **told)
    subprocess.run([edihub, "import", "--db", "hub.db", "--as", RETAILER, "--key", "retail-key", "--folder", "in"], **told)


def instructions(words, folder):
    """Of the whole command, and of the database's own opening within."""
    counted = ["valgrind", "--tool=callgrind", "--callgrind-out-file=counted", *words]
    subprocess.run(counted, cwd=folder, check=True, stdout=subprocess.DEVNULL, stderr=subprocess.DEVNULL)
    told = subprocess.run(
        ["callgrind_annotate", "--inclusive=yes", "counted"], cwd=folder, check=True, stdout=subprocess.PIPE, text=True
    ).stdout
    lines = [(int(found[1].replace(",", "")), found[2]) for found in re.finditer(r"^ *([\d,]+) \([ \d.]+%\) +(.*)$", told, re.MULTILINE)]
    return tuple(next(count for count, name in lines if wanted in name) for wanted in ("PROGRAM TOTALS", OWN))


def main(figures, edihub, *sizes):
    edihub = os.path.abspath(edihub)
    for size in map(int, sizes or ["15"]):
        with tempfile.TemporaryDirectory() as folder:
            file_of(edihub, size, folder)
            # a list of entries above the last one
            words = [edihub, "mail", "--db", "hub.db", "--as", BETA, "--key", "beta-key-1", "--moment", MOMENT, "--do", "after", "--n", "0"]
            time, memory, _ = timed(words, folder)
            size = f"{os.path.getsize(os.path.join(folder, 'hub.db')) / 1e6:.0f} MB"
            print(f"{size}: {time:.2f} s of processor time, {memory:.0f} MB of memory", flush=True)
            if shutil.which("valgrind"):
                whole, own = instructions(words, folder)
                print(f"{size}: {whole / 1e9:.2f} thousand million instructions", flush=True)
                figures.tell(f"opening {size}: times the database's own opening", whole / own, MOST, digits=3)


if __name__ == "__main__":
    told = Figures()
    main(told, *sys.argv[1:])
    told.end()
