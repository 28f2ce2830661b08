#!/usr/bin/env python3
"""Checks that hubs side by side are apart: no supplier is in two of them, and no company prefix in one begins a prefix in another.

    python3 apart.py register-1.toml register-2.toml register-3.toml

Each file is a register; or a hub's database file that no program has open, such as a backup: in that stand those too who joined
later. It prints `ok 3 hubs, 10 suppliers`, status 0; or a line for each fault, with the names of both files, status 1. What is wrong
in one file by itself, such as two of its suppliers whose prefixes overlap, is for `edihub check` to say."""
import os
import shutil
import sqlite3
import sys
import tempfile
import tomllib


class Hub:
    """The parties in a file: the GLNs of the hub and of the retailer, and the prefixes of each supplier by its GLN."""

    def __init__(self, name):
        self.name = name
        with open(name, "rb") as file:
            data = file.read(16)
        self.hub, self.retailer, self.suppliers = from_database(name) if data == b"SQLite format 3\0" else from_register(name)


def from_register(name):
    with open(name, "rb") as file:
        text = tomllib.load(file)
    suppliers = {it["gln"]: [it["prefix"]] if isinstance(it["prefix"], str) else it["prefix"] for it in text.get("supplier", [])}
    return text["hub"], text["retailer"]["gln"], suppliers


def from_database(name):
    """Returns the parties of a database file. It opens a copy, so that the file and the log beside it stay as they are."""
    with tempfile.TemporaryDirectory() as folder:
        copy = shutil.copy(name, os.path.join(folder, "hub.db"))
        if os.path.exists(f"{name}-wal"):
            shutil.copy(f"{name}-wal", f"{copy}-wal")
        base = sqlite3.connect(copy)
        hub, retailer = base.execute("SELECT CAST(hub AS TEXT), CAST(retailer AS TEXT) FROM hub").fetchone()
        suppliers = {gln: [] for (gln,) in base.execute("SELECT CAST(supplier AS TEXT) FROM supplier")}
        for gln, prefix in base.execute("SELECT CAST(supplier AS TEXT), CAST(prefix AS TEXT) FROM prefix"):
            suppliers[gln].append(prefix)
        base.close()
    return hub, retailer, suppliers


def glns_twice(hubs):
    """Returns a line for each GLN that is in two hubs, other than as the hub in both or as the retailer in both."""
    seen = {}
    for hub in hubs:
        for gln, role in ((hub.hub, "hub"), (hub.retailer, "retailer"), *((gln, "supplier") for gln in hub.suppliers)):
            other, its_role = seen.setdefault(gln, (hub, role))
            if other is not hub and (role == "supplier" or role != its_role):
                yield f"fault twice {gln} {other.name} {hub.name}"


def prefixes_overlap(hubs):
    """Returns a line for each two prefixes in two hubs of which one begins the other."""
    prefixes = sorted((prefix, place, gln) for place, hub in enumerate(hubs) for gln, its in hub.suppliers.items() for prefix in its)
    for at, (prefix, place, gln) in enumerate(prefixes):
        for longer, other, whose in prefixes[at + 1 :]:
            if not longer.startswith(prefix):
                break
            if other != place:
                yield f"fault overlap {prefix} of {gln} {hubs[place].name} and {longer} of {whose} {hubs[other].name}"


def main(names):
    if not names:
        print(__doc__)
        return 2
    hubs = []
    for name in names:
        try:
            hubs.append(Hub(name))
        except (OSError, ValueError, KeyError, TypeError, sqlite3.Error) as why:
            print(f"{name} is no register and no hub's database: {type(why).__name__}: {why}")
            return 3
    faults = [*glns_twice(hubs), *prefixes_overlap(hubs)]
    for line in faults:
        print(line)
    if not faults:
        print(f"ok {len(hubs)} hubs, {sum(len(hub.suppliers) for hub in hubs)} suppliers")
    return 1 if faults else 0


if __name__ == "__main__":
    sys.exit(main(sys.argv[1:]))
