"""`make bench`: runs all benchmarks of the proved programs, and prints each figure beside its bound. The last line says how many are
within; a figure past its bound is not a failure. Benchmarks over a file need the system's SQLite to compare with.

    python3 -m bench EDIHUB HUB_SCRIPT"""
import os
import subprocess
import sys
import tempfile

from bench import hub, opening, run, server, sql, store
from bench.figures import Figures

FOLDER = os.path.dirname(os.path.abspath(__file__))


def built(name, folder):
    """Builds a plain program."""
    program = os.path.join(folder, name)
    subprocess.run(["rustc", "--edition", "2021", "-O", "-o", program, os.path.join(FOLDER, f"{name}.rs")], check=True)
    return program


def has_sqlite(folder):
    empty = os.path.join(folder, "empty.rs")
    with open(empty, "w", encoding="ascii") as file:
        file.write("fn main() {}\n")
    command = ["rustc", "-l", "sqlite3", "-o", os.path.join(folder, "empty"), empty]
    return subprocess.run(command, capture_output=True, check=False).returncode == 0


def main(edihub, script):
    figures = Figures()
    with tempfile.TemporaryDirectory() as folder:
        run.main(figures, edihub, built("plain", folder), built("flat", folder))
        opening.main(figures, edihub)
        store.main(figures)
        hub.main(figures, script, built("hub", folder))
        if has_sqlite(folder):
            sql.main(figures, built("sql", folder), edihub)
            server.main(figures, built("server", folder), edihub)
        else:
            print("no SQLite library to compare with")
    figures.end()


if __name__ == "__main__":
    main(*sys.argv[1:])
