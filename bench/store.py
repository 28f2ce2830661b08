"""Times each look-up of a store of plain lists over 10 rows of each kind and over 100,000, and prints the least of several measurements
of each, and the ratio. The program, store.rt.in, is proved and built in a folder of its own, over copies of the crates with what earlier
checks kept, because the gate would take an .rt file here for a crate's."""
import os
import re
import shutil
import subprocess
import sys
import tempfile

from bench.figures import Figures
from tests.harness.tree import ROOT

NEEDS = (
    "edi_base edi_segments edi_tokens edi_moment edi_envelope gs1_ids hub_parties "
    "hub_register hub_tables hub_founding hub_store trial_rows trial_lists"
).split()
MOST_GROWTH = 5
LINE = re.compile(r"^(over|\w[^:]*:) (\d+)$", re.M)


def build(folder):
    """A repository of the crates that the program needs, and the program."""
    with open(os.path.join(ROOT, "crates.txt"), encoding="utf-8") as lines:
        needed = [line for line in lines if line.partition(":")[0] in NEEDS]
    for name in NEEDS:
        shutil.copytree(os.path.join(ROOT, "crates", name), os.path.join(folder, "crates", name))
    program = os.path.join(folder, "crates", "bench_store")
    os.makedirs(os.path.join(program, "src"))
    shutil.copy(os.path.join(ROOT, "bench", "store.rt.in"), os.path.join(program, "src", "main.rt"))
    with open(os.path.join(folder, "crates.txt"), "w", encoding="utf-8") as target:
        target.writelines([*needed, "bench_store: " + " ".join(NEEDS) + "\n"])
    return program


def main(figures):
    with tempfile.TemporaryDirectory() as folder:
        done = subprocess.run(["rt", "run"], cwd=build(folder), capture_output=True, text=True)
    least, rows = {}, None
    for name, number in LINE.findall(done.stdout):
        if name == "over":
            rows = least.setdefault(int(number), {})
        else:
            rows[name] = min(int(number) / 10, rows.get(name, float("inf")))
    few, many = least.get(10, {}), least.get(100_000, {})
    if done.returncode or not many:
        sys.exit(done.stdout + done.stderr)
    for name, spent in many.items():
        print(f"{name} {few[name]:.0f} ns, over 100,000 rows {spent:.0f} ns")
        figures.tell(f"look-up, {name.rstrip(':')}: times that over 10 rows", spent / max(few[name], 0.1), MOST_GROWTH, digits=1)


if __name__ == "__main__":
    told = Figures()
    main(told)
    told.end()
