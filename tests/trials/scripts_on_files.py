"""The scripts of `trial_script`, played on the built `edihub` with its hub in a file, over HTTP and by commands (played_scripts.py): the
replies are those of the cases over lists and over SQL in memory, and the file then has the rows that it should have."""
import os
import subprocess
from concurrent.futures import ThreadPoolExecutor

from tests.cases import corrections, hub_files, hub_rules, order_of_rules
from tests.harness.database_files import is_whole
from tests.harness.played_scripts import is_played, wrong

# how many scripts there are at least
FEWEST = 80


def scripts():
    """Each script with its name, what it prints, the file that it begins with, if any, and what looks at the file then."""
    for case in hub_rules.HUBS:
        if not case.status and is_played(case.input):
            yield case.name, case.input, case.output, {}, is_whole
    for name, play, files, after in (*hub_files.ON_FILES, *order_of_rules.ON_FILES, *corrections.ON_FILES):
        yield name, play.script, play.printed, files, after


def tried(program, name, *script):
    try:
        why = wrong(program, *script)
    except (OSError, subprocess.SubprocessError) as other:
        why = f"{type(other).__name__}: {other}"
    return f"{name}: {why}" if why else None


def on_files(program):
    """What is wrong where a script is played on a file, if anything."""
    asked = list(scripts())
    with ThreadPoolExecutor(len(os.sched_getaffinity(0))) as pool:
        found = [why for why in pool.map(lambda it: tried(program, *it), asked) if why]
    if found or len(asked) < FEWEST:
        return f"{len(found)} of {len(asked)} scripts, first {found[:1]}"
    print(f"{len(asked)} scripts played on files")
    return None


TRIALS = [("scripts on files", on_files)]
