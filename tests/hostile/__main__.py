"""`make hostile`: tries what kills, starves or damages the built program, for minutes. A trial prints what it tried, and then what is
wrong, if anything; the last line is `N passed, M failed`. Names after the programs choose trials.

    python3 -m tests.hostile crates/edihub/out/edihub crates/trial_script/out/trial_script [TRIAL..]"""
import os
import sys
import tempfile

from tests.hostile import copied_files, damaged_files, failing_backups, full_disks, killed_programs, little_memory, refused_memory
from tests.trials.refused_in_calls import calls_refused

# what is tried on the program
TRIALS = (
    damaged_files.files_damaged,
    full_disks.disks_full,
    full_disks.served_on_full_disks,
    full_disks.migrations_on_full_disks,
    refused_memory.founding_refused,
    refused_memory.migration_refused,
    refused_memory.memory_refused,
    refused_memory.serving_refused,
    little_memory.listed_in_little,
    killed_programs.foundings_killed,
    killed_programs.migrations_killed,
    killed_programs.imports_killed,
    killed_programs.servers_killed,
    copied_files.imports_copied,
    copied_files.servers_copied,
    *failing_backups.TRIALS,
)
# and on the program that plays scripts and tests calls
OF_SCRIPTS = (refused_memory.script_refused, calls_refused)


def main(program, scripts, *names):
    """Runs the trials of these names, or all of them. Returns the exit status."""
    failed = 0
    pairs = [*((program, trial) for trial in TRIALS), *((scripts, trial) for trial in OF_SCRIPTS)]
    trials = [(os.path.abspath(it), trial) for it, trial in pairs if not names or trial.__name__ in names]
    for it, trial in trials:
        with tempfile.TemporaryDirectory() as top:
            why = trial(it, top)
        if why:
            failed += 1
            print(f"{trial.__name__}: {why}", flush=True)
    print(f"{len(trials) - failed} passed, {failed} failed")
    return 1 if failed else 0


if __name__ == "__main__":
    sys.exit(main(*sys.argv[1:]))
