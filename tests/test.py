"""`make test`. First checks what takes seconds: that each file of a crate is in the toolchain's layout (layout.py), each public function
has a wrong body (untried.py), the tables in code are those of the definition (schema.py), and each code means the same everywhere
(codes.py).
Then runs the gate (rt ci), and the cases and trials named in PROGRAMS and TRIALS on the programs that the gate built. At the end it
prints again what failed, as it may stand far above, and the processor time of each crate. The last line is `N passed, M failed` over
everything.

`--alone` leaves out the gate and uses the programs that are there. `--anew` reuses nothing that an earlier gate proved.

    python3 -m tests.test [--alone | --anew]"""
import contextlib
import io
import os
import re
import resource
import subprocess
import sys
import tempfile
from concurrent.futures import ThreadPoolExecutor
from dataclasses import dataclass, field

from tests import codes, layout, schema, untried
from tests.cases import calls, corrections, hub_commands, hub_files, hub_rules, joins, limits, older_files
from tests.cases import order_of_rules, verify, without_hub
from tests.harness import processor_time
from tests.harness.case import SECONDS
from tests.harness.prover_environment import prover_environment
from tests.harness.tree import ROOT
from tests.trials import changed_keys, connections, disturbed_commands, documents, failing_openings, files_brought_over, folder_feeding
from tests.trials import heads, journal, kept_orders, lines_of_status_3, random_runs, refused_in_scripts, scripts_on_files
from tests.trials import served_limits, serving, stopped_commands, stopped_machine, units, verified_files


def built(crate):
    """Returns the path at which the gate leaves a crate's program."""
    return os.path.join(ROOT, "crates", crate, "out", crate)


# each program, and its cases
PROGRAMS = [
    (built("edirelay"), without_hub.RELAY_ALONE),
    (
        built("edihub"),
        without_hub.CASES + hub_commands.COMMANDS + hub_files.OPENED + older_files.MIGRATIONS + verify.VERIFIED + limits.LIMITS,
    ),
    (
        built("trial_script"),
        hub_rules.HUBS + hub_rules.OVER_SQL + order_of_rules.ORDER + joins.JOINS + corrections.CORRECTIONS + calls.CALLS,
    ),
]

OF_EDIHUB = (
    changed_keys,
    disturbed_commands,
    stopped_commands,
    failing_openings,
    files_brought_over,
    verified_files,
    lines_of_status_3,
    documents,
    serving,
    connections,
    heads,
    served_limits,
    scripts_on_files,
    journal,
    folder_feeding,
    units,
)
# trials, which try a program many times over; each returns what is wrong, if anything
TRIALS = [
    *(
        (built("edihub"), *trial)
        for of_file in OF_EDIHUB
        for trial in of_file.TRIALS
    ),
    (built("trial_script"), "made runs", random_runs.made_runs),
    (built("trial_script"), "messages together and alone", kept_orders.kept_orders),
    (built("trial_script"), "a machine that stops", stopped_machine.machine),
    (built("trial_script"), "a machine that stops while a file of schema 1 is brought over", stopped_machine.migrations),
    (built("edihub"), "made runs on files", lambda program: random_runs.runs_on_files(program, built("trial_script"))),
    (built("edihub"), "messages together on files", lambda program: kept_orders.kept_on_files(program, built("trial_script"))),
    (built("trial_script"), "allocations refused in turn", refused_in_scripts.refusals),
]


# what the gate says of a crate, a test or an edit that is not as it has to be
OF_GATE = re.compile(r"NOT PROVED|FAILED|NOT REFUSED|NOT TRIED|BAD EDIT|had not ended|was stopped by signal|ended with status|they differ")
# as many of the failures are printed again, and as much of each
AGAIN, WIDTH = 10, 200


@dataclass
class Count:
    """How many passed, and a line for each that failed."""

    passed: int = 0
    failures: list = field(default_factory=list)

    def add(self, other):
        self.passed += other.passed
        self.failures += other.failures

    def tell(self, line):
        """Prints why something failed, and keeps it."""
        print(line, flush=True)
        self.failures.append(line)


def gate(words):
    """Runs rt ci and passes its output on. Returns what it counted, and lines that tell the processor time of each crate."""
    for program, _ in PROGRAMS:
        if os.path.isfile(program):
            os.remove(program)
    # a kit whose gate never reuses proofs has no such word
    words = [it for it in words if it in subprocess.run(["rt", "help"], stdout=subprocess.PIPE, text=True, errors="replace").stdout]
    with prover_environment() as environment:
        how = {"cwd": ROOT, "env": environment, "stdout": subprocess.PIPE, "text": True, "errors": "replace"}
        try:
            child = subprocess.Popen(["rt", "ci", *words], **how)
        except OSError as why:
            count = Count()
            count.tell(f"rt ci cannot be run: {why}")
            return count, []
        return follow(child)


def follow(child):
    """Passes on the output of rt ci until it ends. Returns what `gate` returns."""
    count, taken, failed, told = Count(), processor_time.Spent(child.pid), 0, []
    for line in child.stdout:
        found = re.fullmatch(r"(\d+) passed, (\d+) failed\n?", line)
        if found:
            count.passed, failed = int(found[1]), int(found[2])
        else:
            print(line, end="", flush=True)
            told += [line.rstrip("\n")] if OF_GATE.search(line) else []
    if child.wait() or not count.passed:
        failed = failed or 1
    # as many lines as rt ci counted failures
    if failed:
        count.failures = (told + [f"rt ci failed, {failed} in all"] * failed)[:failed]
    return count, list(processor_time.printed(*taken.end()))


def before_the_gate():
    """Checks what takes seconds, each as a count of one: the gate itself would tell the first an hour later."""
    count = Count()
    for what, wrong_in in (
        ("a file is not in the toolchain's layout", lambda: layout.main([])),
        ("a public function has no wrong body and no reason why not", untried.main),
        ("a table in code is not that of the definition", lambda: schema.main([])),
        ("a code means different things in different places", lambda: codes.main([])),
    ):
        with contextlib.redirect_stdout(io.StringIO()) as said:
            is_wrong = wrong_in()
        print(said.getvalue(), end="", flush=True)
        if is_wrong:
            count.tell(f"{what}: {said.getvalue().partition(chr(10))[0]}")
        else:
            count.passed += 1
    return count


def run(program, case, folder):
    """Runs a case. Returns why it fails, or nothing."""
    for name, data in case.files.items():
        path = os.path.join(os.fsencode(folder), os.fsencode(name))
        os.makedirs(os.path.dirname(path), exist_ok=True)
        with open(path, "wb") as file:
            file.write(data)
    with tempfile.TemporaryFile() as source:
        source.write(case.input)
        source.seek(0)
        how = {"stdin": source, "stdout": subprocess.PIPE, "stderr": subprocess.PIPE}
        if case.output_to:
            how["stdout"] = open(case.output_to, "wb")
        if case.input_is_folder:
            how["stdin"] = os.open(folder, os.O_RDONLY)
        if case.memory:
            how["preexec_fn"] = lambda: resource.setrlimit(resource.RLIMIT_AS, (case.memory, case.memory))
        try:
            ran = subprocess.run([program, *case.words], cwd=folder, timeout=SECONDS, **how)
        except subprocess.TimeoutExpired:
            return f"no end in {SECONDS} seconds"
    for what, found, wanted in (
        ("status", ran.returncode, case.status), ("output", ran.stdout or b"", case.output), ("error", ran.stderr, case.error)
    ):
        if callable(wanted) and not wanted(found) or not callable(wanted) and found != wanted:
            return f"{what} is {found!r:.300}" + ("" if callable(wanted) else f", not {wanted!r:.300}")
    why = case.after(folder) if case.after else None
    for step in case.then:
        why = why or run(program, step, folder)
    return why


def program_cases(program, of_program):
    """Runs the cases of a program side by side, each in a folder of its own."""
    count = Count()
    if not os.path.isfile(program):
        count.tell(f"{os.path.basename(program)} was not built, so none of its cases was run")
        return count

    def tried(case):
        with tempfile.TemporaryDirectory() as folder:
            return run(program, case, folder)

    with ThreadPoolExecutor(len(os.sched_getaffinity(0))) as pool:
        whys = list(pool.map(tried, of_program))
    for case, why in zip(of_program, whys):
        if why:
            count.tell(f"case '{case.name}' failed: {why}")
    count.passed = sum(not it for it in whys)
    return count


def program_trials():
    """Runs the trials, one after the other."""
    count = Count()
    for program, name, trial in TRIALS:
        why = trial(program) if os.path.isfile(program) else "the program was not built"
        if why:
            count.tell(f"{name}: {why}")
        else:
            count.passed += 1
    return count


def main(words):
    if words not in ([], ["--alone"], ["--anew"]):
        print("usage: python3 -m tests.test [--alone | --anew]")
        return 2
    count, costs = before_the_gate(), []
    if words != ["--alone"]:
        of_gate, costs = gate(words)
        count.add(of_gate)
    for program, of_program in PROGRAMS:
        count.add(program_cases(program, of_program))
    count.add(program_trials())
    spent = resource.getrusage(resource.RUSAGE_CHILDREN)
    for line in count.failures[:AGAIN]:
        print(f"failed: {line:.{WIDTH}}")
    print(*costs, f"processor time: {(spent.ru_utime + spent.ru_stime) / 60:.1f} minutes", sep="\n")
    print(f"{count.passed} passed, {len(count.failures)} failed")
    return 1 if count.failures else 0


if __name__ == "__main__":
    sys.exit(main(sys.argv[1:]))
