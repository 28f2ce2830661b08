"""Builds `edihub` or `trial_script` without any proof, which takes two to four minutes: the build that `make try` and `make case` use.

    python3 -m tests.unproved_build edihub | trial_script

The program is kept in crates/NAME/out/try, and made again once a crate has changed. `rt try` builds it and keeps nothing, so it is copied
while it runs. It checks each access as it runs, and is a hundred times slower than the proved one."""
import hashlib
import os
import shutil
import subprocess
import sys
import tempfile
import time
from dataclasses import dataclass, field
from glob import glob

from tests.harness.hub_scripts import ordered
from tests.harness.tree import OLDER_FILES, ROOT
from tests.harness.tree_copies import crates
from tests.wrong import Kept

# how often a script asks the same, so that the program runs for some seconds
OFTEN = 100_000


@dataclass
class Build:
    """A program, the words that a copy of it has to take, and how it is kept running for a while: its words and its standard input."""

    crate: str
    asked: list
    words: list
    script: object = bytes
    data: list = field(default_factory=list)

    def program(self):
        return os.path.join(ROOT, "crates", self.crate, "out", "try", self.crate)


# a hub that is served, and a script that asks for one list again and again
SERVED = os.path.join(OLDER_FILES, "schema2_received.db")
SERVE = ["serve", "--db", "hub.db", "--port", "8999", "--count", "1"]
EDIHUB = Build("edihub", ["--version"], SERVE, data=["--data", f"hub.db={SERVED}"])
SCRIPTS = Build("trial_script", [], [], lambda: ordered().list(0, (1, "ORDERS", "128576")).script + b"after 0\n" * OFTEN)

# the programs, by their crates
BUILDS = {build.crate: build for build in (EDIHUB, SCRIPTS)}


def sum_now(crate):
    """Returns a checksum of everything that the program is built from."""
    kept = Kept(crates(), [])
    return hashlib.sha256(repr((kept.texts(crate), kept.toolchain())).encode()).hexdigest()


def is_built(program, wanted):
    if not os.path.isfile(program) or not os.path.isfile(f"{program}.sum"):
        return False
    with open(f"{program}.sum", encoding="ascii") as file:
        return file.read() == wanted


def is_copied(build, folder):
    """Whether the program has been linked in the folder, and a copy of it runs."""
    for program in glob(os.path.join(folder, "**", "program"), recursive=True):
        try:
            shutil.copyfile(program, build.program())
            os.chmod(build.program(), 0o755)
            ran = subprocess.run([build.program(), *build.asked], stdin=subprocess.DEVNULL, capture_output=True, check=False)
            return not ran.returncode
        except OSError:
            # it is not whole yet, or gone already
            pass
    return False


def make(build):
    """Builds the program. Returns why that failed, or nothing."""
    os.makedirs(os.path.dirname(build.program()), exist_ok=True)
    with tempfile.TemporaryDirectory() as folder, tempfile.TemporaryFile() as log, tempfile.TemporaryFile() as script:
        script.write(build.script())
        script.seek(0)
        command = ["rt", "try", *build.data, "--", *build.words]
        where, variables = os.path.join(ROOT, "crates", build.crate), {**os.environ, "TMPDIR": folder}
        child = subprocess.Popen(command, cwd=where, env=variables, stdin=script, stdout=log, stderr=log)
        while child.poll() is None:
            if is_copied(build, folder):
                child.terminate()
                child.wait()
                return ""
            time.sleep(0.1)
        log.seek(0)
        return log.read().decode(errors="replace")[-3000:]


def built(build):
    """Builds the program, unless it is there and no crate has changed since. Returns why that failed, or nothing."""
    wanted = sum_now(build.crate)
    if is_built(build.program(), wanted):
        return ""
    print(f"building {build.crate} without any proof, some minutes", flush=True)
    why = make(build)
    if not why:
        with open(f"{build.program()}.sum", "w", encoding="ascii") as file:
            file.write(wanted)
    return why


def main(words):
    if len(words) != 1 or words[0] not in BUILDS:
        print(f"usage: python3 -m tests.unproved_build {' | '.join(BUILDS)}")
        return 2
    build = BUILDS[words[0]]
    why = built(build)
    print(why or os.path.relpath(build.program(), ROOT))
    return 1 if why else 0


if __name__ == "__main__":
    try:
        sys.exit(main(sys.argv[1:]))
    except KeyboardInterrupt:
        sys.exit(130)
