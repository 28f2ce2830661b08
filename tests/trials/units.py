"""The units for systemd in examples: systemd reads each of them, each service is hardened, and those of several hubs say the same as that
of one. Where systemd's tools are not installed only the last is tried."""
import os
import re
import shlex
import shutil
import subprocess
import tempfile
from glob import glob

from tests.harness.document_shell import text_of
from tests.harness.tree import EXAMPLES

# the most exposure of a service, in tenths, as `systemd-analyze security` reckons it; seconds past which a look hangs
MOST, SECONDS = 30, 120
TEMPLATES = (("backup", "edihub-backup"), ("front", "edihub-restart"))
UNITS = sorted(it for kind in ("service", "timer", "path") for it in glob(os.path.join(EXAMPLES, "*", f"*.{kind}")))


def looked_at(*words):
    ran = subprocess.run(["systemd-analyze", *words], stdout=subprocess.PIPE, stderr=subprocess.STDOUT, text=True, timeout=SECONDS)
    # programs that are not installed here
    return ran.returncode, "\n".join(it for it in ran.stdout.splitlines() if "is not executable" not in it)


def instances(folder):
    """The units in a folder, each template as its instance 1."""
    for path in UNITS:
        name = os.path.basename(path)
        shutil.copy(path, os.path.join(folder, name))
        if "@." in name:
            shutil.copy(path, os.path.join(folder, name.replace("@.", "@1.")))
    return [os.path.join(folder, os.path.basename(path).replace("@.", "@1.")) for path in UNITS]


def why_not(unit):
    """What systemd says against a unit, if anything."""
    said = looked_at("verify", unit)[1]
    if said:
        return f"{os.path.basename(unit)}: {said:.300}"
    if unit.endswith(".service"):
        status, said = looked_at("security", "--offline=true", f"--threshold={MOST}", unit)
        return f"{os.path.basename(unit)}: {said.splitlines()[-1]}" if status else None
    return None


def is_as_one(number):
    """Whether the unit of the hub of this number says the same as that of a hub alone, but for number, port and file."""
    one, text = (text_of(EXAMPLES, *it).partition("\n")[2] for it in (("front", "edihub.service"), ("hubs", f"edihub-{number}.service")))
    instead = {f"/edihub/{number}": "/edihub", f"hub {number}": "hub", f"--port 88{number}": "--port 880"}
    for place, words in instead.items():
        text = text.replace(place, words)
    return text == one


def is_as_template(folder, name):
    """Whether the template of a unit for several hubs says the same as the unit for one, but for the hub."""
    one, text = text_of(EXAMPLES, folder, f"{name}.service"), text_of(EXAMPLES, "hubs", f"{name}@.service")
    return one.partition("[Unit]")[2] == re.sub("[-/ ]%i", "", text).partition("[Unit]")[2]


def hubs_alike():
    """What is wrong with the units of several hubs, which say the same as those of one, if anything."""
    others = [f"edihub-{number}.service" for number in "123" if not is_as_one(number)]
    others += [f"{name}@.service" for folder, name in TEMPLATES if not is_as_template(folder, name)]
    return f"{others} say something else than the units of one hub" if others else None


def asked_of_systemctl(result, status):
    """What the hub's unit asks of `systemctl` after the hub has ended so, in systemd's words."""
    unit = text_of(EXAMPLES, "front", "edihub.service").replace("\\\n", "")
    command = re.search(r"^ExecStopPost=\+/bin/(.*)$", unit, re.MULTILINE)[1].replace("$$", "$").replace("%n", "edihub.service")
    with tempfile.TemporaryDirectory() as folder:
        with open(os.path.join(folder, "systemctl"), "w", encoding="ascii") as file:
            file.write('#!/bin/sh\necho "$@"\n')
        os.chmod(file.name, 0o755)
        variables = {"PATH": f"{folder}:/bin:/usr/bin", "SERVICE_RESULT": result, "EXIT_STATUS": status}
        return subprocess.run(shlex.split(command), env=variables, stdout=subprocess.PIPE, text=True, timeout=SECONDS).stdout


def alerts(_program):
    """What is wrong with the alert. It comes if the hub has ended by itself, but not at the end of its connections or if it was stopped."""
    alert = "start --no-block edihub-alert@edihub.service.service\n"
    silent = [("success", "0"), ("success", "TERM"), ("exit-code", "1")]
    told = [("exit-code", "3"), ("exit-code", "2"), ("signal", "KILL"), ("signal", "SEGV"), ("core-dump", "ABRT"), ("oom-kill", "KILL")]
    asked = {it: asked_of_systemctl(*it) for it in (*silent, *told)}
    return None if asked == {**dict.fromkeys(silent, ""), **dict.fromkeys(told, alert)} else f"after each end: {asked}"


def capabilities(*path):
    """The capabilities that a unit gives its process."""
    held = re.search("^AmbientCapabilities=(.*)$", text_of(EXAMPLES, *path), re.MULTILINE)
    return set(held[1].split()) if held else set()


def backup_may_look(_program):
    """What is wrong with the backup's capabilities. It finds out which process has the database file open, and Linux shows that only to one
    that has each capability of this process."""
    lacking = capabilities("front", "edihub.service") - capabilities("backup", "edihub-backup.service")
    return f"the backup lacks {sorted(lacking)}, which the hub has" if lacking else None


def read_by_systemd(_program):
    """What is wrong with a unit, if anything."""
    if not shutil.which("systemd-analyze"):
        print("no systemd-analyze, so no unit is looked at")
        return hubs_alike()
    with tempfile.TemporaryDirectory() as folder:
        return hubs_alike() or next((why for why in map(why_not, instances(folder)) if why), None)


TRIALS = [
    ("units for systemd", read_by_systemd),
    ("a backup that sees what the hub has open", backup_may_look),
    ("the alert of a hub that ended by itself", alerts),
]
