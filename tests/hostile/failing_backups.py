"""Backups that fail, by the script of examples/backup: the process ends or goes on while it is copied, two backups come at once, the disk
is full, the script is ended, or what it is given is not a hub's file. Each ends within a bounded time; it leaves no copy unless it ends
with status 0, deletes no older one, and the process goes on.

In the place of a hub stands a process that writes the same number into the file and then into the log, again and again, so a copy of two
moments has two numbers. Programs that the script calls are replaced by others that are slow or fail."""
import os
import shutil
import signal
import subprocess
import sys
import tempfile
import time

from tests.harness.database_files import NAME
from tests.harness.servers import Server
from tests.hostile.copied_files import BACKUP, WARNING, with_program
from tests.hostile.shared import put

# seconds past which a backup hangs; the script gives a copy 40
LONGEST = 60
# a file system that is not that of temporary files on most machines
OTHER_DISK = "/dev/shm" if os.path.isdir("/dev/shm") else None
LOG = f"{NAME}-wal"
# writes a number into both files, and counts how often it was told to go on
WRITER = """
import os, signal, sys, time
told = []
signal.signal(signal.SIGCONT, lambda *_: told.append(1))
signal.signal(signal.SIGTERM, lambda *_: sys.exit(len(told)))
files = [open(name, "wb", buffering=0) for name in sys.argv[1:]]
number = 0
print("ready", flush=True)
while True:
    number += 1
    for file in files:
        os.pwrite(file.fileno(), b"%020d" % number, 0)
    time.sleep(0.001)
"""
# what takes the place of a program: `PID` is the process that is copied, `REAL` the program itself
SLOW_CP = """case $1 in -R) exec REAL "$@" ;; -P) shift ;; esac
for last; do :; done
for one; do [ "$one" = "$last" ] || { REAL "$one" "$last"; sleep 0.5; }; done"""
STATE = "sed -n 's/^State:[[:space:]]*\\(.\\).*/\\1/p' /proc/PID/status >> STATES"


class Stage:
    """A process that writes, a folder for copies, and programs in the place of those that the script calls."""

    def __init__(self, top, **instead):
        self.folder = tempfile.mkdtemp(dir=top)
        self.copies, self.programs = (os.path.join(self.folder, it) for it in ("copies", "programs"))
        self.file, self.states = os.path.join(self.folder, "data", NAME), os.path.join(self.folder, "states")
        for it in (self.copies, self.programs, os.path.dirname(self.file)):
            os.mkdir(it)
        self.child = subprocess.Popen([sys.executable, "-c", WRITER, self.file, f"{self.file}-wal"], stdout=subprocess.PIPE)
        self.child.stdout.readline()
        for name, text in {"edihub": "echo ok", **instead}.items():
            self.put(name, text)

    def put(self, name, text):
        for place, words in (("PID", str(self.child.pid)), ("REAL", shutil.which(name) or ""), ("STATES", self.states)):
            text = text.replace(place, words)
        path = os.path.join(self.programs, name)
        with open(path, "w", encoding="ascii") as file:
            file.write(f"#!/bin/sh\n{text}\n")
        os.chmod(path, 0o755)

    def begun(self, pid=None, file=None, copies=None, more=(), **how):
        """A backup that has begun."""
        words = ["sh", BACKUP, str(pid or self.child.pid), file or self.file, copies or self.copies, *more]
        env = {**os.environ, "PATH": f"{self.programs}:{os.environ['PATH']}"}
        how = {"stdout": subprocess.PIPE, "stderr": subprocess.PIPE, "text": True, "env": env, "start_new_session": True, **how}
        return subprocess.Popen(words, **how)

    def backed_up(self, *of, **how):
        """The status of a backup, and what it says."""
        return ended(self.begun(*of, **how))

    def wrong(self):
        """What is wrong with the process and the copies, if anything."""
        state = state_of(self.child.pid)
        if state not in "RS":
            return f"the process is left in state {state}"
        left = [it for it in os.listdir(self.copies) if not it.endswith("Z")]
        if left:
            return f"{left} is left"
        numbers = [numbers_of(os.path.join(self.copies, it)) for it in os.listdir(self.copies)]
        return next((f"a copy is of two moments: {it}" for it in numbers if it[0] - it[1] not in (0, 1)), None)

    def noted(self):
        """The states in which the process was when a program was called."""
        if not os.path.exists(self.states):
            return ""
        with open(self.states, encoding="ascii") as file:
            return file.read().replace("\n", "")

    def end(self):
        """How often the process was told to go on."""
        self.child.terminate()
        self.child.communicate(timeout=LONGEST)
        return self.child.returncode

    def __enter__(self):
        return self

    def __exit__(self, *_):
        self.child.kill()
        self.child.communicate()


def ended(child):
    """The status of a backup and what it says on standard error; `late` if it hangs."""
    try:
        error = child.communicate(timeout=LONGEST)[1]
        return child.returncode, "".join(it for it in error.splitlines(True) if WARNING not in it)
    except subprocess.TimeoutExpired:
        os.killpg(child.pid, signal.SIGKILL)
        child.communicate()
        return "late", ""


def state_of(pid):
    with open(f"/proc/{pid}/stat", encoding="ascii", errors="replace") as file:
        return file.read().rpartition(") ")[2][0]


def numbers_of(copy):
    """The numbers in the two files of a copy."""
    found = []
    for name in (NAME, LOG):
        with open(os.path.join(copy, name), "rb") as file:
            found.append(int(file.read()))
    return found


def fails(stage, says, *of, **how):
    """What is wrong with a backup that has to fail in these words and to leave nothing, if anything."""
    status, error = stage.backed_up(*of, **how)
    if status in (0, "late") or says not in error:
        return f"the backup ends with {status}, {error!r:.300}"
    return stage.wrong() or (f"{os.listdir(stage.copies)} is copied" if os.listdir(stage.copies) else None)


def ended_processes(_program, top):
    """A process that has ended, but whose parent has not looked; and one that is killed once it is copied."""
    with Stage(top) as stage:
        stage.child.send_signal(signal.SIGKILL)
        os.waitid(os.P_PID, stage.child.pid, os.WEXITED | os.WNOWAIT)
        status, error = stage.backed_up()
        if status in (0, "late") or os.listdir(stage.copies):
            return f"of a process that ended: {status}, {error!r:.300}"
    with Stage(top, cp='REAL "$@"; kill -KILL PID') as stage:
        status, error = stage.backed_up()
        if status in (0, "late") or os.listdir(stage.copies):
            return f"of a process that ends meanwhile: {status}, {error!r:.300}"
    return None


def resumed_processes(_program, top):
    """A process that somebody lets go on while it is copied, and perhaps halts again."""
    for after in ("kill -CONT PID", "kill -CONT PID; sleep 0.2; kill -STOP PID"):
        with Stage(top, cp=f'REAL "$@"; {after}') as stage:
            why = fails(stage, "did not stay halted")
        if why:
            return f"with {after}: {why}"
    return None


def two_backups(top, *folders):
    """What is wrong with two backups into these folders, of which one begins while the other copies, if anything."""
    with Stage(top, cp=SLOW_CP) as stage:
        os.mkdir(os.path.join(stage.folder, "others"))
        first, second = (os.path.join(stage.folder, it) for it in folders)
        both = [stage.begun(copies=first)]
        time.sleep(0.7)
        both.append(stage.begun(copies=second))
        found = [ended(it) for it in both]
        if first != second:
            os.rename(os.path.join(second, os.listdir(second)[0]), os.path.join(first, "secondZ"))
        return stage.wrong() or (None if found == [(0, "")] * 2 and len(os.listdir(first)) == 2 else f"{folders}: they end with {found}")


def backups_at_once(_program, top):
    """Two backups at once, into one folder and into two."""
    return two_backups(top, "copies", "copies") or two_backups(top, "copies", "others")


def disks_filled(_program, top):
    """A disk that is full in the midst of a copy, which is deleted before the process goes on; and one that has little room, for which
    the process is not halted at all."""
    with Stage(top, cp='REAL "$@"; exit 1', rm=f'{STATE}; exec REAL "$@"') as stage:
        why = fails(stage, "")
        if why or not stage.noted().endswith("T"):
            return why or f"the process is in state {stage.noted()} when its copy is deleted"
    little = 'echo "Filesystem 1024-blocks Used Available Capacity Mounted"; echo "some 9999 8999 1000 90% /"'
    with Stage(top, df=little) as stage:
        why = fails(stage, "KiB free")
        told = stage.end()
        return why or (f"it was told to go on {told} times" if told else None)


def hanging_disks(_program, top):
    """A copy that does not end."""
    with Stage(top, cp="exec sleep 300") as stage:
        begun = time.monotonic()
        why = fails(stage, "no copy of")
        return why or (None if time.monotonic() - begun < LONGEST else "it takes too long")


def scripts_ended(_program, top):
    """A script that is ended in the midst of a copy, and one that is killed, after which the next one makes its copy."""
    with Stage(top, cp=SLOW_CP) as stage:
        child = stage.begun()
        time.sleep(0.7)
        os.killpg(child.pid, signal.SIGTERM)
        status = ended(child)[0]
        why = stage.wrong()
        if why or not status or os.listdir(stage.copies):
            return why or f"ended, it ends with {status} and leaves {os.listdir(stage.copies)}"
        child = stage.begun()
        time.sleep(0.7)
        os.killpg(child.pid, signal.SIGKILL)
        child.communicate()
        if state_of(stage.child.pid) != "T":
            return "the script was not killed in the midst"
        found = stage.backed_up()
        return stage.wrong() or (None if found == (0, "") and len(os.listdir(stage.copies)) == 1 else f"the next one ends with {found}")


def wrong_words(_program, top):
    """What is not a hub's file, its process or a folder for copies: the process is left alone."""
    with Stage(top) as stage:
        made = {it: os.path.join(stage.folder, it) for it in ("link", "pipe", "other", "plain")}
        os.symlink(stage.file, made["link"])
        os.mkfifo(made["pipe"])
        for name in ("other", "plain"):
            with open(made[name], "wb") as file:
                file.write(b"1")
        os.symlink(stage.file, made["other"] + "-wal")
        cases = [({"file": made["link"]}, "not a file"), ({"file": made["pipe"]}, "not a file"), ({"file": made["other"]}, "not a file")]
        cases += [({"file": os.path.join(stage.folder, "none")}, "not a file"), ({"file": made["plain"]}, "have")]
        cases += [({"pid": os.getpid()}, "have"), ({"pid": "-1"}, "number"), ({"pid": "0"}, "number"), ({"pid": "1"}, "number")]
        cases += [({"copies": made["plain"]}, "not a folder"), ({"copies": os.path.dirname(stage.file)}, "folder of their own")]
        cases += [({"more": ["0"]}, "copies"), ({"more": ["x"]}, "copies"), ({"more": ["1", "2"]}, "usage")]
        if os.getuid() == 0:
            cases.append(({"user": 65534, "cwd": "/"}, ""))
        for how, says in cases:
            why = fails(stage, says, **how)
            if why:
                return f"{how}: {why}"
        told = stage.end()
    return f"it was told to go on {told} times" if told else None


def older_copies(_program, top):
    """Copies that are kept: the last of them, and all if the new one cannot be opened."""
    old = [f"2020010{k}T000000.000000000Z" for k in range(1, 5)]
    with Stage(top) as stage:
        copied_to(stage, *old)
        for answer, status in (("echo ok", 0), ("echo 'unsound hub'; exit 1", 1), ("echo 'store disk' >&2; exit 3", 1), ("exit 0", 1)):
            stage.put("edihub", answer)
            before = set(os.listdir(stage.copies))
            found, here = stage.backed_up(more=["3"])[0], set(os.listdir(stage.copies))
            if found != status or not set(old[2:]) <= here or len(here) != 3 or status and here != before:
                return f"with {answer}: {found}, {sorted(here)}"
        return stage.wrong()


def clocks_set_back(_program, top):
    """A new copy whose name comes before those of older ones."""
    with Stage(top) as stage:
        copied_to(stage, *(f"2099010{k}T000000.000000000Z" for k in range(1, 4)))
        child = stage.begun(more=["3"])
        made = child.stdout.readline().strip()
        if ended(child)[0] or not os.path.isdir(made):
            return "the new copy is deleted"
        return stage.wrong()


def copied_to(stage, *names):
    """Puts copies of these names among the older ones."""
    for path in (os.path.join(name, it) for name in names for it in (NAME, LOG)):
        put(stage.copies, {path: "1"})


def damaged_hubs(program, top):
    """A hub in whose file a byte has changed: no copy is made, and the older ones are kept. Then the byte is set right."""
    folder, env = os.path.join(top, "hub"), with_program(program, top)
    copies = os.path.join(folder, "copies")
    os.makedirs(copies)
    with Server(program, 1_000, folder=folder) as server:
        words = ["sh", BACKUP, str(server.child.pid), NAME, copies, "2"]
        found, here = [], []
        for change in (0, 0, 1, 1, 0):
            flip(os.path.join(folder, NAME), change)
            found.append(subprocess.run(words, capture_output=True, env=env, timeout=2 * LONGEST, cwd=folder).returncode)
            flip(os.path.join(folder, NAME), change)
            here.append(sorted(os.listdir(copies)))
    right = here[1] == here[2] == here[3] and len(here[1]) == len(here[4]) == 2 and here[4][0] == here[3][1]
    return None if right and found == [0, 0, 1, 1, 0] else f"they end with {found}, and leave {here}"


def disks_alike(_program, top):
    """Copies on the disk of the hub, of which the script warns, and on another, if there is one."""
    with Stage(top) as stage, tempfile.TemporaryDirectory(dir=OTHER_DISK) as other:
        for copies in (stage.copies, other):
            child = stage.begun(copies=copies)
            error = child.communicate(timeout=LONGEST)[1]
            alike = os.stat(copies).st_dev == os.stat(stage.file).st_dev
            if child.returncode or (WARNING in error) != alike:
                return f"copies on {'the same' if alike else 'another'} disk: {child.returncode}, {error!r:.200}"
        return stage.wrong()


def other_users(_program, top):
    """A process and a script of a user that is not root; only root can try it."""
    if os.getuid():
        return None
    script, file, copies = shutil.copy(BACKUP, top), os.path.join(top, NAME), os.path.join(top, "copies")
    put(top, {NAME: "1", LOG: "1", "programs/edihub": "#!/bin/sh\necho ok\n"})
    os.chmod(os.path.join(top, "programs", "edihub"), 0o755)
    os.mkdir(copies)
    for it in (top, file, f"{file}-wal", copies):
        os.chown(it, 65534, 65534)
    how = {"user": 65534, "group": 65534, "extra_groups": (), "cwd": top, "text": True}
    how |= {"stdout": subprocess.PIPE, "stderr": subprocess.PIPE}
    child = subprocess.Popen(["tail", "-f", file], **how)
    child.stdout.read(1)
    try:
        env = {**os.environ, "PATH": f"{os.path.join(top, 'programs')}:{os.environ['PATH']}"}
        found = ended(subprocess.Popen(["sh", script, str(child.pid), file, copies, "3"], env=env, start_new_session=True, **how))
        return None if found == (0, "") and len(os.listdir(copies)) == 1 else f"it ends with {found}"
    finally:
        child.kill()
        child.communicate()


def flip(path, change):
    """Changes a bit of a byte in the second page."""
    with open(path, "r+b") as file:
        file.seek(4200)
        byte = file.read(1)[0] ^ change
        file.seek(4200)
        file.write(bytes([byte]))


TRIALS = (
    ended_processes,
    resumed_processes,
    backups_at_once,
    disks_filled,
    hanging_disks,
    scripts_ended,
    wrong_words,
    older_copies,
    clocks_set_back,
    damaged_hubs,
    disks_alike,
    other_users,
)
