#!/usr/bin/env python3
"""Registers a supplier while the hub serves: stops it, runs `edihub join` and starts it again. HAProxy keeps the requests meanwhile.

    python3 add_supplier.py --as 5412345000013 --key-file /etc/edihub/retail.key \\
        --supplier 7612345000008 --supplier-key-file /etc/edihub/gamma.key --prefixes 7612345,7612346

Run it as root; with --stop and --start also as the owner of the database file. `join` runs as the owner of the file, which has to be able
to read both key files. Everything that can be checked is checked before the hub is stopped. From then on the hub is started again whatever
happens, also if the script is interrupted. Only if it is killed (SIGKILL) you have to start the hub yourself.

A hub that is not a unit of systemd needs --stop and --start, each the words of one command. The first has to return when the hub has
ended; the second must do no harm if the hub runs.

Exit status: 0 the supplier is registered; 1 refused or denied; 2 usage error; 3 something failed, and standard error says what."""
import argparse
import contextlib
import fcntl
import http.client
import os
import pwd
import re
import shlex
import shutil
import signal
import socket
import subprocess
import sys
import tempfile
import time

# seconds: for a backup or another run to end, for an answer, for the hub to serve this script, and for it to answer after a start
LOCK, ANSWER, TURN, START = 60, 60, 30, 300
# how often a start is tried
STARTS = 3


class Fault(Exception):
    """Why it does not go on, and the exit status."""

    def __init__(self, why, status=3):
        super().__init__(why)
        self.status = status


class Commands:
    """Runs commands in sessions of their own, which ^C does not reach. A signal that asks the script to end only ends a command that may
    be ended; everything else goes on, so that the hub is started again."""

    def __init__(self):
        self.interrupted, self.child = None, None
        for number in (signal.SIGHUP, signal.SIGINT, signal.SIGQUIT, signal.SIGTERM):
            signal.signal(number, self.note)

    def note(self, number, _frame):
        self.interrupted = self.interrupted or signal.Signals(number).name
        if self.child:
            self.child.terminate()

    def run(self, words):
        """Returns the exit status of a command, whose output goes to standard error."""
        try:
            return subprocess.run(words, stdin=subprocess.DEVNULL, stdout=2, start_new_session=True, check=False).returncode
        except OSError as why:
            tell(f"{words[0]}: {why.strerror}")
            return 127

    def answer(self, words, may_end=False, **how):
        """Returns the exit status of a command, and what it printed."""
        how |= {"stdin": subprocess.DEVNULL, "stdout": subprocess.PIPE, "stderr": subprocess.STDOUT, "start_new_session": True}
        child = subprocess.Popen(words, **how)
        if may_end:
            self.child = child
            if self.interrupted:
                child.terminate()
        printed = child.communicate()[0].decode(errors="replace")
        self.child = None
        return child.returncode, printed


class Unit:
    """A hub that is a unit of systemd."""

    def __init__(self, commands, name):
        self.commands, self.name = commands, name

    def check(self, file):
        """Whether the unit runs and serves this file."""
        _, pid = self.commands.answer(["systemctl", "show", "--property", "MainPID", "--value", self.name])
        pid = pid.strip()
        if not pid.isdigit() or pid == "0":
            raise Fault(f"{self.name} does not run: {pid or 'no answer'}. If the hub is stopped, run `edihub join` yourself")
        if not any(is_same(f"/proc/{pid}/fd/{it}", file) for it in os.listdir(f"/proc/{pid}/fd")):
            raise Fault(f"{self.name} does not have {file} open")

    def stop(self):
        return self.commands.run(["systemctl", "stop", self.name])

    def start(self):
        # a unit with a limit of starts may have met it, and systemd would refuse one more
        self.commands.answer(["systemctl", "reset-failed", self.name])
        return self.commands.run(["systemctl", "start", self.name])


class Other:
    """A hub that other commands stop and start."""

    def __init__(self, commands, stop, start):
        self.commands, self.stop_words, self.start_words = commands, shlex.split(stop), shlex.split(start)
        for words in (self.stop_words, self.start_words):
            if not words or not shutil.which(words[0]):
                raise Fault(f"{' '.join(words) or 'nothing'} is not a command", 2)
        self.name = "the hub"

    def check(self, _file):
        """Nothing is known of it but its port."""

    def stop(self):
        return self.commands.run(self.stop_words)

    def start(self):
        return self.commands.run(self.start_words)


class Join:
    """The words of `edihub join`, and the user that runs it."""

    def __init__(self, commands, it):
        self.commands, self.program, self.file, self.user = commands, shutil.which(it.program), os.path.abspath(it.db), {}
        files = [os.path.abspath(path) for path in (it.key_file, it.supplier_key_file)]
        self.words = ["--as", it.retailer, "--key-file", files[0], "--supplier", it.supplier, "--supplier-key-file", files[1]]
        self.words += ["--prefixes", it.prefixes]
        if not self.program:
            raise Fault(f"{it.program} is not a program: give --program", 2)
        if not os.path.isfile(self.file):
            raise Fault(f"{self.file} is not a file", 2)
        owner = os.stat(self.file).st_uid
        if owner != os.geteuid():
            if os.geteuid():
                raise Fault(f"{self.file} is another user's: run this as root", 2)
            its = pwd.getpwuid(owner)
            self.user = {"user": owner, "group": its.pw_gid, "extra_groups": os.getgrouplist(its.pw_name, its.pw_gid)}

    def on(self, file, **how):
        return self.commands.answer([self.program, "join", "--db", file, *self.words], **how, **self.user)

    def check(self):
        """Has the program look at the words and at the key files: it needs both before it can find that there is no such database."""
        with tempfile.TemporaryDirectory() as folder:
            os.chmod(folder, 0o755)
            status, printed = self.on(os.path.join(folder, "none.db"))
        if (status, printed) != (3, "store version\n"):
            hint = ": can the database file's owner read both key files?" if printed == "file\n" else ""
            raise Fault(f"edihub join ends with status {status}: {printed.strip()}{hint}", 2)


class Port:
    """What the hub answers to the retailer about the supplier."""

    def __init__(self, it):
        self.number, self.path, self.key = it.port, f"/p/{it.retailer}/status/{it.supplier}", key_of(it.key_file)

    def status(self):
        """200 if the supplier is registered, 404 if it is not, 403 if the key is not the retailer's; 0 if there is no answer."""
        connection = http.client.HTTPConnection("127.0.0.1", self.number, timeout=ANSWER)
        try:
            connection.request("GET", self.path, headers={"X-Hub-Key": self.key})
            return connection.getresponse().status
        except (OSError, http.client.HTTPException):
            return 0
        finally:
            connection.close()

    def check(self):
        status = self.status()
        if status == 200:
            raise Fault("refused B18: the supplier is registered already", 1)
        if status == 403:
            raise Fault("denied: the hub does not have the retailer with this GLN and key", 1)
        if status != 404:
            raise Fault(f"the hub does not answer on port {self.number}: {status or 'no answer'}")

    @contextlib.contextmanager
    def turn(self):
        """Keeps the hub busy with the beginning of a request, for at most ten seconds. It serves one connection at a time, so nobody else's
        answer is cut off if it is stopped meanwhile."""
        with socket.create_connection(("127.0.0.1", self.number), ANSWER) as one:
            one.sendall(b"GET ")
            until = time.monotonic() + TURN
            while not has_read(one) and time.monotonic() < until:
                time.sleep(0.002)
            yield


def has_read(one):
    """Whether the other end of a connection on this machine has read all that was sent, or is not to be found."""
    (_, here), (_, there) = one.getsockname(), one.getpeername()
    with open("/proc/net/tcp", encoding="ascii") as file:
        table = [line.split()[1:5] for line in file][1:]
    ends = {(local[-4:], remote[-4:]): (state, queues) for local, remote, state, queues in table}
    ours, its = (ends.get((f"{a:04X}", f"{b:04X}")) for a, b in ((here, there), (there, here)))
    return None in (ours, its) or (ours[1][:8] == "0" * 8 and its == ("01", "00000000:00000000"))


def is_same(path, file):
    try:
        return os.path.samefile(path, file)
    except OSError:
        return False


def key_of(path):
    """The key in a file, without its line end."""
    try:
        with open(path, "rb") as file:
            key = file.read(1_000).rstrip(b"\r\n")
    except OSError as why:
        raise Fault(f"{path}: {why.strerror}", 2) from why
    if not re.fullmatch(b"[!-~]{8,64}", key):
        raise Fault(f"{path} does not have a key alone", 2)
    return key.decode("ascii")


def tell(line):
    """Says this on standard error; that it is closed must not keep the hub from being started."""
    with contextlib.suppress(OSError):
        print(f"add_supplier.py: {line}", file=sys.stderr, flush=True)


@contextlib.contextmanager
def alone(file):
    """Waits for the lock that a backup of the file takes too, so that nothing else stops the hub or starts it."""
    folder = os.open(os.path.dirname(file), os.O_RDONLY | os.O_DIRECTORY)
    until = time.monotonic() + LOCK
    while True:
        try:
            fcntl.flock(folder, fcntl.LOCK_EX | fcntl.LOCK_NB)
            break
        except BlockingIOError as why:
            if time.monotonic() > until:
                raise Fault("a backup runs, or another supplier is being registered") from why
            time.sleep(0.2)
    try:
        yield
    finally:
        os.close(folder)


def begun_again(hub, port):
    """Starts the hub. Returns what it answers then, 0 if it does not answer."""
    for _ in range(STARTS):
        if hub.start() == 0:
            break
        time.sleep(1)
    else:
        return 0
    until = time.monotonic() + START
    while not (status := port.status()) and time.monotonic() < until:
        time.sleep(0.2)
    return status


def joined(commands, hub, port, join):
    """Stops the hub, joins and starts the hub again. Returns the exit status and the output of `join`, `None` if it was not run, what the
    hub answers then, and the seconds for which it did not answer."""
    begun, ended = time.monotonic(), None
    try:
        with port.turn():
            begun = time.monotonic()
            stopped = hub.stop()
        if stopped:
            tell(f"{hub.name} cannot be stopped: status {stopped}")
        elif not commands.interrupted:
            ended = join.on(join.file, may_end=True)
    except OSError as why:
        tell(f"{type(why).__name__}: {why}")
    finally:
        status = begun_again(hub, port)
    return ended, status, time.monotonic() - begun


def outcome(commands, hub, ended, status, seconds):
    """Reports what was done. Returns the exit status."""
    if ended:
        print("".join(f"join: {line}\n" for line in (*ended[1].splitlines(), f"status {ended[0]}")), end="")
    if status:
        print(f"{hub.name} answers again after {seconds:.1f} s", flush=True)
    if not status:
        raise Fault(f"{hub.name} DOES NOT ANSWER: look at its log, and start it")
    if commands.interrupted:
        raise Fault(f"{commands.interrupted} came: the supplier is {'' if status == 200 else 'not '}registered")
    if not ended:
        raise Fault("the supplier is not registered")
    if ended[0] == 0 and status != 200:
        raise Fault(f"{hub.name} does not know the supplier: does it serve another file?")
    return ended[0] if ended[0] in (0, 1, 2) else 3


def run(it, commands):
    hub = Other(commands, it.stop, it.start) if it.stop else Unit(commands, it.unit)
    join, port = Join(commands, it), Port(it)
    join.check()
    with alone(join.file):
        hub.check(join.file)
        port.check()
        if commands.interrupted:
            raise Fault(f"{commands.interrupted} came: nothing was done")
        return outcome(commands, hub, *joined(commands, hub, port, join))


def arguments():
    words = argparse.ArgumentParser(description=__doc__, formatter_class=argparse.RawDescriptionHelpFormatter)
    words.add_argument("--as", required=True, dest="retailer", metavar="GLN", help="the retailer's GLN")
    words.add_argument("--key-file", required=True, metavar="FILE", help="a file with the retailer's key")
    words.add_argument("--supplier", required=True, metavar="GLN", help="the supplier's GLN")
    words.add_argument("--supplier-key-file", required=True, metavar="FILE", help="a file with the key that the supplier gets")
    words.add_argument("--prefixes", required=True, metavar="P,P,..", help="the supplier's company prefixes")
    words.add_argument("--db", default="/var/lib/edihub/hub.db", metavar="FILE", help="the hub's database file (%(default)s)")
    words.add_argument("--port", type=int, default=880, help="the hub's port on this machine (%(default)s)")
    words.add_argument("--unit", default="edihub.service", help="the hub's unit of systemd (%(default)s)")
    words.add_argument("--stop", metavar="COMMAND", help="what stops the hub if it is not a unit")
    words.add_argument("--start", metavar="COMMAND", help="what starts it then")
    words.add_argument("--program", default="edihub", help="the program (%(default)s)")
    it = words.parse_args()
    if (it.stop is None) != (it.start is None):
        words.error("--stop and --start come together")
    if not re.fullmatch("[0-9]{13}", it.retailer) or not re.fullmatch("[0-9]{13}", it.supplier) or not 0 < it.port < 65_536:
        words.error("a GLN has 13 digits, and --port is 1 to 65535")
    return it


def main():
    it = arguments()
    try:
        return run(it, Commands())
    except Fault as why:
        tell(why)
        return why.status
    except OSError as why:
        tell(f"{type(why).__name__}: {why}")
        return 3


if __name__ == "__main__":
    sys.exit(main())
