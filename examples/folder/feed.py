#!/usr/bin/env python3
"""Uploads each file of a folder to a hub, in byte order of the names, and moves it away with the hub's reply beside it.

    python3 feed.py --hub http://127.0.0.1:880 --as 4012345500004 --key-file alpha.key in/alpha

A file goes to `done/` in the folder if all its messages are accepted or repeated, else to `refused/`; the reply is `NAME.reply`. If the
name is there already, it becomes `NAME.2`. While a file is uploaded it is in `sending/`, where the next run finds it if this one is ended:
the hub answers `repeated` to the same bytes. If no answer comes, or one that asks to try again, the same file is sent again after a pause,
for up to --patience seconds.

Names that begin with a dot or end in `.part`, links, pipes and folders are left where they are, and so is a file that another program
still has open for writing, if the system can tell. Place a file under such a name, or in another folder of the same file system, and then
rename it.

Exit status: 0 all is done; 1 something was refused or cannot be read; 2 usage error; 3 it could not go on, and the rest is for the next
run."""
import argparse
import errno
import fcntl
import http.client
import os
import re
import signal
import stat
import sys
import time
import urllib.parse

# the most bytes that a hub takes; the longest pause between two tries; how long an answer may take, through the front too
LARGEST, LONGEST_PAUSE, TIMEOUT = 1_048_576, 60, 200
# how much of a long name is kept, so that a number fits behind it
NAME = 200
WRITTEN = "is open for writing"


class Stop(Exception):
    """Why the run cannot go on."""


class Usage(Exception):
    """Why the words of the command are wrong."""


class Hub:
    """Where a caller uploads to."""

    def __init__(self, address, caller, key):
        it = urllib.parse.urlsplit(address)
        if it.scheme not in ("http", "https") or not it.hostname or not re.fullmatch("[!-~]*", it.path) or it.query or it.fragment:
            raise Usage(f"{address} is not the address of a hub")
        if it.scheme == "http" and it.hostname not in ("127.0.0.1", "::1", "localhost"):
            raise Usage("http would send the key over the network in plain text: use https")
        if not re.fullmatch("[0-9]{13}", caller):
            raise Usage(f"{caller} is not a GLN")
        kind = http.client.HTTPSConnection if it.scheme == "https" else http.client.HTTPConnection
        self.connection = kind(it.hostname, it.port, timeout=TIMEOUT)
        self.path, self.fields = f"{it.path.rstrip('/')}/p/{caller}/interchanges", {"X-Hub-Key": key}

    def answer(self, data):
        """Returns the status and the body of the answer to an upload, or 0 and the reason if no answer came."""
        try:
            try:
                self.connection.request("POST", self.path, data, self.fields)
            except (BrokenPipeError, ConnectionResetError):
                # it may have answered before it read all
                pass
            response = self.connection.getresponse()
            return response.status, response.read()
        except (OSError, http.client.HTTPException) as why:
            return 0, f"{type(why).__name__} {why}".encode()
        finally:
            self.connection.close()


def key_of(path):
    """The key in a file, without its line end."""
    with open(path, "rb") as file:
        if stat.S_IMODE(os.fstat(file.fileno()).st_mode) & 0o007:
            raise Usage(f"{path} can be read by every user: chmod 600 it")
        key = file.read().rstrip(b"\r\n")
    if not re.fullmatch(b"[!-~]+", key):
        raise Usage(f"{path} does not have a key alone")
    return key.decode("ascii")


class Folder:
    """A folder and the three in it, held open so that nobody can put others in their place meanwhile."""

    def __init__(self, path):
        self.incoming = os.open(path, os.O_RDONLY | os.O_DIRECTORY)
        try:
            fcntl.flock(self.incoming, fcntl.LOCK_EX | fcntl.LOCK_NB)
        except BlockingIOError as why:
            raise Stop("another run has the folder") from why
        self.sending, self.done, self.refused = (self.folder_of(name) for name in ("sending", "done", "refused"))
        # why files are left that cannot be sent yet, as of the last look
        self.left = {}

    def folder_of(self, name):
        try:
            os.mkdir(name, 0o700, dir_fd=self.incoming)
        except FileExistsError:
            pass
        return os.open(name, os.O_RDONLY | os.O_DIRECTORY | os.O_NOFOLLOW, dir_fd=self.incoming)

    def names(self):
        """The names of files to send, in the order of their bytes. One that is still in `sending/` is not replaced."""
        self.left, names = {}, {*map(os.fsencode, os.listdir(self.incoming))} - {*map(os.fsencode, os.listdir(self.sending))}
        return sorted(it for it in names if self.is_whole(it, self.incoming))

    def taken(self):
        """The names of files that an earlier run has taken."""
        return sorted(it for it in map(os.fsencode, os.listdir(self.sending)) if self.is_whole(it, self.sending))

    def is_whole(self, name, folder):
        """Whether this is a plain file that nobody writes, as far as can be known."""
        if name.startswith(b".") or name.endswith(b".part"):
            return False
        try:
            # neither waits for the other end of a pipe, nor follows a link
            file = os.open(name, os.O_RDONLY | os.O_NOFOLLOW | os.O_NONBLOCK, dir_fd=folder)
        except OSError as why:
            if why.errno not in (errno.ELOOP, errno.ENOENT, errno.ENXIO):
                self.left[name] = f"cannot be read: {why.strerror}"
            return False
        try:
            if is_written(file):
                self.left[name] = WRITTEN
            return stat.S_ISREG(os.fstat(file).st_mode) and name not in self.left
        finally:
            os.close(file)

    def take(self, name):
        """Moves a file to where nobody can replace it. Returns whether it was still there, and a file."""
        try:
            os.rename(name, name, src_dir_fd=self.incoming, dst_dir_fd=self.sending)
        except FileNotFoundError:
            return False
        return self.is_whole(name, self.sending)

    def read(self, name):
        """The bytes of a file that was taken; more than the hub takes, if it is too long."""
        file = os.open(name, os.O_RDONLY | os.O_NOFOLLOW | os.O_NONBLOCK, dir_fd=self.sending)
        with os.fdopen(file, "rb") as opened:
            return opened.read(LARGEST + 1)

    def put(self, name, target, reply):
        """Moves a file that was taken, with the reply beside it. The reply is first: without the file it is only one too many."""
        free = free_name(name[:NAME], {*map(os.fsencode, os.listdir(target))})
        how = os.O_WRONLY | os.O_CREAT | os.O_EXCL
        with os.fdopen(os.open(free + b".reply", how, 0o600, dir_fd=target), "wb") as file:
            file.write(reply)
            file.flush()
            os.fsync(file.fileno())
        os.rename(name, free, src_dir_fd=self.sending, dst_dir_fd=target)


def is_written(file):
    """Whether another program has the file open for writing. The system gives no lease then; else it gives one to the owner of the file."""
    try:
        fcntl.fcntl(file, fcntl.F_SETLEASE, fcntl.F_RDLCK)
    except OSError as why:
        return why.errno == errno.EAGAIN
    fcntl.fcntl(file, fcntl.F_SETLEASE, fcntl.F_UNLCK)
    return False


def free_name(name, names):
    """The name, or with the first number behind it with which neither it nor its reply is there."""
    number, free = 1, name
    while free in names or free + b".reply" in names:
        number += 1
        free = b"%s.%d" % (name, number)
    return free


def shown(name):
    """A name or a line as it can be printed."""
    text = name.decode("utf-8", "surrogateescape")
    return text if text.isprintable() else ascii(text)


def tell(line):
    print(line, file=sys.stderr, flush=True)


def refusal(status, reply):
    """The line of an answer that refuses something; `None` if all is accepted."""
    if status in (400, 413):
        return reply.partition(b"\n")[0]
    return next((it for it in reply.split(b"\n")[1:] if it.split(b" ")[2:3] == [b"refused"]), None)


def is_last(status, reply):
    """Whether the hub has decided about this file, so that the same again would change nothing."""
    return status == 200 and reply.startswith(b"interchange ") or status == 400 and reply.startswith(b"refused ") or status == 413


def sent(hub, name, data, patience):
    """The answer to a file, which is sent again until the hub has decided about it."""
    pause, until = 1, time.monotonic() + patience
    while True:
        status, reply = hub.answer(data)
        if is_last(status, reply):
            return status, reply
        said = f"{status or 'no answer'} {shown(reply[:100].partition(bytes([10]))[0])}"
        # the same again would not help: who asks, or the address, is wrong
        if status in (401, 403, 404, 405, 411):
            raise Stop(f"{shown(name)} was not taken, {said}: check the address, the GLN and the key")
        if time.monotonic() + pause > until:
            raise Stop(f"{shown(name)} was not taken in {patience} seconds, last {said}")
        tell(f"{shown(name)} is sent again in {pause} s: {said}")
        time.sleep(pause)
        pause = min(2 * pause, LONGEST_PAUSE)


def upload(folder, hub, name, patience):
    """Uploads a file that was taken, and moves it away. Returns whether all of it was accepted."""
    data = folder.read(name)
    status, reply = (413, b"too large\n") if len(data) > LARGEST else sent(hub, name, data, patience)
    line = refusal(status, reply)
    folder.put(name, folder.done if line is None else folder.refused, reply)
    print(f"done {shown(name)}" if line is None else f"refused {shown(name)}: {shown(line)}", flush=True)
    return line is None


def uploads(folder, hub, patience):
    """Uploads what an earlier run had taken, and then what is in the folder, until that has nothing more. Returns how many were refused or
    could not be read."""
    bad = sum(not upload(folder, hub, name, patience) for name in folder.taken())
    left = folder.left
    while names := folder.names():
        bad += sum(folder.take(name) and not upload(folder, hub, name, patience) for name in names)
    left |= folder.left
    for name, why in left.items():
        tell(f"{shown(name)} is left: it {why}")
    return bad + sum(why != WRITTEN for why in left.values())


def main():
    words = argparse.ArgumentParser(description=__doc__, formatter_class=argparse.RawDescriptionHelpFormatter)
    words.add_argument("--hub", required=True, help="where the hub is; https, except on the same machine")
    words.add_argument("--as", required=True, dest="caller", help="the GLN that uploads")
    words.add_argument("--key-file", required=True, help="a file with its key, which not every user can read")
    words.add_argument("--patience", type=int, default=600, help="seconds for which a file is sent again (600)")
    words.add_argument("folder")
    it = words.parse_args()
    # a program that opens a file for writing just while it is looked at would end this one
    signal.signal(signal.SIGIO, signal.SIG_IGN)
    # nobody else reads the replies
    os.umask(0o077)
    try:
        hub = Hub(it.hub, it.caller, key_of(it.key_file))
    except (Usage, ValueError, OSError) as why:
        words.error(str(why))
    try:
        return 1 if uploads(Folder(it.folder), hub, it.patience) else 0
    except (Stop, OSError) as why:
        tell(f"stopped: {why}")
    return 3


if __name__ == "__main__":
    sys.exit(main())
