"""A shell that runs the commands of a document, in a folder that holds what the document assumes, and a hub that is served there."""
import os
import re
import shutil
import signal
import subprocess
import tempfile
import threading
from contextlib import contextmanager
from functools import cache

from tests.harness.case import SECONDS
from tests.harness.first_order import ORDERS
from tests.harness.hub_scripts import DESPATCH, RESPONSE
from tests.harness.servers import TRIES, free_port
from tests.harness.tree import ROOT

EXAMPLES = os.path.join(ROOT, "examples")
# what commands need that is not on this machine
LACKING = {it for it in ("curl", "sqlite3", "flock", "rt", "haproxy", "git") if not shutil.which(it)}


if not os.path.exists(os.path.join(ROOT, ".git")):
    LACKING.add("git")


class Wrong(Exception):
    """Why a command does not do what its document says."""


def hold(what, why):
    if not what:
        raise Wrong(why)


def lines_of(block):
    """The lines of a block, each with those that continue it."""
    return [it for it in re.sub(r"\\\n *", "", block).splitlines() if it.strip()]


def lacks(line):
    """What a command needs that is not on this machine."""
    return [it for it in sorted(LACKING) if re.search(rf"(^|[ |]){it} ", line)]


def text_of(*path):
    with open(os.path.join(*path), encoding="latin-1") as file:
        return file.read()


def write(folder, name, text):
    path = os.path.join(folder, name)
    os.makedirs(os.path.dirname(path), exist_ok=True)
    with open(path, "w", encoding="utf-8") as file:
        file.write(text)


@cache
def asked(*words, text=""):
    """What a command in the tree's own folder ends with, and prints."""
    # a checkout of another user is read too
    env = {**os.environ, "GIT_CONFIG_COUNT": "1", "GIT_CONFIG_KEY_0": "safe.directory", "GIT_CONFIG_VALUE_0": "*"}
    how = {"stdout": subprocess.PIPE, "stderr": subprocess.STDOUT, "encoding": "utf-8", "errors": "replace", "timeout": SECONDS}
    ran = subprocess.run(words, cwd=ROOT, env=env, input=text, **how)
    return ran.returncode, ran.stdout


class Reader:
    """Who gives the commands of a document, in a folder that holds what it assumes."""

    def __init__(self, program, stack):
        self.program, self.stack, self.ran, self.not_run, self.looked_up, self.served = os.path.abspath(program), stack, 0, [], 0, ""
        self.folder, self.day, home = self.new(), None, self.empty()
        os.symlink(self.program, os.path.join(home, "edihub"))
        write(home, ".curlrc", 'fail-with-body\nsilent\nnoproxy = "*"\n')
        self.env = {**os.environ, "PATH": f"{home}:{os.environ['PATH']}", "CURL_HOME": home, "PYTHONDONTWRITEBYTECODE": "1"}

    def empty(self):
        return self.stack.enter_context(tempfile.TemporaryDirectory(ignore_cleanup_errors=True))

    def new(self):
        """A folder with the examples, interchanges of the retailer and of a supplier, and no hub."""
        folder = self.empty()
        os.symlink(EXAMPLES, os.path.join(folder, "examples"))
        registers = (f"hubs/register-{k}.toml" for k in (1, 2, 3))
        for path in ("register.toml", "backup/backup.sh", "folder/feed.py", "hubs/apart.py", *registers):
            shutil.copy(os.path.join(EXAMPLES, path), folder)
        for names, text in ((["in/retailer/0.edi"], ORDERS), (["answer.edi", "in/alpha/1.edi"], RESPONSE), (["in/alpha/2.edi"], DESPATCH)):
            for name in names:
                write(folder, name, text)
        return folder

    @contextmanager
    def shell(self, text, folder):
        """A shell that runs this, and is ended with all that it began."""
        how = {"stdin": subprocess.DEVNULL, "stdout": subprocess.PIPE, "stderr": subprocess.PIPE, "text": True, "start_new_session": True}
        child = subprocess.Popen(["sh", "-exc", text], cwd=folder, env=self.env, **how)
        late = threading.Timer(SECONDS, os.killpg, (child.pid, signal.SIGKILL))
        late.start()
        try:
            yield child
        finally:
            late.cancel()
            # the shell is not waited for before, so no other has its number
            if child.returncode is None:
                os.killpg(child.pid, signal.SIGKILL)
                child.communicate()

    def run(self, text, folder):
        """What this prints."""
        with self.shell(text, folder) as child:
            printed, error = child.communicate()
        hold(child.returncode == 0, f"status {child.returncode} behind {printed[-100:]!r}, {error[-300:]!r}")
        return printed

    @contextmanager
    def serving(self, text, folder=None):
        """The hub that this serves, on a free port in the place of 8080: in this folder, or in a new one."""
        for _ in range(TRIES):
            port = free_port()
            with self.shell(text.replace("8080", str(port)), folder or self.new()) as child:
                lines = [child.stdout.readline()]
                while lines[-1] and lines[-1] != f"listening {port}\n":
                    lines.append(child.stdout.readline())
                if lines[-1]:
                    yield port, child
                    return
                error = child.stderr.read()
                # another program took the port meanwhile
                hold("\nlisten\n" in error, f"{lines} is printed, {error[-300:]!r}")
        raise Wrong("no port is free")
