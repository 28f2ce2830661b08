"""`make boot-test`: boots a fresh Debian 12 with the package in it, and has its units do their work: the hub, a backup, a restart, an upload
of a folder, the registration of a supplier, and an alert.

    python3 -m tests.booted ./edihub

Each check counts; the last line is `N passed, M failed`. It needs debootstrap, systemd-nspawn, dpkg-dev and root, some minutes and 1 GB in
TMPDIR. The system has a network of its own."""
import os
import subprocess
import sys
import time
from glob import glob

from tests.deb import FILE, REGISTER, Tree, deb, fresh, in_a_folder
from tests.harness.hub_scripts import KEYS
from tests.harness.register_texts import GAMMA, RETAILER

TOOLS = ("debootstrap", "systemd-nspawn", "nsenter", *deb.TOOLS)
# what a Debian server has, and the scripts need
WITH = "adduser,dbus,systemd-sysv,python3"
# seconds for what a unit is to do, and between two looks
PATIENCE, PAUSE = 120, 0.2
SPOOL, ORDERS = "var/spool/edihub/retailer", "/usr/share/doc/edihub/examples/orders.edi"


def until(ask):
    """Returns what is asked for once it is true of something, or what it was in the end."""
    end = time.monotonic() + PATIENCE
    while not (found := ask()) and time.monotonic() < end:
        time.sleep(PAUSE)
    return found


class Booted(Tree):
    """A Debian system that runs until it is left."""

    def __enter__(self):
        words = ["systemd-nspawn", "--directory", self.path, "--boot", "--private-network", "--register=no", "--keep-unit"]
        how = dict.fromkeys(("stdin", "stdout", "stderr"), subprocess.DEVNULL)
        self.child = subprocess.Popen(words, **how, start_new_session=True)
        return self

    def __exit__(self, *_):
        self.child.terminate()
        try:
            self.child.wait(PATIENCE)
        except subprocess.TimeoutExpired:
            self.child.kill()
            self.child.wait()

    def way_in(self):
        with open(f"/proc/{self.child.pid}/task/{self.child.pid}/children", encoding="ascii") as file:
            first = file.read().split()[:1] or ["0"]
        return ["nsenter", "--target", *first, "--mount", "--uts", "--ipc", "--pid", "--net", "--cgroup", "--"]

    def is_up(self):
        return self.run("systemctl", "is-system-running")[1].split("\n")[0] in ("running", "degraded")

    def journal(self, unit):
        return self.run("journalctl", "--no-pager", "--unit", unit)[1]

    def listens(self, starts):
        """Whether the hub has begun to listen this many times, as soon as it has."""
        return until(lambda: self.journal("edihub.service").count("listening 880") == starts)

    def done(self, unit):
        """Starts a unit that ends by itself. Returns what is wrong, if anything."""
        return self.journal(unit) if self.run("systemctl", "start", unit)[0] else ""


def served(told, tree):
    found = tree.sh(f"runuser -u edihub -- edihub init --register {REGISTER} --db /{FILE}")
    told.check("the hub's user founds a hub", found == (0, "ok 2 suppliers\n"), found)
    tree.sh(f"rm /{FILE}-wal")
    status, said = tree.run("systemctl", "enable", "--now", "edihub.service")
    is_right = status == 0 and tree.listens(1) and tree.sh("systemctl show --property NRestarts edihub.service")[1] == "NRestarts=0\n"
    told.check("the hub's unit makes a log if there is none, and listens", is_right, said + tree.journal("edihub.service"))


def copied(told, tree):
    tree.run("install", "-d", "-o", "edihub", "-m", "700", "/var/backups/edihub")
    wrong = tree.done("edihub-backup.service")
    copies = glob(tree.at("var/backups/edihub/20*Z/hub.db"))
    told.check("the backup's unit copies the database of a hub that runs", not wrong and len(copies) == 1, (wrong, copies))


def restarted(told, tree):
    wrong = tree.done("edihub-restart.service")
    told.check("the restart's unit restarts the hub", not wrong and tree.listens(2), wrong)


def uploaded(told, tree):
    tree.sh(f"install -d -o edihub -m 700 /{SPOOL} && install -d -m 755 /etc/edihub/folders")
    tree.put("etc/edihub/folders/retailer.env", f"HUB=http://127.0.0.1:880\nGLN={RETAILER}\n")
    tree.put("etc/edihub/folders/retailer.key", f"{KEYS[RETAILER]}\n")
    tree.sh("chmod 600 /etc/edihub/folders/retailer.key")
    status, said = tree.run("systemctl", "enable", "--now", "edihub-folder@retailer.path")
    tree.sh(f"install -o edihub {ORDERS} /{SPOOL}/.1 && mv /{SPOOL}/.1 /{SPOOL}/1.edi")
    is_done = status == 0 and until(lambda: tree.has(f"{SPOOL}/done/1.edi"))
    told.check("a file that is placed in a folder is uploaded", is_done, said + tree.journal("edihub-folder@retailer.service"))


def registered(told, tree):
    for name, key in (("retailer", KEYS[RETAILER]), ("gamma", "gamma-key-1")):
        tree.put(f"etc/edihub/{name}.key", f"{key}\n")
    tree.sh("chown edihub /etc/edihub/*.key && chmod 400 /etc/edihub/*.key")
    words = ["--as", RETAILER, "--key-file", "/etc/edihub/retailer.key"]
    words += ["--supplier", GAMMA, "--supplier-key-file", "/etc/edihub/gamma.key", "--prefixes", "7612345"]
    status, said = tree.run("python3", "/usr/lib/edihub/add_supplier.py", *words)
    told.check("a supplier is registered while the hub serves", status == 0 and "answers again" in said and tree.listens(3), said)


def alerted(told, tree):
    tree.put("etc/edihub/alert", "#!/bin/sh\ncat\n")
    tree.sh("chmod 755 /etc/edihub/alert")
    tree.run("systemctl", "kill", "--signal", "KILL", "edihub.service")
    told.check("a hub that was killed is started again", tree.listens(4), tree.journal("edihub.service"))
    said = tree.journal("edihub-alert@edihub.service.service")
    told.check("and the alert gets the last lines of its journal", "listening 880" in said, said)


def tried(told, tree):
    if not until(tree.is_up):
        told.check("the system boots", False, tree.run("systemctl", "--failed"))
        return
    for trial in (served, copied, restarted, uploaded, registered, alerted):
        trial(told, tree)


def main(program):
    def tries(told, folder):
        package, path = deb.build(os.path.abspath(program), os.path.join(folder, "out")), fresh(folder, WITH)
        status, said = Tree(path).install(package)
        told.check("the package is installed into a fresh Debian 12", status == 0, said)
        with Booted(path) as tree:
            tried(told, tree)

    return in_a_folder(TOOLS, tries)


if __name__ == "__main__":
    sys.exit(main(*sys.argv[1:]))
