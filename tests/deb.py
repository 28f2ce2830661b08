"""`make deb-test`: builds the Debian package, checks it by lintian, and installs it into fresh Debian 12 trees.

    python3 -m tests.deb ./edihub

Each check counts; the last line is `N passed, M failed`. It needs debootstrap, lintian, dpkg-dev and root, some minutes and
1 GB in TMPDIR.
The trees are made of Debian's archive, with man-db, adduser and systemd in them, and nothing in them is started."""
import os
import re
import shutil
import subprocess
import sys
import tempfile

from tests.harness.checks import Checks
from tests.harness.tree import ROOT

sys.path.insert(0, os.path.join(ROOT, "install"))
import deb  # noqa: E402
import place  # noqa: E402

TOOLS = ("debootstrap", "lintian", *deb.TOOLS)
SUITE, WITH = "bookworm", "man-db,adduser,systemd"
FILE, DATA = "var/lib/edihub/hub.db", "var/lib/edihub"
REGISTER = "/usr/share/doc/edihub/examples/register.toml"
ASKED = "edihub status --db /var/lib/edihub/hub.db --as 5412345000013 --key retail-key --of 4012345500004"
# what dpkg, adduser and man-db keep for themselves: databases, logs, caches, and the files before a change
OTHERS = re.compile(r"var/(lib/dpkg|log|cache|lib/systemd)(/|$)|etc/(passwd|group|shadow|gshadow|subuid|subgid)-$|run/|tmp/")
USERS = ("passwd", "group", "shadow", "gshadow")
DROP_IN = "etc/systemd/system/edihub.service.d/port.conf"


class Tree:
    """A Debian system in a folder."""

    def __init__(self, path):
        self.path = path

    def way_in(self):
        """The words before a command that is to run in the tree."""
        return ["chroot", self.path]

    def run(self, *words):
        """The exit status of a command in the tree, and what it printed; on standard error too, if it failed."""
        env = {"PATH": "/usr/sbin:/usr/bin:/sbin:/bin", "LC_ALL": "C.UTF-8", "DEBIAN_FRONTEND": "noninteractive", "MANPAGER": "cat"}
        how = {"stdin": subprocess.DEVNULL, "capture_output": True, "encoding": "utf-8", "errors": "replace", "env": env, "cwd": "/"}
        ran = subprocess.run([*self.way_in(), *words], check=False, **how)
        return ran.returncode, ran.stdout + (ran.stderr if ran.returncode else "")

    def sh(self, text):
        return self.run("sh", "-c", text)

    def at(self, path):
        return os.path.join(self.path, path)

    def has(self, path):
        return os.path.lexists(self.at(path))

    def read(self, path):
        with open(self.at(path), "rb") as file:
            return file.read()

    def put(self, path, text):
        os.makedirs(os.path.dirname(self.at(path)), exist_ok=True)
        with open(self.at(path), "w", encoding="ascii") as file:
            file.write(text)

    def paths(self):
        """All that is in the tree but what other packages keep for themselves."""
        found = set()
        for folder, folders, names in os.walk(self.path):
            found |= {os.path.relpath(os.path.join(folder, it), self.path) for it in (*folders, *names)}
        return {it for it in found if not OTHERS.match(it)}

    def users(self):
        return [self.read(f"etc/{it}") for it in USERS]

    def mode(self, path):
        it = os.stat(self.at(path))
        return it.st_uid, it.st_mode & 0o777

    def install(self, package):
        shutil.copy(package, self.at("tmp/edihub.deb"))
        return self.run("dpkg", "--install", "/tmp/edihub.deb")

    def enabled(self):
        """The links by which units are enabled."""
        return sorted(it for it in self.paths() if re.match(r"etc/systemd/system/.*\.wants/edihub", it))


def fresh(folder, packages=WITH):
    """A new Debian tree with these packages."""
    path = os.path.join(folder, SUITE)
    words = ["debootstrap", "--variant=minbase", f"--include={packages}", SUITE, path]
    ran = subprocess.run(words, capture_output=True, text=True, check=False)
    if ran.returncode:
        raise OSError(f"debootstrap: {ran.stdout[-500:]} {ran.stderr[-500:]}")
    return path


def refused(told, folder):
    """Checks what `make deb` says if there is no program."""
    ran = subprocess.run(["make", "-s", "deb", f"PROGRAM={folder}/edihub"], cwd=ROOT, capture_output=True, text=True, check=False)
    said = "is not there: run `make edihub` first"
    told.check("without a program no package is built, and the message says so", ran.returncode and said in ran.stderr, ran)


def made(folder, target, program):
    """The exit status of `make install` or `make uninstall` with a tree of its own, and the files that are in it then."""
    words = ["make", "-s", target, f"PROGRAM={program}", f"DESTDIR={folder}/root", "PREFIX=/opt/edihub"]
    ran = subprocess.run(words, cwd=ROOT, capture_output=True, check=False)
    return ran.returncode, deb.files_below(os.path.join(folder, "root"))


def by_make(told, program, folder):
    """What is installed without a package is on the same list, and can be removed."""
    found = made(folder, "install", program)
    wanted = sorted(f"opt/edihub/{it.target}" for it in place.parts())
    told.check("`make install` puts what is on its list", found == (0, wanted), found)
    unit = os.path.join(folder, "root/opt/edihub", place.UNITS, "edihub.service")
    with open(unit, encoding="ascii") as file:
        text = file.read()
    told.check("units name the program where it is", "ExecStart=/opt/edihub/bin/edihub " in text and "/usr/local" not in text, text)
    found = made(folder, "uninstall", program)
    told.check("`make uninstall` removes all of it", found == (0, []), found)


def looked_at(told, program, package, folder):
    """The package by itself: lintian, its files, and that it is the same when it is built again."""
    ran = subprocess.run(["lintian", "--fail-on", "error", "--allow-root", package], capture_output=True, text=True, check=False)
    for line in sorted(ran.stdout.splitlines()):
        print(f"lintian: {line}")
    errors = sum(line.startswith("E:") for line in ran.stdout.splitlines())
    print(f"lintian: {errors} errors, {sum(line.startswith('W:') for line in ran.stdout.splitlines())} warnings", flush=True)
    told.check("lintian finds no error", ran.returncode == 0 and not errors, ran)
    listed = subprocess.run(["dpkg-deb", "--contents", package], capture_output=True, text=True, check=True).stdout.splitlines()
    names = sorted(it.split()[5].removeprefix("./") for it in listed if not it.startswith("d"))
    wanted = [f"usr/{it.target}" for it in place.parts()] + [f"usr/share/doc/edihub/{it}" for it in ("changelog.Debian.gz", "copyright")]
    wanted = sorted(f"{it}.gz" if "/man/" in it else it for it in wanted)
    told.check("the package has what is on the list of `make install`, a changelog and a copyright file", names == wanted, (names, wanted))
    told.check("all of it belongs to root", all(it.split()[1] == "root/root" for it in listed), listed)
    again = deb.build(program, os.path.join(folder, "again"))
    with open(package, "rb") as one, open(again, "rb") as other:
        told.check("built again it is the same", one.read() == other.read())


def installed(told, tree, program):
    """What is there once the package is installed."""
    version = subprocess.run([program, "--version"], capture_output=True, text=True, check=True).stdout
    found = tree.run("edihub", "--version")
    told.check("edihub --version", found == (0, version), found)
    status, page = tree.run("man", "edihub")
    told.check("man edihub", status == 0 and "edihub join" in page and "edihub serve" in page, page[-300:])
    status, said = tree.run("bash", "-c", ". /usr/share/bash-completion/completions/edihub && complete -p edihub")
    told.check("completions for bash", status == 0 and "_edihub edihub" in said, said)
    status, said = tree.run("dpkg", "--verify", "edihub")
    told.check("every file is as its checksum says", (status, said) == (0, ""), said)
    status, said = tree.sh("getent passwd edihub")
    told.check("a user without a shell", status == 0 and said.endswith(":/var/lib/edihub:/usr/sbin/nologin\n"), said)
    number = int(said.split(":")[2])
    told.check("a folder for data that this user alone can read", tree.mode(DATA) == (number, 0o700), tree.mode(DATA))
    told.check("no unit is enabled", tree.enabled() == [], tree.enabled())
    told.check("the licence: none is chosen yet", b"has not chosen a licence" in tree.read("usr/share/doc/edihub/copyright"))
    status, said = tree.run("dpkg-query", "--show", "--showformat", "${Conffiles}", "edihub")
    told.check("no configuration file that an upgrade could ask about", (status, said.strip()) == (0, ""), said)
    named = {it for unit in units(tree) for it in re.findall(rb"/usr/(?:local/)?(?:lib|bin)/edihub[\w./-]*", tree.read(unit))}
    lacking = [it for it in named if not tree.has(it.decode().lstrip("/"))]
    told.check(f"{len(named)} files that units name are there", len(named) == 4 and not lacking, (named, lacking))
    status, said = tree.sh("systemd-analyze verify edihub.service edihub-restart.timer edihub-backup.timer 2>&1")
    told.check("systemd reads the units", status == 0 and "edihub" not in said, said)


def units(tree):
    return sorted(it for it in tree.paths() if re.match(r"usr/lib/systemd/system/edihub[^/]*$", it))


def is_there(tree):
    """Whether the hub's user can ask the hub."""
    return tree.sh(f"runuser -u edihub -- {ASKED}") == (0, "end\n")


def used(told, tree):
    """Founds a hub as its user, and enables units as an operator does."""
    found = tree.sh(f"runuser -u edihub -- edihub init --register {REGISTER} --db /{FILE}")
    told.check("the hub's user founds a hub", found == (0, "ok 2 suppliers\n"), found)
    told.check("and asks it", is_there(tree), tree.sh(ASKED))
    status, said = tree.run("systemctl", "enable", "edihub.service", "edihub-backup.timer", "edihub-folder@alpha.path")
    told.check("units can be enabled", status == 0 and len(tree.enabled()) == 3, said)
    tree.put(DROP_IN, "[Service]\nCPUQuota=50%\n")


def replaced(told, tree, package):
    """An upgrade leaves data, units and the operator's changes as they are."""
    before = tree.read(FILE), tree.enabled(), tree.users(), tree.paths()
    status, said = tree.install(package)
    after = tree.read(FILE), tree.enabled(), tree.users(), tree.paths()
    told.check("installed over itself nothing changes", status == 0 and before == after, said)
    status, said = tree.run("dpkg", "--remove", "edihub")
    data = tree.has(FILE) and tree.has(DROP_IN) and not tree.has("usr/bin/edihub")
    told.check("removed, the program is gone, and data and the operator's changes stay", status == 0 and data, said)
    told.check("removed, no unit is enabled", tree.enabled() == [], tree.enabled())
    status, said = tree.install(package)
    told.check("installed again, the hub is there", status == 0 and is_there(tree), said)


def purged_with_data(told, tree, before):
    """A purge leaves the data, their owner, and what the operator made."""
    data, number = tree.read(FILE), tree.mode(FILE)
    status, said = tree.run("dpkg", "--purge", "edihub")
    told.check("a purge says that data stay", status == 0 and f"/{DATA} and the user edihub stay" in said, said)
    mine = {it for it in tree.paths() - before if not it.startswith((f"{DATA}/", os.path.dirname(DROP_IN)))}
    told.check("a purge leaves nothing but the data", mine == {DATA} and not before - tree.paths(), sorted(mine))
    same = tree.read(FILE) == data and tree.mode(FILE) == number and tree.sh("id edihub")[0] == 0
    told.check("the data and their owner are as before", same, tree.mode(FILE))


def purged_without_data(told, tree, package, before, users):
    """If no hub was founded, a purge leaves nothing at all."""
    status, said = tree.install(package)
    told.check("installed into a tree without data", status == 0 and tree.has(DATA), said)
    status, said = tree.run("dpkg", "--purge", "edihub")
    differ = sorted(tree.paths() ^ before)
    told.check("a purge without data leaves nothing", status == 0 and not differ, (said, differ))
    told.check("nor the user", tree.users() == users, tree.sh("tail -n 2 /etc/passwd /etc/group /etc/shadow /etc/gshadow")[1])


def in_trees(told, program, package, folder):
    tree, other = Tree(fresh(folder)), Tree(os.path.join(folder, "other"))
    # with its devices, as they are
    subprocess.run(["cp", "-a", tree.path, other.path], check=True)
    before, users = tree.paths(), tree.users()
    status, said = tree.install(package)
    told.check("the package is installed into a fresh Debian 12", status == 0 and "Setting up edihub" in said, said)
    installed(told, tree, program)
    used(told, tree)
    replaced(told, tree, package)
    purged_with_data(told, tree, before)
    purged_without_data(told, other, package, before, users)


def in_a_folder(tools, tries):
    """Has checks made in a folder of their own, if the tools are there and this is root. Returns the exit status."""
    lacking = [it for it in tools if not shutil.which(it)]
    if lacking or os.geteuid():
        print(f"{', '.join(lacking)} is not here, so nothing is tried" if lacking else "this needs root, so nothing is tried")
        return 1
    told, folder = Checks(), tempfile.mkdtemp(prefix="deb-")
    try:
        tries(told, folder)
    except (OSError, deb.Fault) as why:
        told.check("the package can be tried", False, why)
    finally:
        shutil.rmtree(folder, ignore_errors=True)
    return told.end()


def main(program):
    program = os.path.abspath(program)

    def tries(told, folder):
        refused(told, folder)
        by_make(told, program, folder)
        package = deb.build(program, os.path.join(folder, "out"))
        looked_at(told, program, package, folder)
        in_trees(told, program, package, folder)

    return in_a_folder(TOOLS, tries)


if __name__ == "__main__":
    sys.exit(main(*sys.argv[1:]))
