"""Installs the program that `make edihub` left, and all that belongs to it, or removes it again. `make install`, `make uninstall` and
`make deb` use it, so this is the one list of what goes where.

    python3 install/place.py put PROGRAM INTO PREFIX
    python3 install/place.py take INTO PREFIX

INTO is the root of the tree, empty for this machine's own; in units PREFIX takes the place of /usr/local."""
import os
import sys
from dataclasses import dataclass
from glob import glob

sys.path.insert(0, os.path.dirname(os.path.abspath(__file__)))
import from_help  # noqa: E402

ROOT = os.path.dirname(os.path.dirname(os.path.abspath(__file__)))
# the folders below PREFIX that hold nothing else
OWN = ("lib/edihub", "share/edihub", "share/doc/edihub")
UNITS = "lib/systemd/system"
SCRIPTS = ("backup/backup.sh", "folder/feed.py", "front/add_supplier.py", "hubs/apart.py", "page/show.py")


@dataclass(frozen=True)
class Part:
    """A file below PREFIX: a file of the repository, or what `make` returns of the program."""

    target: str
    source: str = None
    make: object = None
    mode: int = 0o644

    def content(self, program, prefix):
        if self.make:
            return self.make(program).encode()
        with open(program if self.target == "bin/edihub" else os.path.join(ROOT, self.source), "rb") as file:
            data = file.read()
        return data.replace(b"/usr/local", prefix.encode()) if self.target.startswith(UNITS) else data


def below(folder, *kinds):
    """The files below a folder of the repository, of some kinds or all."""
    paths = glob(os.path.join(ROOT, folder, "**"), recursive=True)
    its = (os.path.relpath(it, ROOT) for it in sorted(paths) if os.path.isfile(it) and "__pycache__" not in it)
    return [it for it in its if not kinds or it.endswith(kinds)]


def parts():
    """All that is installed."""
    yield Part("bin/edihub", mode=0o755)
    yield Part("share/man/man1/edihub.1", make=from_help.man)
    yield Part("share/bash-completion/completions/edihub", make=from_help.bash)
    for path in below("examples", ".service", ".timer", ".path"):
        yield Part(f"{UNITS}/{os.path.basename(path)}", path)
    for path in SCRIPTS:
        yield Part(f"lib/edihub/{os.path.basename(path)}", f"examples/{path}", mode=0o755)
    for path in below("page"):
        yield Part(f"share/edihub/{path}", path)
    # as in the repository, so that links between them lead somewhere
    for path in ("README.md", "CHANGELOG.md", *below("docs", ".md", ".toml"), *below("examples")):
        yield Part(f"share/doc/edihub/{path}", path)


def put(program, into, prefix):
    if "/out/try/" in os.path.realpath(program):
        sys.exit(f"{program} is a build without any proof: make edihub first")
    # it makes the folders, and everybody may look into them
    os.umask(0o022)
    for part in parts():
        path = f"{into}{prefix}/{part.target}"
        os.makedirs(os.path.dirname(path), mode=0o755, exist_ok=True)
        data = part.content(program, prefix)
        # a program that runs keeps its file
        with open(f"{path}.new", "wb") as file:
            file.write(data)
        os.chmod(f"{path}.new", part.mode)
        os.replace(f"{path}.new", path)


def take(into, prefix):
    for part in parts():
        path = f"{into}{prefix}/{part.target}"
        if os.path.lexists(path):
            os.remove(path)
    for own in OWN:
        for folder, _, _ in os.walk(f"{into}{prefix}/{own}", topdown=False):
            if not os.listdir(folder):
                os.rmdir(folder)


if __name__ == "__main__":
    {"put": put, "take": take}[sys.argv[1]](*sys.argv[2:])
