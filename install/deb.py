"""`make deb`: builds a Debian package from the program that `make edihub` left. Prints the path of the package.

    python3 install/deb.py ./edihub out

What it installs is the list in place.py; what dpkg needs beside it is in install/debian. It takes dpkg-dev."""
import gzip
import hashlib
import os
import re
import shutil
import subprocess
import sys
import tempfile

sys.path.insert(0, os.path.dirname(os.path.abspath(__file__)))
import place  # noqa: E402

DEBIAN = os.path.join(place.ROOT, "install", "debian")
TOOLS = ("dpkg-parsechangelog", "dpkg-shlibdeps", "dpkg-deb", "strip")
SCRIPTS = ("postinst", "prerm", "postrm")


class Fault(Exception):
    """The reason why no package is built."""


def asked(*words, **how):
    """Returns what a command prints."""
    ran = subprocess.run(words, capture_output=True, text=True, check=False, **how)
    if ran.returncode:
        raise Fault(f"{words[0]}: {ran.stderr.strip()}")
    return ran.stdout.strip()


def changelog(field):
    return asked("dpkg-parsechangelog", "-l", os.path.join(DEBIAN, "changelog"), "-S", field)


def check(program):
    """Refuses what cannot become a package."""
    if not os.access(program, os.X_OK) or not os.path.isfile(program):
        raise Fault(f"{program} is not there: run `make edihub` first")
    lacking = [it for it in TOOLS if not shutil.which(it)]
    if lacking:
        raise Fault(f"{', '.join(lacking)} is not installed: apt-get install dpkg-dev binutils")
    version = re.match(r"edihub ([\d.]+) ", asked(program, "--version"))[1]
    if changelog("Version").rpartition("-")[0] != version:
        raise Fault(f"{program} is version {version}, but install/debian/changelog begins with {changelog('Version')}")


def write(path, data, mode=0o644):
    os.makedirs(os.path.dirname(path), mode=0o755, exist_ok=True)
    with open(path, "wb") as file:
        file.write(data)
    os.chmod(path, mode)


def read(name):
    with open(os.path.join(DEBIAN, name), "rb") as file:
        return file.read()


def compressed(data):
    return gzip.compress(data, 9, mtime=0)


def files_below(tree):
    """The paths of the files in a tree, relative to it."""
    paths = (os.path.join(folder, name) for folder, _, names in os.walk(tree) for name in names)
    return sorted(os.path.relpath(it, tree) for it in paths)


def libraries(program):
    """The packages of the libraries that the program needs."""
    with tempfile.TemporaryDirectory() as folder:
        write(os.path.join(folder, "debian", "control"), b"Source: edihub\n\nPackage: edihub\nArchitecture: any\n")
        return asked("dpkg-shlibdeps", "-O", program, cwd=folder).partition("shlibs:Depends=")[2]


def fill(program, tree):
    """Puts everything but dpkg's own files into a tree."""
    place.put(program, tree, "/usr")
    # a program needs no names of functions to run
    asked("strip", "--strip-unneeded", "--remove-section=.comment", os.path.join(tree, "usr/bin/edihub"))
    page, about = os.path.join(tree, "usr/share/man/man1/edihub.1"), os.path.join(tree, "usr/share/doc/edihub")
    with open(page, "rb") as file:
        write(f"{page}.gz", compressed(file.read()))
    os.remove(page)
    write(os.path.join(about, "changelog.Debian.gz"), compressed(read("changelog")))
    write(os.path.join(about, "copyright"), read("copyright"))


def describe(tree):
    """Adds what dpkg reads: the control file, the scripts and the checksums."""
    files = files_below(tree)
    size = sum(os.path.getsize(os.path.join(tree, it)) for it in files) // 1024
    known = {"VERSION": changelog("Version"), "ARCHITECTURE": asked("dpkg", "--print-architecture"), "SIZE": str(size)}
    known["LIBRARIES"] = libraries(os.path.join(tree, "usr/bin/edihub"))
    text = read("control").decode()
    for place_of, words in known.items():
        text = text.replace(place_of, words)
    sums = []
    for it in files:
        with open(os.path.join(tree, it), "rb") as file:
            sums.append(f"{hashlib.md5(file.read()).hexdigest()}  {it}\n")
    write(os.path.join(tree, "DEBIAN/control"), text.encode())
    write(os.path.join(tree, "DEBIAN/md5sums"), "".join(sums).encode())
    for name in SCRIPTS:
        write(os.path.join(tree, "DEBIAN", name), read(name), 0o755)
    return f"edihub_{known['VERSION']}_{known['ARCHITECTURE']}.deb"


def build(program, into):
    """Builds the package in a folder. Returns its path. The same program makes the same bytes."""
    check(program)
    os.umask(0o022)
    os.makedirs(into, exist_ok=True)
    with tempfile.TemporaryDirectory() as folder:
        tree = os.path.join(folder, "tree")
        os.mkdir(tree, 0o755)
        fill(program, tree)
        path = os.path.join(into, describe(tree))
        asked("dpkg-deb", "--root-owner-group", "--build", tree, path, env={**os.environ, "SOURCE_DATE_EPOCH": changelog("Timestamp")})
    return path


if __name__ == "__main__":
    try:
        print(build(*sys.argv[1:]))
    except Fault as why:
        sys.exit(f"make deb: {why}")
