"""`make wrong`: tries each wrong body and wrong definition, crates/NAME/must-fail/*.edit and crates/NAME/wrong/*.edit, on copies of the
tree.

    python3 -m tests.wrong [--anew] [CRATE ..]

An edit has lines `file:`, `old:` and `new:`. It is a wrong body, which its own crate has to refuse, or, if its first line is
`refused by: CRATE`, a wrong definition, which that crate has to refuse: the crates between are proved and built with it, and that one
is checked.

Wrong bodies of different functions are tried in one check: each function is proved by itself, from the contracts of the others, so
a body is refused if the check says so of its own function. One whose function calls another that is refused waits for the next
check. What is not refused in this way, or only by a proof that names what the edit removed, is tried again alone, by
`rt must-fail`, whose verdict counts.

What was refused is kept in crates/NAME/out/refused, under a checksum of the edit and of everything that the verdict depends on, without
comments and `#[inline(never)]`, and is not tried again; crates/NAME/out/proved does the same for libraries. So a run goes on where the last
one was stopped. A crate whose edits were all refused has one line in tests/refused.txt, with their number and their checksum; of another
crate each edit that was refused has a line. This file is kept with the tree: while a checksum is right, its edits are not tried again on
any machine.
`--anew` ignores all of this.

Prints each edit that is not refused and each that is refused by names alone (which says little of the contract). The last line
is `N refused, K of them by names alone, M not`, and the status is 1 if M is not 0."""
import functools
import hashlib
import os
import re
import shutil
import sys
import threading
import time
from concurrent.futures import FIRST_COMPLETED, ThreadPoolExecutor, wait
from dataclasses import dataclass

from tests.harness.crate_functions import as_others_see, edits, functions_of, given_out, pairs_of, sources
from tests.harness.tree import ROOT
from tests.harness.tree_copies import PARTS, copied, crates, lanes, library_proved, linked, room_beside, run

# an error of a proof that names what an edit took away
BY_NAMES = r"(\./)?proofs/.*(has no field|is not in scope|has no `|was not admitted)"
PLACE = re.compile(r"(?:note: )?(?:\./)?(\S+?):(\d+):\d+: ")
REFUSED, NAMES_ALONE, NOT_REFUSED = "refused", "refused by names alone", "not refused"
# this much of a checksum distinguishes an edit from all others
SHORT = 16
# a hint to LLVM, which changes no proof
HINT = b"#[inline(never)]"
# what was refused, as the tree keeps it
TOLD = os.path.join(ROOT, "tests", "refused.txt")


@dataclass(frozen=True)
class Wrong:
    crate: str
    # its folder, and its file's name
    folder: str
    name: str
    text: str
    # the crate that has to refuse a wrong definition; nothing for a wrong body
    refused_by: str = ""


def library(crate):
    """The wrong bodies and definitions of a crate, by name."""
    for folder in ("must-fail", "wrong"):
        for name, text in edits(crate, folder):
            first, _, rest = text.partition("\n")
            if first.startswith("refused by: "):
                yield Wrong(crate, folder, name, rest, first.removeprefix("refused by: ").strip())
            else:
                yield Wrong(crate, folder, name, text)


def summed(crate, parts, seen, with_comments=False):
    """The sum of a crate's files in these folders, of each what is seen of it."""
    total, folder = hashlib.sha256(), os.path.join(ROOT, "crates", crate)
    for path in sorted(os.path.join(at, name) for part in parts for at, _, names in os.walk(os.path.join(folder, part)) for name in names):
        comment = b"--" if path.endswith(".antt") else b"//"
        with open(path, encoding="utf-8") as file:
            lines = seen(path, file.read()).encode().splitlines(keepends=True)
        said = [line for line in lines if with_comments or not (line.lstrip().startswith(comment) or line.strip() == HINT)]
        total.update(repr((os.path.relpath(path, folder), said)).encode())
    return total.hexdigest()


class Kept:
    """What earlier runs refused, by a checksum of everything that the verdict depends on."""

    def __init__(self, below, anew):
        """`anew`: crates whose records are ignored."""
        self.below, self.lock, self.known = below, threading.Lock(), {}
        with open(TOLD if os.path.isfile(TOLD) else os.devnull, encoding="utf-8") as lines:
            told = [line.split() for line in lines]
        self.whole = {it[0]: it[2] for it in told if len(it) == 3 and it[0] not in anew}
        self.single = {it[1] for it in told if len(it) == 2 and it[0].partition("/")[0] not in anew}
        for crate in below:
            is_there = crate not in anew and os.path.isfile(self.place(crate))
            with open(self.place(crate) if is_there else os.devnull, encoding="utf-8") as lines:
                self.known.update(line.rstrip("\n").split(" ", 1) for line in lines)

    @staticmethod
    def place(crate):
        return os.path.join(ROOT, "crates", crate, "out", "refused")

    @functools.cache
    def sum_of(self, crate, with_comments=False):
        """Returns the checksum of a crate's text, with or without comments and hints, on which no proof depends."""
        return summed(crate, PARTS, lambda _, text: text, with_comments)

    @functools.cache
    def promised(self, crate):
        """Returns the checksum of what a crate promises to those above it: its definitions, and its public functions without their bodies."""
        given = given_out(sources(crate))
        return summed(crate, ("src", "specs"), lambda path, text: as_others_see(text, given) if path.endswith(".rt") else text)

    @functools.cache
    def toolchain(self):
        return run(["version"], ROOT)[1]

    def logic(self):
        """The logic in which the toolchain proves. Kits share it, and what one of them refuses is not proved in it."""
        return self.toolchain()[0].partition(" ")[2]

    def texts(self, crate, with_comments=False):
        """What a crate is proved of: its text, and that of all below it."""
        return [(it, self.sum_of(it, with_comments)) for it in sorted(self.below[crate] | {crate})]

    def tried_on(self, wrong):
        """Returns what the verdict on an edit depends on: all of the crate that has to refuse it, and for a definition of those between; of
        other crates what they promise, because a proof sees no body of another crate."""
        judge = wrong.refused_by or wrong.crate
        whole = {judge, wrong.crate} | {it for it in self.below[judge] if wrong.crate in self.below[it]}
        return [(it, self.sum_of(it) if it in whole else self.promised(it)) for it in sorted(self.below[judge] | {judge})]

    def key(self, wrong):
        # (in which of its crate's two folders an edit is changes no verdict)
        edit = (wrong.crate, wrong.name, wrong.text, wrong.refused_by)
        return hashlib.sha256(repr((edit, self.tried_on(wrong), self.logic())).encode()).hexdigest()

    def library(self, crate):
        """The file that says of what the crate's library was proved, and what it says where that is the crate as it stands."""
        sum_now = hashlib.sha256(repr((self.texts(crate, True), self.toolchain())).encode()).hexdigest()
        return os.path.join(ROOT, "crates", crate, "out", "proved"), sum_now

    def is_proved(self, crate):
        path, sum_now = self.library(crate)
        if not os.path.isfile(path) or not os.path.isdir(os.path.join(os.path.dirname(path), "rlib")):
            return False
        with open(path, encoding="ascii") as file:
            return file.read() == sum_now

    def keep_proved(self, crate):
        path, sum_now = self.library(crate)
        with open(path, "w", encoding="ascii") as file:
            file.write(sum_now)

    @functools.cache
    def total(self, crate):
        """The sum of a crate's edits, each with all that it is tried on."""
        return hashlib.sha256("".join(sorted(self.key(it) for it in library(crate))).encode()).hexdigest()

    def told(self, wrong):
        key = self.key(wrong)
        is_told = self.whole.get(wrong.crate) == self.total(wrong.crate) or key[:SHORT] in self.single
        return REFUSED if is_told else self.known.get(key)

    def keep_whole(self):
        """Writes of which crates each edit was refused, as these stand, and of the others which."""
        with open(TOLD, "w", encoding="utf-8") as file:
            for crate in self.below:
                edits_of = list(library(crate))
                refused = [it for it in edits_of if self.told(it) == REFUSED]
                if edits_of and refused == edits_of:
                    file.write(f"{crate} {len(edits_of)} {self.total(crate)}\n")
                else:
                    file.writelines(f"{crate}/{it.name} {self.key(it)[:SHORT]}\n" for it in refused)

    def keep(self, wrong, told):
        with self.lock, open(self.place(wrong.crate), "a", encoding="utf-8") as file:
            file.write(f"{self.key(wrong)} {told}\n")
            self.known[self.key(wrong)] = told


def different(bodies):
    """As many of the bodies, with their functions, as touch different ones."""
    batch = []
    for it in bodies:
        if not any(it[1] & others for _, others in batch):
            batch.append(it)
    return batch


def checked_with(room, crate, bodies):
    """What a check says of a crate with these bodies in place of its own, over what was kept of it as it stands."""
    folder, texts = os.path.join(room, "crates", crate), sources(crate)
    work = os.path.join(folder, "out", "incremental")
    shutil.rmtree(work, ignore_errors=True)
    linked(os.path.join(ROOT, "crates", crate, "out", "incremental"), work)
    for it in bodies:
        applied(it.text, folder)
    lines = run(["check", "--jobs", "1"], folder)[1]
    for path, text in texts.items():
        with open(os.path.join(folder, path), "w", encoding="utf-8") as file:
            file.write(text)
    return lines


def refused_together(room, crate, batch):
    """Of a batch: those that one check refuses, each by an error of its own functions; those whose functions wait for others of it; and
    those that no check can read."""
    lines = checked_with(room, crate, [it for it, _ in batch])
    places = [it for it in (PLACE.match(line) for line in lines if not re.match(BY_NAMES, line)) if it]
    if not any(it.startswith("logic=not-proved") for it in lines):
        bad = [it for it in batch if any(f.has_place(at[1], int(at[2])) for f in it[1] for at in places)]
        if bad or len(batch) == 1:
            return [], [], bad or batch
        halves = [refused_together(room, crate, half) for half in (batch[: len(batch) // 2], batch[len(batch) // 2 :])]
        return tuple(one + other for one, other in zip(*halves))
    refused, waiting = [], []
    unproved = [it for it in (re.match(r"fn (\S+): (?:not proved|no proof)(.*)", line) for line in lines) if it]
    for it in batch:
        own = [(f, told) for f in it[1] for told in unproved if f.is_called(crate, told[1])]
        if any(re.search("which (is|are) not proved", told[2]) for _, told in own):
            waiting.append(it)
        elif any(f.has_place(at[1], int(at[2])) for f, _ in own for at in places):
            refused.append(it)
    return refused, waiting, []


def bodies_tried(crate, bodies, below, keep):
    """What becomes of a crate's wrong bodies: triples of the edit, the verdict and a line that says why. Tells each verdict as it is
    known."""
    with room_beside() as room:
        copied(room, {crate}, below[crate])
        texts, done, checks = sources(crate), [], 0
        left = [(it, functions) for it, functions in ((it, functions_of(it.text, texts)) for it in bodies) if functions]
        while left:
            batch = different(left)
            refused, waiting, bad = refused_together(room, crate, batch)
            checks += 1
            for it, _ in refused:
                keep(it, REFUSED)
            done += [it for it, _ in refused]
            again = waiting if refused or waiting else [it for it in batch if it not in bad] if bad else []
            left = again + [it for it in left if it not in batch]
            if len(batch) == len(waiting):
                break
        alone = tried_alone(room, crate, [it for it in bodies if it not in done])
        for it, told, _ in alone:
            if told != NOT_REFUSED:
                keep(it, told)
        return [(it, REFUSED, "") for it in done] + alone, checks


def tried_alone(room, crate, bodies):
    """Tries an edit by `rt must-fail`."""
    folder = os.path.join(room, "crates", crate, "must-fail")
    os.makedirs(folder)
    for it in bodies:
        with open(os.path.join(folder, it.name), "w", encoding="utf-8") as file:
            file.write(it.text)
    told = {}
    for line in run(["must-fail", crate], room)[1] if bodies else []:
        found = re.search(r"must-fail \S+/(\S+\.edit): (.*)", line)
        if found:
            told[found[1]] = found[2]
    return [(it, verdict(told.get(it.name, "")), told.get(it.name, "it was not tried")) for it in bodies]


def verdict(said):
    if not said.startswith("refused, as it must be"):
        return NOT_REFUSED
    return NAMES_ALONE if said.startswith("refused, as it must be (only because") else REFUSED


def applied(text, folder):
    """Applies an edit to a crate's files. Returns why that failed, or nothing."""
    for path, old, new in pairs_of(text):
        if not path.startswith(tuple(f"{it}/" for it in PARTS)) or not os.path.isfile(os.path.join(folder, path)):
            return f"there is no file {path or '(none is named)'}"
        with open(os.path.join(folder, path), encoding="utf-8") as file:
            source = file.read()
        if not old or source.count(old) != 1:
            return f"an 'old:' text is in {path} {source.count(old) if old else 0} times, and not once"
        with open(os.path.join(folder, path), "w", encoding="utf-8") as file:
            file.write(source.replace(old, new))
    return ""


def check_told(lines):
    """What a check that does not pass says of an edited definition."""
    errors = [it for it in lines if re.match(r"(\./)?\S+:\d+:\d+: error", it)]
    unread = next(
        (
            it
            for it in errors
            if re.match(r"(\./)?(src|specs)/", it)
            and re.search(r"is not in scope|has no field|is no name|operand is missing|expected|cannot continue", it)
        ),
        "",
    )
    # advice may follow the verdict
    judged = next((it for it in reversed(lines) if it.startswith("logic=")), lines[-1])
    if unread or not judged.startswith("logic=not-proved"):
        return NOT_REFUSED, f"it cannot be read: {unread or judged}"
    # a goal whose proof was searched and not found is not reported as an error
    unfound = (it for it in lines if re.match(r"fn \S+: no proof: .*did not prove", it))
    first = next((it for it in errors if not re.match(BY_NAMES, it)), "") or next(unfound, "")
    return (REFUSED, first) if first else (NAMES_ALONE, (errors or [""])[0])


def definition_tried(wrong, below):
    """What becomes of a wrong definition, in a copy of its own: the verdict and why."""
    between = [it for it in below if it == wrong.crate or wrong.crate in below[it] and it in below[wrong.refused_by]]
    with room_beside() as room:
        anew = {*between, wrong.refused_by}
        copied(room, anew, below[wrong.refused_by] - anew)
        why = applied(wrong.text, os.path.join(room, "crates", wrong.crate))
        if why:
            return NOT_REFUSED, why
        for crate in between:
            if crate != wrong.refused_by:
                status, lines = run(["lib", "--jobs", "1"], os.path.join(room, "crates", crate))
                if status:
                    return NOT_REFUSED, f"{crate} refuses it, and not {wrong.refused_by}: {check_told(lines)[1]}"
        status, lines = run(["check", "--jobs", "1"], os.path.join(room, "crates", wrong.refused_by))
        return check_told(lines) if status else (NOT_REFUSED, f"{wrong.refused_by} is still proved")


def counted(told, count):
    """Counts these, and prints what has to be looked at."""
    for it, what, why in told:
        count[what] += 1
        if what != REFUSED:
            print(f"{it.crate}/{it.folder}/{it.name}: {what}: {why[:200]}", flush=True)


class Tried:
    """The run: libraries are proved and edits tried as many at a time as there are lanes, each once what it stands on is proved."""

    def __init__(self, left, below, kept):
        self.below, self.kept, self.begun, self.proving, self.proved = below, kept, time.time(), set(), set()
        self.libraries = [
            it for it in below if any(it == judge or it in below[judge] for judge in {wrong.refused_by or wrong.crate for wrong in left})
        ]
        bodies = {crate: [it for it in left if it.crate == crate and not it.refused_by] for crate in below}
        # each with the crate that refuses: the bodies of a crate, or one definition. The highest crates come first, so that what a run
        # leaves when it is stopped needs few libraries
        self.tries = [(crate, its) for crate, its in bodies.items() if its] + [(it.refused_by, it) for it in left if it.refused_by]
        self.tries.sort(key=lambda it: -len(below[it[0]]))
        self.count = {REFUSED: 0, NAMES_ALONE: 0, NOT_REFUSED: 0}

    def next(self, lanes_left):
        """What can begin now: a library before all else, since others wait for it, and so a lane is left for them."""
        crate = next((it for it in self.libraries if self.below[it] <= self.proved), None)
        if crate:
            self.libraries.remove(crate)
            self.proving.add(crate)
            return self.library, crate
        ready = next((it for it in self.tries if it[0] in self.proved), None)
        if ready and lanes_left > (1 if self.libraries and not self.proving else 0):
            self.tries.remove(ready)
            return (self.definition if isinstance(ready[1], Wrong) else self.bodies), ready[1]
        return None

    # Each gives the edits with what became of them, a line to print, and why nothing more can be tried.

    def library(self, crate):
        why = "" if self.kept.is_proved(crate) else library_proved(crate, self.below[crate])
        if why:
            return [], "", f"{crate} is not proved as it stands: {why}"
        self.kept.keep_proved(crate)
        self.proved.add(crate)
        self.proving.remove(crate)
        return [], "", ""

    def bodies(self, its):
        told, checks = bodies_tried(its[0].crate, its, self.below, self.kept.keep)
        minutes = (time.time() - self.begun) / 60
        alone = sum(bool(why) for _, _, why in told)
        line = f"{its[0].crate}: {len(told)} wrong bodies in {checks} checks and {alone} alone, {minutes:.0f} minutes from the start"
        return told, line, ""

    def definition(self, it):
        told, why = definition_tried(it, self.below)
        if told != NOT_REFUSED:
            self.kept.keep(it, told)
        return [(it, told, why)], "", ""

    def run(self):
        """Tries everything. Returns why it cannot, if a crate is not proved as it is."""
        running, failed, most = set(), "", lanes()
        with ThreadPoolExecutor(most) as pool:
            while True:
                while len(running) < most and not failed and (task := self.next(most - len(running))):
                    running.add(pool.submit(*task))
                if not running:
                    return failed
                done, running = wait(running, return_when=FIRST_COMPLETED)
                for told, line, why in (it.result() for it in done):
                    counted(told, self.count)
                    failed = failed or why
                    print(line, end="\n" if line else "", flush=True)


def main(words):
    below, names = crates(), [it for it in words if it != "--anew"]
    unknown = [it for it in names if it not in below]
    if unknown:
        print(f"no crate is called {' or '.join(unknown)}")
        return 2
    asked = [crate for crate in below if not names or crate in names]
    kept = Kept(below, asked if "--anew" in words else [])
    every = [it for crate in asked for it in library(crate)]
    earlier = [(it, kept.told(it)) for it in every]
    tried = Tried([it for it, told in earlier if not told], below, kept)
    counted([(it, told, "by an earlier run") for it, told in earlier if told], tried.count)
    why = tried.run()
    kept.keep_whole()
    if why:
        print(why)
        return 1
    refused = tried.count[REFUSED] + tried.count[NAMES_ALONE]
    print(f"{refused} refused, {tried.count[NAMES_ALONE]} of them by names alone, {tried.count[NOT_REFUSED]} not")
    return 1 if tried.count[NOT_REFUSED] else 0


if __name__ == "__main__":
    sys.exit(main(sys.argv[1:]))
