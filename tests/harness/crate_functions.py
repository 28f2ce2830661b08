"""The functions of a crate, by its text as `rt fmt` lays it out; the edits of a crate, and which functions they touch."""
import os
import re
from dataclasses import dataclass, field

from tests.harness.tree import ROOT

HEADER = re.compile(r"( *)(?:pub(?:\(crate\))? )?(?:const )?fn (\w+)")
# an import: whether it is a ghost's, its path, and the names that are listed behind it
IMPORT = re.compile(r"^ *(ghost )?use ([^;{]*?)(?:\{([^}]*)\})?;$", re.MULTILINE)
OPENING = re.compile(r"(?:impl|trait|pub trait)\b")
TYPE = r"(?:&\S* ?)?(?:\w+::)*(\w+)"


@dataclass(frozen=True)
class Function:
    """A function of a crate, by its file, the type or the type and trait whose it is, and its name, with the lines on which it stands."""

    file: str
    owner: str
    name: str
    lines: range
    # its own first line, that of the impl or trait in which it stands, and whether its body has a line
    header: str = field(default="", compare=False)
    opening: str = field(default="", compare=False)
    has_body: bool = field(default=True, compare=False)

    def modules(self):
        return [it for it in self.file.removeprefix("src/").removesuffix(".rt").split("/") if it != "lib"]

    def path(self):
        return "::".join([*self.modules(), *([self.owner] if self.owner else []), self.name])

    def is_called(self, crate, path):
        """Whether this is its name in what a check says, or that of a closure in it."""
        # a type may stand in another module than its impl
        within = rf"(?:\w+::)*{self.owner}[\w+]*::" if self.owner else "".join(f"{it}::" for it in self.modules())
        return bool(re.fullmatch(rf"{crate}::{within}({self.name}|fn::{self.name}::.*)", path))

    def has_place(self, file, line):
        """Whether a place that a check names is in its text or in its proofs."""
        proofs = "/".join(["proofs", *self.modules(), *([rf"{self.owner}\w*"] if self.owner else []), self.name, ".*"])
        return file == self.file and line in self.lines or bool(re.fullmatch(proofs, file))

    def is_public(self, given_out):
        """Whether a crate that gives out these names lets others call it."""
        of_trait = re.match(rf"impl(?:<[^{{]*?>)? {TYPE}(?:<.*>)? for {TYPE}", self.opening)
        if of_trait:
            return of_trait[2] in given_out
        if not self.opening:
            return self.header.startswith("pub fn") and self.name in given_out
        own = re.match(rf"impl(?:<[^{{]*?>)? {TYPE}", self.opening)
        of = own[1] if own else re.sub(r"^(pub )?trait (\w+).*", r"\2", self.opening)
        return of in given_out and (not own or self.header.startswith("    pub fn"))


def owner_of(opening):
    """What the functions of an impl or a trait are called by: its type, and the trait where there is one."""
    of_trait = re.match(r"impl(?:<[^{]*?>)? (?:\w+::)*(\w+)(?:<.*>)? for (?:&\S* ?)?(\w+)", opening)
    own = re.match(r"impl(?:<[^{]*?>)? (\w+)|(?:pub )?trait (\w+)", opening)
    return of_trait[2] + of_trait[1] if of_trait else (own[1] or own[2]) if own else ""


def function_from(file, lines, first):
    """The function whose first line this is."""
    indent, name = HEADER.match(lines[first]).groups()
    ends = (
        at
        for at in range(first, len(lines))
        if lines[at] in (indent + "}", indent + "{}", indent[4:] + "}") or at > first and HEADER.match(lines[at])
    )
    last = next(ends, len(lines) - 1)
    opening = next((lines[it] for it in range(first, -1, -1) if OPENING.match(lines[it])), "") if indent else ""
    has_body = lines[last] == indent + "}" and lines[last - 1] != indent + "{"
    begin = first
    while begin and lines[begin - 1].startswith(indent + "#["):
        begin -= 1
    return Function(file, owner_of(opening), name, range(begin + 1, last + 2), lines[first], opening, has_body)


def functions_in(file, text):
    """All functions of a source file, in order."""
    lines = text.split("\n")
    return [function_from(file, lines, first) for first in range(len(lines)) if HEADER.match(lines[first])]


def as_others_see(text, given):
    """A source file as other crates see it, which may use the names that its crate gives out: of each function that they may call what it
    promises, and not its body; of others nothing; and of what is imported the names that stand in this."""
    lines, kept, after = text.split("\n"), [], 0
    for function in functions_in("", text):
        first, last = function.lines[0] - 1, function.lines[-1] - 1
        if first < after:
            continue
        if not function.is_public(given):
            kept += lines[after:first]
            after = last + 1
        elif function.has_body:
            kept += lines[after : opening_of(lines, first, last) + 1]
            after = last
    return with_used_imports("\n".join(kept + lines[after:]))


def with_used_imports(text):
    """The text without empty lines, with its imports one name a line, and only those whose name stands somewhere else in it."""
    rest = IMPORT.sub("", text)
    words = set(re.findall(r"\w+|[^\w\s]", re.sub(r"^\s*(//|--).*$", "", rest, flags=re.MULTILINE)))
    imported = []
    for ghost, path, listed in IMPORT.findall(text):
        where, dot, only = re.fullmatch(r"(.*?)(::|\.|)([^:.]*)", path).groups()
        names = listed.split(",") if listed else [only]
        imported += [(f"{ghost}use {path if listed else where + dot}", it.strip()) for it in names]
    is_used = lambda name: all(it in words for it in re.findall(r"\w+|[^\w\s◌]", name.rpartition(" as ")[2] or name))
    lines = [*sorted({f"{path}{name}" for path, name in imported if name and is_used(name)}), *rest.split("\n")]
    return "\n".join(line for line in lines if line.strip())


def opening_of(lines, first, last):
    """The line on which the body of a function opens: behind its clauses, or at the end of its header."""
    header = next(at for at in range(first, last + 1) if HEADER.match(lines[at]))
    indent = HEADER.match(lines[header])[1]
    at_header = (at for at in range(header, last) if lines[at].endswith("{") and (at == header or lines[at].startswith(indent + ")")))
    return next((at for at in range(header, last) if lines[at] == indent + "{"), None) or next(at_header, header)


def function_at(file, text, place):
    """The function around a place of a source file, if there is one."""
    at = text.count("\n", 0, place) + 1
    return next((it for it in reversed(functions_in(file, text)) if at in it.lines), None)


def sources(crate):
    """The source files of a crate, each with its text."""
    folder, found = os.path.join(ROOT, "crates", crate), {}
    for at, _, names in os.walk(os.path.join(folder, "src")):
        for name in sorted(it for it in names if it.endswith(".rt")):
            with open(os.path.join(at, name), encoding="utf-8") as file:
                found[os.path.relpath(os.path.join(at, name), folder)] = file.read()
    return found


def given_out(texts):
    """The names that a library gives out, by its sources: those that its root lists, and those of its public modules."""
    library = texts["src/lib.rt"]
    listed = re.findall(r"^pub use (?:\w+::)*(?:\{([^}]*)\}|(\w+));", library, re.MULTILINE)
    modules = re.findall(r"^pub mod (\w+);", library, re.MULTILINE)
    within = [re.findall(r"^pub (?:const )?(?:fn|struct|enum|trait) (\w+)", texts[f"src/{it}.rt"], re.MULTILINE) for it in modules]
    return {it.strip() for many, one in listed for it in (many or one).split(",")}.union(*within)


def pairs_of(text):
    """The pairs of an edit: file, what stands there, and what stands there instead."""
    path, old = "", ""
    for line in text.split("\n"):
        if line.startswith("file: "):
            path = line.removeprefix("file: ").strip()
        elif line.startswith("old: "):
            old = line.removeprefix("old: ")
        elif line.startswith("new:"):
            yield path, old, line.removeprefix("new:").removeprefix(" ")


def functions_of(text, texts):
    """The functions that an edit touches, given the sources that it finds; none where it touches anything else, or cannot be applied."""
    found, texts = set(), dict(texts)
    for path, old, new in pairs_of(text):
        if not old or texts.get(path, "").count(old) != 1:
            return set()
        function = function_at(path, texts[path], texts[path].index(old))
        if not function:
            return set()
        found.add(function)
        texts[path] = texts[path].replace(old, new)
    return found


def edits(crate, folder):
    """The edits of a crate in must-fail/ or wrong/: name and text."""
    at = os.path.join(ROOT, "crates", crate, folder)
    for name in sorted(os.listdir(at)) if os.path.isdir(at) else []:
        if name.endswith(".edit"):
            with open(os.path.join(at, name), encoding="utf-8") as file:
                yield name, file.read()
