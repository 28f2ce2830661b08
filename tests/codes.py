"""Checks that each code of a fault or a refusal means the same everywhere. docs/codes.toml is the list: the entries of CODES.md and the
table of page/hub/codes.js are written from it, and definitions and help texts have to agree with it.

    python3 -m tests.codes [--write]

Prints each difference, with status 1; with `--write` it first writes the entries again. For that a new code needs a line of its own in
each place: `- **M13**` in CODES.md, `  M13: {` and `  },` in the page."""
import json
import os
import re
import sys
import textwrap
from glob import glob

from tests.harness.code_list import LIST, read_codes
from tests.harness.tree import ROOT

HELP = os.path.join("crates", "hub_program", "src", "program.rt")
CODE = re.compile(r"\b[EMB]\d\d\b")
# a code that the documents name, as an example of a new one
EXAMPLES = {os.path.join("docs", "CONTRIBUTING.md"): {"M13", "B21"}}
# faults of an upload, which `show` does not know
NEVER_SHOWN = ("E08", "E09")
SENTENCES = ("meaning", "cause", "remedy")


def text_of(path):
    with open(os.path.join(ROOT, path), encoding="utf-8") as file:
        return file.read()


def files(*pattern):
    return sorted(os.path.relpath(it, ROOT) for it in glob(os.path.join(ROOT, *pattern), recursive=True))


def item(code, said, text):
    """An entry of a list in a document."""
    name = f"{code} {said['name']}" if "name" in said else code
    return "\n".join(textwrap.wrap(f"- **{name}**: {text}", 120, subsequent_indent="  ", break_on_hyphens=False)) + "\n"


def explanation(code, said):
    condition = said["condition"][0].upper() + said["condition"][1:]
    return item(code, said, f"{condition}. *{said['cause']}* {said['remedy']}")


def words_of_page(code, said):
    return f"  {code}: {{\n" + "".join(f"    {it}: {json.dumps(said[it], ensure_ascii=False)},\n" for it in SENTENCES) + "  },\n"


ITEM = r"- \*\*([EMB]\d\d)\b.*\n(?:  .*\n)*"
# each place that is written from the list: the codes that it has by their letters, how its entries look, and how one is written
WRITTEN = {
    os.path.join("docs", "CODES.md"): ("EMB", ITEM, explanation),
    os.path.join("page", "hub", "codes.js"): ("EMB", r"  ([EMB]\d\d): \{\n(?:    .*\n)*  \},\n", words_of_page),
}


def written(path, codes):
    """The text of a place with the list's entries, in order wherever entries follow each other; and what it lacks or has twice."""
    letters, entry, form = WRITTEN[path]
    found = []

    def block(match):
        here = re.findall(f"^{entry}", match[0], re.MULTILINE)
        found.extend(here)
        return "".join(form(it, said) for it, said in codes.items() if it in here)

    ungrouped = entry.replace("(", "(?:", 1)
    text = re.sub(f"(?:^{ungrouped})+", block, text_of(path), flags=re.MULTILINE)
    lines = [f"{path} has no entry for {it}" for it in codes if it[0] in letters and it not in found]
    return text, lines + [f"{path} has an entry for {it} too many" for it in sorted({it for it in found if found.count(it) > 1})]


def written_alike(codes, write):
    """Whether the places have the entries that are written from the list; with `write` they are written first."""
    for path in WRITTEN:
        before = text_of(path)
        text, lines = written(path, codes)
        if write and text != before:
            with open(os.path.join(ROOT, path), "w", encoding="utf-8") as file:
                file.write(text)
        elif text != before:
            lines_of_list = set(text.split("\n"))
            different = next((it for it in before.split("\n") if it not in lines_of_list), "the order of its entries")
            lines.append(f"{path} says something else than {LIST}: {different.strip()}; python3 -m tests.codes --write")
        yield from lines


def well_formed(codes):
    """Whether the list is in order, and each code has its texts."""
    if list(codes) != sorted(codes, key=lambda it: ("EMB".find(it[0]), it)):
        yield f"{LIST}: the codes are not in the order E, M, B and their numbers"
    for code, said in codes.items():
        wanted = {*SENTENCES, "condition", *(["name"] if code[0] in "EM" else [])}
        if set(said) != wanted:
            yield f"{LIST}: {code} has {', '.join(said)}, not {', '.join(sorted(wanted))}"
        yield from (f"{LIST}: the {it} of {code} is not a sentence" for it in SENTENCES if not re.fullmatch(r"[A-Z].*\.", said.get(it, "")))


def defined():
    """The code of each variant of a fault, by kind and variant; and the codes that the definitions name without one."""
    told = {it: text_of(it) for it in files("crates", "*", "specs", "**", "*.antt")}
    by_kind = {
        kind: dict(re.findall(r'^code_text (\w+) = codes "([EMB]\d\d)"$', told[os.path.join("crates", *path)], re.MULTILINE))
        for kind, path in (("token", ("edi_segments", "specs", "Code.antt")), ("envelope", ("edi_envelope", "specs", "Fault.antt")))
    }
    messages = told[os.path.join("crates", "edi_messages", "specs", "Fault.antt")]
    numbers = re.findall(r"^number fault\.(\w+) = ([1-9]\d*)$", messages, re.MULTILINE)
    by_kind["message"] = {variant: f"M{int(number):02}" for variant, number in numbers}
    named = {it for text in told.values() for it in re.findall(r'codes "([EMB]\d\d)"', text)}
    return by_kind, named


def as_defined(codes):
    """Whether the list has the codes of the definitions, and `show`'s names for them."""
    by_kind, named = defined()
    every = named | set(by_kind["message"].values())
    yield from (f"{LIST} lacks {it}, which crates/*/specs define" for it in sorted(every - set(codes)))
    yield from (f"{LIST} has {it}, which crates/*/specs do not define" for it in sorted(set(codes) - every))
    path = os.path.join("crates", "edi_show", "specs", "Fault.antt")
    names = re.findall(r'^(\w+)_words \w+\.(\w+) = codes "(.+)"$', text_of(path), re.MULTILINE)
    by_code = {by_kind[kind][variant]: name for kind, variant, name in names if variant in by_kind[kind]}
    for code, listed in ((it, said["name"]) for it, said in codes.items() if "name" in said and it not in NEVER_SHOWN):
        if by_code.get(code) != listed:
            yield f"{path} names {code} {by_code.get(code)!r}, and {LIST} {listed!r}"


def plain(text):
    """A condition up to its first semicolon, numbers without commas."""
    return re.sub(r"(?<=\d),(?=\d)", "", text.partition(";")[0])


def said_elsewhere(codes):
    """Whether help texts and documents name no other codes, and say what a code means in the words of the list."""
    documents = ["README.md", *files("docs", "*.md")]
    for path in (*documents, HELP, *files("page", "**", "*.js"), *files("crates", "*", "specs", "**", "*.antt")):
        text = text_of(path)
        unknown = set(CODE.findall(text)) - set(codes) - EXAMPLES.get(path, set())
        yield from (f"{path} names {it}, which {LIST} lacks" for it in sorted(unknown))
        if path not in (*documents, HELP):
            continue
        for code, name in re.findall(r"\brefused ([EM]\d\d) ([a-z ]+?) at (?:segment|offset) \d", text):
            if name != codes.get(code, {}).get("name"):
                yield f"{path} names {code} {name!r}"
        for code, words in re.findall(r"^(?:  |- `refused )([EMB]\d\d)(?:  |`: )([^.\n]+)", text, re.MULTILINE):
            if plain(words) != plain(codes.get(code, {}).get("condition", "")):
                yield f"{path} says of {code} {words!r}"


def main(words):
    codes = read_codes()
    lines = list(well_formed(codes))
    if not lines:
        lines = [*written_alike(codes, words == ["--write"]), *as_defined(codes), *said_elsewhere(codes)]
    print(*lines, sep="\n", end="\n" if lines else "")
    return 1 if lines else 0


if __name__ == "__main__":
    sys.exit(main(sys.argv[1:]))
