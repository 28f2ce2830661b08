"""Checks that the tables in code (crates/hub_schema/src/definitions.rt) are those of the definition (crates/hub_schema/specs/Schema.antt).
Change a table, a column or a key in the definition, and write the code from it.

    python3 -m tests.schema [--write]

Says where the two differ, with status 1; with `--write` it writes the code's tables again."""
import os
import re
import sys

from tests.harness.tree import ROOT

CRATE = os.path.join(ROOT, "crates", "hub_schema")
DEFINITION, CODE = os.path.join(CRATE, "specs", "Schema.antt"), os.path.join(CRATE, "src", "definitions.rt")
KINDS = {"bytes": "BLOB", "number": "INTEGER"}
# the code's tables, and how many of them are about goods and messages
TABLES = re.compile(r"static TABLES: \[Definition; \d+\] = \[\n.*?^\];\n\nconst TRAFFIC: usize = \d+;\n", re.MULTILINE | re.DOTALL)


def text_of(path):
    with open(path, encoding="utf-8") as file:
        return file.read()


def term(words):
    """The term that begins these words, which it takes: a list of what is joined by ∷, or an application as the list of its parts."""
    items = [[]]
    while words and words[0] != ")":
        word = words.pop(0)
        if word == "∷":
            items.append([])
        elif word == "(":
            items[-1].append(term(words))
            words.pop(0)
        else:
            items[-1].append(word)
    parts = [it[0] if len(it) == 1 else it for it in items]
    return parts[:-1] if parts[-1] == "[]" else parts[0]


def definitions():
    """Returns the definition of each table and list of tables, by its name."""
    text = re.sub(r"--.*", "", text_of(DEFINITION))
    found = re.findall(r"^(\w+_tables?) =(.*?)(?=^\S|\Z)", text, re.MULTILINE | re.DOTALL)
    return {name: term(re.findall(r"[()∷]|\[\]|\"\w+\"|[\w+]+", said)) for name, said in found}


def table(form, _tree, name, columns, primary, keys=None):
    """Returns a table's lines in code."""
    named = [column[1] for _, column in columns]
    keys = [primary] if form == "keyed" else keys if isinstance(keys, list) else []
    lines = [",\n".join(f'        {column[1]} "{KINDS[kind]}"' for kind, column in columns)]
    for word, key in zip(("primary", "unique"), keys):
        lines.append(f"        {word} " + ", ".join(named[int(place) - 1] for place in key))
    return f"    table!({name[1]}:\n" + "".join(f"{it};\n" for it in lines) + "    ),\n"


def code():
    """The code's tables, by the definition."""
    said = definitions()
    traffic, parties = said["traffic_tables"], said["party_tables"]
    made = "".join(table(*said[it]) for it in traffic + parties)
    return f"static TABLES: [Definition; {len(traffic + parties)}] = [\n{made}];\n\nconst TRAFFIC: usize = {len(traffic)};\n"


def main(words):
    text = text_of(CODE)
    right = TABLES.sub(lambda _: code(), text)
    if words == ["--write"]:
        with open(CODE, "w", encoding="utf-8") as file:
            file.write(right)
    elif right != text or not TABLES.search(text):
        lines = set(text.split("\n"))
        different = next((it for it in right.split("\n") if it not in lines), "the order of its tables")
        print(f"src/definitions.rt has other tables than specs/Schema.antt: {different.strip()}; python3 -m tests.schema --write")
        return 1
    return 0


if __name__ == "__main__":
    sys.exit(main(sys.argv[1:]))
