"""Cases of keys in files: the same commands with `--key-file`, what the key in a file is, and files that cannot be read."""
from dataclasses import replace

from tests.cases.usage import PREFIXES, refused_words
from tests.harness.case import Case
from tests.harness.database_files import NAME, has_rows
from tests.harness.hub_scripts import KEYS
from tests.harness.hub_steps import EACH, FIRST_TWO, REGISTER, founded, in_files, init, over, rows_of_register, step, steps, told
from tests.harness.register_texts import ALPHA, GAMMA, RETAILER, register

# the commands that take a key
WITH_KEYS = [words for words in EACH if "--key" in words]


def by_files(case, first=True):
    """The same steps with the keys in files, which print the same."""
    words, files = in_files(case.words)
    keys = {path: text.encode() for path, text in files.items()}
    name = f"{case.name}, with keys in files" if first else ""
    return replace(case, name=name, words=words, files={**case.files, **keys}, then=[by_files(it, False) for it in case.then])


def with_file(words, content, **files):
    """The words with the caller's key in a file of this content, and their files."""
    given, _ = in_files(words)
    content = content if isinstance(content, bytes) else content.encode()
    return given, {"key.txt": content, **files}


EITHER = refused_words("the key is given either by --key-file or by --key")
EITHER_OF_SUPPLIER = refused_words("the supplier's key is given either by --supplier-key-file or by --supplier-key")
NO_KEY = refused_words("the first line of the file of --supplier-key-file must be 8 to 64 visible ASCII characters")

KEY, LONGEST = KEYS[ALPHA], "k" * 64
# contents of a file whose key is KEY, and of others
MORE = ("", "\n", "\r\n", "\nbeta-key-1\n", "\r\n\r\nmore", "\n\r", b"\n\xff\0", "\n" + "x" * 100_000)
ITS_KEY = tuple(KEY.encode() + (more if isinstance(more, bytes) else more.encode()) for more in MORE)
NOT_ITS_KEY = (
    "", "\n", "\r\n", "\r", f"\n{KEY}\n", f"\r\n{KEY}", f"{KEY}\r", f"{KEY}\r\r\n", f"{KEY}\r{KEY}\n", f" {KEY}\n", f"{KEY} \n",
    f"{KEY}\t\n", f"\ufeff{KEY}\n", f"{KEY}\0\n", KEY[:-1] + "\n", f"{KEY}1\n", KEY.upper() + "\n", KEYS[RETAILER] + "\n",
    KEY.encode("utf-16"),
)
# contents whose key is the longest that may be, and contents of which a front is that key
LONGEST_KEY = (LONGEST, f"{LONGEST}\n", f"{LONGEST}\r\n", f"{LONGEST}\nk\n", f"{LONGEST}\r\n\n")
LONGER = tuple(LONGEST + more for more in ("k", "k\n", "k\r\n", "\r", "\rk\n", "\r\r\n", " \n", "k" * 1_000_000))


def contents():
    """What the key in a file is: the first line of it, without its line end."""
    status, denied = over("status", ALPHA), told("denied")
    as_it_is = founded("the key in a file is its first line")
    as_it_is.then += [step(words, told("end"), files=files) for words, files in (with_file(status, it) for it in ITS_KEY)]
    as_it_is.then += [step(words, denied, 1, files=files) for words, files in (with_file(status, it) for it in NOT_ITS_KEY)]
    found = step(init(), told("ok 1 suppliers"), files={REGISTER: register((ALPHA, "40123455", LONGEST))})
    long = steps("a key of 64 bytes in a file, and longer lines", found)
    long.then += [step(words, told("end"), files=files) for words, files in (with_file(status, it) for it in LONGEST_KEY)]
    long.then += [step(words, denied, 1, files=files) for words, files in (with_file(status, it) for it in LONGER)]
    return [as_it_is, long]


JOIN = over("join", RETAILER, "--supplier", GAMMA, "--supplier-key-file", "supplier.txt", "--prefixes", "7612345")
AS_BEFORE = has_rows(rows_of_register(*FIRST_TWO))


def joins():
    """What the key of a supplier is that joins, and which files give none."""
    accepted = [(f"{LONGEST}\r\n", LONGEST), ("gamma-k1", "gamma-k1"), ("!~345678\nmore\n", "!~345678")]
    refused = ["", "\n", "gamma-k\n", f"{LONGEST}k\n", f"{LONGEST}\r", "gamma key 1\n", "gamma\tkey\n", "schl\u00fcssel\n"]
    return [
        *(
            founded(
                f"a supplier joins with the key in a file, {content[:9]!r}",
                step(
                    JOIN,
                    told("accepted"),
                    files={"supplier.txt": content},
                    after=has_rows(rows_of_register(*FIRST_TWO, (GAMMA, ["7612345"], key))),
                ),
                step(over("status", GAMMA, key=key), told("end")),
            )
            for content, key in accepted
        ),
        founded(
            "a file that has no key for a supplier",
            *(step(JOIN, "", 2, NO_KEY, files={"supplier.txt": it.encode()}, after=AS_BEFORE) for it in refused),
        ),
        steps("a file that has no key for a supplier, and no database", step(JOIN, "", 2, NO_KEY, files={"supplier.txt": "gamma-k"})),
    ]


def unread():
    """A file that cannot be read is found before the store is opened, and after faults of the words."""
    for words in WITH_KEYS:
        (given, files), name = in_files(words), words[0]
        fault = lambda **how: step(given, "", 3, "file\n", **how)
        yield steps(f"{name} with a key file that is not there, and no database", fault())
        yield steps(f"{name} with a folder for a key file", fault(files={"key.txt/more": ""}))
        yield steps(f"{name} with a key file that is not there, and a file that is no database", fault(files={NAME: b"none\n" * 1000}))
        yield founded(f"{name} over a hub, with a key file that is not there", fault(after=AS_BEFORE))
        yield steps(f"{name} with a key file, and no database", step(given, "", 3, "store version\n", files))
    yield founded("join with no file for the supplier's key", step(JOIN, "", 3, "file\n", after=AS_BEFORE))
    yield founded("join with a folder for the supplier's key", step(JOIN, "", 3, "file\n", {"supplier.txt/more": ""}, AS_BEFORE))
    given, files = in_files(JOIN)
    no_key = {"supplier.txt": "gamma-k"}
    yield steps("join with no file for the caller's key, and no key in the other", step(given, "", 3, "file\n", no_key))
    nine = ",".join(f"761234{last}" for last in range(1, 10))
    wrong = [nine if word == "7612345" else word for word in given]
    yield steps("join with nine prefixes, and no key files", step(wrong, "", 2, refused_words(PREFIXES)))


def either():
    """Exactly one of the two options for a key is given."""
    for words in WITH_KEYS:
        (given, files), name = in_files(words), words[0]
        place = given.index("--key-file")
        yield steps(f"{name} with a key, and a file for it", step([*given, "--key", "retail-key"], "", 2, EITHER, files))
        yield steps(f"{name} with neither a key nor a file for it", step(given[:place] + given[place + 2 :], "", 2, EITHER, files))
        again = step([*given, "--key-file", "key.txt"], "", 2, lambda it: it.startswith(b"error: ") and b"Usage: " in it, files)
        yield steps(f"{name} with two files for a key", again)
    place, files = JOIN.index("--supplier-key-file"), {"supplier.txt": "gamma-key-1\n"}
    both = [*JOIN, "--supplier-key", "gamma-key-1"]
    yield steps("join with a supplier's key, and a file for it", step(both, "", 2, EITHER_OF_SUPPLIER, files))
    yield steps("join with neither", step(JOIN[:place] + JOIN[place + 2 :], "", 2, EITHER_OF_SUPPLIER, files))


def on_standard_input():
    """The key file may be a pipe, of which no more than a line is read."""
    given, _ = in_files(over("status", ALPHA))
    words = ["/dev/stdin" if word == "key.txt" else word for word in given]
    return founded("a key on standard input", Case("", words, input=KEY.encode() + b"\n", output=told("end").encode()))


CASES = [*contents(), *joins(), *unread(), *either(), on_standard_input()]
