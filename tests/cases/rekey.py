"""Cases of `rekey`: whose key is changed and to what, what stays as it was, and words and files that it does not take."""
from tests.cases.usage import ONE_PARTY, a_gln, refused_words
from tests.harness.case import Case
from tests.harness.database_files import NAME, OLD_ROWS, OLD_TABLES, file_of, has_rows
from tests.harness.first_order import ORDERS
from tests.harness.hub_scripts import FIRST_MAIL, KEYS
from tests.harness.hub_steps import FIRST_TWO, founded, mail, one, over, rows_of_register, step, steps, told
from tests.harness.register_texts import ALPHA, BETA, GAMMA, HUB, RETAILER

NEW = "new-key-7"


def rekey(*whose, db=NAME, file="new.txt"):
    return ["rekey", "--db", db, *whose, "--new-key-file", file]


def of(supplier):
    return rekey("--supplier", supplier)


OF_RETAILER = rekey("--retailer")


def with_key(content):
    return {"new.txt": content}


def rows_with(alpha=KEYS[ALPHA], retailer=KEYS[RETAILER]):
    """The rows of the register of two suppliers with these keys."""
    rows = rows_of_register((ALPHA, ["40123455"], alpha), FIRST_TWO[1])
    return has_rows({**rows, "hub": [(HUB.encode(), RETAILER.encode(), retailer.encode())]})


AS_BEFORE = rows_with()
ENDS, DENIED = told("end"), told("denied")


def changed():
    """One key is another, for each party alone."""
    suppliers = founded(
        "a supplier's key is changed",
        step(of(ALPHA), "ok\n", files=with_key(f"{NEW}\n"), after=rows_with(alpha=NEW)),
        step(over("status", ALPHA), DENIED, 1),
        step(over("status", ALPHA, key=NEW), ENDS),
        step(over("status", BETA), ENDS),
        step(over("status", BETA, key=NEW), DENIED, 1),
        step(over("status", RETAILER, "--of", ALPHA), ENDS),
        step(of(ALPHA), "ok\n", files=with_key(KEYS[ALPHA]), after=AS_BEFORE),
        step(over("status", ALPHA), ENDS),
        step(over("status", ALPHA, key=NEW), DENIED, 1),
    )
    retailers = founded(
        "the retailer's key is changed",
        step(OF_RETAILER, "ok\n", files=with_key(f"{NEW}\r\nmore\n"), after=rows_with(retailer=NEW)),
        step(over("status", RETAILER, "--of", ALPHA), DENIED, 1),
        step(over("status", RETAILER, "--of", ALPHA, key=NEW), ENDS),
        step(over("status", ALPHA), ENDS),
    )
    same = founded("a key is changed to itself", step(of(BETA), "ok\n", files=with_key(KEYS[BETA]), after=AS_BEFORE))
    both = founded(
        "two parties get the same key",
        step(of(ALPHA), "ok\n", files=with_key(KEYS[BETA])),
        step(over("status", ALPHA, key=KEYS[BETA]), ENDS),
        step(over("status", BETA), ENDS),
    )
    return [suppliers, retailers, same, both]


def kept():
    """A supplier's orders stay with it, and so does a supplier that has joined."""
    join = over("join", RETAILER, "--supplier", GAMMA, "--supplier-key", "gamma-key-1", "--prefixes", "7612345")
    return [
        founded(
            "a supplier with a new key sees its mail",
            one(RETAILER, "first", "1001", "ORDERS", ORDERS),
            step(of(ALPHA), "ok\n", files=with_key(NEW)),
            mail(ALPHA, "item", 1, DENIED, 1),
            step(over("mail", ALPHA, "--do", "item", "--n", "1", key=NEW), FIRST_MAIL),
        ),
        founded(
            "the key of a supplier that has joined",
            step(join, "accepted\n"),
            step(
                of(GAMMA),
                "ok\n",
                files=with_key("!~345678"),
                after=has_rows(rows_of_register(*FIRST_TWO, (GAMMA, ["7612345"], "!~345678"))),
            ),
            step(over("status", GAMMA, key="!~345678"), ENDS),
        ),
    ]


def refused():
    """No such supplier, and no key: nothing is changed."""
    for name, gln in ("nobody", GAMMA), ("the hub", HUB), ("the retailer", RETAILER):
        yield founded(f"a key for {name} as a supplier", step(of(gln), "unknown\n", 1, files=with_key(NEW), after=AS_BEFORE))
    longest = "k" * 64
    yield founded("the longest key", step(of(ALPHA), "ok\n", files=with_key(longest), after=rows_with(alpha=longest)))
    for content in ("", "\n", "seven-7", f"{longest}k\n", f"{longest}\r", "new key 7\n", "new\tkey-7\n", f"\n{NEW}\n", "schl\u00fcssel\n"):
        no_key = step(of(ALPHA), "fault key\n", 1, files=with_key(content.encode()), after=AS_BEFORE)
        yield founded(f"no key, {content[:9]!r}", no_key)
    yield steps("no key, and no database", step(of(ALPHA), "fault key\n", 1, files=with_key("seven-7")))
    yield steps("no key for nobody", step(of(GAMMA), "fault key\n", 1, files=with_key("seven-7")))


def failed():
    """A key file is looked for before the database."""
    fault = lambda words, **how: step(words, "", 3, "file\n", **how)
    yield steps("rekey without its key file, and no database", fault(of(ALPHA)))
    yield steps("rekey with a folder for its key file", fault(of(ALPHA), files={"new.txt/more": ""}))
    yield founded("rekey over a hub, without its key file", fault(of(ALPHA), after=AS_BEFORE))
    yield steps("rekey without a database", step(of(ALPHA), "", 3, "store version\n", files=with_key(NEW)))
    no_database = {NAME: b"none\n" * 1000, **with_key(NEW)}
    yield steps("rekey over a file that is no database", step(of(ALPHA), "", 3, "store disk\n", files=no_database))
    yield steps(
        "rekey over a file of schema 1",
        Case("", of(ALPHA), status=3, error=b"store version\n", files={NAME: file_of(OLD_TABLES, OLD_ROWS), "new.txt": NEW.encode()}),
    )
    told_nowhere = Case("", of(ALPHA), status=3, error=b"file\n", files={"new.txt": NEW.encode()}, output_to="/dev/full")
    yield founded("rekey that cannot tell, and has changed the key", told_nowhere, step(over("status", ALPHA, key=NEW), ENDS))


def words():
    """Exactly one party is named, by a GLN."""
    one_party, no_gln = refused_words(ONE_PARTY), refused_words(a_gln("supplier"))
    yield steps("rekey of both", step(rekey("--supplier", ALPHA, "--retailer"), "", 2, one_party))
    yield steps("rekey of neither", step(rekey(), "", 2, one_party))
    yield steps("rekey of a wrong GLN", step(of(ALPHA[:-1] + "5"), "", 2, no_gln))
    yield steps("rekey of twelve digits", step(of(ALPHA[:-1]), "", 2, no_gln))
    missing = lambda it: it.startswith(b"error: the following required arguments were not provided:")
    yield steps("rekey without a database's name", step(["rekey", "--retailer", "--new-key-file", "new.txt"], "", 2, missing))
    yield steps("rekey without a key file's name", step(["rekey", "--db", NAME, "--retailer"], "", 2, missing))
    more = lambda it: it.startswith(b"error: ") and b"Usage: " in it
    yield steps("rekey with a value for --retailer", step([*OF_RETAILER, "--retailer=yes"], "", 2, more))
    yield steps("rekey with a caller", step([*OF_RETAILER, "--as", RETAILER], "", 2, more))


CASES = [*changed(), *kept(), *refused(), *failed(), *words()]
