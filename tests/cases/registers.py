"""Registers, and what `edihub check` says of each."""
from tests.harness.register_texts import ALPHA, BETA, DELTA, EIGHT, GAMMA, HUB, RETAILER, crowd, of_prefixes, register

# The head of a register whose retailer is an inline table, and the start of a supplier's entry.
INLINE = f'hub = "{HUB}"\nretailer = {{ gln = "{RETAILER}", key = "retail-key" }}'
ENTRY = f'\n[[supplier]]\ngln = "{ALPHA}"\n'

# A name, the text, and the verdict: `ok` and how many suppliers there are, or the fault.
REGISTERS = [
    ("two suppliers with keys of their own", register((ALPHA, "40123455", "alpha-key-1"), (BETA, "8712345", "beta-key-1")), "ok 2"),
    ("two suppliers with one key, the greater GLN first", register((BETA, "8712345", "same-key"), (ALPHA, "40123455", "same-key")), "ok 2"),
    (
        "a prefix that begins another supplier's",
        register((ALPHA, "4012345", "alpha-key-1"), (BETA, "40123455", "beta-key-1")),
        "overlap 1 2",
    ),
    ("one prefix of two suppliers", register((ALPHA, "4012345", "alpha-key-1"), (BETA, "4012345", "beta-key-1")), "overlap 1 2"),
    (
        "two overlaps, the first supplier's with the last",
        register(
            (ALPHA, "8712345", "alpha-key-1"),
            (BETA, "40123455", "beta-key-1"),
            (GAMMA, "4012345", "gamma-key-1"),
            (DELTA, "8712", "delta-key-1"),
        ),
        "overlap 1 4",
    ),
    ("three digits for a prefix", register((ALPHA, "401", "alpha-key-1")), "prefix"),
    ("thirteen digits for a prefix", register((ALPHA, "4012345678901", "alpha-key-1")), "prefix"),
    ("the retailer as a supplier", register((RETAILER, "40123455", "alpha-key-1")), "twice"),
    ("the hub as a supplier", register((HUB, "40123455", "alpha-key-1")), "twice"),
    ("a wrong check digit behind a short key", register((ALPHA, "40123455", "short"), ("4012345500005", "8712345", "beta-key-1")), "gln"),
    ("a key with blanks", register((ALPHA, "40123455", "a key of blanks")), "key"),
    # two faults in one text: the one that is told stands in the last entry, the other in an earlier one
    (
        "a wrong GLN behind one that comes twice",
        register((ALPHA, "40123455", "alpha-key-1"), (ALPHA, "8712345", "beta-key-1"), ("0", "35123", "gamma-key-1")),
        "gln",
    ),
    (
        "a GLN that comes twice behind a wrong prefix",
        register((ALPHA, "1", "alpha-key-1"), (BETA, "8712345", "beta-key-1"), (BETA, "35123", "gamma-key-1")),
        "twice",
    ),
    ("a wrong prefix behind a short key", register((ALPHA, "40123455", "short"), (BETA, "x712345", "beta-key-1")), "prefix"),
    ("a short key beside an overlap", register((ALPHA, "40123455", "alpha-key-1"), (BETA, "40123455", "short")), "key"),
    (
        "the overlap that begins first of two",
        register(
            (ALPHA, "8712345", "alpha-key-1"),
            (BETA, "40123455", "beta-key-1"),
            (GAMMA, "4012", "gamma-key-1"),
            (DELTA, "40123", "delta-key-1"),
        ),
        "overlap 2 3",
    ),
    ("1,000 suppliers, all of them right", crowd(1000), "ok 1000"),
    ("1,001 suppliers, all of them right", crowd(1001), "many"),
    ("a supplier that is a number", 'hub = "x"\nretailer = { gln = "", key = "" }\nsupplier = [1]\n', "text"),
    # what is no register of TOML, and what is none of the register's business
    ("no retailer", f'hub = "{HUB}"', "text"),
    ("a hub that is a number", INLINE.replace(f'"{HUB}"', HUB), "text"),
    ("a retailer without a key", f'hub = "{HUB}"\nretailer = {{ gln = "{RETAILER}" }}', "text"),
    ("a retailer without a GLN", f'hub = "{HUB}"\nretailer = {{ key = "retail-key" }}', "text"),
    ("a list of retailers", f'hub = "{HUB}"\nretailer = [{{ gln = "{RETAILER}", key = "retail-key" }}]', "text"),
    ("a hub twice", f'hub = "{HUB}"\n{INLINE}', "text"),
    ("a supplier that is a text", f'{INLINE}\nsupplier = "{ALPHA}"', "text"),
    ("a supplier that is a table", f'{INLINE}\n[supplier]\ngln = "{ALPHA}"\nprefix = "40123455"\nkey = "alpha-key-1"', "text"),
    ("a supplier with a list of one prefix", f'{INLINE}{ENTRY}prefix = ["40123455"]\nkey = "alpha-key-1"', "ok 1"),
    ("lists of prefixes beside one", of_prefixes(["40123455", "5012"], "8712345", ["7612", "3512", "9999999"]), "ok 3"),
    ("an empty list of prefixes", of_prefixes("40123455", []), "prefix"),
    ("eight prefixes", of_prefixes(EIGHT), "ok 1"),
    ("nine prefixes", of_prefixes(EIGHT + ["8712345"]), "prefix"),
    ("a hundred prefixes", of_prefixes([f"40{number:05}" for number in range(100)]), "prefix"),
    ("two equal prefixes of a supplier", of_prefixes(["4012345", "8712345", "4012345"]), "prefix"),
    ("prefixes of a supplier that begin one another", of_prefixes(["4012345", "40123455", "4012"]), "ok 1"),
    ("prefixes of a supplier that begin one another, the shortest first", of_prefixes(["4012", "4012345", "40123455"], "8712345"), "ok 2"),
    ("an overlap of later prefixes", of_prefixes(["8712345", "40123455"], "7612345", ["3512345", "9999", "4012"]), "overlap 1 3"),
    ("an overlap of later prefixes, the longer one last", of_prefixes(["8712345", "4012"], ["3512345", "9999", "40123455"]), "overlap 1 2"),
    ("equal prefixes of two suppliers, in lists", of_prefixes(["3512345", "4012345"], ["4012345", "8712345"]), "overlap 1 2"),
    (
        "the least overlap, though a later one has the lesser prefixes",
        of_prefixes(["9999"], ["8712", "4012"], ["4012345", "5012"], ["99991"]),
        "overlap 1 4",
    ),
    ("three digits in a list", of_prefixes(["4012345", "401"]), "prefix"),
    ("thirteen digits in a list", of_prefixes(["4012345", "4012345678901"]), "prefix"),
    ("a letter in a list", of_prefixes(["4012345", "401234x"]), "prefix"),
    ("two equal prefixes of a supplier, before an overlap", of_prefixes("4012345", ["4012345", "8712345", "8712345"]), "prefix"),
    ("nine prefixes, behind a short key", register((ALPHA, "8712345", "short"), (BETA, EIGHT + ["5012"], "beta-key-1")), "prefix"),
    (
        "a short key beside an overlap of later prefixes",
        register((ALPHA, ["8712345", "4012"], "short"), (BETA, ["3512345", "4012"], "beta-key-1")),
        "key",
    ),
    (
        "an empty list of prefixes, of a GLN that comes twice",
        register((ALPHA, [], "alpha-key-1"), (ALPHA, "8712345", "beta-key-1")),
        "twice",
    ),
    ("a number in a list of prefixes", f'{INLINE}{ENTRY}prefix = ["40123455", 5012]\nkey = "alpha-key-1"', "text"),
    ("a list in a list of prefixes", f'{INLINE}{ENTRY}prefix = [["40123455"]]\nkey = "alpha-key-1"', "text"),
    ("a table for a prefix", f'{INLINE}{ENTRY}prefix = {{ first = "40123455" }}\nkey = "alpha-key-1"', "text"),
    ("a number for a prefix", f'{INLINE}{ENTRY}prefix = 40123455\nkey = "alpha-key-1"', "text"),
    ("a supplier without a prefix", f'{INLINE}{ENTRY}key = "alpha-key-1"', "text"),
    (
        "a number in the last list, before a wrong GLN",
        of_prefixes(["40123455"], ["8712345"]).replace(ALPHA, "1").replace('"8712345"', "8712345"),
        "text",
    ),
    ("a list of prefixes over lines", f'{INLINE}{ENTRY}prefix = [\n  "40123455", # first\n  "5012",\n]\nkey = "alpha-key-1"', "ok 1"),
    ("a supplier without a key", f'{INLINE}{ENTRY}prefix = "40123455"', "text"),
    ("a retailer with a key of six bytes", INLINE.replace("retail-key", "retail"), "key"),
    ("a hub with a wrong check digit", INLINE.replace(HUB, "5412345000007"), "gln"),
    *(("a GLN that GS1 has published", register((it, "0614", "alpha-key-1")), "ok 1") for it in ("0614141123452", "6291041500213")),
    *(
        (f"no GLN, {it!r}", register((it, "0614", "alpha-key-1")), "gln")
        for it in ("0614141123453", "614141123452", "00614141123452", "061414112345 ", "")
    ),
    ("one GLN for the hub and the retailer", INLINE.replace(HUB, RETAILER), "twice"),
    ("an empty list of suppliers", f"{INLINE}\nsupplier = []", "ok 0"),
    (
        "comments, other keys, and entries in another order",
        f"# parties\nname = 7\nhub = '{HUB}'\n[retailer]\nkey = \"retail-key\"\ngln = \"{RETAILER}\"\ncity = {{ name = \"Bonn\" }}\n"
        f'[[supplier]]\nkey = "!~345678"\nprefix = "4012"\nname = 1.5\ngln = "{ALPHA}"',
        "ok 1",
    ),
]
