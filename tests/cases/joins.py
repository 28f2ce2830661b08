"""Suppliers that join while the hub runs: scripts for the program `trial_script`, over lists and over SQL, and what it prints."""
from dataclasses import replace

from tests.harness.case import Case
from tests.harness.first_order import ORDERS
from tests.harness.hub_scripts import KEYS, MOMENT, accepted, line_status, order
from tests.harness.joining_scripts import KEY_OF_GAMMA, ORDER_OF_GAMMA, PALLET_OF_GAMMA, Joining
from tests.harness.register_texts import ALPHA, BETA, DELTA, EIGHT, GAMMA, HUB, RETAILER, crowd, gln

MAIL_OF_GAMMA = f"UNA:+.? 'UNB+UNOC:3+{HUB}:14+{GAMMA}:14+250603:0920+1'{order(supplier=GAMMA)}UNZ+1+1'"
WAITING = line_status("128576", "W", 48, 48, 0, 0, 0)


def one_that_joins():
    """Before it joins a supplier is nobody, and what comes for it is not remembered; then it is one."""
    play = accepted(Joining(), RETAILER, "1001", "ORDERS", ORDERS)
    play.order_of_gamma("refused B02").is_unknown(GAMMA)
    play.as_gamma("status", "denied", "denied\n")
    play.gamma_joins().status(who=RETAILER, line=f"status-of {GAMMA}")
    play.order_of_gamma("accepted").as_gamma("item 1", "done", MAIL_OF_GAMMA)
    play.gamma_despatches().gamma_joins("refused B18")
    sent = line_status("128576", "W", 48, 36, 0, 0, 12)
    announced = f"P {PALLET_OF_GAMMA} 04000862141404 A {12:>14} {0:>14} {0:>14} {0:>14} {'+0':>15}"
    play.as_gamma("status", "done", f"{sent}\n{announced}\nend\n")
    play.ask(GAMMA, "status", "denied", "denied\n", key=KEYS[ALPHA])
    return play.status(WAITING).order_of_gamma("repeated")


def prefixes_of_others():
    """A refused join leaves the register as it was; own prefixes may begin one another."""
    play = Joining()
    play.join(DELTA, "delta-key-1", ["401234"], "refused B19").is_unknown(DELTA)
    play.join(DELTA, "delta-key-1", ["3512345", "401234550"], "refused B19").is_unknown(DELTA)
    play.join(DELTA, "delta-key-1", ["8712345", "3512345"], "refused B19").is_unknown(DELTA)
    play.ask(DELTA, "status", "denied", "denied\n", key="delta-key-1")
    play.join(DELTA, "delta-key-1", ["3512345", "35123456"], "accepted")
    play.ask(DELTA, "status", "done", "end\n", key="delta-key-1")
    # a supplier that joined is one of the others from then on
    play.join(GAMMA, KEY_OF_GAMMA, ["7612345", "351234567"], "refused B19").is_unknown(GAMMA)
    return play.gamma_joins().status(who=RETAILER, line=f"status-of {GAMMA}")


def prefixes_beside_others():
    """Each prefix of another is looked at; prefixes that begin alike, none with the other, are free."""
    play = Joining().gamma_joins()
    play.join(DELTA, "delta-key-1", ["3512345", "76123461"], "refused B19").is_unknown(DELTA)
    play.join(DELTA, "delta-key-1", ["8712345"], "refused B19").is_unknown(DELTA)
    play.join(DELTA, "delta-key-1", ["40123456", "7612347", "8712346"], "accepted")
    return play.ask(DELTA, "status", "done", "end\n", key="delta-key-1")


def parties_that_are_known():
    """The GLN of the hub, of the retailer or of a supplier cannot join, whatever its prefixes are."""
    play = Joining()
    for party in (HUB, RETAILER, ALPHA, BETA):
        for prefix in ("7612345", "40123455"):
            play.join(party, KEY_OF_GAMMA, [prefix], "refused B18")
    for key, told in ((KEYS[RETAILER], "done"), (KEY_OF_GAMMA, "denied")):
        play.ask(RETAILER, f"status-of {ALPHA}", told, "end\n" if told == "done" else "denied\n", key=key)
    return play.status().status(who=BETA)


def joins_of_others():
    """The retailer alone lets a supplier in, by its own key."""
    play = Joining()
    for who, key in ((ALPHA, None), (GAMMA, KEY_OF_GAMMA), (HUB, None), (RETAILER, KEYS[ALPHA])):
        play.join(GAMMA, KEY_OF_GAMMA, ["7612345"], "denied", who, "denied", key)
    return play.is_unknown(GAMMA).gamma_joins()


def keys_of_others():
    """Two suppliers may have one key, and so may a supplier and the retailer: a caller is a GLN and a key together."""
    play = Joining().join(GAMMA, KEYS[ALPHA], ["7612345"], "accepted").join(DELTA, KEYS[RETAILER], ["3512345"], "accepted")
    for who, key in ((GAMMA, KEYS[ALPHA]), (DELTA, KEYS[RETAILER]), (ALPHA, KEYS[ALPHA])):
        play.ask(who, "status", "done", "end\n", key=key)
    for who, key in ((GAMMA, KEYS[RETAILER]), (DELTA, KEYS[ALPHA]), (BETA, KEYS[ALPHA])):
        play.ask(who, "status", "denied", "denied\n", key=key)
    return play.join(BETA, KEYS[BETA], ["3612345"], "refused B18")


def a_run_with_a_join():
    """In one run: denied, B02, a join, and all that a supplier may."""
    play = Joining()
    play.say("run").as_gamma("status", "denied", "denied\n").order_of_gamma("refused B02")
    play.gamma_joins().gamma_joins("refused B18").order_of_gamma("accepted")
    return play.as_gamma(
        "status", "done", f"{WAITING}\nend\n"
    ).as_gamma("taken 1", "done", "taken\n").as_gamma("after 0", "done", "end\n").say("end")


def a_full_register(count):
    """Of a register of so many suppliers, at most a thousand: who joins, until it is full."""
    play = Joining(of=crowd(count))
    if count < 1000:
        play.gamma_joins().as_gamma("status", "done", "end\n").join(DELTA, "delta-key-1", ["3512345"], "refused B20").is_unknown(DELTA)
    else:
        play.gamma_joins("refused B20").is_unknown(GAMMA)
    # a known GLN goes first, then an overlap
    play.join(gln(7), KEY_OF_GAMMA, ["40000001"], "refused B18").join(DELTA, "delta-key-1", ["4000"], "refused B19")
    return play.status(who=RETAILER, line=f"status-of {gln(999 if count == 1000 else 998)}")


def stopped_joins(calls, fault):
    """A join, what then comes for the supplier, and another join, over a store that fails at the call after so many. What was stopped left
    the supplier out of the register too; opened anew, the store takes it."""
    play, before = Joining(f"{fault} {calls}"), 0
    asks = [
        (1, lambda told, outcome: play.gamma_joins(told, outcome), "accepted", lambda: play.is_unknown(GAMMA)),
        (4, lambda told, outcome: play.order_of_gamma(told), "accepted", None),
        (
            1,
            lambda told, outcome: play.join(DELTA, "delta-key-1", ["3512345"], told, outcome=outcome),
            "accepted",
            lambda: play.is_unknown(DELTA),
        ),
    ]
    for cost, ask, told, unknown in asks:
        if before <= calls < before + cost:
            if unknown:
                ask("stopped", "stopped")
                # who is not registered is known without the store
                unknown()
            else:
                play.stopping(lambda: play.upload(RETAILER, ORDER_OF_GAMMA, "interchange 1020 messages 1", "stopped"))
            play.say("mend")
            if unknown:
                unknown()
        ask(told, "done")
        before += cost
    play.gamma_joins("refused B18").say("mend")
    play.ask(DELTA, "status", "done", "end\n", key="delta-key-1")
    play.as_gamma("status", "done", f"{WAITING}\nend\n").as_gamma("item 1", "done", MAIL_OF_GAMMA)
    return play.case(f"joins over a store that fails with {fault} after {calls} calls")


def no_join(name, line):
    """A script with a line that is no join."""
    play = Joining().say(f"as {MOMENT} {RETAILER} {KEYS[RETAILER]}").say(line).say("status")
    return Case(f"a script with a join that is none: {name}", [], play.script, error=b"line\n", status=1)


NO_JOINS = [
    ("nine prefixes", f"join {GAMMA} {KEY_OF_GAMMA} {','.join([*EIGHT, '4012346'])}"),
    ("two equal prefixes", f"join {GAMMA} {KEY_OF_GAMMA} 7612345,7612346,7612345"),
    ("a text of three digits for a prefix", f"join {GAMMA} {KEY_OF_GAMMA} 761"),
    ("a key of seven bytes", f"join {GAMMA} gamma-k 7612345"),
    ("a text that is no GLN", f"join 7612345000009 {KEY_OF_GAMMA} 7612345"),
]

CASES = [
    one_that_joins().case("a supplier that joins, before and after"),
    prefixes_of_others().case("joins with prefixes of others"),
    prefixes_beside_others().case("joins with prefixes beside those of others"),
    parties_that_are_known().case("joins of parties that are known"),
    joins_of_others().case("joins that others than the retailer ask"),
    keys_of_others().case("joins with keys of others"),
    Joining().join(
        GAMMA, KEY_OF_GAMMA, [f"761234{last}" for last in range(8)], "accepted"
    ).gamma_joins("refused B18").case("a join with eight prefixes"),
    a_run_with_a_join().case("a run with a join"),
    *(a_full_register(count).case(f"joins where {count} suppliers are registered") for count in (999, 1000)),
    *(stopped_joins(calls, fault) for fault in ("memory", "disk") for calls in range(7)),
    *(no_join(*row) for row in NO_JOINS),
]

# the same over tables of SQL
JOINS = CASES + [replace(case, name=f"over SQL: {case.name}", words=["sql"]) for case in CASES]
