"""Cases of a hub over a store in memory, of lists or of SQL: scripts for the program `trial_script`, and what it prints: the rules of
business, who may ask what, look-ups, commits, and a store that fails at each call."""
from dataclasses import replace

from tests.harness.case import Case
from tests.harness.first_order import ORDERS
from tests.harness.hub_scripts import CHANGED, DESPATCH, FIRST_MAIL, MOMENT, OTHER_PALLET, PALLET, PALLET_OF_BETA
from tests.harness.hub_scripts import RECEIPT, RESPONSE, SECOND, SECOND_MAIL, SPELLED, STATUS, THIRD_MAIL
from tests.harness.hub_scripts import THIRD_PALLET, Play, accepted, advice, despatch, goods_in_turn, interchange
from tests.harness.hub_scripts import line_status, message, order, ordered, parties, receipt, response
from tests.harness.random_inputs import sscc
from tests.harness.register_texts import ALPHA, BETA, DELTA, HUB, RETAILER


def numbers_of_refused():
    """An advice that was refused is unknown, and a pallet of another supplier is under none of one's prefixes, used or not."""
    play = accepted(ordered(), ALPHA, "S1", "ORDRSP", RESPONSE)
    play.upload(ALPHA, interchange(ALPHA, "S3", despatch("DA2", OTHER_PALLET, 20, 17)), "interchange S3 messages 1", "1 DESADV refused B10")
    accepted(play, ALPHA, "S4", "DESADV", interchange(ALPHA, "S4", despatch("DA2", OTHER_PALLET, 20, 5)))
    play.upload(ALPHA, interchange(ALPHA, "S5", despatch("DA2", PALLET, 1)), "interchange S5 messages 1", "1 DESADV refused B13")
    accepted(play, RETAILER, "1001", "ORDERS", interchange(RETAILER, "1001", order(supplier=BETA)))
    accepted(play, BETA, "S1", "DESADV", interchange(BETA, "S1", despatch("DA1", PALLET_OF_BETA, 5, supplier=BETA)))
    play.upload(ALPHA, interchange(ALPHA, "S6", despatch("DA3", PALLET_OF_BETA, 1)), "interchange S6 messages 1", "1 DESADV refused B11")
    play.upload(
        RETAILER, interchange(RETAILER, "1005", receipt("G1", PALLET_OF_BETA)), "interchange 1005 messages 1", "1 RECADV refused B14"
    )
    return play


def later():
    """What comes again at a later moment."""
    play = goods_in_turn()
    play.moment = str(int(MOMENT) + 86_400)
    play.upload(RETAILER, SPELLED, "interchange 1001 messages 1", "1 ORDERS repeated")
    play.upload(ALPHA, RESPONSE, "interchange S1 messages 1", "1 ORDRSP repeated").upload(
        ALPHA, DESPATCH, "interchange S2 messages 1", "1 DESADV repeated"
    )
    return play.upload(RETAILER, RECEIPT, "interchange 1005 messages 1", "1 RECADV repeated").status(*STATUS).item(1, FIRST_MAIL)


def cancelled():
    """Cancellations, after all that."""
    play = goods_in_turn()
    play.cancel("C1", 1, 10, "accepted")
    play.status(line_status("128576", "C", 48, 14, 12, 10, 12), *STATUS[1:])
    play.cancel("C1", 1, 10, "repeated").cancel("C2", 1, 15, "refused B17").cancel("C1", 1, 11, "refused B03")
    play.cancel("C1", "01", "010", "repeated")
    play.cancel("C3", 2, 1, "refused B06").cancel("C4", 1, 1, "refused B05", order="128578")
    play.cancel("C5", 1, 14, "accepted")
    play.cancel("C6", 1, 1, "refused B02", supplier=DELTA)
    play.status(line_status("128576", "C", 48, 0, 12, 24, 12), *STATUS[1:])
    return play


def two_suppliers():
    """The same order for each of two suppliers."""
    play = Play()
    for supplier in (BETA, ALPHA):
        accepted(play, RETAILER, "1001", "ORDERS", interchange(RETAILER, "1001", order(supplier=supplier)))
    return play.list(0, (1, "ORDERS", "128576")).list(0, (1, "ORDERS", "128576"), who=BETA)


def bounds(quantity, told, opened=None):
    play = Play().upload(RETAILER, ORDERS.replace("QTY+21:48", f"QTY+21:{quantity}"), "interchange 1001 messages 1", f"1 ORDERS {told}")
    return play.status(*([line_status("128576", "W", opened, opened, 0, 0, 0)] if opened else []))


def lengths(length, *lines, outcome="done"):
    return Play().upload(RETAILER, ORDERS + "\n" * (length - len(ORDERS)), *lines, outcome=outcome)


def not_a_pallet():
    play = accepted(ordered(), ALPHA, "S1", "ORDRSP", RESPONSE)
    return play.upload(ALPHA, DESPATCH.replace(PALLET, PALLET[:-1] + "3"), "interchange S2 messages 1", "1 DESADV refused M10")


def one_for_each():
    """Two messages in one interchange, the first of them refused, or the envelope."""
    messages = (order(quantity="0", supplier=BETA), order(reference=2))
    play = Play().upload(
        RETAILER, interchange(RETAILER, "1001", *messages), "interchange 1001 messages 2", "1 ORDERS refused M08", "2 ORDERS accepted"
    )
    play.list(0, who=BETA).list(0, (1, "ORDERS", "128576"))
    other = interchange(RETAILER, "1001", *messages).replace("UNT+10+1'", "UNT+9+1'")
    return play, Play().upload(RETAILER, other, "refused E12", outcome="bad").list(0)


def who_may_what():
    """What is denied or not known, and whose interchange is taken."""
    play = ordered()
    for line in ("after 0", "item 1", "taken 1", "status"):
        play.ask(RETAILER, line, "denied", "denied\n")
    play.ask(ALPHA, f"status-of {ALPHA}", "denied", "denied\n")
    play.ask(ALPHA, "cancel", "denied", "denied\n", f"{ALPHA}\nC1\n128576\n1\n10\n")
    for who, key in (
        (ALPHA, "beta-key-1"),
        (ALPHA, "alpha-key-"),
        (ALPHA, "alpha-key-11"),
        (RETAILER, "alpha-key-1"),
        (HUB, "retail-key"),
        (DELTA, "alpha-key-1"),
    ):
        play.ask(who, "status", "denied", "denied\n", key=key)
    play.ask(BETA, "upload", "denied", "denied\n", RESPONSE, key="alpha-key-1")
    play.ask(ALPHA, "item 99", "unknown", "unknown\n").ask(
        ALPHA, "taken 2", "unknown", "unknown\n"
    ).ask(ALPHA, "item 0", "unknown", "unknown\n")
    play.ask(BETA, "item 1", "unknown", "unknown\n").ask(BETA, "taken 1", "unknown", "unknown\n")
    play.ask(RETAILER, f"status-of {DELTA}", "unknown", "unknown\n").ask(RETAILER, f"status-of {RETAILER}", "unknown", "unknown\n")
    mine = line_status("128576", "W", 48, 48, 0, 0, 0)
    play.status(mine, who=RETAILER, line=f"status-of {ALPHA}").status(mine).status(who=RETAILER, line=f"status-of {BETA}").status(who=BETA)
    play.upload(ALPHA, ORDERS, "refused E08", outcome="bad")
    play.upload(ALPHA, interchange(ALPHA, "S9", order()), "interchange S9 messages 1", "1 ORDERS refused M01")
    play.upload(RETAILER, interchange(RETAILER, "S9", response("R1", 4, *CHANGED)), "interchange S9 messages 1", "1 ORDRSP refused M01")
    play.upload(RETAILER, interchange(RETAILER, "1002", order("128577"), to=RETAILER), "refused E09", outcome="bad")
    play.upload(BETA, interchange(BETA, "S1", response("R1", 4, *CHANGED)), "interchange S1 messages 1", "1 ORDRSP refused B02")
    play.upload(
        BETA, interchange(BETA, "S2", response("R1", 4, *CHANGED, supplier=BETA)), "interchange S2 messages 1", "1 ORDRSP refused B05"
    )
    accepted(play, ALPHA, "S1", "ORDRSP", interchange(ALPHA, "S1", response("R1", 4, *CHANGED), to=RETAILER))
    return play


def no_lines():
    return Play().status(who=BETA).ask(BETA, f"after {99_999_999_999_999}", "done", "end\n")


def filled(count):
    """A mailbox of so many orders."""
    orders = [order(str(1000 + k), reference=k) for k in range(1, count + 1)]
    told = [f"{k} ORDERS accepted" for k in range(1, count + 1)]
    return Play().upload(RETAILER, interchange(RETAILER, "1001", *orders), f"interchange 1001 messages {count}", *told)


def long_mailbox():
    """101 entries: as many as are listed, and one more."""
    play = filled(101)
    entries = [(k, "ORDERS", 1000 + k) for k in range(1, 102)]
    play.list(0, *entries[:100], last="more").list(100, entries[100]).list(1, *entries[1:])
    play.take(1).take(3).list(0, entries[1], *entries[3:])
    return play.take(1).ask(ALPHA, "taken 102", "unknown", "unknown\n")


def some_taken():
    """Entries of two suppliers, and lists between as they are taken: the second before the first, until none is left, and then one more."""
    play = filled(5)
    entries = [(k, "ORDERS", 1000 + k) for k in range(1, 7)]
    play.list(0, *entries[:5]).list(0, who=BETA)
    play.take(2).list(0, entries[0], *entries[2:5]).list(2, *entries[2:5])
    play.take(1).list(0, *entries[2:5]).list(1, *entries[2:5])
    play.take(4).list(3, entries[4]).list(0, entries[2], entries[4])
    accepted(play, RETAILER, "1002", "ORDERS", interchange(RETAILER, "1002", order(supplier=BETA)))
    play.list(0, (1, "ORDERS", "128576"), who=BETA).take(1, who=BETA).list(0, who=BETA)
    return play.list(0, entries[2], entries[4])


def all_taken(play):
    """The rest of them."""
    play.take(3).take(5).list(0).list(0).list(4).list(99_999_999_999_999)
    accepted(play, RETAILER, "1003", "ORDERS", interchange(RETAILER, "1003", order("1006")))
    play.list(0, (6, "ORDERS", "1006")).list(5, (6, "ORDERS", "1006")).list(6)
    accepted(play, RETAILER, "1004", "ORDERS", interchange(RETAILER, "1004", order("128577", supplier=BETA)))
    play.list(0, (2, "ORDERS", "128577"), who=BETA).list(1, (2, "ORDERS", "128577"), who=BETA)
    return play.take(6).list(0).list(0, (2, "ORDERS", "128577"), who=BETA)


def of_one(play, lines):
    """What supplier A asks in the two runs, after each of these inputs: uploads of its own and of the retailer."""
    for who, reference, kind, text, seen in lines:
        accepted(play, who, reference, kind, text)
        yield
        play.list(0, *seen[0])
        for (number, _, _), mail in zip(seen[0], (FIRST_MAIL, SECOND_MAIL, THIRD_MAIL)):
            play.item(number, mail)
        play.status(*seen[1])


def lines_of_alpha():
    waiting = line_status("128577", "W", 30, 30, 0, 0, 0)
    first = line_status("128576", "W", 48, 48, 0, 0, 0)
    one, both = [(1, "ORDERS", "128576")], [(1, "ORDERS", "128576"), (2, "ORDERS", "128577")]
    announced = f"P {PALLET} 04000862141404 A {12:>14} {0:>14} {0:>14} {0:>14} {'+0':>15}"
    changed, sent = line_status("128576", "C", 48, 36, 12, 0, 0), line_status("128576", "C", 48, 24, 12, 0, 12)
    return [
        (RETAILER, "1001", "ORDERS", ORDERS, (one, [first])),
        (RETAILER, "1002", "ORDERS", SECOND, (both, [first, waiting])),
        (ALPHA, "S1", "ORDRSP", RESPONSE, (both, [changed, waiting])),
        (ALPHA, "S2", "DESADV", DESPATCH, (both, [sent, waiting, announced])),
        (
            ALPHA,
            "S6",
            "DESADV",
            interchange(ALPHA, "S6", despatch("DA4", OTHER_PALLET, 12, order="128577")),
            (both, [sent, line_status("128577", "W", 30, 18, 0, 0, 12), announced, STATUS[4]]),
        ),
        (
            ALPHA,
            "S7",
            "ORDRSP",
            interchange(ALPHA, "S7", response("R2", 27, order="128577")),
            (both, [STATUS[0], STATUS[1], announced, STATUS[4]]),
        ),
        (RETAILER, "1005", "RECADV", RECEIPT, ([*both, (3, "RECADV", "G1")], STATUS)),
    ]


def of_the_other(play, turn):
    """Some of what is asked of and for supplier B, accepted and refused, with A's numbers and references where it can."""
    pallet = "387123450000000012"
    ours = [
        lambda: play.upload(
            RETAILER,
            interchange(RETAILER, "1001", order(supplier=BETA, quantity=turn + 1)),
            "interchange 1001 messages 1",
            f"1 ORDERS {'accepted' if turn == 0 else 'refused B03'}",
        ),
        lambda: accepted(play, RETAILER, f"7{turn}", "ORDERS", interchange(RETAILER, f"7{turn}", order(f"9{turn}", supplier=BETA))),
        lambda: play.upload(
            BETA,
            interchange(BETA, "S1", response("R1", 29, supplier=BETA)),
            "interchange S1 messages 1",
            f"1 ORDRSP {'accepted' if turn == 0 else 'repeated'}",
        ),
        lambda: play.upload(
            BETA,
            interchange(BETA, f"T{turn}", despatch("DA1", pallet, 1, supplier=BETA)),
            f"interchange T{turn} messages 1",
            f"1 DESADV {'accepted' if turn == 0 else 'refused B13'}",
        ),
        lambda: play.upload(
            BETA,
            interchange(BETA, f"U{turn}", despatch(f"DA9{turn}", PALLET, 1, supplier=BETA)),
            f"interchange U{turn} messages 1",
            "1 DESADV refused B11",
        ),
        lambda: play.cancel("C1", 1, turn + 1, "accepted" if turn == 0 else "refused B03", "90", BETA),
        lambda: play.ask(BETA, "item 1", "done", order_mail(1)),
    ]
    for one in ours:
        one()


def order_mail(quantity):
    return f"UNA:+.? 'UNB+UNOC:3+{HUB}:14+{BETA}:14+250603:0920+1'{order(supplier=BETA, quantity=quantity)}UNZ+1+1'"


def runs():
    """One run of A alone, and one with some forty inputs of B and for B between: A is told the same."""
    alone, between = Play(), Play()
    for play in (alone, between):
        play.say("run")
        for turn, _ in enumerate(of_one(play, lines_of_alpha())):
            if play is between:
                of_the_other(play, turn)
        play.say("end")
    return alone.case("a run of one supplier"), between.case("the same run, with another supplier's inputs between")


def answer_of(reference, number, function, *lines):
    head = (f"BGM+231+R{reference}+{function}", "DTM+137:20250603:102", f"RFF+ON:{number}", *parties(ALPHA))
    return message("ORDRSP:D:01B:UN:EAN009", reference, *head, *lines, "UNS+S")


def whole_answer(reference, number):
    return answer_of(reference, number, 27)


def numbered_answer(reference, number, line):
    return answer_of(reference, number, 4, "LIN+1+5+4000862141404:SRV", f"RFF+ON:{number}:{line}")


def line_sent(reference, named):
    head = (f"BGM+351+DA8{reference}+9", "DTM+137:20250604:102", *parties(ALPHA), "CPS+1", f"GIN+BJ+{sscc(ALPHA, 100 + reference)}")
    return message("DESADV:D:01B:UN:EAN007", reference, *head, "LIN+1++4000862141404:SRV", "QTY+12:1", named)


def read_once(play):
    """In one upload an order is looked up once, but for lines that are named by their numbers: each message looks up its own."""
    text = interchange(ALPHA, "S5", whole_answer(1, "128578"), whole_answer(2, "128578"), whole_answer(3, "none"), whole_answer(4, "none"))
    told = ("1 ORDRSP accepted", "2 ORDRSP refused B07", "3 ORDRSP refused B05", "4 ORDRSP refused B05")
    play.upload(ALPHA, text, "interchange S5 messages 4", *told).counts(8, 1).say("mend")
    text = interchange(ALPHA, "S8", numbered_answer(1, "128578", 1), numbered_answer(2, "128578", 2))
    told = ("1 ORDRSP refused B07", "2 ORDRSP refused B06")
    play.upload(ALPHA, text, "interchange S8 messages 2", *told).counts(6, 0).say("mend")
    # once an advice names a line by its article, the order is known whole
    named = "RFF+ON:128577:1", "RFF+ON:128577:1", "RFF+ON:128577", "RFF+ON:128577:1"
    advices = [line_sent(place, line) for place, line in enumerate(named, 1)]
    told = [f"{place} DESADV accepted" for place in range(1, 5)]
    return play.upload(ALPHA, interchange(ALPHA, "S6", *advices), "interchange S6 messages 4", *told).counts(18, 4)


def counted():
    """The look-ups and commits of each message."""
    play = ordered().counts(3, 1)
    play.say("mend")
    accepted(play, ALPHA, "S1", "ORDRSP", RESPONSE).counts(3, 1).say("mend")
    accepted(play, ALPHA, "S2", "DESADV", DESPATCH).counts(5, 1).say("mend")
    # where what is remembered decides, or an advice's number, no order and no unit is asked for
    play.upload(ALPHA, RESPONSE, "interchange S1 messages 1", "1 ORDRSP repeated").counts(1, 0).say("mend")
    play.upload(ALPHA, DESPATCH, "interchange S2 messages 1", "1 DESADV repeated").counts(2, 0).say("mend")
    text = interchange(ALPHA, "S9", despatch("DA1", THIRD_PALLET, 12))
    play.upload(ALPHA, text, "interchange S9 messages 1", "1 DESADV refused B13").counts(2, 0).say("mend")
    accepted(play, RETAILER, "1005", "RECADV", RECEIPT).counts(3, 1).say("mend")
    play.upload(RETAILER, RECEIPT, "interchange 1005 messages 1", "1 RECADV repeated").counts(3, 0).say("mend")
    play.cancel("C1", 1, 10, "accepted").counts(3, 1).say("mend")
    play.cancel("C1", 1, 10, "repeated").counts(3, 0).say("mend")
    play.upload(RETAILER, ORDERS, "interchange 1001 messages 1", "1 ORDERS repeated").counts(3, 0).say("mend")
    play.take(1).counts(1, 1).say("mend").take(1).counts(1, 0).say("mend")
    accepted(play, RETAILER, "1002", "ORDERS", SECOND).counts(3, 1).say("mend")
    accepted(play, RETAILER, "1003", "ORDERS", interchange(RETAILER, "1003", order("128578"))).counts(3, 1).say("mend")
    # two units over three orders
    units = (OTHER_PALLET, ("128576", 1), ("128577", 1)), (THIRD_PALLET, ("128577", 1), ("128578", 1))
    text = interchange(ALPHA, "S3", advice("DA2", *units))
    accepted(play, ALPHA, "S3", "DESADV", text).counts(10, 1).say("mend")
    # two units that are known, and a third that is not
    accepted(
        play, RETAILER, "1006", "RECADV", interchange(RETAILER, "1006", receipt("G2", OTHER_PALLET, THIRD_PALLET))
    ).counts(4, 1).say("mend")
    text = interchange(RETAILER, "1007", receipt("G3", "340123455000000043", OTHER_PALLET, THIRD_PALLET))
    play.upload(RETAILER, text, "interchange 1007 messages 1", "1 RECADV refused B14").counts(5, 0).say("mend")
    # parties that are refused, for which no order is asked for
    text = interchange(ALPHA, "S4", response("R4", 27, order="128578", supplier=BETA))
    play.upload(ALPHA, text, "interchange S4 messages 1", "1 ORDRSP refused B02").counts(1, 0).say("mend")
    return read_once(play)


def stopped_once(calls, fault):
    """One message of each kind, a cancellation and a mark; the store fails at the call after so many. What was stopped
    did nothing: opened anew, the store takes it. With a fault for good all that comes after it is stopped too."""
    inputs = [
        (4, lambda play, *told: play.upload(RETAILER, ORDERS, "interchange 1001 messages 1", *told), "1 ORDERS "),
        (4, lambda play, *told: play.upload(ALPHA, RESPONSE, "interchange S1 messages 1", *told), "1 ORDRSP "),
        (6, lambda play, *told: play.upload(ALPHA, DESPATCH, "interchange S2 messages 1", *told), "1 DESADV "),
        (4, lambda play, *told: play.upload(RETAILER, RECEIPT, "interchange 1005 messages 1", *told), "1 RECADV "),
    ]
    play, before = Play(f"{fault} {calls}"), 0
    for cost, ask, words in inputs:
        if before <= calls < before + cost:
            play.stopping(lambda: ask(play, "stopped"))
            if fault == "disk":
                play.stopping(lambda: ask(play, "stopped"))
                play.ask(ALPHA, "after 0", "stopped", "stopped\n")
            play.say("mend")
        ask(play, words + "accepted")
        before += cost
    for cost, line, body in ((4, "cancel", f"{ALPHA}\nC1\n128576\n1\n10\n"), (2, "taken 1", None)):
        who, told = (RETAILER, "accepted\n") if body else (ALPHA, "taken\n")
        if before <= calls < before + cost:
            play.ask(who, line, "stopped", "stopped\n", body).say("mend")
        play.ask(who, line, "done", told, body)
        before += cost
    play.status(line_status("128576", "C", 48, 14, 12, 10, 12), *STATUS[2:4])
    return play.list(0, (2, "RECADV", "G1")).case(f"messages of each kind, over a store that fails with {fault} after {calls} calls")


def stopped_at(calls, fault):
    """Two orders in one upload; the store fails at the call after so many. Then it is opened anew, and the same comes again."""
    text = interchange(RETAILER, "1001", order(), order("128577", reference=2))
    done = min(calls // 4, 2)
    play = Play(f"{fault} {calls}")
    lines = [f"{k} ORDERS accepted" for k in range(1, done + 1)]
    if done == 2:
        play.upload(RETAILER, text, "interchange 1001 messages 2", *lines)
    else:
        play.upload(RETAILER, text, "interchange 1001 messages 2", *lines, "stopped", outcome="stopped")
    if fault == "disk" and done < 2:
        play.upload(RETAILER, text, "interchange 1001 messages 2", "stopped", outcome="stopped")
        play.ask(ALPHA, "status", "stopped", "stopped\n")
    play.say("mend")
    again = [f"{k} ORDERS {'repeated' if k <= done else 'accepted'}" for k in (1, 2)]
    play.upload(RETAILER, text, "interchange 1001 messages 2", *again)
    play.list(0, (1, "ORDERS", "128576"), (2, "ORDERS", "128577"))
    return play.case(f"two orders, over a store that fails with {fault} after {calls} calls")


NO_CANCELLATIONS = [
    ("no end of the last line", b"4012345500004\nC1\n128576\n01\n10"),
    ("a quantity of zero", b"4012345500004\nC1\n128576\n01\n0\n"),
    ("a sixth line", b"4012345500004\nC1\n128576\n01\n10\n\n"),
]

BOUNDS = [
    ("999999999", "accepted", 999999999),
    ("1000000000", "refused M08"),
    ("12,000", "accepted", 12),
    ("12.5", "refused M08"),
]

HUBS = [
    goods_in_turn().case("orders, answers, despatches and receipts, one after another"),
    cancelled().case("cancellations"),
    numbers_of_refused().case("numbers of what was refused, and another supplier's pallet"),
    later().case("the same again on a later day"),
    *(
        Case(f"a script with a cancellation that is none: {name}", [], b"cancel %d\n%s\n" % (len(body), body), error=b"line\n", status=1)
        for name, body in NO_CANCELLATIONS
    ),
    two_suppliers().case("one order number and one reference for two suppliers"),
    *(bounds(*row).case(f"an order of {row[0]} pieces") for row in BOUNDS),
    lengths(1_048_576, "interchange 1001 messages 1", "1 ORDERS accepted").case("an upload of 1,048,576 bytes"),
    lengths(1_048_577, "refused E01", outcome="bad").case("an upload of one byte more"),
    not_a_pallet().case("a despatch on no SSCC"),
    *(play.case(name) for name, play in zip(("a refused message and an accepted one", "a refused envelope of both"), one_for_each())),
    who_may_what().case("who may ask what"),
    no_lines().case("a supplier without rows"),
    long_mailbox().case("a mailbox of 101 entries"),
    all_taken(some_taken()).case("entries taken in any order, with lists between"),
    Play().say("run").say("end").case("a run of nothing"),
    *runs(),
    counted().case("look-ups and commits of each message"),
    *(stopped_at(calls, fault) for fault in ("memory", "disk") for calls in range(9)),
    *(stopped_once(calls, fault) for fault in ("memory", "disk") for calls in range(24)),
]

# the same over tables of SQL
OVER_SQL = [replace(case, name=f"over SQL: {case.name}", words=["sql"]) for case in HUBS]
