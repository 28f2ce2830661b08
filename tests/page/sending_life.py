"""The life of one document, from an empty form to the hub's verdict, without a browser: the table of its states, and what becomes of it as
one answer comes after another (sending.mjs)."""
import os
import re

from tests.harness.tree import EXAMPLES, ROOT
from tests.page.agreement import by_node

EVENTS = "type clear review edit send accept refuse deny hold break resume again".split()
# by hand: a state, and what each event that counts in it makes of it
TABLE = {
    "empty": "type typed, review review",
    "typed": "clear empty, review review",
    "review": "edit typed, send sending",
    "sending": "accept accepted, refuse refused, deny denied, hold held, break pausing",
    "held": "resume sending",
    "pausing": "resume resending",
    "resending": "accept accepted, refuse refused, deny unanswered, hold pausing, break unanswered",
    "unanswered": "again pausing",
    "accepted": "",
    "refused": "",
    "denied": "",
}
DONE, AGAIN, NO = ["reply", "accepted\n"], ["reply", "repeated\n"], ["reply", "refused B17\n"]
CUT, HTML, FAULT = ["broken", "connection"], ["reply", "<html>"], ["fault"]
BUSY, MANY, SLOW = ["broken", "busy", 60_000], ["broken", "too many", 60_000], ["broken", "slow"]
DENIED, STRANGE = ["refused", 403, "denied\n"], ["refused", 403, "<html>log in</html>"]
# the answers that come one after another, and the states behind `review`, with the pauses between them
PLAYS = [
    ([DONE], "sending accepted", []),
    ([NO], "sending refused", []),
    ([DENIED], "sending denied", []),
    ([["refused", 413, "<html>"]], "sending denied", []),
    # no answer: once more by itself, then by the person
    ([CUT, AGAIN], "sending pausing resending accepted", [1500]),
    ([CUT, CUT], "sending pausing resending unanswered", [1500]),
    ([CUT, CUT, CUT, AGAIN], "sending pausing resending unanswered pausing resending unanswered pausing resending accepted", [1500]),
    ([SLOW, DONE], "sending pausing resending accepted", [1500]),
    # what cannot be read is no answer, be it a reply, a page in its place or a fault of the page's own
    ([HTML, HTML, AGAIN], "sending pausing resending unanswered pausing resending accepted", [1500]),
    ([STRANGE, AGAIN], "sending pausing resending accepted", [1500]),
    ([FAULT, AGAIN], "sending pausing resending accepted", [1500]),
    ([["reply", "accepted\nstopped\n"], AGAIN], "sending pausing resending accepted", [1500]),
    # a denial says nothing about an earlier try
    ([CUT, DENIED], "sending pausing resending unanswered", [1500]),
    ([MANY, DENIED], "sending held sending denied", [60_000]),
    # what was turned away before the hub is a first try again, and is sent when the front said
    ([MANY, DONE], "sending held sending accepted", [60_000]),
    ([MANY, MANY, DONE], "sending held sending held sending accepted", [60_000, 60_000]),
    ([MANY, CUT, MANY, NO], "sending held sending pausing resending pausing resending refused", [60_000, 1500, 60_000]),
    # the person cannot send before that either
    ([BUSY, BUSY, AGAIN], "sending pausing resending unanswered pausing resending accepted", [60_000, 60_000]),
]


def table(_program):
    """Each event in each state."""
    found = by_node("sending.mjs", [])["table"]
    assert list(found) == list(TABLE), list(found)
    for state, words in TABLE.items():
        wanted = dict(it.split() for it in words.split(", ") if it)
        assert set(wanted) <= set(EVENTS) and found[state] == wanted, (state, found[state], wanted)
    # each state can be come to, and nothing that may have been done ends without an answer
    reached = {"empty"} | {to for events in found.values() for to in events.values()}
    assert reached == set(TABLE), reached
    ends = {(event, to) for state in ("pausing", "resending", "unanswered") for event, to in found[state].items() if not found[to]}
    assert ends == {("accept", "accepted"), ("refuse", "refused")}, ends
    return f"{len(TABLE)} states by {len(EVENTS)} events"


def plays(_program):
    found = by_node("sending.mjs", [{"kind": "cancellation", "answers": answers} for answers, _, _ in PLAYS])["plays"]
    for play, (answers, states, pauses) in zip(found, PLAYS, strict=True):
        assert play["states"] == ["typed", "review", *states.split()], (answers, play["states"])
        assert play["pauses"] == pauses, (answers, play["pauses"])
        # the same bytes each time, as often as there were answers
        assert play["texts"] == ["the text"] * len(answers) and play["text"] == "the text", (answers, play["texts"])
        assert play["tries"] == len(answers), (answers, play["tries"])
    return f"{len(PLAYS)} plays"


WAITS = [("60", 60_000), (" 2 ", 2_000), ("0", 0), ("", 0), (None, 0), ("soon", 0), ("-1", 0), ("99999999", 86_400_000)]
WAITS += [("Sat, 28 Nov 2026 11:00:30 GMT", 30_000), ("Sat, 28 Nov 2026 10:59:30 GMT", 0)]
NOW = 1_795_863_600_000
REASONS = [(200, "<html>", ""), (408, "timeout\n", "slow"), (429, "too many\n", "too many"), (400, "bad request\n", "cut")]
REASONS += [(400, "refused E12\n", ""), (403, "denied\n", ""), (502, "no answer\n", "away"), (504, "", "away"), (500, "", "away")]
REASONS += [(503, "busy\n", "busy"), (503, "stopped\n", "stopped"), (503, "1 ORDERS accepted\nstopped\n", "stopped")]


def answers_of_the_front(_program):
    """What is an answer of the hub's, how long a front asks to wait, and that the page has more patience than the front."""
    calls = [("hub/answers.js", "waitOf", field, NOW) for field, _ in WAITS]
    calls += [("hub/answers.js", "reasonOf", status, body) for status, body, _ in REASONS]
    wanted = [it for _, it in WAITS] + [it for _, _, it in REASONS]
    for call, found, want in zip(calls, by_node("call.mjs", calls), wanted, strict=True):
        assert found == want, (call, found, want)
    with open(os.path.join(EXAMPLES, "front", "haproxy.cfg"), encoding="utf-8") as file:
        front = file.read()
    times = [int(it) for it in re.findall(r"^    (?:timeout (?:http-request|queue|server)|retries) (\d+)s?$", front, re.MULTILINE)]
    with open(os.path.join(ROOT, "page", "hub", "client.js"), encoding="utf-8") as file:
        patience = int(re.search(r"PATIENCE = ([\d_]+);", file.read())[1])
    assert len(times) == 4 and patience > sum(times) * 1000, (times, patience)
    return f"{len(calls)} answers, and {patience // 1000} s of patience for {sum(times)} s of the front"


TRIALS = {"states of a document that is sent": table, "documents on their way": plays, "answers of the front": answers_of_the_front}
