"""An interchange through each door at which a user can bring it: `relay`, `show`, an import, and an upload over HTTP."""
from dataclasses import dataclass, field
from itertools import groupby

from tests.harness import show_cases
from tests.harness.case import Case
from tests.harness.hub_scripts import bytes_of, interchange
from tests.harness.hub_steps import founded, imported, mail as mail_step, over, step, steps, told
from tests.harness.register_texts import ALPHA, HUB, RETAILER
from tests.harness.servers import get, listed, post, upload

OWNER = ALPHA
# the longest upload, in bytes
UPLOAD_LIMIT = 1_048_576


def relay(hub=HUB, owner=OWNER, moment="1748942400", number="1"):
    """The words of `relay`."""
    return ["relay", "--hub", hub, "--owner", owner, "--moment", moment, "--number", number]


def mail_text(message, number=1, mark=".", when="250603:0920", owner=OWNER):
    """The hub's interchange with the message, in one line."""
    return f"UNA:+{mark}? 'UNB+UNOC:3+{HUB}:14+{owner}:14+{when}+{number}'{message}UNZ+1+{number}'"


@dataclass
class Message:
    """A message under any reference, what `show` says of it behind its type, and the last words of the hub's line for it. It comes under
    its own reference, and may be spelled otherwise than the hub writes it."""

    make: object
    shown: list
    word: str = "accepted"
    reference: str = "1"
    spelled: str = ""

    def kind(self):
        return show_cases.kind_of(self.make("1"))

    def text(self):
        return self.spelled or self.make(self.reference)

    def mailed(self):
        """The canonical text, with the reference that a mail has."""
        return self.make("1")


@dataclass
class Sent:
    """An interchange: who uploads it, and what the hub replies, `relay` mails and `show` says. A fault of its text or of its envelope is
    `refused` and its code everywhere, and `place` is what shows it."""

    who: str
    text: object
    reply: list
    mails: str = ""
    shown: list = field(default_factory=list)
    is_faulty: bool = False

    def is_refused(self):
        return any(line.split(" ")[-2:-1] == ["refused"] for line in self.reply)

    def again(self):
        """The same once more: what was accepted is repeated."""
        return Sent(self.who, self.text, [line.replace(" accepted", " repeated") for line in self.reply])

    def request(self, name):
        """The upload over HTTP, and what is answered: a body that is too long is not read."""
        if len(self.text) > UPLOAD_LIMIT:
            return (name, upload(self.who, self.text)[1], 413, "too large\n")
        return (name, *upload(self.who, self.text, *self.reply, status=400 if self.reply[0].startswith("refused ") else 200)[1:])


def sent(who, *messages, control="1001", reply=None):
    """An interchange of these messages, in the usual characters."""
    kinds = [it.kind() for it in messages]
    header = show_cases.Interchange(reference=control, kinds=kinds, sender=who, references=[it.reference for it in messages])
    lines = [it.shown if it.word.startswith(("accepted", "refused B")) else show_cases.refusal(it.word.split()[1]) for it in messages]
    return Sent(
        who,
        interchange(who, control.replace("?", "??"), *(it.text() for it in messages)),
        reply
        or [
            f"interchange {control} messages {len(messages)}",
            *(f"{it.reference} {kind} {it.word}" for it, kind in zip(messages, kinds)),
        ],
        "".join(mail_text(it.mailed(), place) for place, it in enumerate(messages, 1)),
        show_cases.shown_text(header, lines),
    )


def faulty(who, text, code, segment=show_cases.ANY):
    """An interchange that is refused as a whole, with the segment that shows it."""
    return Sent(who, text, [f"refused {code}"], "", told(*show_cases.refusal(code, segment)), True)


def faulty_text(who, text, code, offset, segment, line=1):
    """A text that is refused, with the byte that shows it."""
    return Sent(who, text, [f"refused {code}"], "", told(*show_cases.refusal_of_text(code, offset, line, segment)), True)


@dataclass
class Look:
    """What somebody asks of the hub, by a command and over HTTP, and what both print."""

    command: Case
    request: tuple


def status(who, *lines):
    return Look(step(over("status", who), told(*lines, "end")), get(who, "status", 200, told(*lines, "end")))


def status_for_retailer(of, *lines):
    return Look(step(over("status", RETAILER, "--of", of), told(*lines, "end")), get(RETAILER, f"status/{of}", 200, told(*lines, "end")))


def item(who, number, text):
    return Look(mail_step(who, "item", number, text), get(who, f"mail/item/{number}", 200, text))


def mailbox(who, after, *entries, last="end"):
    """A mailbox list: its entries are number, type and document number."""
    printed = listed(*entries, last=last)
    return Look(mail_step(who, "after", after, printed), get(who, f"mail/after/{after}", 200, printed))


def taken(who, number):
    return Look(mail_step(who, "taken", number, "taken\n"), post(who, f"mail/item/{number}/taken", "", 200, "taken\n"))


def cancelled(word, reference="C1", order="128576", line="1", quantity="10", supplier=ALPHA):
    """A cancellation by the retailer."""
    words = ("--supplier", supplier, "--reference", reference, "--order", order, "--line", line, "--quantity", quantity)
    body = "".join(f"{it}\n" for it in (supplier, reference, order, line, quantity))
    of_command = step(over("cancel", RETAILER, *words), told(word), 1 if word.startswith("refused") else 0)
    return Look(of_command, post(RETAILER, "cancellations", body, 200, told(word)))


@dataclass
class Limit:
    """A limit: what comes first; then what lies past it, each of which is refused and changes nothing; then what lies at its edge, twice;
    what comes behind that, and what is seen of it all."""

    name: str
    at: list
    past: list = field(default_factory=list)
    first: list = field(default_factory=list)
    behind: list = field(default_factory=list)
    looks: list = field(default_factory=list)
    # files in the folder, as a database file in the place of a new hub's
    files: dict = field(default_factory=dict)
    # whether the hub has thousands of rows to read and to write
    large: bool = False

    def alone(self):
        """Through the doors that need no hub."""
        for place, one in enumerate([*self.at, *self.past]):
            name = f"{self.name}, {'at its edge' if place < len(self.at) else 'past it'} ({place + 1})"
            error, status = (f"{one.reply[0]}\n", 1) if one.is_faulty else ("", 0)
            yield Case(f"relay: {name}", relay(), bytes_of(one.text), bytes_of(one.mails), bytes_of(error), status)
            shown_status = 1 if any(line.lstrip().startswith("refused ") for line in one.shown.split("\n")) else 0
            yield Case(f"show: {name}", ["show"], bytes_of(one.text), show_cases.wanted(bytes_of(one.shown)), status=shown_status)

    def uploads(self):
        return [*self.first, *self.past, *self.at, *(it.again() for it in self.at), *self.behind]

    def by_commands(self):
        """Over a hub, by commands: uploads of one caller that come one after another are the files of one folder."""
        commands = []
        for place, (who, some) in enumerate(groupby(self.uploads(), lambda it: it.who)):
            files = list(some)
            named = [(f"{k:02}.edi", it.text, *it.reply) for k, it in enumerate(files)]
            commands.append(imported(who, f"in{place}", *named, status=1 if any(it.is_refused() for it in files) else 0))
        commands += [it.command for it in self.looks]
        begun = steps if self.files else founded
        case = begun(f"import: {self.name}", *commands)
        case.files, case.large = {**case.files, **self.files}, self.large
        return case

    def requests(self):
        """The same over HTTP."""
        uploads = [it.request(f"{self.name}: upload {place}") for place, it in enumerate(self.uploads(), 1)]
        return uploads + [it.request for it in self.looks]
