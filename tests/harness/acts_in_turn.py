"""Inputs of each kind, one after another, each with the acts that it does: a message, a cancellation, a join or a taken mark each; and
looks at all that there is then."""
from dataclasses import dataclass

from tests.harness.first_order import ORDERS
from tests.harness.hub_scripts import DESPATCH, OTHER_PALLET, RECEIPT, RESPONSE, SECOND, despatch, interchange, order
from tests.harness.hub_scripts import response
from tests.harness.joining_scripts import Joining
from tests.harness.register_texts import ALPHA, BETA, GAMMA, RETAILER

# how many entries a mailbox has, and one more, and how much is looked at behind the inputs
MAILS = 5
LOOKS = 2 * (2 + MAILS) + 1


@dataclass
class Upload:
    """An upload, by the type of each of its messages and by its text where it has so many of them."""

    who: str
    reference: str
    kinds: list
    texts: list

    def acts(self):
        return len(self.kinds)

    def ask(self, play, count, done):
        """Sends its first so many messages, of which some were taken before."""
        told = (f"{k} {kind} {'repeated' if k <= done else 'accepted'}" for k, kind in enumerate(self.kinds[:count], 1))
        play.upload(self.who, self.texts[count - 1], f"interchange {self.reference} messages {count}", *told)


class Cancellation:
    def acts(self):
        return 1

    def ask(self, play, count, done):
        play.cancel("C1", 1, 10, "repeated" if done else "accepted")


class JoinOfGamma:
    def acts(self):
        return 1

    def ask(self, play, count, done):
        play.gamma_joins("refused B18" if done else "accepted")


class Taken:
    def acts(self):
        return 1

    def ask(self, play, count, done):
        play.take(1)


def inputs():
    """All inputs, one after another."""
    two = [order("128579", supplier=BETA), order("128580", reference=2)]
    return [
        Upload(RETAILER, "1001", ["ORDERS"], [ORDERS]),
        Upload(RETAILER, "1002", ["ORDERS"], [SECOND]),
        Upload(ALPHA, "S1", ["ORDRSP"], [RESPONSE]),
        Upload(ALPHA, "S2", ["DESADV"], [DESPATCH]),
        Upload(ALPHA, "S6", ["DESADV"], [interchange(ALPHA, "S6", despatch("DA4", OTHER_PALLET, 12, order="128577"))]),
        Upload(ALPHA, "S7", ["ORDRSP"], [interchange(ALPHA, "S7", response("R2", 27, order="128577"))]),
        Upload(RETAILER, "1005", ["RECADV"], [RECEIPT]),
        Upload(RETAILER, "1010", ["ORDERS", "ORDERS"], [interchange(RETAILER, "1010", *two[:count]) for count in (1, 2)]),
        Cancellation(),
        JoinOfGamma(),
        Taken(),
    ]


def ends():
    """How many acts there are in all at the end of so many inputs."""
    found = [0]
    for it in inputs():
        found.append(found[-1] + it.acts())
    return found


def looks(play):
    """What shows all rows, behind a script: lines and pallets, the entries that are not taken, and each entry as it is mailed; and of the
    supplier that joins whether it did."""
    for who in (ALPHA, BETA):
        play.ask(who, "status", "", "").ask(who, "after 0", "", "")
        for number in range(1, MAILS + 1):
            play.ask(who, f"item {number}", "", "")
    return play.ask(RETAILER, f"status-of {GAMMA}", "", "")


def with_looks(play):
    """The script of a play, and then what shows all rows."""
    printed = play.printed
    looks(play).printed = printed
    return play.script


def script(acts, done=0):
    """What makes so many acts, of which some were done before."""
    play = Joining()
    for it, begun in zip(inputs(), ends()):
        if begun < acts:
            count = min(it.acts(), acts - begun)
            it.ask(play, count, max(0, min(done - begun, count)))
    return play
