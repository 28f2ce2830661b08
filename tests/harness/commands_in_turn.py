"""Commands that are given in turn over one folder with a hub, with what they print."""
from typing import NamedTuple

from tests.harness.first_order import ORDERS
from tests.harness.hub_scripts import DESPATCH, RECEIPT, RESPONSE, SECOND, SPELLED
from tests.harness.hub_steps import in_files, over, told
from tests.harness.register_texts import ALPHA, DELTA, GAMMA, HUB, RETAILER, of_prefixes


class Command(NamedTuple):
    """A command, the files that it reads, and its standard input. What it prints is given if it changes the hub. What it prints if it is
    given again is given if that differs, with its exit status and standard error if these differ too."""

    name: str
    words: list
    files: dict = {}
    stdin: bytes = b""
    printed: bytes | None = None
    again: bytes | tuple | None = None

    def is_over_hub(self):
        return "--db" in self.words

    def answer_again(self, first):
        """What it answers if it is given again after this first answer."""
        status, printed, error = first
        return self.again if isinstance(self.again, tuple) else (status, self.again or printed, error)


def imports(name, caller, text, *lines):
    """An import of a folder of one file, and the lines of its reply."""
    printed = told(f"file {name}.edi", *lines).encode()
    words, files = over("import", caller, "--folder", name), {f"{name}/{name}.edi": text}
    return Command(name, words, files, printed=printed, again=printed.replace(b"accepted", b"repeated"))


def sends(name, caller, reference, kind, text):
    return imports(name, caller, text, f"interchange {reference} messages 1", f"1 {kind} accepted")


def changes():
    """The commands that bring orders, a supplier and what follows from an order."""
    join = over("join", RETAILER, "--supplier", GAMMA, "--supplier-key", "gamma-key-1", "--prefixes", "7612345,7612346")
    join_by_files = in_files(over("join", RETAILER, "--supplier", DELTA, "--supplier-key", "delta-key-1", "--prefixes", "3512345"))
    cancel = over("cancel", RETAILER, "--supplier", ALPHA, "--reference", "C1", "--order", "128576", "--line", "1", "--quantity", "10")
    return [
        sends("order", RETAILER, "1001", "ORDERS", ORDERS),
        imports("spelled", RETAILER, SPELLED, "interchange 1001 messages 1", "1 ORDERS repeated"),
        sends("second", RETAILER, "1002", "ORDERS", SECOND),
        # a join is not remembered, so the same join again is refused
        Command("join", join, printed=b"accepted\n", again=(1, b"refused B18\n", b"")),
        Command("join_by_files", *join_by_files, printed=b"accepted\n", again=(1, b"refused B18\n", b"")),
        sends("answer", ALPHA, "S1", "ORDRSP", RESPONSE),
        sends("despatch", ALPHA, "S2", "DESADV", DESPATCH),
        sends("receipt", RETAILER, "1005", "RECADV", RECEIPT),
        Command("cancellation", cancel, printed=b"accepted\n", again=b"repeated\n"),
    ]


def questions():
    """The commands that look at the hub or take an entry of a mailbox, and those without a hub."""
    relay = ["relay", "--hub", HUB, "--owner", ALPHA, "--moment", "1748942400", "--number", "1"]
    return [
        Command("status", over("status", ALPHA)),
        Command("mail", over("mail", ALPHA, "--do", "item", "--n", "2")),
        Command("list", over("mail", ALPHA, "--do", "after", "--n", "0")),
        Command("taken", over("mail", ALPHA, "--do", "taken", "--n", "1"), printed=b"taken\n"),
        Command("fault", ["check", "--register", "fault.toml"], {"fault.toml": of_prefixes("4012345", "40123455")}),
        Command("relay", relay, stdin=ORDERS.encode("latin-1")),
        Command("show", ["show"], stdin=DESPATCH.encode("latin-1")),
    ]
