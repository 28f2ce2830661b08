"""Lists a mailbox of 101 entries of a megabyte each, by a server that may take four megabytes beside its open store, and no more."""
import signal

from tests.harness.database_files import NAME, REGISTERED, TABLES, file_of
from tests.harness.http_texts import response
from tests.harness.register_texts import ALPHA, BETA
from tests.harness.servers import Server, get, listed
from tests.harness.shims import HEAP, built

ENTRIES, ENTRY_BYTES = 101, 1_000_000
ROOM = 4 << 20


def large_mailbox():
    """A database file with a mailbox of large entries."""
    head, body = (1748942400, ord("."), ord("O")), b"x" * ENTRY_BYTES
    mail = [(ALPHA.encode(), k, *head, b"%d" % k, body, 0) for k in range(1, ENTRIES + 1)]
    return file_of(TABLES, {**REGISTERED, "mail": mail})


def listed_in_little(program, top):
    """The list goes through in that room. In the room of one entry, the entry alone does not."""
    shim, data = built(HEAP, top), {NAME: large_mailbox()}
    of_all = get(ALPHA, "mail/after/0", 200, listed(*((k, "ORDERS", k) for k in range(1, ENTRIES)), last="more"))
    of_one = get(ALPHA, "mail/item/1", 503, "stopped\n")
    for room, (name, request, status, body) in ((ROOM, of_all), (ENTRY_BYTES, of_one)):
        with Server(program, 2, data=data, env={"LD_PRELOAD": shim, "ROOM": str(room)}) as server:
            # after one question, the store holds what it keeps for its queries
            _, first, _, empty = get(BETA, "mail/after/0", 200, "end\n")
            if server.ask(first) != response(200, empty):
                return "the list of an empty mailbox"
            server.child.send_signal(signal.SIGUSR1)
            found = server.ask(request)
        if found != response(status, body):
            return f"{name} within {room} bytes: {found!r:.300}"
    print(f"a mailbox of {ENTRIES} entries of {ENTRY_BYTES} bytes listed within {ROOM} bytes beside the open store")
    return None
