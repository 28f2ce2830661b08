"""Trials of the journal of `serve`: the built program on 127.0.0.1, with a file to which it adds a line for each connection. What is
wanted is written from the definition of a line, and never taken from the program."""
import os
import socket
import struct
import subprocess
import time

from tests.harness.case import SECONDS
from tests.harness.database_files import NAME, is_whole
from tests.harness.first_order import ORDERS
from tests.harness.http_texts import head, response
from tests.harness.hub_scripts import interchange, order
from tests.harness.hub_steps import over
from tests.harness.register_texts import ALPHA, RETAILER
from tests.harness.servers import ORDERED, Server, accepted, all_of, exit_of, get, lines_of, post, send, upload
from tests.trials.serving import cancellation, tried_side_by_side, unlike

JOURNAL = "journal"
OPTION = ["--journal", JOURNAL]
# the moment of the harness, as RFC 3339 has it
WHEN = "2025-06-03T09:20:00Z"
KEY = "X-Hub-Key: alpha-key-1"


def read(server, name=JOURNAL):
    with open(os.path.join(server.folder, name), encoding="ascii") as file:
        return file.read()


def journal_of(*lines, first=1):
    """The lines of connections of which what follows the number is given."""
    return "".join(f"{WHEN} {number} {line}\n" for number, line in enumerate(lines, first))


def asked_and_told():
    """Requests, each with what the journal says of it after its number."""
    uploads, cancels = f"POST /p/{RETAILER}/interchanges", f"POST /p/{RETAILER}/cancellations"
    more = ORDERS.replace("QTY+21:48", "QTY+21:49")
    long = "/" + 300 * "x"
    spoiled = f"GET /p/{ALPHA}/sta\ttus\x7fes".encode("latin-1")
    return [
        (ORDERED, f"{uploads} 200 interchange 1001 messages 1; 1 ORDERS accepted"),
        (accepted(RETAILER, "1001", "ORDERS", ORDERS, "repeated"), f"{uploads} 200 interchange 1001 messages 1; 1 ORDERS repeated"),
        (upload(RETAILER, more, "interchange 1001 messages 1", "1 ORDERS refused B03"), f"{uploads} 200 interchange 1001 messages 1; "
         "1 ORDERS refused B03"),
        (upload(RETAILER, "", "refused E06", status=400), f"{uploads} 400 refused E06"),
        (post(RETAILER, "cancellations", cancellation("C1", 10), 200, "accepted\n"), f"{cancels} 200 accepted"),
        (post(RETAILER, "cancellations", cancellation("C1", 11), 200, "refused B03\n"), f"{cancels} 200 refused B03"),
        (get(ALPHA, "status/", 404, "unknown\n"), f"GET /p/{ALPHA}/status/ 404"),
        (get(ALPHA, "mail/item/9", 404, "unknown\n"), f"GET /p/{ALPHA}/mail/item/9 404"),
        (("a wrong key", head(f"POST /p/{ALPHA}/interchanges HTTP/1.1", "X-Hub-Key: another-key", "Content-Length: 0"), 403, "denied\n"),
         f"POST /p/{ALPHA}/interchanges 403 denied"),
        (("a field alone", f"{KEY}\r\n\r\n".encode(), 400, "bad request\n"), "- 400"),
        (("nothing", b"", 400, "bad request\n"), "- 400"),
        (("a method alone", f"GET\n{KEY}\n\n".encode(), 400, "bad request\n"), "- 400"),
        (("a path with bytes of no text", spoiled + f" HTTP/1.1\r\n{KEY}\r\n\r\n".encode(), 400, "bad request\n"),
         f"GET /p/{ALPHA}/sta?tus?es 400"),
        (("empty lines before a long path", f"\r\n\nGET {long} HTTP/1.1\r\n{KEY}\r\n\r\n".encode(), 404, "unknown\n"),
         f"GET {long}"[:200] + " 404"),
    ]


def each_ending(program):
    """Each request is answered as without a journal, and has its line, in which no key is."""
    asked = [request for request, _ in asked_and_told()]
    wanted = [line for _, line in asked_and_told()]
    with Server(program, len(asked)) as plain, Server(program, len(asked), more=OPTION) as server:
        for name, request, status, body in asked:
            found = server.ask(request)
            why = unlike(name, found, response(status, body)) or unlike(f"{name}, without a journal", plain.ask(request), found)
            if why:
                return why
        statuses = [status for _, _, status, _ in asked]
        for one in (plain, server):
            why = unlike("the program", one.end(), (exit_of(statuses), lines_of(one.port, statuses), b""))
            if why:
                return why
        mode = os.stat(os.path.join(server.folder, JOURNAL)).st_mode & 0o777
        why = unlike("the journal", read(server), journal_of(*wanted)) or unlike("its mode", oct(mode), oct(0o600))
        return why or ("a key is in the journal" if "key" in read(server) else None)


def long_reply(program):
    """Of a reply at most 2,000 bytes are told, and then two dots."""
    numbers = range(1, 101)
    text = interchange(RETAILER, "1001", *(order(f"9{it:05}", reference=it) for it in numbers))
    lines = [f"interchange 1001 messages {len(numbers)}", *(f"{it} ORDERS accepted" for it in numbers)]
    _, request, status, body = upload(RETAILER, text, *lines)
    with Server(program, 1, more=OPTION) as server:
        why = unlike("the upload", server.ask(request), response(status, body))
        return why or unlike("the journal", read(server), journal_of(f"POST /p/{RETAILER}/interchanges 200 {'; '.join(lines)[:2000]}.."))


def failed_connections(program):
    """A client that resets the connection is told as a failed read, one that sends nothing as timed out after ten seconds, and the next
    one is served."""
    with Server(program, 3, more=OPTION) as server:
        with server.connect() as one:
            one.sendall(f"POST /p/{RETAILER}/interchanges HTTP/1.1\r\nContent-Le".encode())
            time.sleep(0.2)
            one.setsockopt(socket.SOL_SOCKET, socket.SO_LINGER, struct.pack("ii", 1, 0))
        with server.connect() as slow:
            send(slow, f"GET /p/{ALPHA}/sta".encode(), False)
            why = unlike("a client that is late", all_of(slow), b"")
        _, request, status, body = get(ALPHA, "mail/after/0", 200, "end\n")
        why = why or unlike("the next one", server.ask(request), response(status, body))
        why = why or unlike("the program", server.end(), (3, lines_of(server.port, ["fault", "fault", 200]), b""))
        lines = (f"POST /p/{RETAILER}/interchanges read", f"GET /p/{ALPHA}/sta timeout", f"GET /p/{ALPHA}/mail/after/0 200")
        return why or unlike("the journal", read(server), journal_of(*lines))


def rotated(program):
    """A journal that is renamed between two connections goes on in a new file."""
    _, request, status, body = get(ALPHA, "mail/after/0", 200, "end\n")
    with Server(program, 3, more=OPTION) as server:
        server.ask(request)
        os.rename(os.path.join(server.folder, JOURNAL), os.path.join(server.folder, "journal.1"))
        server.ask(request)
        server.ask(request)
        line = f"GET /p/{ALPHA}/mail/after/0 200"
        why = unlike("the program", server.end(), (0, lines_of(server.port, [status] * 3), b""))
        why = why or unlike("the renamed journal", read(server, "journal.1"), journal_of(line))
        return why or unlike("the new one", read(server), journal_of(line, line, first=2))


def without_its_folder(program):
    """Where the journal's folder is not there, one line on standard error says so, and connections are served."""
    _, request, status, body = get(ALPHA, "mail/after/0", 200, "end\n")
    with Server(program, 2, more=["--journal", "none/journal"]) as server:
        for what in ("the answer", "the next one"):
            why = unlike(what, server.ask(request), response(status, body))
            if why:
                return why
        return unlike("the program", server.end(), (0, lines_of(server.port, [status] * 2), b"journal\n"))


def unwritable(program):
    """The same where a folder has the journal's name, or a pipe that nobody reads, or where the disk is full, or where it is the database
    under another name. Lines are added again once the journal can be written."""
    _, request, status, body = get(ALPHA, "mail/after/0", 200, "end\n")
    kinds = {"a folder": os.mkdir, "a pipe": os.mkfifo}
    kinds |= {f"a link to {it}": lambda path, it=it: os.symlink(it, path) for it in ("/dev/full", NAME)}
    for name, make in kinds.items():
        with Server(program, 3, more=OPTION) as server:
            path = os.path.join(server.folder, JOURNAL)
            make(path)
            why = unlike(f"{name}: the answer", server.ask(request), response(status, body))
            why = why or unlike(f"{name}: the next one", server.ask(request), response(status, body))
            os.rename(path, os.path.join(server.folder, "other"))
            why = why or unlike(f"{name}: the last one", server.ask(request), response(status, body))
            why = why or unlike(name, server.end(), (0, lines_of(server.port, [status] * 3), b"journal\n"))
            why = why or unlike("the journal", read(server), journal_of(f"GET /p/{ALPHA}/mail/after/0 200", first=3))
            why = why or is_whole(server.folder)
        if why:
            return why
    return None


def beside_the_database(program):
    """A journal of the name of a file that SQLite has beside the database is not written, and the hub can be opened afterwards."""
    _, request, status, body = get(ALPHA, "mail/after/0", 200, "end\n")
    for ending in ("-journal", "-wal", "-shm"):
        for name in (NAME + ending, f"./{NAME}{ending}"):
            with Server(program, 2, more=["--journal", name]) as server:
                answers = [server.ask(request) for _ in range(2)]
                why = unlike(name, answers, [response(status, body)] * 2)
                why = why or unlike(name, server.end(), (0, lines_of(server.port, [status] * 2), b"journal\n"))
                ran = subprocess.run([program, *over("status", ALPHA)], cwd=server.folder, capture_output=True, timeout=SECONDS)
                why = why or unlike(f"{name}: a command afterwards", (ran.returncode, ran.stdout), (0, b"end\n"))
                why = why or is_whole(server.folder)
            if why:
                return why
    return None


def by_the_clock(program):
    """Without `--moment` a line has the time of the clock, in UTC, and lines are added to those that are there."""
    _, request, status, body = get(ALPHA, "mail/after/0", 200, "end\n")
    with Server(program, 1, moment=None, data={JOURNAL: b"a line of yesterday\n"}, more=OPTION) as server:
        earliest = int(time.time())
        server.ask(request)
        latest = int(time.time())
        times = [time.strftime("%Y-%m-%dT%H:%M:%SZ", time.gmtime(it)) for it in range(earliest, latest + 1)]
        found = read(server)
        wanted = [f"a line of yesterday\n{it} 1 GET /p/{ALPHA}/mail/after/0 200\n" for it in times]
        return None if found in wanted else f"{found!r:.300}, not one of {wanted}"


ALL = {
    "each ending": each_ending,
    "a long reply": long_reply,
    "connections that failed": failed_connections,
    "a journal that is rotated": rotated,
    "a journal without its folder": without_its_folder,
    "a journal that cannot be written": unwritable,
    "a journal of the name of a file beside the database": beside_the_database,
    "the time of the clock": by_the_clock,
}


def journaled(program):
    """What is wrong with the journal of `serve`, if anything."""
    return tried_side_by_side("the journal of serve", program, ALL)


TRIALS = [("the journal of serve", journaled)]
