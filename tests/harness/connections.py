"""Connections of `serve`, each read and written in a manner of its own (wire.c), and what is sent on them."""
import contextlib
import errno
import os
import tempfile
from dataclasses import dataclass

from tests.harness.http_texts import response
from tests.harness.servers import Server, exit_of, lines_of, send
from tests.harness.shims import WIRE, built

# how the bytes of a connection are read and written, as wire.c reads it: so many bytes at most, and so many times before one fails with
# this error
MANNERS = {"piece": 1 << 20, "reads": 1 << 40, "takes": 1 << 20, "writes": 1 << 40, "error": errno.EIO}


def in_order(manner):
    """The words of a manner for wire.c, such as `piece 1 reads 7`, or `writes 0 interrupted`."""
    named = dict(zip(*[iter(manner.replace("interrupted", f"error {errno.EINTR}").split())] * 2))
    assert set(named) <= set(MANNERS), manner
    return " ".join(str(it) for it in {**MANNERS, **named}.values())


@dataclass
class Connection:
    """The bytes of a client, the manner in which they are read and answered, what is sent, and the status or why it failed."""

    request: bytes
    manner: str
    sent: bytes
    ending: object


class Connections:
    """Connections that a new hub serves one after another."""

    def __init__(self):
        self.connections = []

    def served(self, request, status, body, manner=""):
        self.connections.append(Connection(request, manner, response(status, body), status))
        return self

    def failed(self, request, why, sent, manner):
        self.connections.append(Connection(request, manner, sent, why))
        return self

    def wrong(self, program):
        """What is wrong with what is sent on them, printed or noted in the journal, if anything."""
        with tempfile.TemporaryDirectory() as folder:
            manner, journal = os.path.join(folder, "manner"), os.path.join(folder, "journal")
            env = {"LD_PRELOAD": built(WIRE, folder), "MANNER": manner}
            with Server(program, len(self.connections), env=env, more=["--journal", journal]) as server:
                for number, one in enumerate(self.connections, 1):
                    found = asked(server, one, manner)
                    if found != one.sent:
                        what = f"connection {number} ({one.manner or 'as ever'}) of {one.request!r:.80}"
                        return f"{what}: sent {found!r:.200}, not {one.sent!r:.200}"
                return self.ended(server, journal)

    def ended(self, server, journal):
        """What is wrong with what the program prints of the connections, or with its journal."""
        endings = ["fault" if isinstance(it.ending, str) else it.ending for it in self.connections]
        found, wanted = server.end(), (exit_of(endings), lines_of(server.port, endings), b"")
        if found != wanted:
            return f"the program: {found!r:.400}, not {wanted!r:.400}"
        with open(journal, encoding="ascii") as file:
            lines = file.read().splitlines()
        if len(lines) != len(self.connections):
            return f"the journal has {len(lines)} lines"
        other = [line for line, it in zip(lines, self.connections) if isinstance(it.ending, str) and it.ending not in line.split()]
        return f"the journal: {other[:3]}" if other else None


def asked(server, connection, manner):
    """What a client is sent on this connection."""
    with open(manner, "w", encoding="ascii") as file:
        file.write(in_order(connection.manner))
    with server.connect() as one:
        send(one, connection.request, True)
        found = b""
        # a server that has not read everything resets the connection behind its answer
        with contextlib.suppress(ConnectionResetError):
            while piece := one.recv(65536):
                found += piece
        return found
