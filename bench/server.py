"""Asks `edihub serve`, and a plain Rust server over the system's SQLite (server.rs), the same over HTTP. Prints ratios of processor
time for each connection: a mail item, a mail list, an upload of one order, a cancellation, and a status of ten lines, of 10,000, and
of 10,000 and 1,000 pallets. Then what a start takes over a file with 1,000 suppliers and no order; and the memory of the server over
many connections.

    python3 -m bench.server PLAIN EDIHUB"""
import os
import socket
import subprocess
import sys
import tempfile

from bench.figures import Figures
from bench.hub import despatch
from bench.sql import base, close, copied, founded, having, orders_text
from tests.harness.http_texts import asking
from tests.harness.hub_scripts import TWO_SUPPLIERS, interchange
from tests.harness.register_texts import ALPHA, RETAILER, crowd

FEW, LINES, MANY = 10, 10_000, 100_000
# the bounds: times of the plain server, and what is accepted, of a request that reads a little, of a long status, and of one that
# writes; of a start; and by how much memory may grow over the many connections
READS, STATUS, WRITES, START, MOST_GROWTH = (1.5, 2), (1.2, 1.5), (2, None), (2, None), 1.1
SUPPLIERS = 1_000
# how many starts are measured together, since the system counts in steps of ten milliseconds
STARTS = 20


def each_the_same(request, count):
    return [request] * count


def despatched(lines):
    """A pallet with a line of each order."""
    return [interchange(ALPHA, f"S{k}", despatch(k, f"{k:08}", 1)) for k in range(lines // 10)]


# the lines in the orders of each file, and what its supplier sent
FILES = {"few": (FEW, []), "many": (LINES, []), "despatched": (LINES, despatched(LINES))}
STATUS_OF_ALPHA = asking("GET", f"/p/{ALPHA}/status", ALPHA)
# each load, its file, its requests, and its bounds
LOADS = {
    "a mail item": ("many", each_the_same(asking("GET", f"/p/{ALPHA}/mail/item/7", ALPHA), 3_000), READS),
    "a mail list of 100 entries": ("many", each_the_same(asking("GET", f"/p/{ALPHA}/mail/after/0", ALPHA), 2_000), READS),
    f"a status of {FEW} lines": ("few", each_the_same(STATUS_OF_ALPHA, 3_000), READS),
    f"a status of {LINES:,} lines": ("many", each_the_same(STATUS_OF_ALPHA, 40), STATUS),
    f"a status of {LINES:,} lines and {LINES // 10:,} pallets": ("despatched", each_the_same(STATUS_OF_ALPHA, 40), STATUS),
    "an upload of one order": (
        "many", [asking("POST", f"/p/{RETAILER}/interchanges", RETAILER, orders_text(1, 50_000 + k)) for k in range(999)], WRITES
    ),
    "a cancellation": (
        "many", [asking("POST", f"/p/{RETAILER}/cancellations", RETAILER, f"{ALPHA}\nC{k}\n{k:08}\n1\n1\n") for k in range(999)], WRITES
    ),
}
NOTHING = asking("GET", f"/p/{ALPHA}/mail/item/999999", ALPHA)


def free_port():
    with socket.socket() as one:
        one.bind(("127.0.0.1", 0))
        return one.getsockname()[1]


def asked(port, request):
    """What is answered to a request."""
    with socket.create_connection(("127.0.0.1", port)) as one:
        one.sendall(request)
        found = b""
        while piece := one.recv(1 << 20):
            found += piece
        return found


def memory(child):
    """The memory of a process now, in MB."""
    with open(f"/proc/{child.pid}/status", encoding="ascii") as file:
        return next(int(line.split()[1]) / 1024 for line in file if line.startswith("VmRSS"))


def served(words, folder, requests, look=None):
    """The processor seconds of a server over these requests, and what it answered last."""
    port = free_port()
    child = subprocess.Popen([*words(port, len(requests))], cwd=folder, stdout=subprocess.PIPE)
    child.stdout.readline()
    answer = b""
    for place, request in enumerate(requests):
        answer = asked(port, request)
        child.stdout.readline()
        if look:
            look(place, child)
    child.stdout.close()
    _, state, used = os.wait4(child.pid, 0)
    child.returncode = os.waitstatus_to_exitcode(state)
    return used.ru_utime + used.ru_stime, answer


def cost(words, folder, requests, top):
    """The processor seconds of these requests, less those of opening; and the last answer."""
    opened = min(served(words, copied(folder, top), [NOTHING])[0] for _ in range(3))
    runs = [served(words, copied(folder, top), requests) for _ in range(3)]
    return min(time for time, _ in runs) - opened, runs[0][1]


def grows(words, folder, top):
    """The memory of a server early and late among many connections."""
    found = []

    def look(place, child):
        if place in (MANY // 100, MANY - 2):
            found.append(memory(child))

    served(words, copied(folder, top), [LOADS["a mail item"][1][0]] * MANY, look)
    return found


def file_of(edihub, name, top):
    """A hub's file, and its register."""
    lines, sent = FILES[name]
    folder = having(edihub, founded(edihub, TWO_SUPPLIERS, base(lines), top), ALPHA, sent, top)
    close(folder)
    return folder


def starts(words, edihub, top):
    """The processor seconds of starts over a file with 1,000 suppliers, each with one connection, of each program."""
    folder = tempfile.mkdtemp(dir=top)
    with open(os.path.join(folder, "register.toml"), "w", encoding="ascii") as file:
        file.write(crowd(SUPPLIERS))
    init = [edihub, "init", "--register", "register.toml", "--db", "hub.db"]
    subprocess.run(init, cwd=folder, check=True, stdout=subprocess.DEVNULL)
    request = asking("GET", f"/p/{RETAILER}/mail/item/999999", RETAILER)
    return [sum(served(it, copied(folder, top), [request])[0] for _ in range(STARTS)) / STARTS for it in words]


def main(figures, plain, edihub):
    plain, edihub = os.path.abspath(plain), os.path.abspath(edihub)
    words = (
        lambda port, count: [edihub, "serve", "--db", "hub.db", "--port", str(port), "--count", str(count)],
        lambda port, count: [plain, "register.toml", "hub.db", str(port), str(count)],
    )
    with tempfile.TemporaryDirectory() as top:
        folders = {name: file_of(edihub, name, top) for name in FILES}
        for name, (file, requests, (bound, at_most)) in LOADS.items():
            (time, answer), (plain_time, plain_answer) = (cost(it, folders[file], requests, top) for it in words)
            if answer != plain_answer:
                sys.exit(f"{name}: the two servers answer otherwise")
            each = 1e6 / len(requests)
            print(f"{name}: {each * time:.0f} microseconds of processor time, {each * plain_time:.0f} of the plain server's", flush=True)
            figures.tell(f"serve, {name}: times the plain server", time / plain_time, bound, at_most)
        time, plain_time = starts(words, edihub, top)
        print(f"a start: {1e3 * time:.1f} milliseconds of processor time, {1e3 * plain_time:.1f} of the plain server's", flush=True)
        figures.tell(f"serve, a start with {SUPPLIERS:,} suppliers: times the plain server", time / plain_time, *START)
        early, late = grows(words[0], folders["many"], top)
        print(f"memory: {early:.1f} MB after {MANY // 100:,} connections, {late:.1f} MB after {MANY:,}")
        figures.tell("serve, memory over many connections: growth", late / early, MOST_GROWTH)


if __name__ == "__main__":
    told = Figures()
    main(told, *sys.argv[1:])
    told.end()
