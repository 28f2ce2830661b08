"""Makes a hub's file like that of `make year`, by uploads of many messages: each order of ten lines is answered, despatched and received.

    python3 -m bench.grown EDIHUB ORDERS FOLDER"""
import os
import sys

from bench.trade import KINDS, Order, request
from tests.harness.hub_scripts import interchange
from tests.harness.hub_steps import found
from tests.harness.register_texts import RETAILER, crowd
from tests.harness.servers import Server

# one supplier fewer than a hub takes, so that one more can be registered
SUPPLIERS, MESSAGES, CONNECTIONS = 999, 999, 1_000_000


def uploads(kind, orders, suppliers):
    """Returns the uploads of a kind of message for these orders: their sender, `None` for the retailer, and the orders of each."""
    if kind in ("ORDERS", "RECADV"):
        return [(None, orders[first : first + MESSAGES]) for first in range(0, len(orders), MESSAGES)]
    of_each = ((supplier, orders[supplier::suppliers]) for supplier in range(suppliers))
    return [(who, its[first : first + MESSAGES]) for who, its in of_each for first in range(0, len(its), MESSAGES)]


def text_of(kind, who, orders):
    make = "orders" if kind == "ORDERS" else kind.lower()
    messages = (getattr(it, make)(reference) for reference, it in enumerate(orders, 1))
    return interchange(RETAILER if who is None else orders[0].who, f"{kind[0]}{orders[0].number}", *messages)


def grow(program, folder, count, suppliers=SUPPLIERS):
    """Founds a hub in a folder, and gives it this many orders with all that follows them."""
    found(program, folder, crowd(suppliers))
    orders = [Order(number, suppliers) for number in range(count)]
    server = Server(program, CONNECTIONS, folder=folder)
    try:
        for kind in KINDS:
            for who, its in uploads(kind, orders, suppliers):
                answer = server.ask(request("POST", who, "interchanges", text_of(kind, who, its)))
                server.child.stdout.readline()
                if answer.count(f" {kind} accepted\n".encode()) != len(its):
                    raise OSError(f"an upload of {kind} was answered {answer:.300}")
    finally:
        server.child.kill()
        server.child.communicate()


if __name__ == "__main__":
    os.makedirs(sys.argv[3])
    grow(os.path.abspath(sys.argv[1]), sys.argv[3], int(sys.argv[2]))
