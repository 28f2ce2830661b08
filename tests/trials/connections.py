"""Connections of HTTP that are read by pieces, or cut, or whose reads and writes fail, on the built program that serves them (wire.c)."""
from tests.harness.connections import Connections
from tests.harness.first_order import ORDERS
from tests.harness.http_texts import asking, response
from tests.harness.hub_scripts import FIRST_MAIL
from tests.harness.register_texts import ALPHA, RETAILER
from tests.trials.serving import tried_side_by_side

ORDER = asking("POST", f"/p/{RETAILER}/interchanges", RETAILER, ORDERS)
ORDER_TAKEN = "interchange 1001 messages 1\n1 ORDERS accepted\n"
ORDER_AGAIN = "interchange 1001 messages 1\n1 ORDERS repeated\n"
LIST = asking("GET", f"/p/{ALPHA}/mail/after/0", ALPHA)
LISTED = "             1 ORDERS 128576\nend\n"
EMPTY = "end\n"


def byte_by_byte():
    """Reads of one byte, and writes of one."""
    play = Connections()
    play.served(ORDER, 200, ORDER_TAKEN, "piece 1 takes 1")
    play.served(LIST, 200, LISTED, "piece 1 takes 1")
    play.served(asking("GET", f"/p/{ALPHA}/mail/item/1", ALPHA), 200, FIRST_MAIL, "takes 1")
    return play


def reads_that_fail():
    """Each read fails in turn: nothing is written, and nothing taken."""
    play = Connections()
    for reads in range(len(ORDER)):
        play.failed(ORDER, "read", b"", f"piece 1 reads {reads}")
    play.served(LIST, 200, EMPTY)
    # the read after the last byte is never made
    return play.served(ORDER, 200, ORDER_TAKEN, f"piece 1 reads {len(ORDER)}")


def faults_far_from_the_end():
    """A body that shows its fault at once is read to its end: cut, or with a read that fails behind the fault, it is not refused."""
    play = Connections()
    whole = asking("POST", f"/p/{RETAILER}/interchanges", RETAILER, "abc" + "x" * 297)
    for manner in ("", "piece 1"):
        play.served(whole[:-1], 400, "bad request\n", manner).served(whole, 400, "refused E05\n", manner)
    play.failed(whole, "read", b"", f"piece 1 reads {len(whole) - 1}")
    play.served(whole + b"more", 400, "refused E05\n", f"piece 1 reads {len(whole)}")
    return play.served(LIST, 200, EMPTY)


def writes_that_fail():
    """Each write fails in turn, and what was sent is repeated; and a writer that takes nothing."""
    play = Connections()
    again = response(200, ORDER_AGAIN)
    play.failed(ORDER, "write", b"", "writes 0")
    for writes in range(len(again)):
        play.failed(ORDER, "write", again[:writes], f"takes 1 writes {writes}")
    play.failed(ORDER, "write", b"", "takes 0")
    play.served(ORDER, 200, ORDER_AGAIN, f"takes 1 writes {len(again)}")
    return play.served(LIST, 200, LISTED)


def interruptions():
    """A read or a write that is interrupted has failed."""
    play = Connections()
    for reads in (0, 1, 40, len(ORDER) - 1):
        play.failed(ORDER, "read", b"", f"piece 1 reads {reads} interrupted")
    play.served(LIST, 200, EMPTY)
    again = response(200, ORDER_AGAIN)
    for writes in (0, 1, len(again) - 1):
        play.failed(ORDER, "write", again[:writes], f"takes 1 writes {writes} interrupted")
    return play.served(ORDER, 200, ORDER_AGAIN).served(LIST, 200, LISTED)


TRIALS = [
    (
        "connections read and written in pieces, and failing",
        lambda program: tried_side_by_side(
            "connections",
            program,
            {
                "byte by byte": byte_by_byte().wrong,
                "each read fails in turn": reads_that_fail().wrong,
                "a body whose fault shows at once is read to its end": faults_far_from_the_end().wrong,
                "each write fails in turn": writes_that_fail().wrong,
                "a read or write that is interrupted": interruptions().wrong,
            },
        ),
    )
]
