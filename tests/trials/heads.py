"""Heads of requests: what is a head and what is none, on the built program that serves them, in reads of 1 to 10,000 bytes."""
from tests.harness.connections import Connections
from tests.harness.hub_scripts import KEYS
from tests.harness.register_texts import ALPHA
from tests.trials.serving import tried_side_by_side

TARGET = f"/p/{ALPHA}/mail/after/0"
KEY = KEYS[ALPHA]
GET = f"GET {TARGET} HTTP/1.1\r\n"
KEY_FIELD = f"X-Hub-Key: {KEY}\r\n"
LISTED, BAD, DENIED, UNKNOWN = (200, "end\n"), (400, "bad request\n"), (403, "denied\n"), (404, "unknown\n")
# what follows each head, and nobody reads
BEHIND = b"body\r\n\r\n"


def padded(length):
    """A head of this many bytes, with the key."""
    rest = f"{GET}{KEY_FIELD}A: \r\n\r\n"
    return rest.replace("A: ", "A: " + "1" * (length - len(rest)))


# a name, a head, and its status and body
HEADS = [
    ("a key", f"{GET}{KEY_FIELD}\r\n", LISTED),
    ("no fields", f"{GET}\r\n", DENIED),
    ("an empty key", f"{GET}X-Hub-Key: \r\n\r\n", DENIED),
    ("a key with a blank in it", f"{GET}X-Hub-Key: {KEY} 1\r\n\r\n", DENIED),
    ("blanks and a tab around a key", f"{GET}X-Hub-Key: {KEY}\t \r\n\r\n", LISTED),
    ("a key among others, in other letters", f"{GET}X-Hub-Keys: 2\r\nx-hUB-kEY:{KEY}\r\nX-Hub-Ke: 3\r\n\r\n", LISTED),
    ("two equal keys", f"{GET}{KEY_FIELD * 2}\r\n", BAD),
    ("three empty keys", f"{GET}" + "X-Hub-Key:\r\n" * 3 + "\r\n", BAD),
    ("32 fields", f"{GET}{KEY_FIELD}" + "A: 1\r\n" * 31 + "\r\n", LISTED),
    ("33 fields", f"{GET}{KEY_FIELD}" + "A: 1\r\n" * 32 + "\r\n", BAD),
    ("8,192 bytes", padded(8192), LISTED),
    ("8,193 bytes", padded(8193), BAD),
    ("a target of 8,192 bytes", f"GET /{'a' * 8191} HTTP/1.1\r\n\r\n", BAD),
    ("empty lines first", f"\r\n\n{GET}{KEY_FIELD}\r\n", LISTED),
    ("empty lines of 8,192 bytes first", "\r\n" * 4096 + f"{GET}{KEY_FIELD}\r\n", BAD),
    ("LF alone", f"{GET}{KEY_FIELD}\r\n".replace("\r", ""), LISTED),
    ("HTTP/1.0", f"{GET}{KEY_FIELD}\r\n".replace("HTTP/1.1", "HTTP/1.0"), LISTED),
    ("a method in small letters", f"{GET}{KEY_FIELD}\r\n".replace("GET", "get"), (405, "method\n")),
    ("a target past ASCII", f"{GET}{KEY_FIELD}\r\n".replace("/p/", "/\u00c3\u00a4/"), UNKNOWN),
    ("a target that is not UTF-8", f"{GET}{KEY_FIELD}\r\n".replace("/p/", "/\u00e4/"), BAD),
    ("HTTP/2.0", f"{GET}{KEY_FIELD}\r\n".replace("HTTP/1.1", "HTTP/2.0"), BAD),
    ("HTTP/1.2", f"{GET}{KEY_FIELD}\r\n".replace("HTTP/1.1", "HTTP/1.2"), BAD),
    ("no target", f"GET HTTP/1.1\r\n{KEY_FIELD}\r\n", BAD),
    ("two blanks", f"{GET}{KEY_FIELD}\r\n".replace("GET ", "GET  "), BAD),
    ("a field without a colon", f"{GET}{KEY_FIELD}X-Hub\r\n\r\n", BAD),
    ("a blank before a colon", f"{GET}X-Hub-Key : {KEY}\r\n\r\n", BAD),
    ("a field over two lines", f"{GET}{KEY_FIELD} l\r\n\r\n", BAD),
    ("CR alone", f"{GET}{KEY_FIELD}\r\n".replace("HTTP/1.1\r\n", "HTTP/1.1\r"), BAD),
    ("a NUL", "\0", BAD),
]


def in_steps(step):
    play = Connections()
    for _, head, (status, body) in HEADS:
        play.served(head.encode("latin-1") + BEHIND, status, body, f"piece {step}")
    return play


TRIALS = [
    (
        "heads of requests",
        lambda program: tried_side_by_side("heads", program, {f"{it} bytes a read": in_steps(it).wrong for it in (1, 5, 4096, 10_000)}),
    )
]
