"""Requests and responses of HTTP, as the profile has them."""
from tests.harness.hub_scripts import KEYS, bytes_of

PHRASES = {
    200: "OK",
    400: "Bad Request",
    403: "Forbidden",
    404: "Not Found",
    405: "Method Not Allowed",
    411: "Length Required",
    413: "Payload Too Large",
    503: "Service Unavailable",
}


def head(*lines):
    """The head of a request."""
    return "".join(f"{line}\r\n" for line in (*lines, "")).encode("latin-1")


def asking(method, target, who=None, body=None, *fields):
    """A request of this caller, with its length where it has a body."""
    data = b"" if body is None else bytes_of(body)
    key = [] if who is None else [f"X-Hub-Key: {KEYS.get(who, 'a-key-of-nobody')}"]
    length = [] if body is None else [f"Content-Length: {len(data)}"]
    return head(f"{method} {target} HTTP/1.1", *key, *length, *fields) + data


def response(status, body):
    """A response, to the byte."""
    data = bytes_of(body)
    lines = (
        f"HTTP/1.1 {status} {PHRASES[status]}",
        "Content-Type: application/octet-stream",
        f"Content-Length: {len(data)}",
        "Connection: close",
    )
    return head(*lines) + data
