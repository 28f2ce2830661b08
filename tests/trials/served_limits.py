"""Limits over HTTP: each row of cases/limits.py as uploads to a server, and the limits that requests have by themselves."""
import os
import tempfile

from tests.cases.limits import GREATEST, LAST, LONG, LONG_KEY, LONG_REFERENCE, ROWS_OF_LIMITS, SHORT_KEY
from tests.harness.database_files import NAME
from tests.harness.doors import UPLOAD_LIMIT
from tests.harness.first_order import ORDERS
from tests.harness.http_texts import asking, head
from tests.harness.hub_scripts import FIRST_MAIL, interchange, line_status, order
from tests.harness.hub_steps import found, told
from tests.harness.register_texts import ALPHA, BETA, RETAILER, register
from tests.harness.servers import ORDERED, accepted, get, listed, post, upload
from tests.trials.serving import cancellation, served, tried_side_by_side

HEAD_LIMIT, FIELDS = 8192, 32


def by_row(limit):
    """The uploads and looks of a row."""
    return lambda program: served(program, limit.requests(), data=limit.files)


def padded(request, length):
    """A request whose head has one field more, so long that the head has this many bytes."""
    begun, end, body = request.partition(b"\r\n\r\n")
    more = b"\r\nX-More: "
    return begun + more + b"x" * (length - len(begun + more + end)) + end + body


def with_fields(request, count):
    """A request with so many fields."""
    begun, end, body = request.partition(b"\r\n\r\n")
    return begun + b"".join(b"\r\nX-%d: x" % k for k in range(count - begun.count(b"\r\n"))) + end + body


def each_path():
    """A request of each path, in an order in which each is done."""
    yield ORDERED
    yield get(ALPHA, "mail/after/0", 200, listed((1, "ORDERS", "128576")))
    yield get(ALPHA, "mail/item/1", 200, FIRST_MAIL)
    yield post(ALPHA, "mail/item/1/taken", "", 200, "taken\n")
    yield get(ALPHA, "status", 200, told(line_status("128576", "W", 48, 48, 0, 0, 0), "end"))
    yield get(RETAILER, f"status/{ALPHA}", 200, told(line_status("128576", "W", 48, 48, 0, 0, 0), "end"))
    yield post(RETAILER, "cancellations", cancellation("C1", 10), 200, "accepted\n")


def heads(program):
    """On each path a head that is too long, or has a field too many, and then one at the limit."""
    asked = []
    for name, request, status, body in each_path():
        asked += [
            (f"{name}, a head of 8,193 bytes", padded(request, HEAD_LIMIT + 1), 400, "bad request\n"),
            (f"{name}, 33 fields", with_fields(request, FIELDS + 1), 400, "bad request\n"),
            (f"{name}, a head of 8,192 bytes and 32 fields", padded(with_fields(request, FIELDS - 1), HEAD_LIMIT), status, body),
        ]
    return served(program, asked)


def full_order(size=UPLOAD_LIMIT):
    return ORDERS + "\n" * (size - len(ORDERS))


def bodies(program):
    """Bodies at their limit on each path that takes one, behind the longest head; a byte too few, a byte too many, and bytes behind."""
    name, request, _, body = upload(RETAILER, full_order(), "interchange 1001 messages 1", "1 ORDERS accepted")
    again = body.replace("accepted", "repeated")
    whole = padded(with_fields(request, FIELDS - 1), HEAD_LIMIT)
    refused = upload(RETAILER, "x" * UPLOAD_LIMIT, "refused E05", status=400)
    too_long = asking("POST", f"/p/{RETAILER}/interchanges", RETAILER, full_order(UPLOAD_LIMIT + 1))
    list_with = lambda size: asking("GET", f"/p/{ALPHA}/mail/after/0", ALPHA, "x" * size)
    return served(
        program,
        [
            (f"{name} of a byte too many", too_long, 413, "too large\n"),
            (f"{name} of a byte too few", whole[:-1], 400, "bad request\n"),
            (f"{name} with the longest head", whole, 200, body),
            (f"{name} with a byte behind it", whole + b"x", 200, again),
            (f"{name} with another upload behind it", whole + whole, 200, again),
            refused,
            ("a refused upload with bytes behind it", refused[1] + b"UNB+x'" * 1000, 400, "refused E05\n"),
            post(ALPHA, "mail/item/1/taken", "x" * UPLOAD_LIMIT, 200, "taken\n"),
            post(ALPHA, "mail/item/1/taken", "x" * (UPLOAD_LIMIT + 1), 413, "too large\n"),
            post(RETAILER, "cancellations", "x" * UPLOAD_LIMIT, 400, "bad request\n"),
            post(RETAILER, "cancellations", "x" * (UPLOAD_LIMIT + 1), 413, "too large\n"),
            ("a list with a body", list_with(UPLOAD_LIMIT), 200, "end\n"),
            ("a list with a body that is too long", list_with(UPLOAD_LIMIT + 1), 200, "end\n"),
        ],
    )


# of the body of a cancellation each line at its limit, and what lies past it
PARTS = [
    ("supplier", 0, ALPHA, [ALPHA[:-1], ALPHA + "0"]),
    ("reference", 1, LONG_REFERENCE, [LONG_REFERENCE + "x", ""]),
    ("order", 2, LONG, [LONG + "x", ""]),
    ("line", 3, "999999", ["1000000", "0000001", "0", ""]),
    ("quantity", 4, str(GREATEST), ["1000000000", "0000000001", "000000000", ""]),
]


def cancellations(program):
    """A cancellation whose parts are all at their limits, and each past it. The order is of 35 bytes, its line has six digits."""
    text = interchange(RETAILER, "1001", order(LONG, GREATEST).replace("LIN+1+", "LIN+999999+"))
    whole = [it for _, _, it, _ in PARTS]
    body_of = lambda parts: "".join(f"{it}\n" for it in parts)
    asked = [upload(RETAILER, text, "interchange 1001 messages 1", "1 ORDERS accepted")]
    for name, place, _, past in PARTS:
        for it in past:
            body = body_of([*whole[:place], it, *whole[place + 1 :]])
            asked.append((f"{name} {it!r}", post(RETAILER, "cancellations", body, 400, "")[1], 400, "bad request\n"))
    asked += [post(RETAILER, "cancellations", body_of(whole), 200, f"{word}\n") for word in ("accepted", "repeated")]
    line = line_status(LONG, "W", GREATEST, 0, 0, GREATEST, 0, line=999999)
    return served(program, [*asked, get(ALPHA, "status", 200, told(line, "end"))])


def numbers(program):
    """Numbers of fourteen digits in a path, and of fifteen; lists of a hundred entries, and of more."""
    orders = [order(str(k), reference=k) for k in range(1, 102)]
    lines = lambda count: (f"interchange {count} messages {count}", *(f"{k} ORDERS accepted" for k in range(1, count + 1)))
    entries = [(k, "ORDERS", k) for k in range(1, 102)]
    paths = ["mail/after/{}", "mail/item/{}", "mail/item/{}/taken"]
    asked = [
        upload(RETAILER, interchange(RETAILER, "100", *orders[:100]), *lines(100)),
        get(ALPHA, "mail/after/0", 200, listed(*entries[:100])),
        accepted(RETAILER, "1002", "ORDERS", interchange(RETAILER, "1002", order("101"))),
        get(ALPHA, "mail/after/00000000000000", 200, listed(*entries[:100], last="more")),
        get(ALPHA, "mail/after/00000000000001", 200, listed(*entries[1:])),
        get(ALPHA, f"mail/after/{LAST}", 200, "end\n"),
        get(ALPHA, f"mail/item/{LAST}", 404, "unknown\n"),
        post(ALPHA, f"mail/item/{LAST}/taken", "", 404, "unknown\n"),
        post(ALPHA, "mail/item/00000000000101/taken", "", 200, "taken\n"),
        get(ALPHA, "mail/after/1", 200, listed(*entries[1:100])),
    ]
    for path in paths:
        for number in ("0" * 15, LAST + 1, ""):
            method, target = "POST" if "taken" in path else "GET", f"/p/{ALPHA}/{path.format(number)}"
            asked.append((f"{path} {number}", asking(method, target, ALPHA, ""), 404, "unknown\n"))
    return served(program, asked)


def keys(program):
    """Keys of 8 and of 64 bytes, and such as have a byte fewer or more."""
    asked = []
    for who, key, rest in ((ALPHA, SHORT_KEY, "status"), (BETA, LONG_KEY, "status"), (RETAILER, LONG_KEY, f"status/{BETA}")):
        path = f"/p/{who}/{rest}"
        of = lambda key, path=path: head(f"GET {path} HTTP/1.1", f"X-Hub-Key: {key}")
        asked.append((f"{who} {path}", of(key), 200, "end\n"))
        asked += [(f"{who} with {it!r}", of(it), 403, "denied\n") for it in (key[:-1], key + key[-1], key[:-1] + "x", key * 100)]
    with tempfile.TemporaryDirectory() as folder:
        found(program, folder, register((ALPHA, "40123455", SHORT_KEY), (BETA, "8712345", LONG_KEY), key=LONG_KEY))
        with open(os.path.join(folder, NAME), "rb") as file:
            return served(program, asked, data={NAME: file.read()})


def moments(program):
    """A server at the first and at the last moment: the mail has its date."""
    for moment, when in (("0", "700101:0000"), ("4102444799", "991231:2359")):
        asked = [ORDERED, get(ALPHA, "mail/item/1", 200, FIRST_MAIL.replace("250603:0920", when))]
        why = served(program, asked, moment=moment)
        if why:
            return why
    return None


ALL = {
    "heads on each path": heads,
    "bodies on each path": bodies,
    "cancellations": cancellations,
    "numbers in paths, and lists": numbers,
    "keys": keys,
    "moments": moments,
    **{limit.name: by_row(limit) for limit in ROWS_OF_LIMITS},
}


def served_limits(program):
    """What is wrong with a limit over HTTP, if anything."""
    return tried_side_by_side("limits over HTTP", program, ALL)


TRIALS = [("limits over HTTP", served_limits)]


if __name__ == "__main__":
    from tests.trials.serving import main

    main(ALL)
