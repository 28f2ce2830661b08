"""`make hubs`: suppliers spread over three hubs behind HAProxy, as in `examples/hubs`, cannot tell them from one hub that has all
suppliers.

Random requests of ten suppliers and of the retailer, some of them damaged, are sent to one hub that has all ten, and to the three
through the front, each to the hub of its supplier. Each answer has to be the same byte for byte, and so have each supplier's status,
its mailbox and every entry afterwards. The check of several registers has to find the three apart, by their registers and by their
files, and to report registers that are not.

    python3 -m tests.three_hubs crates/edihub/out/edihub [SEED [NUMBER]]"""
import asyncio
import os
import random
import re
import subprocess
import sys
import tempfile
import tomllib
from collections import Counter

from tests.fuzz import changed_bytes, changed_segments
from tests.harness import random_inputs
from tests.harness.database_files import NAME
from tests.harness.front_proxy import Front, Supervised, is_there
from tests.harness.http_texts import asking
from tests.harness.hub_scripts import interchange, order
from tests.harness.hub_steps import found
from tests.harness.register_texts import RETAILER, register
from tests.harness.servers import Server
from tests.harness.tree import EXAMPLES

NUMBER, HUBS = 1_000, 3
# what a supplier asks for
LOOKS = ("mail/after/0", "mail/after/1", "mail/item/1", "mail/item/2", "mail/item/x", "status", "status?x", "nothing", "mail/item/1/taken")
# how many different answers to a message there have to be, and how many of them accepted
KINDS_OF_ANSWERS, ACCEPTED = 12, 150
FILES = [os.path.join(EXAMPLES, "hubs", f"register-{number}.toml") for number in range(1, HUBS + 1)]
APART = os.path.join(EXAMPLES, "hubs", "apart.py")


class Parties:
    """The suppliers of the three registers: the hub of each, counted from 1, its prefix and its key."""

    def __init__(self):
        self.hub_of, self.entries, self.keys = {}, [], {}
        for place, name in enumerate(FILES, 1):
            with open(name, "rb") as file:
                text = tomllib.load(file)
            self.keys[RETAILER] = text["retailer"]["key"]
            for it in text["supplier"]:
                self.hub_of[it["gln"]], self.keys[it["gln"]] = place, it["key"]
                self.entries.append((it["gln"], it["prefix"], it["key"]))
        # the makers of inputs draw from these
        random_inputs.PREFIXES = {gln: prefix if isinstance(prefix, str) else prefix[-1] for gln, prefix, _ in self.entries}

    def of_hub(self, place):
        return [gln for gln, hub in self.hub_of.items() if hub == place]


def an_upload(draw, parties, place):
    """Returns an uploader and an upload, some of it damaged, for suppliers of one hub."""
    random_inputs.SUPPLIERS = parties.of_hub(place)
    who, text = random_inputs.upload_of(draw)
    if draw.random() < 0.2:
        # an order that is nobody's yet, beside those of few numbers
        number = draw.randrange(10**6)
        who, text = RETAILER, interchange(RETAILER, f"N{number}", order(str(number), supplier=draw.choice(random_inputs.SUPPLIERS)))
    one = draw.random()
    if one < 0.15:
        text = changed_segments(draw, text)
    data = text.encode("latin-1")
    return who, changed_bytes(draw, data) if one > 0.85 else data


def a_request(draw, parties):
    """Of which hub's supplier a request is, its method, who asks, the rest of its path, its body and its key."""
    supplier = draw.choice([*parties.hub_of])
    place, one = parties.hub_of[supplier], draw.random()
    if one < 0.7:
        who, text = an_upload(draw, parties, place)
        found = "POST", who, "interchanges", text
    elif one < 0.8:
        lines = [supplier, f"C{draw.randrange(9)}", str(draw.randrange(4)), draw.choice("1112"), str(draw.randrange(12))]
        found = "POST", RETAILER, "cancellations", "\n".join(lines).encode() + draw.choice((b"\n", b"\n", b"\n", b""))
    else:
        who, rest = draw.choice([(supplier, draw.choice(LOOKS)), (RETAILER, f"status/{supplier}")])
        taken = rest.endswith("taken")
        method = draw.choice(("POST", "POST", "GET") if taken else ("GET", "GET", "GET", "PUT"))
        found = method, who, rest, b"" if taken else None
    who = found[1]
    return place, *found, parties.keys[who] if draw.random() < 0.97 else "another-key"


class Both:
    """One hub that has all suppliers, and three behind a front."""

    def __init__(self, parties, server, door):
        self.parties, self.server, self.door, self.asked = parties, server, door, 0

    def ask(self, place, method, who, rest, body=None, key=None):
        """The status and the body that both answer; or what the two answer, where it is not the same."""
        key = f"X-Hub-Key: {key or self.parties.keys[who]}"
        self.asked += 1
        # an address of its own, so that no limit of the front is met
        source = f"127.1.{self.asked // 250}.{self.asked % 250 + 1}"
        through = asyncio.run(self.door.ask(asking(method, f"/{place}/p/{who}/{rest}", None, body, key), source))
        head, _, alone = self.server.ask(asking(method, f"/p/{who}/{rest}", None, body, key)).partition(b"\r\n\r\n")
        self.server.line()
        if (int(head[9:12]), alone) != through:
            raise Other(f"{method} {rest} of {who}, {body!r:.300}: one hub answers {head[9:12]} {alone!r:.300}, the three {through!r:.300}")
        return through


class Other(Exception):
    """Answers that are not the same."""


def shown(both):
    """What each supplier sees in the end, and the retailer of it: how many entries and lines there are."""
    entries = lines = 0
    for supplier, place in both.parties.hub_of.items():
        _, status = both.ask(place, "GET", supplier, "status")
        both.ask(place, "GET", RETAILER, f"status/{supplier}")
        both.ask(place, "GET", supplier, "mail/after/0")
        lines += status.count(b"\n") - 1
        number = 1
        while both.ask(place, "GET", supplier, f"mail/item/{number}")[0] == 200:
            entries, number = entries + 1, number + 1
    return entries, lines


def compared(program, parties, folders, draw, number):
    """Sends this many requests to both. Returns what is wrong, if anything."""
    ports = {}
    for place, folder in enumerate(folders, 1):
        with open(FILES[place - 1], encoding="ascii") as file:
            found(program, folder, file.read())
        ports[f"127.0.0.1:88{place}"] = Supervised(program, folder, 1_000_000)
    whole = tempfile.mkdtemp()
    found(program, whole, register(*parties.entries, key=parties.keys[RETAILER]))
    try:
        of_hubs = {it: hub.port for it, hub in ports.items()}
        with Server(program, 1_000_000, folder=whole) as server, Front("hubs/haproxy.cfg", of_hubs) as front:
            both, told = Both(parties, server, front.door()), Counter()
            requests = []
            for _ in range(number):
                # at times one that was sent before
                requests.append(draw.choice(requests) if requests and draw.random() < 0.1 else a_request(draw, parties))
                status, body = both.ask(*requests[-1])
                told[status] += 1
                told.update(re.findall(rb"(?:^|\n)(?:\S+ \S+ )?(accepted|repeated|refused \w+)", body))
            entries, lines = shown(both)
    except Other as why:
        return str(why)
    finally:
        for hub in ports.values():
            hub.__exit__()
    words = ", ".join(f"{count} {word if isinstance(word, int) else word.decode()}" for word, count in told.most_common())
    print(f"{number} requests, answered alike by one hub and by three: {words}; then {entries} entries and {lines} lines alike", flush=True)
    if told[b"accepted"] < ACCEPTED or len(told) < KINDS_OF_ANSWERS or not entries or not lines:
        return "too few of them were accepted, or too few kinds of answers came"
    return None


def checked(*names):
    ran = subprocess.run([sys.executable, APART, *names], capture_output=True, text=True)
    return ran.returncode, ran.stdout


def apart(folders):
    """Tries the check of registers and of files. Returns what is wrong, if anything."""
    ok = (0, f"ok {HUBS} hubs, 10 suppliers\n")
    if checked(*FILES) != ok or checked(*(os.path.join(folder, NAME) for folder in folders)) != ok:
        return f"registers or files that are apart: {checked(*FILES)}, {checked(*(os.path.join(folder, NAME) for folder in folders))}"
    with open(FILES[0], encoding="ascii") as file:
        text = file.read()
    for place, words, told in PLANTED:
        with tempfile.NamedTemporaryFile("w", suffix=".toml") as other:
            other.write(text.replace(place, words, 1))
            other.flush()
            found = checked(other.name, *FILES[1:])
            if text.count(place) != 1 or found != (1, told.format(other.name, *FILES[1:])):
                return f"{words} for {place}: {found}"
    return None


# an edit of the first register, and what is then told
PLANTED = (
    ('"3512345"', '"40999"', "fault overlap 40999 of 3512345000005 {0} and 4099999 of 4099999000012 {1}\n"),
    ('"3512345"', '"7612346001"', "fault overlap 7612346 of 7612345000008 {2} and 7612346001 of 3512345000005 {0}\n"),
    ('"3512345"', '"8410001"', "fault overlap 8410001 of 3512345000005 {0} and 8410001 of 8410001000015 {1}\n"),
    ('"3512345000005"', '"8712345000004"', "fault twice 8712345000004 {0} {1}\n"),
    ('"5412345000013"', '"3800123000010"', "fault twice 3800123000010 {0} {2}\n"),
)


def files_alike():
    """Whether the two files of the front say the same up to their paths."""
    texts = []
    for name in ("front", "hubs"):
        with open(os.path.join(EXAMPLES, name, "haproxy.cfg"), encoding="ascii") as file:
            texts.append(re.search(r"\nglobal\n.*?\n    # the hubs? ha", file.read(), re.DOTALL)[0].replace("hubs", "hub"))
    return None if texts[0] == texts[1] else "the two files of the front are not alike"


def main(program, seed=1, number=NUMBER):
    if not is_there():
        print("no HAProxy, or no openssl, so nothing is tried")
        return 1
    program, parties = os.path.abspath(program), Parties()
    with tempfile.TemporaryDirectory() as top:
        folders = [os.path.join(top, str(place)) for place in range(1, HUBS + 1)]
        for folder in folders:
            os.mkdir(folder)
        why = files_alike() or compared(program, parties, folders, random.Random(int(seed)), int(number)) or apart(folders)
    print(f"wrong: {why}" if why else "no supplier can tell three hubs from one; the check of registers says what is not apart")
    return 1 if why else 0


if __name__ == "__main__":
    sys.exit(main(*sys.argv[1:]))
