"""Each command in README.md, CHANGELOG.md and docs/*.md has a trial here. Those of a block are run as they are, in the order of the
document; those in backticks are looked up. A block without a line of the table below is a failure, and so is a line without a block.
Each link between documents has to lead somewhere."""
import os
import re
import socket
import struct
import subprocess
import sys
import textwrap
from concurrent.futures import ThreadPoolExecutor
from contextlib import ExitStack
from dataclasses import dataclass, field
from glob import glob

from tests.cases import goods, orders
from tests.harness import front_proxy, show_cases
from tests.harness.case import SECONDS
from tests.harness.document_shell import Reader, Wrong, asked, hold, lacks, lines_of, text_of, write
from tests.harness.hub_scripts import FIRST_MAIL, KEYS, MOMENT, OTHER_PALLET, PALLET, STATUS as OTHERS, line_status
from tests.harness.hub_steps import told
from tests.harness.register_texts import ALPHA, RETAILER
from tests.harness.servers import listed
from tests.harness.tree import EXAMPLES, OLDER_FILES, ROOT

sys.path.insert(0, os.path.join(ROOT, "install"))
import place  # noqa: E402

# units of systemd itself that documents name
SYSTEMS = {"systemd-time-wait-sync.service"}
OLD_FILE = os.path.join(OLDER_FILES, "schema1_received.db")
# lines between fences, or indented by four blanks, with empty lines between
BLOCK = re.compile(r"^```[^\n]*\n(.*?)^```$|((?:^    [^\n]*\n(?:\n+(?=    ))?)+)", re.MULTILINE | re.DOTALL)


def read(document):
    """The blocks of a document, each with the section in which it stands; and the commands in backticks."""
    with open(os.path.join(ROOT, document), encoding="utf-8") as file:
        sections = re.split(r"^(?=## )", file.read() + "\n", flags=re.MULTILINE)
    blocks = [(textwrap.dedent(it[1] or it[2]).strip("\n") + "\n", section) for section in sections for it in BLOCK.finditer(section)]
    spans = {it for section in sections for it in re.findall("`([^`\n]+)`", BLOCK.sub("", section))}
    return blocks, sorted(it for it in spans if it.split(" ")[0] in WORDS and " " in it)


# what supplier A sees of the interchanges in the folders, and then of a cancellation
SEEN_PALLET = OTHERS[-1].replace(OTHER_PALLET, PALLET)
BEFORE, STATUS = (told(line_status("128576", "C", 48, *it, 12), SEEN_PALLET, "end") for it in ((24, 12, 0), (14, 12, 10)))
OF_THE_RETAILER = f"--db hub.db --as {RETAILER} --key-file retail.key"
FOUND = "edihub init --register register.toml --db hub.db"
FOUND_WITH_HEADER = f"{FOUND} && echo X-Hub-Key: {KEYS[RETAILER]} > retail.header"
ORDERED = f"{FOUND} && echo {KEYS[RETAILER]} > retail.key"
ORDERED += f" && edihub import {OF_THE_RETAILER} --folder in/retailer --moment {MOMENT} > printed"
DAY = FOUND.replace("register.toml", "examples/day/register.toml") + f" && echo {KEYS[RETAILER]} > retail.key"
DAY += f" && edihub import {OF_THE_RETAILER} --folder examples/day/1-orders --moment 1748935800 > printed"
SERVE = f"exec edihub serve --db hub.db --port 8080 --count 1000 --moment {MOMENT}"


@dataclass
class Run:
    """Commands of a block that end with status 0."""

    # shell that makes what they need, in a folder of their own where it is not that of the document, in which the hub may be served
    before: str = ":"
    anew: bool = False
    served: bool = False
    # what takes the place of words
    instead: dict = field(default_factory=dict)
    # all that they print, where it is known; and lines of it that the section has in backticks
    prints: str = None
    says: tuple = ()
    # how files begin that they leave; and shell that looks at others, with what was printed for PRINTED
    leaves: dict = field(default_factory=dict)
    then: str = ":"

    def __call__(self, reader, block, section):
        hold(all(f"`{it}`" in section for it in self.says), f"the section does not say {self.says}")
        folder = reader.new() if self.anew else reader.folder
        reader.run(self.before, folder)
        if not self.served:
            return self.run(reader, block, folder, self.instead)
        with reader.serving(SERVE, folder) as (port, child):
            return self.run(reader, block, folder, {"8080": str(port), ":880 ": f":{port} ", "PID": str(child.pid), **self.instead})

    def run(self, reader, block, folder, instead):
        lines = lines_of(block)
        here = [it for it in lines if not lacks(it)]
        reader.ran, reader.not_run = reader.ran + len(here), reader.not_run + [it for it in lines if lacks(it)]
        text = "\n".join(here)
        for place, words in instead.items():
            text = text.replace(place, words)
        printed = reader.run(text, folder)
        if len(here) == len(lines):
            hold(self.prints in (None, printed), f"{printed!r} is printed, not {self.prints!r}")
            hold(set(self.says) <= set(printed.splitlines()), f"{printed!r} is printed, without {self.says}")
            for name, begins in self.leaves.items():
                hold(text_of(folder, name).startswith(begins), f"{name} is {text_of(folder, name):.200}")
        reader.run(self.then.replace("PRINTED", printed.strip()), folder)


def looked_up(reader, block, _section):
    for line in lines_of(block):
        look_up(reader, line.partition(" # ")[0].strip())


def a_register(reader, block, _section):
    """The register that the next block checks."""
    write(reader.folder, "register.toml", block)


def shown_lines(reader, block, _section):
    """What `show` prints of an interchange with a message of each type."""
    response = show_cases.edited(orders.RESPONSE, "UNS+S'", "RFF+ON:128576:1'UNS+S'")
    text = show_cases.in_a_row(orders.ORDER, response, goods.DESPATCH, goods.RECEIPT.partition("LIN+2")[0])
    printed = asked(reader.program, "show", text=text)
    hold(printed == (0, block), f"{printed!r:.300} is printed")


def answer(port, path, key=KEYS[ALPHA], breaks_off=False):
    """What is answered to a supplier, or to the front of its request where it then goes away."""
    with socket.create_connection(("127.0.0.1", port), SECONDS) as one:
        one.sendall(f"GET /p/{ALPHA}/{path} HTTP/1.1\r\nX-Hub-Key: {key}\r\n{'' if breaks_off else chr(13) + chr(10)}".encode())
        if breaks_off:
            return one.setsockopt(socket.SOL_SOCKET, socket.SO_LINGER, struct.pack("ii", 1, 0))
        with one.makefile("rb") as file:
            return file.read().decode()


def in_examples(folder):
    """How the commands of a block are looked up, which run a script in a folder of the examples."""

    def trial(reader, block, _section):
        for line in lines_of(block):
            script(reader, line.replace("python3 ", f"python3 examples/{folder}/"))
            reader.looked_up += 1

    return trial


def of_the_package(_reader, line):
    """A command that needs root and an installed package: the files of the package and the units that it names are there."""
    files = [f"/usr/{it.target}" for it in place.parts()]
    units = {os.path.basename(it) for it in files if f"/{place.UNITS}/" in it} | SYSTEMS
    for path in re.findall(r"/usr/(?:bin|lib|share)/[\w./-]+", line):
        hold(any(it == path or it.startswith(f"{path.rstrip('/')}/") for it in files), f"the package has no {path}")
    named = {re.sub("@[^.]+", "@", it) for it in re.findall(r"(?<![\w/])[\w@.-]+\.(?:service|timer|path)\b", line)}
    hold(named <= units, f"there is no unit {named - units}")


def each_of_the_package(reader, block, _section):
    for line in lines_of(block):
        of_the_package(reader, line)
        reader.looked_up += 1


def made_for_the_front(reader, block, _section):
    """The first two commands make the front's files, here of the examples; the others need root."""
    folder, (made, copied, *_) = reader.new(), lines_of(block)
    for line in (made, copied):
        reader.run(re.sub(r" /etc/(nginx|haproxy)/", " ", line.replace("/usr/share/doc/edihub/", "")), folder)
        reader.ran += 1
    text = text_of(folder, "nginx.conf")
    hold("root /usr/share/edihub/page;" in text and text.count("edi.example.com") == 3 and "hub.example.com" not in text, f"{text:.200}")
    hold(text_of(folder, "haproxy.cfg") == text_of(EXAMPLES, "front", "haproxy-behind-nginx.cfg"), "another haproxy.cfg")


def quoted(*path):
    """How a block is tried that quotes a file: it has all lines, in this order, though perhaps with others between."""

    def trial(reader, block, _section):
        lines = iter([it.strip() for it in text_of(ROOT, *path).splitlines()])
        # as `text_of` reads a file
        latin = block.encode().decode("latin-1")
        wrong = [it for it in map(str.strip, latin.splitlines()) if it not in lines]
        hold(not wrong, f"{os.path.join(*path)} does not say {wrong[:1]}")
        reader.looked_up += 1

    return trial


def a_header(reader, block, _section):
    """The file with the key that the next block uses."""
    write(reader.folder, "alpha.header", block)


def answer_of_the_day(reader, head, body):
    """Head and body of an answer of a hub with the orders of the example day, which is served as long as its document is read."""
    if not reader.day:
        folder = reader.new()
        reader.run(DAY, folder)
        reader.day, _ = reader.stack.enter_context(reader.serving(SERVE, folder))
    with socket.create_connection(("127.0.0.1", reader.day), SECONDS) as one, one.makefile("rb") as file:
        one.sendall((head.replace("\n", "\r\n") + "\r\n\r\n" + body).encode())
        answered_head, _, answered = file.read().decode().partition("\r\n\r\n")
    return answered_head.replace("\r\n", "\n"), answered


def exchanged(reader, block, _section):
    """A request to the hub of the example day, and its answer byte for byte, but that a mailbox entry is broken into lines, and that of the
    head perhaps only the first line is there."""
    request, response = block.split("\n\nHTTP/1.1 ")
    (head, _, body), (expected, _, text) = request.partition("\n\n"), f"HTTP/1.1 {response}".partition("\n\n")
    body += "\n" if body else ""
    length = re.search(r"^Content-Length: (\d+)$", head, re.MULTILINE)
    hold(not body or int(length[1]) == len(body), f"the request has {len(body)} bytes")
    answered_head, answered = answer_of_the_day(reader, head, body)
    hold(expected in (answered_head, answered_head.partition("\n")[0]), f"{answered_head!r} is answered")
    hold(answered in (text, text.replace("\n", "")), f"{answered!r} is answered")
    reader.ran += 1


def partly_refused(reader, block, _section):
    """What is answered to a supplier's interchange with a response that the hub has, and a despatch advice of what is not open."""
    text, despatch = (text_of(EXAMPLES, "day", it) for it in ("2-answer-of-a/answer.edi", "4-despatch-of-a/despatch.edi"))
    more = despatch[despatch.index("UNH+") : despatch.index("UNZ+")]
    changes = (("UNH+1", "UNH+2"), ("A-D1", "A-D2"), ("000000029", "000000043"), ("000000012", "000000036"), ("UNT+19+1", "UNT+19+2"))
    for old, new in changes:
        more = more.replace(old, new)
    body = text.replace("UNZ+1", more + "UNZ+2")
    head = f"POST /p/{ALPHA}/interchanges HTTP/1.1\nX-Hub-Key: {KEYS[ALPHA]}\nContent-Length: {len(body)}"
    answered_head, answered = answer_of_the_day(reader, head, body)
    hold(" 200 OK\n" in answered_head and answered == block, f"{answered_head!r}, {answered!r} is answered")


def served(reader, block, _section):
    """The hub of a block is asked, with a wrong key too, and by a client that goes away: what it prints is for the next block."""
    with reader.serving(block) as (port, child):
        reader.served, reader.ran = "listening 8080\n", reader.ran + len(lines_of(block))
        for how in ({}, {"key": "wrong-key"}, {"breaks_off": True}):
            answer(port, "status", **how)
            reader.served += child.stdout.readline()


def printed_before(reader, block, _section):
    hold(reader.served == block, f"{reader.served!r} is printed")


def target(_reader, span):
    """A target of the Makefile, and variables that it has."""
    makefile, (status, printed) = text_of(ROOT, "Makefile"), asked("make", "-n", *span.split()[1:])
    hold(status == 0 and f"\n{span.split()[1]}:" in makefile, f"no such target: {printed:.200}")
    hold(all(f"$({it})" in makefile for it in re.findall(r" (\w+)=", span)), "no such variable")


def script(_reader, span):
    """A program of the tree, or a module of its folders, that can be read, and that has the options."""
    word, path, *more = span.split()
    path = more[0].replace(".", os.sep) + ".py" if path == "-m" else path
    text = text_of(ROOT, path)
    hold(word != "python3" or compile(text, path, "exec"), "")
    hold(word != "sh" or asked("sh", "-n", path)[0] == 0, f"sh cannot read {path}")
    hold(all(it in text for it in re.findall(r"--[a-z-]+", span)), "the program does not have all options")


def helped(reader, span):
    """A command of the program, or each where COMMAND stands for it, and options that its help names."""
    whole = asked(reader.program, "--help")[1]
    if span.split()[1].startswith("--"):
        return hold(all(f"{it}\n" in whole or f"{it} " in whole for it in span.split()[1:]), f"no such option: {whole:.200}")
    every = re.findall(r"^  ([a-z]+) ", whole, re.MULTILINE)
    every.remove("help")
    for word in every if span.split()[1] == "COMMAND" else span.split()[1:2]:
        status, printed = asked(reader.program, word, "--help")
        hold(status == 0 and word in every and all(f"{it} " in printed for it in re.findall(r"--[a-z-]+", span)), f"{word}: {printed:.200}")


def finds(_reader, span):
    """A search of the tree that finds something, and can read all."""
    status, printed = asked("sh", "-c", span)
    hold(status == 0 and printed, f"status {status}, {printed:.200}")


def named(*words):
    """How a command is looked up of which a help has the options, and of `rt` the first word."""

    def trial(_reader, span):
        every = {*words, *re.findall(r"(?<=rt )[a-z-]+|(?<=\|)[a-z]+|(?<![\w-])--?[a-zA-Z][\w-]*", asked(*words)[1])}
        asked_for = {it for k, it in enumerate(span.split()) if it.startswith("-") or (k == 1 and words[0] == "rt")}
        hold(asked_for <= every, f"{' '.join(words)} does not have it")

    return trial


def beside_a_hub(reader, span):
    """A command that is run beside a database file."""
    reader.run(f"cp {OLD_FILE} hub.db\n{span.replace('PID', '$$')}", reader.new())


def of_the_front(reader, span):
    """HAProxy's look at the example, with a certificate of this machine and no user of its own."""
    folder = reader.empty()
    text = front_proxy.instead(text_of(EXAMPLES, "front", "haproxy.cfg"), front_proxy.CERTIFICATE, front_proxy.certificate(folder))
    write(folder, "haproxy.cfg", re.sub(r"^ +(user|group) haproxy\n", "", text, flags=re.MULTILINE))
    reader.run(span, folder)


NO_TRIAL = "apt-get nginx crontab node openssl sudo cat tail find cd rm mv mkdir tar rsync docker pip ./edihub"
# the words with which commands in backticks begin, and how those are looked up; without a trial they are failures where they come
WORDS = {
    **dict.fromkeys(NO_TRIAL.split()),
    **dict.fromkeys(("ls", "chmod", "ps", "cp", "kill", "sqlite3"), beside_a_hub),
    **{"make": target, "edihub": helped, "rt": named("rt", "help"), "curl": named("curl", "--help", "all"), "haproxy": of_the_front},
    **{"grep": finds, "git": finds, "python3": script, "sh": script},
    **dict.fromkeys(("systemctl", "journalctl"), of_the_package),
}


def look_up(reader, span):
    trial = WORDS.get(span.split()[0])
    hold(trial, "no trial")
    if lacks(span) or trial is of_the_front and not front_proxy.is_there():
        reader.not_run.append(span)
    else:
        trial(reader, span)
        reader.looked_up += 1


OLD = {"before": f"cp {OLD_FILE} hub.db", "anew": True}
MAIL = listed((1, "ORDERS", "128576")) + told("taken")
ANSWERED = told("interchange S1 messages 1", "1 ORDRSP accepted", line_status("128576", "C", 48, 36, 12, 0, 0), "end")
BOTH_LINES = [line_status("128576", "W", 48, 48, 0, 0, 0), line_status("128576", "W", 24, 24, 0, 0, 0, 2, "04000862141411")]
UPLOADED = told("interchange 1001 messages 2", "1 ORDERS accepted", "2 ORDERS accepted", *BOTH_LINES, "end", "accepted")
IMPORTED = told("file 0.edi", "interchange 1001 messages 1", "1 ORDERS accepted", "file 1.edi", "interchange S1 messages 1")
IMPORTED += told("1 ORDRSP accepted", "file 2.edi", "interchange S2 messages 1", "1 DESADV accepted") + MAIL + BEFORE * 2 + told("accepted")
TWO, HUBS = "ok 2 suppliers", "ok 3 hubs, 10 suppliers"
# files that were imported before
FED = [told(f"interchange S{k} messages 1", f"1 {kind} repeated") for k, kind in ((1, "ORDRSP"), (2, "DESADV"))]
FED = {f"in/alpha/done/{k}.edi.reply": reply for k, reply in enumerate(FED, 1)}
# whose key is in which file
KEPT = {"retail": RETAILER, "alpha": ALPHA}
PICTURE, NGINX = "a picture", "a configuration of nginx"
# lines of a journal, and those of them that a search finds
TIMED_OUT = f"2026-11-28T18:30:13Z 19 POST /p/{ALPHA}/interchanges timeout"
REFUSED = f"2026-11-27T09:01:44Z 4 POST /p/{ALPHA}/interchanges 200 interchange A1 messages 1; 1 ORDRSP refused B02"
LISTED = f"2026-11-27T09:01:45Z 5 GET /p/{ALPHA}/mail/after/400 200"
JOURNAL = {"before": f"printf '%s\\n' '{REFUSED}' '{LISTED}' '{TIMED_OUT}' > journal", "instead": {"/var/lib/edihub/journal": "journal"}}
# of each document with blocks, how each begins, and how it is tried; or what it is, where it has no command
BLOCKS = {
    "README.md": {"UNH+1": "an order", "UNA:+.? 'UNB": "its mail", "make try": looked_up},
    "docs/ARCHITECTURE.md": {"doors ": PICTURE},
    "docs/CONTRIBUTING.md": {"grep -rn 'MailboxFull'": looked_up},
    "docs/FORMATS.md": {"UNA:": "the form of mail", "service component": shown_lines},
    "docs/INSTALL.md": {
        "make edihub": looked_up,
        "apt-get update": each_of_the_package,
        "cp /usr/share": Run(instead={"/usr/share/doc/edihub/": ""}, says=(TWO,)),
        "install -o edihub -m 600": each_of_the_package,
        "install -d -o edihub": each_of_the_package,
        "install -m 600 /dev/null": each_of_the_package,
        "sed -e": made_for_the_front,
        "curl https": each_of_the_package,
        "systemctl start edihub-backup.service": each_of_the_package,
        "apt-get install --allow-downgrades": each_of_the_package,
        "systemctl show": each_of_the_package,
    },
    "docs/OPERATING.md": {
        "install -d -m 755": each_of_the_package,
        "python3 add_supplier.py": in_examples("front"),
        "join: accepted": "what the script prints",
        "edihub check": Run(prints=told(TWO, TWO), says=(TWO,)),
        "cp -p hub.db": Run(**OLD, prints=told(TWO, TWO), says=(TWO,), leaves={"hub.db.before": text_of(OLD_FILE)}),
        "umask 077\ncat": Run(instead={f"cat > {it}.key": f"echo {KEYS[gln]} > {it}.key" for it, gln in KEPT.items()}),
        "umask 077\nhead -c 18 /dev/urandom | base64 > gamma.key": Run(prints=told("accepted"), says=("accepted",)),
        "umask 077\nhead -c 18 /dev/urandom | base64 > alpha-new.key": Run(FOUND, True, prints=told("ok"), says=("ok",)),
        "edihub import": Run(prints=IMPORTED, leaves={"order.edi": FIRST_MAIL.partition("+250603")[0]}),
        "grep '^2026": Run(**JOURNAL, prints=told(REFUSED)),
        "grep -E '^[^ ]+": Run(**JOURNAL, prints=told(TIMED_OUT)),
        "python3 feed.py": Run(served=True, prints=told("done 1.edi", "done 2.edi"), says=("done 1.edi",), leaves=FED),
        "python3 apart.py": Run(prints=told(HUBS), says=(HUBS,)),
        "sh backup.sh PID": Run("mkdir new", served=True, instead={"/var/backups/edihub": "new"}, then="mv PRINTED copy"),
        "edihub status --db copy": Run(prints=STATUS + told("ok")),
        "sqlite3 hub.db 'PRAGMA": Run(prints=told("ok", "128576|1|48|14|C")),
    },
    "docs/PAGE.md": {"root /srv": NGINX, "GLN;Name": "a list of suppliers", "location = /suppliers.csv": NGINX},
    "docs/PROMISES.md": {
        "pub fn step": quoted("crates", "hub_core", "src", "hub.rt"),
        "pub record Stepped": quoted("crates", "hub_core", "specs", "Steps.antt"),
        "ghost content": quoted("crates", "hub_store", "src", "store.rt"),
        "fn pallet": quoted("crates", "hub_store", "src", "store.rt"),
    },
    "docs/REGISTER.md": {"hub = ": a_register, "edihub check": Run(prints=told(TWO))},
    "docs/SERVING.md": {
        "edihub init": served,
        "listening 8080": printed_before,
        "2026-11-28T": "a journal",
        "[Service]\nExecStart=": "a drop-in for systemd",
        "/var/lib/edihub/journal {": "a configuration of logrotate",
        "server {": NGINX,
    },
    "docs/SUPPLIER.md": {
        "X-Hub-Key: ": a_header,
        f"HUB=http://127.0.0.1:8080/p/{ALPHA}": Run(ORDERED, served=True, prints=MAIL + ANSWERED, leaves={"order.edi": FIRST_MAIL}),
        f"HUB=http://127.0.0.1:8080/p/{RETAILER}": Run(FOUND_WITH_HEADER, True, True, prints=UPLOADED),
        f"GET /p/{ALPHA}/mail/after/0": exchanged,
        f"GET /p/{ALPHA}/mail/item/1": exchanged,
        f"POST /p/{ALPHA}/interchanges HTTP/1.1\nContent-Length: 297": exchanged,
        f"POST /p/{ALPHA}/interchanges HTTP/1.1\nContent-Length: 398": exchanged,
        f"GET /p/{ALPHA}/status": exchanged,
        "interchange A1": partly_refused,
    },
    "docs/TESTING.md": {"file: src/answers.rt": "an edit"},
}


def none(*_):
    raise Wrong("a block without a line of the table, or a line without a block")


def trials_of(document):
    """How each block and each command in backticks of a document is tried."""
    blocks, spans = read(document)
    lines = BLOCKS.get(document, {})
    begun = {it: [text for text, _ in blocks if text.lstrip().startswith(it)] for it in lines}
    for text, section in blocks:
        trial = next((lines[it] for it, its in begun.items() if its == [text]), none)
        if callable(trial):
            yield text, trial, (text, section)
    yield from ((it, none, ()) for it, its in begun.items() if len(its) != 1)
    yield from ((span, look_up, (span,)) for span in spans)


def tried(document, program):
    """What is wrong with the commands of a document; and its reader, who has counted them."""
    with ExitStack() as stack:
        reader, wrong = Reader(program, stack), []
        for name, trial, about in trials_of(document):
            try:
                trial(reader, *about)
            except (Wrong, OSError, ValueError, SyntaxError, subprocess.SubprocessError) as why:
                wrong.append(f"{document}: {name.splitlines()[0]}: {why}")
        return wrong, reader


def documents():
    return ["README.md", "CHANGELOG.md", *sorted(os.path.relpath(it, ROOT) for it in glob(os.path.join(ROOT, "docs", "*.md")))]


def each_command(program):
    """What is wrong with a command of a document, if anything."""
    names = documents()
    with ThreadPoolExecutor() as pool:
        found = list(pool.map(lambda it: tried(it, program), names))
    counts = [sum(getattr(reader, it) for _, reader in found) for it in ("ran", "looked_up")]
    print("of the documents {} commands were run and {} looked up".format(*counts))
    not_run = [it for _, reader in found for it in reader.not_run]
    if not_run:
        print("not run, since a program is not here:", "; ".join(not_run))
    return "\n".join([it for wrong, _ in found for it in wrong] + [f"no document {it}" for it in BLOCKS if it not in names])


def page_of(text):
    """The block of an nginx configuration that serves the page, without its indentation."""
    block = re.search(r"^( *)location / \{\n(?=\1 +set \$policy)(.*?)^\1\}", text, re.MULTILINE | re.DOTALL)
    return textwrap.dedent(block[2])


def page_is_served_alike(_program):
    """What is wrong where PAGE and the whole front serve the page in different ways, if anything."""
    told_by, used = (page_of(text_of(*it)) for it in ((ROOT, "docs", "PAGE.md"), (EXAMPLES, "front", "nginx.conf")))
    return "" if told_by == used else f"PAGE.md has\n{told_by}and examples/front/nginx.conf\n{used}"


def anchors(document):
    """The anchors of a document: those that it names, and one for each heading, as GitHub makes them of its words."""
    with open(os.path.join(ROOT, document), encoding="utf-8") as file:
        text = file.read()
    headings = re.findall(r"^#+ (.+)$", BLOCK.sub("", text), re.MULTILINE)
    slugs = {re.sub(r"[^\w -]", "", it.lower()).replace(" ", "-") for it in headings}
    return slugs | set(re.findall(r'<a id="([^"]+)">', text))


def links_lead_somewhere(_program):
    """What is wrong with a link of a document to a file of the tree or a section of a document, if anything."""
    wrong = []
    for document in documents():
        with open(os.path.join(ROOT, document), encoding="utf-8") as file:
            links = re.findall(r"\]\(([^)\s]+)\)", BLOCK.sub("", file.read()))
        for link in sorted({it for it in links if not it.startswith("https:")}):
            path, _, anchor = link.partition("#")
            target = os.path.normpath(os.path.join(os.path.dirname(document), path)) if path else document
            if not os.path.exists(os.path.join(ROOT, target)) or anchor and anchor not in anchors(target):
                wrong.append(f"{document} links to {link}")
    return "\n".join(wrong)


TRIALS = [
    ("each command of the documents", each_command),
    ("each link of the documents", links_lead_somewhere),
    ("the page as documented and as in the front", page_is_served_alike),
]
