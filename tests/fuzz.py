"""`make fuzz SEED=1 NUMBER=100000`: gives the built program valid inputs in which bytes, segments and messages were then changed.

Interchanges go to `import`, `serve`, `show` and `relay`, registers to `check`, suppliers to `join`; and there are command lines.
Each answer has a form that docs/FORMATS.md names; no program ends by a signal, takes a second of processor time for a small input,
or more memory than its bound; the rows of the file grow by what was accepted and by nothing else: the accepted inputs alone make
the same file, by import and over HTTP.
What finds something is left in a folder, whose name is printed. The last line is `N tried, M found`.

    python3 -m tests.fuzz crates/edihub/out/edihub [SEED [NUMBER]]"""
import os
import random
import re
import shutil
import sqlite3
import subprocess
import sys
import tempfile
import time
from concurrent.futures import ThreadPoolExecutor

from tests.cases import registers
from tests.harness import register_texts
from tests.harness.database_files import NAME
from tests.harness.first_order import ORDERS
from tests.harness.http_texts import PHRASES, asking, response
from tests.harness.hub_scripts import SECOND, SPELLED
from tests.harness.hub_steps import MOMENT, found as found_hub, over
from tests.harness.random_inputs import NUMBERS, counted, upload_of
from tests.harness.register_texts import ALPHA, BETA, HUB, RETAILER
from tests.harness.servers import Server, exit_of, limit, lines_of

BATCH = 120
# bytes of address space: a program that asks for more is refused it. The program by itself has the first, with an open store the
# second and so many times the bytes of its file, which are read and written; to either, so many times its largest input: each empty element
# of a text is a list by itself, so that a text of nothing but separators takes tens of bytes for each of its own
ROOM, ROOM_OF_STORE, FILES, TEXTS = 6 << 20, 14 << 20, 2, 40
# times that a file keeps an accepted text: to know it again, and as mail
KEPT = 2
# how long a command may take by the clock, beside other work, and how much processor time a command or a server may take, of small inputs
# and for each megabyte of its inputs
SECONDS, PROCESSOR_SECONDS, OF_MEGABYTE = 60, 1, 2
# lines that report that memory ran out or the store failed: with enough memory and a working disk neither may come
STOPPED, NO_MEMORY = re.compile(rb"^stopped$", re.MULTILINE), re.compile(rb"^(store )?memory$", re.MULTILINE)
TABLES = ("order", "line", "advice", "pallet", "content", "receipt", "remembered", "mail", "hub", "supplier", "prefix")
# what any of the hub's replies to an upload is
LINE = re.compile(rb"[ -~]{1,14} [ -~]{1,6} (accepted|repeated|refused [BM]\d\d)")
HEAD = re.compile(rb"interchange ([ -~]{1,14}) messages (\d{1,3})")
SHOWN = re.compile(rb" *[a-z]+( .*)?", re.DOTALL)
CHECKED = re.compile(rb"ok \d{1,4} suppliers|text|many|gln|prefix|key|twice|overlap \d{1,4} \d{1,4}")
MARKS = "'+:?*|,!~.- \r\n"


def changed_bytes(draw, data):
    data = bytearray(data)
    for _ in range(draw.choice((1, 1, 1, 2, 5))):
        at = draw.randrange(len(data) + 1)
        what = draw.randrange(6)
        if what == 0:
            data[at:at] = bytes([draw.choice((draw.randrange(256), ord(draw.choice(MARKS))))])
        elif what == 1:
            del data[at : at + draw.choice((1, 1, 2, 7))]
        elif what == 2 and at < len(data):
            data[at] = draw.choice((draw.randrange(256), ord(draw.choice(MARKS)), 48 + draw.randrange(10)))
        elif what == 3:
            end = at + draw.randrange(40)
            data[at:at] = data[at:end]
        elif what == 4:
            digits = [place for place, byte in enumerate(data) if 48 <= byte < 58]
            if digits:
                data[draw.choice(digits)] = 48 + draw.randrange(10)
        else:
            del data[at + draw.randrange(300) :]
    return bytes(data)


# what is put in the place of an element, of a component, and of a segment
ELEMENTS = ("", "0", "1", "999999999", "1000000000", "12,000", "S", "9:9", "x" * 36, "?", ":::", "+")
COMPONENTS = ("", "203", "20250229", "202506030915", "9", "SRV", "PCE", "0001", "14")
SEGMENTS = (
    "UNS+S",
    "CNT+2:1",
    "LIN+1++4000862141404:SRV",
    "QTY+21:5",
    "FTX+AAI+++free ?' text",
    "UNG+1",
    "",
    "RFF+ON:1:1",
    "\r\nDTM+137:20250603:102",
)


def with_another(draw, text, separator, others):
    """The text with one of its parts replaced by one of the others."""
    parts = text.split(separator)
    parts[draw.randrange(len(parts))] = draw.choice(others)
    return separator.join(parts)


def changed_segments(draw, text):
    """The segments of a text in the usual characters, some dropped, doubled, exchanged, or with other elements."""
    parts = text.split("'")
    for _ in range(draw.choice((1, 1, 2, 3))):
        at, other = draw.randrange(len(parts)), draw.randrange(len(parts))
        what = draw.randrange(6)
        if what == 0:
            del parts[at]
        elif what == 1:
            parts.insert(at, parts[other])
        elif what == 2:
            parts[at], parts[other] = parts[other], parts[at]
        elif what == 3:
            parts[at] = with_another(draw, parts[at], "+", ELEMENTS)
        elif what == 4:
            parts[at] = with_another(draw, parts[at], ":", COMPONENTS)
        else:
            parts[at] = draw.choice(SEGMENTS)
        parts = parts or [""]
    text = "'".join(parts)
    return counted(text) if draw.random() < 0.7 else text


def an_upload(draw):
    """Returns an uploader and bytes, most of them not a valid interchange."""
    who, text = upload_of(draw)
    if draw.random() < 0.1:
        who, text = RETAILER, draw.choice((ORDERS, SECOND, SPELLED))
    if draw.random() < 0.1:
        who = draw.choice((ALPHA, BETA, RETAILER))
    one = draw.random()
    if one < 0.3:
        return who, text.encode("latin-1")
    if one < 0.7:
        return who, changed_segments(draw, text).encode("latin-1")
    return who, changed_bytes(draw, text.encode("latin-1"))


def is_utf8(data):
    try:
        data.decode()
    except UnicodeDecodeError:
        return False
    return True


def largest_of(texts):
    """The bytes that are allowed for the largest of these inputs."""
    return TEXTS * max(map(len, texts))


def size_at(folder):
    """The bytes of the database file in a folder, if there is one."""
    path = os.path.join(folder, NAME)
    return os.path.getsize(path) if os.path.isfile(path) else 0


def room_of_store(size, texts):
    """The bytes that are allowed for an open store over a file that is this large at first and keeps these inputs."""
    return ROOM_OF_STORE + FILES * (size + KEPT * sum(map(len, texts)))


def time_of(texts):
    """The seconds of processor time that are allowed for all of these inputs."""
    return PROCESSOR_SECONDS + (OF_MEGABYTE * sum(map(len, texts)) >> 20)


def some_prefixes(draw):
    """Prefixes of few digits, so that some begin others; now and then such as no supplier can have."""
    made = ["".join(draw.choice("01") for _ in range(draw.choice((4, 5, 6, 7, 8, 12)))) for _ in range(draw.choice((1, 1, 2, 3, 8)))]
    if draw.randrange(6):
        made = list(dict.fromkeys(made))
    if draw.randrange(12) == 0:
        made = draw.choice(([], made * 2, made + ["012"], made + ["0123456789012"], made + ["01234x"], [f"2{it:04}" for it in range(9)]))
    return made


class Found(Exception):
    """Something is wrong with these bytes."""


class Fuzz:
    def __init__(self, program, folder):
        self.program, self.folder = os.path.abspath(program), folder

    def ran(self, words, cwd, data=b"", texts=()):
        """What a command prints: its status, and its output and error. The texts are files that it reads."""
        room = (room_of_store(size_at(cwd), texts) if "--db" in words else ROOM) + largest_of([data, *texts])
        limits = lambda: limit(room, time_of([data, *texts]))
        try:
            ran = subprocess.run([self.program, *words], input=data, capture_output=True, cwd=cwd, timeout=SECONDS, preexec_fn=limits)
        except subprocess.TimeoutExpired as late:
            raise Found("no end", words) from late
        if ran.returncode not in (0, 1, 2, 3):
            raise Found(f"ended with {ran.returncode}", words, data, ran.stderr)
        if STOPPED.search(ran.stdout) and "--db" in words or NO_MEMORY.search(ran.stderr):
            raise Found("stopped with ample memory", words, data, ran.stdout, ran.stderr)
        return ran.returncode, ran.stdout, ran.stderr

    # interchanges by folders

    def replies(self, printed):
        """The reply to each file, by its name."""
        found, lines = {}, printed.split(b"\n")
        if lines.pop():
            raise Found("no line end", printed)
        for line in lines:
            if line.startswith(b"file "):
                found[line[5:].decode()] = []
            else:
                found[list(found)[-1]].append(line)
        return found

    def judge_reply(self, lines):
        """Whether something is refused, and how much was accepted, where a reply has one of its forms."""
        if lines and (head := HEAD.fullmatch(lines[0])):
            told = [LINE.fullmatch(line) for line in lines[1:]]
            if None in told or len(told) != int(head[2]):
                raise Found("no reply", lines)
            words = [it[1] for it in told]
            return any(it.startswith(b"refused") for it in words), words.count(b"accepted")
        if len(lines) != 1 or not re.fullmatch(rb"refused E\d\d|denied", lines[0]):
            raise Found("no reply", lines)
        return True, 0

    def rows(self, folder):
        base = sqlite3.connect(os.path.join(folder, NAME))
        if base.execute("PRAGMA integrity_check").fetchall() != [("ok",)]:
            raise Found("the file is not whole", folder)
        found = {table: sorted(base.execute(f'SELECT * FROM "{table}"').fetchall()) for table in TABLES}
        unbalanced = base.execute(
            'SELECT * FROM line AS l WHERE ordered != open_qty + refused + cancelled + '
            '(SELECT COALESCE(SUM(quantity), 0) FROM content AS c JOIN pallet AS p USING (sscc) '
            'WHERE p.supplier = l.supplier AND c.number = l.number AND c.line = l.line)'
        ).fetchall()
        base.close()
        if unbalanced:
            raise Found("a line does not balance", unbalanced)
        return found

    def imported(self, folder, turns):
        """The uploads of each turn, imported; those of which something was accepted."""
        kept, accepted = [], 0
        for place, (who, texts) in enumerate(turns):
            files = os.path.join(folder, f"in{place}")
            os.mkdir(files)
            for name, text in texts.items():
                with open(os.path.join(files, name), "wb") as file:
                    file.write(text)
            status, printed, error = self.ran(over("import", who, "--folder", files), folder, texts=texts.values())
            replies = self.replies(printed)
            if list(replies) != sorted(texts) or error:
                raise Found("not each file has a reply", printed, error)
            judged = {name: self.judge_reply(lines) for name, lines in replies.items()}
            if status != any(refused for refused, _ in judged.values()):
                raise Found(f"status {status}", printed)
            accepted += sum(count for _, count in judged.values())
            kept.append((who, {name: texts[name] for name, (_, count) in judged.items() if count}))
        return kept, accepted

    def interchanges(self, draw):
        """Uploads in turn; and the accepted of them alone make the same rows."""
        turns = []
        for _ in range(6):
            texts = {}
            who = draw.choice((RETAILER, RETAILER, ALPHA, BETA))
            for k in range(BATCH // 6):
                caller, text = an_upload(draw)
                while caller != who:
                    caller, text = an_upload(draw)
                texts[f"{k:03}.edi"] = text
            turns.append((who, texts))
        with tempfile.TemporaryDirectory() as top:
            found = []
            for name in ("all", "accepted"):
                folder = os.path.join(top, name)
                os.mkdir(folder)
                found_hub(self.program, folder)
                turns, accepted = self.imported(folder, turns)
                found.append(self.rows(folder))
                if len(found[-1]["remembered"]) != accepted:
                    raise Found(f"{accepted} accepted, and {len(found[-1]['remembered'])} rows", turns)
            if found[0] != found[1]:
                wrong = [table for table in TABLES if found[0][table] != found[1][table]]
                raise Found(f"the accepted alone make other rows of {wrong}", turns)
        return BATCH

    # the same over HTTP

    def request(self, draw):
        who, text = an_upload(draw)
        one = draw.random()
        if one < 0.5:
            data = asking("POST", f"/p/{who}/interchanges", who, text)
        elif one < 0.7:
            quantity = draw.choice((*range(12), 999_999_999))
            lines = [draw.choice((ALPHA, BETA, "x")), f"C{draw.randrange(4)}", draw.choice(NUMBERS), "1", str(quantity)]
            data = asking("POST", f"/p/{RETAILER}/cancellations", RETAILER, "\n".join(lines).encode() + b"\n")
        else:
            path = draw.choice(
                (
                    f"/p/{who}/mail/after/{draw.randrange(3)}",
                    f"/p/{who}/mail/item/{draw.randrange(3)}",
                    f"/p/{who}/mail/item/1/taken",
                    f"/p/{who}/status",
                    f"/p/{RETAILER}/status/{who}",
                )
            )
            data = asking(draw.choice(("GET", "GET", "POST")), path, draw.choice((who, RETAILER)), draw.choice((None, b"")))
        return data if draw.random() < 0.3 else changed_bytes(draw, data)

    def judge_response(self, data, answer):
        _, _, body = answer.partition(b"\r\n\r\n")
        found = re.match(rb"HTTP/1\.1 (\d{3}) ", answer)
        if not found or int(found[1]) not in PHRASES or answer != response(int(found[1]), body):
            raise Found("no response", data, answer)
        if int(found[1]) == 503:
            raise Found("stopped with ample memory", data, answer)
        return int(found[1])

    def served(self, requests):
        """What is answered to each request, one connection after another, and the rows that there are then."""
        room, seconds = room_of_store(0, requests) + largest_of(requests), time_of(requests)
        with Server(self.program, len(requests), room=room, seconds=seconds) as server:
            answers = []
            for data in requests:
                begun = time.monotonic()
                try:
                    answers.append(server.ask(data))
                except OSError as why:
                    raise Found(f"no answer: {why}", data) from why
                if time.monotonic() - begun > SECONDS / 4:
                    raise Found("took too long", data)
            statuses = [self.judge_response(data, answer) for data, answer in zip(requests, answers)]
            status, printed, error = server.end()
            if printed != lines_of(server.port, statuses) or error or status != exit_of(statuses):
                raise Found(f"serve ends with {status}", printed, statuses, error)
            return answers, self.rows(server.folder)

    def requests(self, draw):
        """Requests in turn; and those alone of which something was accepted or taken make the same rows."""
        requests = [self.request(draw) for _ in range(BATCH)]
        answers, rows = self.served(requests)
        changing = [data for data, answer in zip(requests, answers) if re.search(rb"\r\n\r\n(.*\n)*(\d+ .* )?(accepted|taken)\n", answer)]
        if changing and self.served(changing)[1] != rows:
            raise Found("the accepted alone make other rows", requests)
        return len(requests)

    # what needs no hub

    def shown(self, draw):
        """`show` and `relay` of one text."""
        _, text = an_upload(draw)
        status, printed, error = self.ran(["show"], self.folder, text)
        lines = printed.split(b"\n")
        if status > 1 or error or lines.pop() or not lines or not all(SHOWN.fullmatch(line) for line in lines):
            raise Found(f"show ends with {status}", text, printed, error)
        words = ["relay", "--hub", HUB, "--owner", ALPHA, "--moment", MOMENT, "--number", "1"]
        told, (status, printed, error) = printed, self.ran(words, self.folder, text)
        if status == 0 and not error:
            # a mailbox interchange for each message that `show` shows, and no other behind them
            count = told.count(b"\nmessage ")
            ends = [b"UNZ+1+%d'" % number for number in range(1, count + 1)]
            if (
                not all(it in printed for it in ends)
                or not printed.endswith(ends[-1] if ends else b"")
                or bool(ends) != printed.startswith(b"UNA:+")
            ):
                raise Found("relay writes no mail", text, printed)
            return 2
        if status != 1 or printed or not re.fullmatch(rb"refused E\d\d\n", error):
            raise Found(f"relay ends with {status}", text, printed, error)
        return 2

    def register(self, draw):
        name, text, _ = draw.choice([it for it in registers.REGISTERS if len(it[1]) < 2000])
        data = changed_bytes(draw, text.encode() if isinstance(text, str) else text)
        path = os.path.join(self.folder, f"register{draw.random()}")
        with open(path, "wb") as file:
            file.write(data)
        status, printed, error = self.ran(["check", "--register", path], self.folder, texts=[data])
        os.remove(path)
        if not is_utf8(data):
            if (status, printed, error) != (3, b"", b"file\n"):
                raise Found(f"check ends with {status}", data, printed, error)
            return 1
        told = printed[:-1].removeprefix(b"fault ")
        if status > 1 or error or not CHECKED.fullmatch(told) or (status == 0) != printed.startswith(b"ok "):
            raise Found(f"check ends with {status}", data, printed, error)
        return 1

    def prefixes(self, draw):
        """Suppliers with lists of prefixes."""
        suppliers = [some_prefixes(draw) for _ in range(draw.randrange(5))]
        text = register_texts.of_prefixes(*suppliers).encode()
        path = os.path.join(self.folder, f"register{draw.random()}")
        with open(path, "wb") as file:
            file.write(text)
        answer = self.ran(["check", "--register", path], self.folder, texts=[text])
        os.remove(path)
        want = register_texts.verdict_on_prefixes(suppliers)
        if answer != (0 if want.startswith("ok") else 1, want.encode() + b"\n", b""):
            raise Found(f"check does not say {want}", text, *answer[1:])
        return 1

    def joins(self, draw):
        """A hub, and suppliers that join it one after another. What each is answered is computed beside, and so are the rows that there are
        then."""
        rows, joins = {}, 5
        for number in range(draw.randrange(4)):
            prefixes = some_prefixes(draw)
            if register_texts.are_prefixes_of_one(prefixes) and not any(register_texts.overlap(prefixes, its) for its in rows.values()):
                rows[register_texts.gln(number)] = prefixes
        with tempfile.TemporaryDirectory() as folder:
            found_hub(self.program, folder, register_texts.register(*((who, its, f"key-of-{who}") for who, its in rows.items())))
            for _ in range(joins):
                who, prefixes = draw.choice((HUB, RETAILER, *map(register_texts.gln, range(8)))), some_prefixes(draw)
                words = over("join", RETAILER, "--supplier", who, "--supplier-key", f"key-of-{who}", "--prefixes", ",".join(prefixes))
                status, printed, error = self.ran(words, folder)
                if not register_texts.are_prefixes_of_one(prefixes):
                    want = (2, b"")
                elif who in (HUB, RETAILER, *rows):
                    want = (1, b"refused B18\n")
                elif any(register_texts.overlap(prefixes, its) for its in rows.values()):
                    want = (1, b"refused B19\n")
                else:
                    want, rows[who] = (0, b"accepted\n"), prefixes
                if (status, printed) != want or bool(error) != (status == 2):
                    raise Found(f"join does not end with {want}", words, rows, status, printed, error)
            found = self.rows(folder)
            keys, held = sorted((who.encode(), f"key-of-{who}".encode()) for who in rows), sorted(
                (it.encode(), who.encode()) for who, its in rows.items() for it in its
            )
            if found["supplier"] != keys or found["prefix"] != held:
                raise Found("other suppliers are in the file", rows, found["supplier"], found["prefix"])
        return joins

    def words(self, draw):
        """Words with one dropped, doubled, exchanged or changed: no input is there, so nothing is done."""
        made = draw.choice((
            ["relay", "--hub", HUB, "--owner", ALPHA, "--moment", MOMENT, "--number", "1"], ["show"], ["check", "--register", "none"],
            over("import", RETAILER, "--folder", "none"), over("status", ALPHA), over("status", RETAILER, "--of", ALPHA), over(
                "mail", ALPHA, "--do", "after", "--n", "0"
            ),
            over("cancel", RETAILER, "--supplier", ALPHA, "--reference", "C1", "--order", "1", "--line", "1", "--quantity", "1"),
            over("join", RETAILER, "--supplier", register_texts.GAMMA, "--supplier-key", "gamma-key-1", "--prefixes", "7612345,7612346"), [
                "init", "--register", "none", "--db", NAME
            ],
            ["serve", "--db", NAME, "--port", "0", "--count", "0"],
        ))
        words = list(made)
        for _ in range(draw.choice((1, 2))):
            at = draw.randrange(len(words))
            what = draw.randrange(4)
            if what == 0:
                del words[at]
            elif what == 1:
                words.insert(at, draw.choice(words))
            elif what == 2:
                words[at] = draw.choice(
                    ("", "-", "--", "--help", "-1", "0", "99999999999999999999", "1" * 13, "x", "--n", "import", "é", words[at] + "0")
                )
            else:
                other = draw.randrange(len(words))
                words[at], words[other] = words[other], words[at]
            words = words or ["show"]
        status, printed, error = self.ran(words, self.folder)
        if status in (0, 1) and "--help" not in words and "show" not in words and words[:1] != ["serve"] and words[:1] != ["relay"]:
            raise Found(f"ends with {status}", words, printed, error)
        if status in (2, 3) and (printed or not error):
            raise Found(f"ends with {status}", words, printed, error)
        return 1

    def batch(self, seed):
        """How many inputs were tried of this seed, and what was found."""
        draw = random.Random(seed)
        if seed % 8 < 5:
            some = [self.interchanges]
        elif seed % 8 == 5:
            some = [self.requests]
        else:
            some = [draw.choice((self.shown, self.shown, self.register, self.prefixes, self.joins, self.words)) for _ in range(BATCH)]
        tried, found = 0, []
        for one in some:
            try:
                tried += one(draw)
            except Found as why:
                tried += 1
                found.append((seed, one.__name__, why.args))
        return tried, found


def main(program, seed=1, number=100_000):
    tried, found = 0, []
    folder = tempfile.mkdtemp(prefix="fuzz-")
    fuzz = Fuzz(program, folder)
    with ThreadPoolExecutor(len(os.sched_getaffinity(0))) as pool:
        at = int(seed) * 1_000_000
        while tried < int(number):
            for count, wrong in pool.map(fuzz.batch, range(at, at + 64)):
                tried += count
                found += wrong
            at += 64
            print(f"{tried} tried, {len(found)} found", file=sys.stderr, flush=True)
    for place, (batch, name, what) in enumerate(found):
        with open(os.path.join(folder, f"found{place}"), "w", encoding="utf-8") as file:
            print(batch, name, *what, sep="\n", file=file)
        print(f"seed {batch}, {name}: {' '.join(map(repr, what))[:400]}")
    print(f"in {folder}" if found else "none", end=": ")
    if not found:
        shutil.rmtree(folder)
    print(f"{tried} tried, {len(found)} found")
    return 1 if found else 0


if __name__ == "__main__":
    sys.exit(main(*sys.argv[1:]))
