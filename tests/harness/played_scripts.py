"""Plays a script of `trial_script` on the built `edihub`, whose hub is in a file: requests over HTTP; joins, and uploads that are longer
than HTTP takes, by commands, between which the program is begun anew."""
import os
import re
import subprocess
import tempfile
from concurrent.futures import ThreadPoolExecutor

from tests.harness.case import SECONDS
from tests.harness.database_files import NAME, is_whole
from tests.harness.hub_steps import found, over
from tests.harness.servers import Server, exit_of, lines_of

# the words of a script for the statuses of HTTP
OUTCOMES = {200: "done", 400: "bad", 403: "denied", 404: "unknown", 503: "stopped"}
# the exit status of a command by the last line that it prints, where that is one of these
STATUSES = {"denied": 1, "unknown": 1, "stopped": 3}
# the method and the path of each request, after its caller's, by the word of its line
REQUESTS = {
    "upload": "POST interchanges",
    "cancel": "POST cancellations",
    "after": "GET mail/after/{}",
    "item": "GET mail/item/{}",
    "taken": "POST mail/item/{}/taken",
    "status": "GET status",
    "status-of": "GET status/{}",
}
# the words that change no reply: what a file holds is there when it is opened again, a run is its requests, and look-ups are not counted
PASSED_OVER = ("mend", "run", "end", "counts")
# the longest body that HTTP takes, in bytes
LONGEST = 1 << 20


def is_played(script):
    """Whether a script has one hub, whose store does not fail, and only lines that are played on a file."""
    lines = [words for words, _ in script_lines(script)]
    known = {"hub", "as", "join", *REQUESTS, *PASSED_OVER}
    return [len(words) for words in lines if words[0] == "hub"] == [2] and all(words[0] in known for words in lines)


def script_lines(script):
    """The words of each line, and the bytes behind it, if it names their number."""
    while script:
        line, _, script = script.partition(b"\n")
        words, payload = line.decode("latin-1").split(" "), None
        if words[0] in ("hub", "upload", "cancel"):
            count = int(words[1])
            payload, script = script[:count], script[count + 1 :]
        yield words, payload


def replies_of(printed):
    """The replies that a script prints, each with its outcome and its body."""
    replies = []
    while printed:
        line, _, printed = printed.partition(b"\n")
        if line.startswith(b"look-ups "):
            continue
        reply = re.fullmatch(r"(\w+)(?: refused)? (\d+)", line.decode("latin-1"))
        if not reply:
            raise OSError(f"no reply: {line!r:.200}")
        outcome, length = reply[1], int(reply[2])
        replies.append((outcome, printed[:length]))
        printed = printed[length:]
    return replies


class Player:
    """A hub in a folder, its caller and the moment, the requests that are not made yet, and the replies so far."""

    def __init__(self, program, folder):
        self.program, self.folder = program, folder
        self.moment, self.caller, self.key = None, None, None
        self.waiting, self.replies = [], []

    def play(self, script):
        """Plays a script, and returns the replies."""
        for words, payload in script_lines(script):
            self.obey(words, payload)
        self.ask()
        return self.replies

    def obey(self, words, payload):
        word = words[0]
        if word == "hub":
            self.ask()
            if not os.path.exists(os.path.join(self.folder, NAME)):
                found(self.program, self.folder, payload.decode())
        elif word == "as":
            if words[1] != self.moment:
                self.ask()
            _, self.moment, self.caller, self.key = words
        elif word == "join":
            self.command("join", "--supplier", words[1], "--supplier-key", words[2], "--prefixes", words[3])
        elif word == "upload" and len(payload) > LONGEST:
            self.imported(payload)
        elif word in REQUESTS:
            method, path = REQUESTS[word].format(*words[1:2]).split(" ")
            head = f"{method} /p/{self.caller}/{path} HTTP/1.1\r\nX-Hub-Key: {self.key}\r\nContent-Length: {len(payload or b'')}\r\n\r\n"
            self.waiting.append(head.encode("latin-1") + (payload or b""))
        elif word not in PASSED_OVER:
            raise OSError(f"{word} is not played on a file")

    def ask(self):
        """Makes the requests that wait."""
        waiting, self.waiting = self.waiting, []
        if not waiting:
            return
        server, statuses = Server(self.program, len(waiting), self.moment, folder=self.folder), []
        try:
            for request in waiting:
                answer = server.ask(request)
                head = re.match(rb"HTTP/1\.1 (\d+) .*?\r\n\r\n", answer, re.DOTALL)
                if not head:
                    raise OSError(f"no answer: {answer!r:.200}")
                statuses.append(int(head[1]))
                self.replies.append((OUTCOMES.get(statuses[-1], str(statuses[-1])), answer[head.end() :]))
            ended, wanted = server.end(), (exit_of(statuses), lines_of(server.port, statuses), b"")
            if ended != wanted:
                raise OSError(f"serve: {ended!r:.300}, not {wanted!r:.300}")
        finally:
            server.child.kill()
            server.child.communicate()

    def command(self, *words):
        """Gives a command, whose reply is what it prints."""
        self.ask()
        asked = over(words[0], self.caller, *words[1:], key=self.key, moment=self.moment)
        ran = subprocess.run([self.program, *asked], cwd=self.folder, capture_output=True, timeout=SECONDS)
        word = (ran.stdout.splitlines() or [b""])[-1].decode("latin-1")
        status = STATUSES.get(word, 1 if b"refused " in ran.stdout else 0)
        if (ran.returncode, ran.stderr) != (status, b""):
            raise OSError(f"{words[0]}: {ran.returncode}, {ran.stdout!r:.200}, {ran.stderr!r:.200}")
        self.replies.append((word if word in STATUSES else "done", ran.stdout))

    def imported(self, text):
        """Uploads a text as the one file of a folder."""
        with tempfile.TemporaryDirectory(dir=self.folder) as inbox:
            with open(os.path.join(inbox, "one.edi"), "wb") as file:
                file.write(text)
            self.command("import", "--folder", inbox)
        outcome, printed = self.replies[-1]
        reply = printed.partition(b"\n")[2]
        self.replies[-1] = ("bad" if reply.startswith(b"refused ") else outcome, reply)


def wrong(program, script, printed, files=(), after=None):
    """What is wrong where the program plays a script on a hub in a file, or begins with these files; `after` looks at the folder then."""
    with tempfile.TemporaryDirectory() as folder:
        for name, data in dict(files).items():
            with open(os.path.join(folder, name), "wb") as file:
                file.write(data)
        told, wanted = Player(program, folder).play(script), replies_of(printed)
        pairs = zip(told, wanted)
        other = next((f"reply {at}: {one!r:.300}, not {two!r:.300}" for at, (one, two) in enumerate(pairs, 1) if one != two), None)
        if not other and len(told) != len(wanted):
            other = f"{len(told)} replies, not {len(wanted)}"
        return other or (after(folder) if after else None)


def runs_alike(program, scripts, script_of, count, what):
    """Where the program `edihub`, on a file, does not answer the scripts of so many seeds as the program `scripts` does over lists, if
    anywhere."""

    def tried(seed):
        script = script_of(seed)
        over_lists = subprocess.run([scripts], input=script, capture_output=True, timeout=SECONDS, check=True)
        return wrong(program, script, over_lists.stdout, after=is_whole)

    try:
        with ThreadPoolExecutor(len(os.sched_getaffinity(0))) as pool:
            found = [(seed, why) for seed, why in enumerate(pool.map(tried, range(count))) if why]
    except (OSError, subprocess.SubprocessError) as why:
        return f"not tried: {why}"
    if not found:
        print(f"{count} {what} alike on files and over lists")
    return f"{len(found)} of {count} {what}, first that of seed {found[0]}" if found else None
