"""Trials of commands over a hub: killed at each change of a file, over files that are held, changed or unreadable, and the example's
days."""
import contextlib
import os
import pty
import pwd
import shutil
import sqlite3
import subprocess
import tempfile

from tests.cases.broken_texts import TEXT_LIMIT
from tests.harness.case import SECONDS
from tests.harness.database_files import NAME, has_rows, is_whole
from tests.harness.first_order import ORDERS
from tests.harness.hub_scripts import FIRST_MAIL, SECOND, SPELLED, TWO_SUPPLIERS, interchange, order
from tests.harness.hub_steps import FIRST_TWO, MOMENT, REGISTER, init, made_folder, mode_of, over, rows_of_register
from tests.harness.hub_steps import told
from tests.harness.register_texts import ALPHA, HUB, RETAILER
from tests.harness.shims import STOP, WAYS, built, meddled
from tests.harness.show_cases import Interchange, shown_text
from tests.harness.tree import EXAMPLES


def killed(program):
    """What is wrong where an import is killed at a change of its files and then made again, if anything."""
    with tempfile.TemporaryDirectory() as top:
        shim, count_file = built(STOP, top), os.path.join(top, "count")

        def imports(folder, **variables):
            ran = subprocess.run(
                [program, *over("import", RETAILER, "--folder", "in")], cwd=folder, capture_output=True, env=variables, timeout=SECONDS
            )
            return ran.returncode, ran.stdout.decode()

        def replies(words):
            return "".join(told(f"file {k:02}.edi", f"interchange U{k} messages 1", f"1 ORDERS {word}") for k, word in enumerate(words))

        def tried(number):
            with tempfile.TemporaryDirectory(dir=top) as folder:
                count = made_folder(program, folder)
                name = os.path.join(folder, NAME)
                status, printed = imports(folder, LD_PRELOAD=shim, STOP_FILE=name, STOP=str(number), COUNT=count_file)
                done = printed.count(" ORDERS accepted\n")
                if not number:
                    return None if (status, printed) == (0, replies(["accepted"] * count)) else f"whole: {status}, {printed!r:.200}"
                if status != 9 or not replies(["accepted"] * count).startswith(printed):
                    return f"killed at {number}: {status}, {printed!r:.200}"
                status, printed = imports(folder)
                again = [replies(["repeated"] * k + ["accepted"] * (count - k)) for k in (done, done + 1) if k <= count]
                if status or printed not in again:
                    return f"killed at {number}, then: {status}, {printed!r:.200}"
                return is_whole(folder)

        why = tried(0)
        with open(count_file, encoding="ascii") as file:
            changes = int(file.read().split()[0])
        turns = range(1, changes + 1, max(1, changes // 40))
        for number in turns:
            why = why or tried(number)
        if not why:
            print(f"an import killed at {len(turns)} of {changes} changes of its files, and made again")
        return why


def held_open(program):
    """What is wrong where a second command comes while one has the file open, if anything. The first waits for its output to be read."""
    with tempfile.TemporaryDirectory() as folder:
        made_folder(program, folder, 1500)
        with subprocess.Popen([program, *over("import", RETAILER, "--folder", "in")], cwd=folder, stdout=subprocess.PIPE) as first:
            try:
                printed = first.stdout.read(1)
                second = subprocess.run([program, *over("status", ALPHA)], cwd=folder, capture_output=True, timeout=SECONDS)
                printed += first.stdout.read()
            finally:
                first.kill()
        if (second.returncode, second.stdout, second.stderr) != (3, b"", b"store disk\n"):
            return f"the second: {second.returncode}, {second.stdout!r:.100}, {second.stderr!r:.100}"
        return f"the first: {printed[-100:]!r}" if printed.count(b" accepted\n") != 1500 else is_whole(folder)


def unreadable(program):
    """What is wrong where a file of a folder cannot be read, if anything. Root may read each file, so for root the program runs as
    nobody."""
    with tempfile.TemporaryDirectory() as folder:
        made_folder(program, folder, 3)
        own = shutil.copy(program, os.path.join(folder, "program"))
        shut, who = os.path.join(folder, "in", "01.edi"), {}
        if not os.getuid():
            nobody = pwd.getpwnam("nobody")
            who = {"user": nobody.pw_uid, "group": nobody.pw_gid, "extra_groups": []}
            for path, _, names in os.walk(folder):
                for it in (path, *(os.path.join(path, name) for name in names)):
                    os.chown(it, nobody.pw_uid, nobody.pw_gid)

        def imports(mode, wanted, *words):
            os.chmod(shut, mode)
            ran = subprocess.run(
                [own, *over("import", RETAILER, "--folder", "in")], cwd=folder, capture_output=True, timeout=SECONDS, **who
            )
            lines = [
                ("fault",) if word == "fault" else (f"interchange U{k} messages 1", f"1 ORDERS {word}") for k, word in enumerate(words)
            ]
            printed = "".join(told(f"file {k:02}.edi", *its) for k, its in enumerate(lines)).encode()
            found = (ran.returncode, ran.stdout, ran.stderr)
            return None if found == (wanted, printed, b"") else f"mode {mode:o}: {found!r:.300}"

        return imports(0o000, 3, "accepted", "fault", "accepted") or imports(0o400, 0, "repeated", "accepted", "repeated")


def meddled_import(program, *words, **variables):
    """What an import of three orders ends with, prints and says on standard error, over the library of meddle.c with these variables."""
    with tempfile.TemporaryDirectory() as folder:
        made_folder(program, folder, 3)
        ran = subprocess.run(
            [program, *over("import", RETAILER, "--folder", "in", *words)],
            cwd=folder,
            capture_output=True,
            env={"LD_PRELOAD": meddled(folder), **variables},
            timeout=SECONDS,
        )
        return ran.returncode, ran.stdout, ran.stderr


# what an import of three orders prints where the second cannot be read
SECOND_IS_FAULT = "".join(
    told(f"file {k:02}.edi", *(("fault",) if k == 1 else (f"interchange U{k} messages 1", "1 ORDERS accepted"))) for k in range(3)
).encode()


def exchanged(program):
    """What is wrong where a file of a folder becomes a pipe behind its listing, if anything: it is no plain file then, and nobody waits for
    it."""
    found = meddled_import(program, PIPE=os.path.join("in", "01.edi"))
    return None if found == (3, SECOND_IS_FAULT, b"") else f"{found!r:.300}"


def deleted(program):
    """What is wrong where a file of a folder is deleted behind its listing, or behind a last look at it, if anything: it is a fault, and
    the next one is taken."""
    for variable in ("GONE", "LOOKED"):
        found = meddled_import(program, **{variable: os.path.join("in", "01.edi")})
        if found != (3, SECOND_IS_FAULT, b""):
            return f"{variable}: {found!r:.300}"
    return None


def one_moment(program):
    """What is wrong where a day passes each time that the clock is asked, if anything: an import asks once, and all that it brings has
    that moment."""
    with tempfile.TemporaryDirectory() as folder:
        count = made_folder(program, folder, 3)
        env = {"LD_PRELOAD": meddled(folder), "NOW": MOMENT, "TICKS": "1"}
        words = over("import", RETAILER, "--folder", "in", moment=None)
        subprocess.run([program, *words], cwd=folder, stdout=subprocess.DEVNULL, env=env, timeout=SECONDS, check=True)
        looks = [over("mail", ALPHA, "--do", "item", "--n", str(number)) for number in range(1, count + 1)]
        mails = [subprocess.run([program, *words], cwd=folder, capture_output=True, timeout=SECONDS).stdout for words in looks]
        days = [it.partition(f"{ALPHA}:14+".encode())[2][:11] for it in mails]
        return None if days == [b"250603:0920"] * count else f"the mails have {days!r}"


def own_file(program):
    """What is wrong with the mode of a database file that is made, if anything: it is its owner's alone, whatever the umask."""
    for mask in (0o000, 0o022, 0o077):
        with tempfile.TemporaryDirectory() as folder:
            with open(os.path.join(folder, REGISTER), "w", encoding="ascii") as file:
                file.write(TWO_SUPPLIERS)
            ran = subprocess.run([program, *init()], cwd=folder, capture_output=True, umask=mask, timeout=SECONDS)
            if ran.returncode or mode_of(folder) != 0o600:
                return f"umask {mask:o}: {ran.returncode}, mode {mode_of(folder):o}"
    return None


def at_each_change(tried, count_file):
    """What is wrong where a command goes to its end, or is killed at a change of its files in one of the ways, if anything; and how many
    changes it makes."""
    why = tried(0)
    with open(count_file, encoding="ascii") as file:
        changes = int(file.read().split()[0])
    for number, way in ((number, way) for way in WAYS.values() for number in range(1, changes + 1)):
        why = why or tried(number, **way)
    return why, changes


def founding_killed(program, before=None, rows=None, shown="end\n"):
    """What is wrong where a founding is killed at a change of its files, if anything: either nothing is founded, and a founding that is
    made again goes through, or all is. `before`: a file that is there, `rows`: those of the file that is founded, `shown`: the status of a
    supplier then."""
    whole = has_rows(rows or rows_of_register(*FIRST_TWO))
    with tempfile.TemporaryDirectory() as top:
        shim, count_file = built(STOP, top), os.path.join(top, "count")

        def ran(words, folder, **variables):
            it = subprocess.run([program, *words], cwd=folder, capture_output=True, env=variables, timeout=SECONDS)
            return it.returncode, it.stdout, it.stderr

        def tried(number, **way):
            with tempfile.TemporaryDirectory(dir=top) as folder:
                # what a file that is there held when it was last synced
                there = [(NAME, before), (f"{NAME}.synced", before)] if before else []
                for name, data in ((REGISTER, TWO_SUPPLIERS.encode()), *there):
                    with open(os.path.join(folder, name), "wb") as file:
                        file.write(data)
                variables = {"LD_PRELOAD": shim, "STOP_FILE": os.path.join(folder, NAME), "STOP": str(number), "COUNT": count_file, **way}
                first, done, version = ran(init(), folder, **variables), (0, b"ok 2 suppliers\n", b""), (3, b"", b"store version\n")
                if not number:
                    return whole(folder) if first == done else f"whole: {first!r:.300}"
                # what is printed is printed once all is done
                if first[0] != 9 or first[1] not in (b"", done[1]):
                    return f"killed at {number}: {first!r:.300}"
                again = ran(init(), folder)
                if again != version and (again != done or first[1]):
                    return f"killed at {number}, then: {again!r:.300}"
                looked = ran(over("status", ALPHA), folder)
                return whole(folder) if looked == (0, shown.encode(), b"") else f"killed at {number}, then a status: {looked!r:.300}"

        why, changes = at_each_change(tried, count_file)
        if not why:
            print(
                f"a founding {'of schema 1 ' if before else ''}killed at {changes} of {changes} changes of its files in {len(WAYS)} ways, "
                "and made again"
            )
        return why


def hidden(program):
    """What is wrong where a folder cannot be read to its end, or one of its files cannot be looked at, if anything: neither is passed
    over."""
    for variables, wanted in (({"LISTING": "1"}, (3, b"", b"file\n")), ({"ENTRY": "01.edi"}, (3, SECOND_IS_FAULT, b""))):
        found = meddled_import(program, **variables)
        if found != wanted:
            return f"{variables}: {found!r:.300}"
    return None


# the commands that read standard input
READERS = [["relay", "--hub", HUB, "--owner", ALPHA, "--moment", MOMENT, "--number", "1"], ["show"]]


def few_reads(program):
    """What is wrong with how standard input is read, if anything: not once for a few bytes each; its end is asked for once; and of a longer
    text not more than a byte past the limit."""
    for words in READERS:
        for length, status in ((len(ORDERS), 0), (TEXT_LIMIT - 1, 0), (TEXT_LIMIT, 0), (2 * TEXT_LIMIT, 1)):
            with tempfile.TemporaryDirectory() as folder, tempfile.TemporaryFile() as source:
                source.write(ORDERS.encode().ljust(length, b"\n"))
                source.seek(0)
                env = {"LD_PRELOAD": meddled(folder), "READS": os.path.join(folder, "count")}
                ran = subprocess.run([program, *words], stdin=source, capture_output=True, env=env, timeout=SECONDS)
                with open(env["READS"], encoding="ascii") as file:
                    reads, ends = map(int, file.read().split())
                taken = source.seek(0, os.SEEK_CUR)
            most = 3 + length // 1024
            if (ran.returncode, ends) != (status, 1 - status) or not 0 < reads <= most or taken > TEXT_LIMIT + 1:
                return f"{words[0]} of {length} bytes: {ran.returncode}, {reads} reads, {ends} ends, {taken} bytes taken"
    return None


# what `show` prints of the order
LINES = ["order 128576", f"buyer {RETAILER}", f"supplier {ALPHA}", "line 1 item 04000862141404 ordered 48"]
SHOWN = shown_text(Interchange(kinds=["ORDERS"]), [LINES])
# commands with their standard input, and what they print
PRINTERS = [(READERS[0], ORDERS, FIRST_MAIL), (READERS[1], ORDERS, SHOWN), (["check", "--register", REGISTER], "", "ok 2 suppliers\n")]


def disturbed(program, words, source, **variables):
    """What a command ends with, prints and says on standard error, over the library of meddle.c with these variables."""
    with tempfile.TemporaryDirectory() as folder:
        with open(os.path.join(folder, REGISTER), "w", encoding="ascii") as file:
            file.write(TWO_SUPPLIERS)
        env = {"LD_PRELOAD": meddled(folder), **variables}
        ran = subprocess.run([program, *words], cwd=folder, input=source.encode(), capture_output=True, env=env, timeout=SECONDS)
        return ran.returncode, ran.stdout.decode(), ran.stderr.decode()


def torn(program):
    """What is wrong where what is read cannot be read on, at once, midway or at its end, if anything: nothing is printed; and an import
    goes on with the next file."""
    for words, source, _ in PRINTERS:
        read = source or TWO_SUPPLIERS
        for after in (0, 1, 100, len(read)):
            found = disturbed(program, words, source, TORN="-" if source else REGISTER, AFTER=str(after))
            if found != (3, "", "file\n"):
                return f"{words[0]}, torn after {after} bytes: {found!r:.300}"
    for after in (0, 1, 100, len(interchange(RETAILER, "U1", order("1")))):
        found = meddled_import(program, TORN=os.path.join("in", "01.edi"), AFTER=str(after))
        if found != (3, SECOND_IS_FAULT, b""):
            return f"an import, torn after {after} bytes: {found!r:.300}"
    return None


def narrow(program):
    """What is wrong where standard output takes so many bytes and no more, if anything: these are printed, and the rest is a fault."""
    for words, source, whole in PRINTERS:
        for room in (0, 1, len(whole) // 2, len(whole) - 1, len(whole)):
            for more in ({}, {"NOTHING": "1"}):
                wanted = (0, whole, "") if room == len(whole) else (3, whole[:room], "file\n")
                found = disturbed(program, words, source, ROOM=str(room), **more)
                if found != wanted:
                    return f"{words[0]}, room for {room} bytes, {more}: {found!r:.300}"
    return None


def at_a_terminal(program):
    """What is wrong where an order is typed at a terminal and its end told once, if anything: nobody has to tell it again."""
    for words in READERS:
        keyboard, terminal = pty.openpty()
        try:
            with subprocess.Popen([program, *words], stdin=terminal, stdout=subprocess.PIPE) as child:
                os.write(keyboard, ORDERS.encode() + b"\n\x04")
                try:
                    printed, _ = child.communicate(timeout=20)
                except subprocess.TimeoutExpired:
                    child.kill()
                    return f"{words[0]} waits for its end to be told again"
        finally:
            os.close(keyboard)
            os.close(terminal)
        if child.returncode or b"128576" not in printed:
            return f"{words[0]} at a terminal: {child.returncode}, {printed!r:.200}"
    return None


def day(program):
    """What is wrong with the days of the example, if anything."""
    example = os.path.join(EXAMPLES, "day")
    ran = subprocess.run(["sh", os.path.join(example, "day.sh"), program], capture_output=True, timeout=SECONDS)
    with open(os.path.join(example, "printed"), "rb") as file:
        wanted = file.read()
    return (
        None
        if (ran.returncode, ran.stdout, ran.stderr) == (0, wanted, b"")
        else f"{ran.returncode}, {ran.stdout!r:.300}, {ran.stderr!r:.100}"
    )


def version(program):
    """`--version` names the schema of a file that is founded, and the logic of the toolchain."""
    with tempfile.TemporaryDirectory() as folder:
        path = os.path.join(folder, NAME)
        with open(os.path.join(folder, REGISTER), "w", encoding="ascii") as file:
            file.write(TWO_SUPPLIERS)
        subprocess.run([program, *init()], cwd=folder, stdout=subprocess.DEVNULL, check=True)
        with contextlib.closing(sqlite3.connect(path)) as hub:
            number = hub.execute("SELECT number FROM schema").fetchone()[0]
    # kits of one logic prove the same: `rattle-kit-13b logic ..` and `rattle-kit-13f logic ..`
    logic = subprocess.run(["rt", "version"], capture_output=True, text=True).stdout.strip().partition(" ")[2]
    found = subprocess.run([program, "--version"], capture_output=True, text=True).stdout
    wanted = f"edihub 1.1.0 (schema {number}, {logic})\n"
    return "" if found == wanted else f"the version is {found!r}, not {wanted!r}"


# orders and texts, with what an import says of each on a hub of its own
OPENED = "interchange 1001 messages 1"
IN_PIECES = [
    (ORDERS, OPENED, "1 ORDERS accepted"),
    (SPELLED, OPENED, "1 ORDERS accepted"),
    (SECOND, "interchange 1002 messages 1", "1 ORDERS accepted"),
    (ORDERS.replace("1001'", "1003'").replace("UNT+10+1", "UNT+9+1"), "refused E12"),
    (ORDERS.partition("QTY+21:4")[0] + "QTY+21:4", "refused E04"),
    *((ORDERS.replace("QTY+21:48", f"QTY+21:{it}"), OPENED, "1 ORDERS accepted") for it in ("999999999", "12,000")),
    *((ORDERS.replace("QTY+21:48", f"QTY+21:{it}"), OPENED, "1 ORDERS refused M08") for it in ("1000000000", "12.5")),
    (ORDERS.ljust(TEXT_LIMIT, "\n"), OPENED, "1 ORDERS accepted"),
    (ORDERS.ljust(TEXT_LIMIT + 1, "\n"), "refused E01"),
    (SPELLED.replace("UNS|S~", f"FTX|AAI|||{'x' * 8181}~UNS|S~").replace("UNT|10", "UNT|11"), OPENED, "1 ORDERS accepted"),
    (SPELLED.replace("UNS|S~", f"FTX|AAI|||{'x' * 8182}~UNS|S~").replace("UNT|10", "UNT|11"), "refused E20"),
]


def in_pieces(program):
    """What is wrong where each read of a file gives few bytes, if anything: the replies do not depend on it."""
    for most in ("1", "2", "7", "8192"):
        for text, *lines in IN_PIECES:
            with tempfile.TemporaryDirectory() as folder:
                made_folder(program, folder, 0)
                with open(os.path.join(folder, "in", "a.edi"), "w", encoding="ascii", newline="") as file:
                    file.write(text)
                words = over("import", RETAILER, "--folder", "in")
                env = {"LD_PRELOAD": meddled(folder), "SHORT": most}
                ran = subprocess.run([program, *words], cwd=folder, capture_output=True, env=env, timeout=SECONDS)
                if ran.stdout.decode() != told("file a.edi", *lines) or ran.stderr:
                    return f"at most {most} bytes a read, {text[:300]!r}: {ran.returncode}, {ran.stdout!r:.300}, {ran.stderr!r:.100}"
    return None


TRIALS = [
    ("the version", version),
    ("files that are read in small pieces", in_pieces),
    ("a founding that is killed and made again", founding_killed),
    ("an import that is killed and made again", killed),
    ("a file that another command has open", held_open),
    ("a file of a folder that cannot be read", unreadable),
    ("a file of a folder that has become a pipe", exchanged),
    ("a database file that is made", own_file),
    ("a file of a folder that was deleted", deleted),
    ("the moment of an import", one_moment),
    ("a folder that cannot be read on, and a file of it that cannot be looked at", hidden),
    ("how standard input is read", few_reads),
    ("what cannot be read on", torn),
    ("an output that takes a part", narrow),
    ("an order that is typed at a terminal", at_a_terminal),
    ("the days of the example", day),
]
