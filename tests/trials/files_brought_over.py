"""Trials of database files of before: brought over by commands that are killed, by two at once, and beside one that was founded."""
import os
import shutil
import subprocess
import tempfile

from tests.harness import database_files
from tests.harness.case import SECONDS
from tests.harness.database_files import NAME, has_rows
from tests.harness.first_order import ORDERS
from tests.harness.hub_scripts import DESPATCH, OTHER_PALLET, RECEIPT, RESPONSE, SECOND, TWO_SUPPLIERS, despatch
from tests.harness.hub_scripts import interchange, response
from tests.harness.hub_steps import REGISTER, found, init, over
from tests.harness.older_files import FOUNDED, beside, older_file, rows_of
from tests.harness.register_texts import ALPHA, BETA, RETAILER
from tests.harness.shims import STOP, WAYS, built
from tests.trials.disturbed_commands import at_each_change, founding_killed


def as_if_founded(program):
    """What is wrong where a file that was brought over differs from one that was founded and fed the same inputs, if anything: in a row of
    a table, a status or an entry of a mailbox."""

    def ran(folder, words):
        it = subprocess.run([program, *words], cwd=folder, capture_output=True, timeout=SECONDS)
        return it.returncode, it.stdout, it.stderr

    uploads = (
        (RETAILER, ORDERS),
        (RETAILER, SECOND),
        (ALPHA, RESPONSE),
        (ALPHA, DESPATCH),
        (ALPHA, interchange(ALPHA, "S6", despatch("DA4", OTHER_PALLET, 12, order="128577"))),
        (ALPHA, interchange(ALPHA, "S7", response("R2", 27, order="128577"))),
        (RETAILER, RECEIPT),
    )
    looks = [over("status", ALPHA), over("status", BETA), over("mail", ALPHA, "--do", "after", "--n", "0")]
    looks += [over("mail", ALPHA, "--do", "item", "--n", str(number)) for number in (1, 2, 3, 4)]
    with tempfile.TemporaryDirectory() as one_folder, tempfile.TemporaryDirectory() as other:
        found(program, one_folder)
        for k, (who, text) in enumerate(uploads):
            os.makedirs(os.path.join(one_folder, str(k)))
            with open(os.path.join(one_folder, str(k), "in.edi"), "w", encoding="ascii") as file:
                file.write(text)
            if (it := ran(one_folder, over("import", who, "--folder", str(k))))[0]:
                return f"upload {k}: {it!r:.300}"
        with open(os.path.join(other, NAME), "wb") as file:
            file.write(older_file("schema1_received")[0])
        found(program, other)
        for words in looks:
            if ran(one_folder, words) != ran(other, words):
                return f"{words}: {ran(one_folder, words)!r:.300}, {ran(other, words)!r:.300}"
        return None if database_files.rows_in(one_folder) == database_files.rows_in(other) else "the rows differ"


def two_at_once(program):
    """What is wrong where two foundings of one file of schema 1 come at once, if anything: one brings it over, the other finds it open or
    done."""
    data, status = older_file("schema1_received")
    with tempfile.TemporaryDirectory() as folder:
        for name, its in ((REGISTER, TWO_SUPPLIERS.encode()), (NAME, data)):
            with open(os.path.join(folder, name), "wb") as file:
                file.write(its)
        both = [subprocess.Popen([program, *init()], cwd=folder, stdout=subprocess.PIPE, stderr=subprocess.PIPE) for _ in range(2)]
        ended = sorted((*it.communicate(timeout=SECONDS), it.returncode) for it in both)
        refused, done = ended[0], ended[1]
        if done != (FOUNDED.encode(), b"", 0) or refused not in ((b"", b"store version\n", 3), (b"", b"store disk\n", 3)):
            return f"{ended!r:.300}"
        looked = subprocess.run([program, *over("status", ALPHA)], cwd=folder, capture_output=True, timeout=SECONDS)
        return has_rows(beside(rows_of(data)))(folder) if looked.stdout == status.encode() else f"a status: {looked!r:.300}"


def killed(program):
    """What is wrong where a file is brought over by a command that is killed at a change of it, if anything."""
    data, status = older_file("schema1_received")
    return founding_killed(program, data, beside(rows_of(data)), status)


def raised(program):
    """What is wrong where a file of schema 2 is opened by a command that is killed at a change of it, if anything: it is of schema 2 or 3,
    and each row else is as it was."""
    data, status = older_file("schema2_received")
    rows = rows_of(data, database_files.ROWS)
    before, after = ({**rows, "schema": [(number,)]} for number in (2, 3))
    with tempfile.TemporaryDirectory() as top:
        shim, count_file = built(STOP, top), os.path.join(top, "count")

        def ran(folder, **variables):
            it = subprocess.run([program, *over("status", ALPHA)], cwd=folder, capture_output=True, env=variables, timeout=SECONDS)
            return it.returncode, it.stdout, it.stderr

        def tried(number, **way):
            with tempfile.TemporaryDirectory(dir=top) as folder:
                for name in (NAME, f"{NAME}.synced"):
                    with open(os.path.join(folder, name), "wb") as file:
                        file.write(data)
                variables = {"LD_PRELOAD": shim, "STOP_FILE": os.path.join(folder, NAME), "STOP": str(number), "COUNT": count_file, **way}
                first, whole = ran(folder, **variables), (0, status.encode(), b"")
                if not number:
                    return has_rows(after)(folder) if first == whole else f"whole: {first!r:.300}"
                if first[0] != 9 or first[1] not in (b"", whole[1]):
                    return f"killed at {number}: {first!r:.300}"
                looked = shutil.copytree(folder, folder + "looked")
                if has_rows(before)(looked) and has_rows(after)(looked):
                    return f"killed at {number}: {has_rows(after)(looked)}"
                again = ran(folder)
                return has_rows(after)(folder) if again == whole else f"killed at {number}, then: {again!r:.300}"

        why, changes = at_each_change(tried, count_file)
        if not why:
            print(
                f"a file of schema 2 opened by a command that is killed at {changes} of {changes} changes of it in {len(WAYS)} ways, and "
                "given again"
            )
        return why


TRIALS = [
    ("a file of schema 2 that is opened by a command that is killed", raised),
    ("a file that was brought over, and one that was founded", as_if_founded),
    ("two foundings of one file at once", two_at_once),
    ("a file that is brought over by a command that is killed and made again", killed),
]
