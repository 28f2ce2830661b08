"""Damages database files: cuts them at each 512 bytes, changes bytes all over each page, or puts other files in their place.

The program refuses such a file by name or answers right, and so does an import into it. Files of today are tried, files of schema 2, whose
number is set as they are opened, and files without checksums. A file of today has checksums of its pages, so no answer comes from a
changed byte of a row."""
import os
import random
import shutil
from collections import Counter

from tests.harness import commands_in_turn
from tests.harness.database_files import NAME, file_of
from tests.harness.hub_steps import over
from tests.harness.older_files import older_file
from tests.harness.register_texts import RETAILER
from tests.hostile.shared import IMPORT, LOOKS, PAGE, folder_with_file, folder_with_orders, in_words, on_all_processors, put, run

# how many bytes of a page are changed, each in a file of its own
CHANGES = 12
STORE_FAULTS = {b"store disk\n", b"store version\n", b"store unclean\n", b"store memory\n"}
COMMANDS = [*LOOKS, over("import", RETAILER, "--folder", "new")]


def damaged(data):
    """Yields a database file damaged in many ways: what was done to it, and its bytes."""
    for length in range(0, len(data), 512):
        yield f"cut to {length}", data[:length]
    draw = random.Random(7)
    for page in range(0, len(data), PAGE):
        # the head of the page, and then all over it, where its rows are
        for at in (page, page + 3, page + 5, page + 8, *(page + draw.randrange(PAGE) for _ in range(CHANGES))):
            yield f"byte {at} changed", data[:at] + bytes([data[at] ^ draw.choice((0xFF, 1 << draw.randrange(8)))]) + data[at + 1 :]
        filled = [at for at in range(page, min(page + PAGE, len(data))) if data[at]]
        for at in draw.sample(filled, min(CHANGES, len(filled))):
            yield f"byte {at} changed", data[:at] + bytes([data[at] ^ (1 << draw.randrange(8))]) + data[at + 1 :]
    yield "text", b"no database at all\n" * 300
    yield "zeros", bytes(len(data))
    yield "doubled", data + data
    yield "pages exchanged", data[PAGE : 2 * PAGE] + data[:PAGE] + data[2 * PAGE :]


def file_of_today(program, top):
    """A file as the program makes it now, of some orders and what follows from one of them."""
    folder = folder_with_orders(program, top, 30)
    for command in commands_in_turn.changes():
        put(folder, command.files)
        run(program, command.words, folder)
    run(program, IMPORT, folder)
    with open(os.path.join(folder, NAME), "rb") as file:
        return file.read()


def kind_with_checksums(found, right):
    """What a command over a damaged file did, if it answers `right` over the whole file; `None` if that is wrong. A changed byte is found
    if it is used; otherwise it changes no answer."""
    status, printed, error = found
    if found == right:
        return "right"
    if status == 3 and not printed and error in STORE_FAULTS:
        return "refused"
    return "stopped" if status == 3 and printed.endswith(b"stopped\n") and not error else None


def kind_without_checksums(found, right):
    """The same for a file without checksums: a changed row may be another valid one, which nobody can notice, but there is an answer."""
    status, _, error = found
    return kind_with_checksums(found, right) or ("unseen" if status in (0, 1) and not error else None)


def file_damaged(program, top, data, kind_of):
    """Gives each command over a file damaged in each way. Returns a counter of what they did, and what is wrong, if anything."""
    right = [run(program, words, folder_with_file(top, data)) for words in COMMANDS]

    def tried(one):
        what, its_data = one
        kinds = []
        for words, wanted in zip(COMMANDS, right):
            folder = folder_with_file(top, its_data)
            found = run(program, words, folder)
            kinds.append(kind_of(found, wanted))
            if kinds[-1] is None:
                return kinds, f"{what}: {words[0]}: {found!r:.300}"
            shutil.rmtree(folder)
        return kinds, None

    found = on_all_processors(tried, damaged(data))
    return Counter(kind for kinds, _ in found for kind in kinds), next((why for _, why in found if why), None)


def files_damaged(program, top):
    for name, data, kind_of in (
        ("of today", file_of_today(program, top), kind_with_checksums),
        ("of schema 2", older_file("schema2_received")[0], kind_with_checksums),
        ("that SQLite made, without sums", file_of(), kind_without_checksums),
    ):
        counts, why = file_damaged(program, top, data, kind_of)
        if why:
            return f"a file {name}, {why}"
        print(f"a damaged file {name}: {in_words(counts)}", flush=True)
    return None
