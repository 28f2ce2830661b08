"""Pictures of each screen, wide and narrow, by day and by night, for docs/page: `python3 -m tests.page.pictures PROGRAM FOLDER`."""
import os
import struct
import sys
import zlib

from tests.page.driver import Browser
from tests.page.screens import SCREENS, furnished, opened
from tests.page.stage import Keeping, Stage, milliseconds

SIZES = {"wide": (1100, 800), "narrow": (360, 740)}
LIGHTS = {"light": False, "dark": True}
MOST_COLOURS = 256
# to the summary or what the hub said, if they are there
TO_WHAT_HAPPENED = """const said = [...document.querySelectorAll('.summary:not([hidden]), .delivery:not(:empty), .left[open], mark')].pop();
    if (said) said.scrollIntoView({ block: 'center' }); else scrollTo(0, 0)"""


def chunk(kind, data):
    return struct.pack(">I", len(data)) + kind + data + struct.pack(">I", zlib.crc32(kind + data))


def rows_of(png):
    """Width, height, and the pixels of each row, three bytes each, of a picture as the driver makes it."""
    at, data, width, height, bytes_each = 8, b"", 0, 0, 3
    while at < len(png):
        size, kind = struct.unpack(">I4s", png[at : at + 8])
        if kind == b"IHDR":
            width, height, _, colour = struct.unpack(">IIBB", png[at + 8 : at + 18])
            bytes_each = 4 if colour == 6 else 3
        elif kind == b"IDAT":
            data += png[at + 8 : at + 8 + size]
        at += size + 12
    raw, above, rows, stride = zlib.decompress(data), bytes(width * bytes_each), [], width * bytes_each
    for y in range(height):
        line = bytearray(raw[y * (stride + 1) + 1 : (y + 1) * (stride + 1)])
        above = unfiltered(raw[y * (stride + 1)], line, above, bytes_each)
        rows.append([bytes(above[x : x + 3]) for x in range(0, stride, bytes_each)])
    return width, height, rows


def unfiltered(kind, line, above, bytes_each):
    """The bytes of a row, by its filter (PNG specification, section 9)."""
    for x in range(len(line)):
        left = line[x - bytes_each] if x >= bytes_each else 0
        up, corner = above[x], above[x - bytes_each] if x >= bytes_each else 0
        if kind == 1:
            line[x] = (line[x] + left) & 255
        elif kind == 2:
            line[x] = (line[x] + up) & 255
        elif kind == 3:
            line[x] = (line[x] + (left + up) // 2) & 255
        elif kind == 4:
            guess = left + up - corner
            nearest = min((abs(guess - left), 0, left), (abs(guess - up), 1, up), (abs(guess - corner), 2, corner))[2]
            line[x] = (line[x] + nearest) & 255
    return line


def small(png):
    """The same picture with a palette: its most frequent colours, and for any other the nearest of these."""
    width, height, rows = rows_of(png)
    counts = {}
    for row in rows:
        for it in row:
            counts[it] = counts.get(it, 0) + 1
    palette = sorted(counts, key=counts.get, reverse=True)[:MOST_COLOURS]
    places = {it: place for place, it in enumerate(palette)}
    for it in counts:
        if it not in places:
            apart = lambda place: sum((a - b) ** 2 for a, b in zip(palette[place], it))
            places[it] = min(range(len(palette)), key=apart)
    data = b"".join(b"\0" + bytes(places[it] for it in row) for row in rows)
    head = struct.pack(">IIBBBBB", width, height, 8, 3, 0, 0, 0)
    chunks = ((b"IHDR", head), (b"PLTE", b"".join(palette)), (b"IDAT", zlib.compress(data, 9)), (b"IEND", b""))
    return b"\x89PNG\r\n\x1a\n" + b"".join(chunk(*it) for it in chunks)


def main(program, folder):
    os.makedirs(folder, exist_ok=True)
    with Browser() as browser:
        browser.stop_clock(milliseconds(2025, 6, 6, 9, 30))
        # one clock: what the hub hands out came in that morning
        Keeping.prepared = "250606:0915"
        with Stage(program) as stage:
            furnished(stage)
            for name in SCREENS:
                browser.look(*SIZES["wide"])
                opened(browser, stage, name)
                for size, measures in SIZES.items():
                    for light, dark in LIGHTS.items():
                        browser.look(*measures, dark=dark, narrow=size == "narrow")
                        browser.run(TO_WHAT_HAPPENED)
                        file = os.path.join(folder, f"{name}-{size}-{light}.png")
                        browser.picture(file)
                        with open(file, "rb") as opened_file:
                            shrunk = small(opened_file.read())
                        with open(file, "wb") as opened_file:
                            opened_file.write(shrunk)
    print(f"{len(SCREENS) * len(SIZES) * len(LIGHTS)} pictures in {folder}")


if __name__ == "__main__":
    main(os.path.abspath(sys.argv[1]), sys.argv[2])
