"""`make page-test`: the page in headless Chromium and in headless Firefox, and its readers and writers in Node. With a name, those alone
are tried whose name has this in it; with a browser, in that one alone. The last line is `N passed, M failed`.

    python3 -m tests.page.test PROGRAM [--browser=chromium|firefox] [NAME]"""
import argparse
import os
import sys
import time
import traceback

from tests.page import access, agreement, answers_meanwhile, blank_ends, breaks, clocks, csv_files, day, days, drafts, headers
from tests.page import explain, focus, hostile_texts, keys, languages
from tests.page import locks, many_lines, many_pallets, menu, no_answers, nothing_silent, pallet_numbers, refusals_told, sending_life, sent_list
from tests.page import cancel_lines, labels, open_lines, order_details, overview, small_parts, summaries, today, trying
from tests.page import show_front, upload_names, uploads
from tests.page.driver import Browser, NotHere
from tests.page.firefox import Firefox

# what needs no browser, and what does
ALONE = {**small_parts.TRIALS, **sending_life.TRIALS, **trying.TRIALS, **headers.TRIALS, **agreement.TRIALS}
ALONE |= {**order_details.ALONE, **labels.ALONE, **explain.ALONE, **show_front.TRIALS, **languages.ALONE}
PARTS = (day, keys, breaks, hostile_texts, refusals_told, many_lines, access, days, answers_meanwhile, pallet_numbers, blank_ends)
PARTS += (clocks, nothing_silent, locks, summaries, drafts, sent_list, uploads, no_answers, menu, csv_files, today)
PARTS += (order_details, labels, overview, open_lines, cancel_lines, upload_names, many_pallets, explain, focus, languages)
IN_BROWSER = {name: trial for part in PARTS for name, trial in part.TRIALS.items()}


BROWSERS = {"chromium": Browser, "firefox": Firefox}
# what is not tried in Firefox unless it is named: it asks for Chromium's own tools
NOT_IN_FIREFOX = ("bars as they are drawn", "labels that scan")


def tried(name, trial, *words):
    """Whether it passed; None if this browser cannot run it."""
    begun = time.monotonic()
    try:
        said = trial(*words)
    except NotHere as why:
        print(f"{name}: not tried, {why}", flush=True)
        return None
    except Exception:  # noqa: BLE001: whatever goes wrong in a trial is its failure
        print(f"{name}: FAILED\n{traceback.format_exc()}", flush=True)
        return False
    print(f"{name}: {said}, {time.monotonic() - begun:.1f} s", flush=True)
    return True


def in_browser(kind, trials, program):
    print(f"in {kind}:", flush=True)
    with BROWSERS[kind]() as browser:
        for name, trial in trials.items():
            browser.look()
            browser.run_clock()
            yield tried(name, trial, browser, program)


def main():
    asked = argparse.ArgumentParser()
    asked.add_argument("program", type=os.path.abspath)
    asked.add_argument("name", nargs="?", default="")
    asked.add_argument("--browser", choices=BROWSERS)
    words = asked.parse_intermixed_args()
    results = [] if words.browser == "firefox" else [tried(name, it, words.program) for name, it in ALONE.items() if words.name in name]
    chosen = {name: trial for name, trial in IN_BROWSER.items() if words.name in name}
    for kind in [words.browser] if words.browser else BROWSERS:
        some = {name: it for name, it in chosen.items() if kind == "chromium" or words.name or name not in NOT_IN_FIREFOX}
        if some:
            results += in_browser(kind, some, words.program)
    passed, failed, left = (results.count(it) for it in (True, False, None))
    print(f"{passed} passed, {failed} failed" + (f", {left} not tried" if left else ""))
    return 0 if passed and not failed else 1


if __name__ == "__main__":
    sys.exit(main())
