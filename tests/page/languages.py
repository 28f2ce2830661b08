"""The languages of the page: the tables of words are complete and alike, no text is outside them, each screen in each language says nothing
in English, also on a phone and enlarged, and texts that would do harm do none there either."""
import functools
import json
import os
import re
import shutil
import subprocess
from glob import glob

from tests.harness.tree import ROOT
from tests.page import hostile_texts
from tests.page.access import NARROW, STRUCTURE
from tests.page.agreement import by_node
from tests.page.driver import wait
from tests.page.forms import change
from tests.page.screens import SCREENS, furnished, opened
from tests.page.stage import ALPHA, Stage, signed_in
from tests.page.words import LANGUAGES, Spoken, literals, patterns, tables

HERE = os.path.dirname(os.path.abspath(__file__))
# names of things that are the same in the language, or that are not words
ALIKE = re.compile(r"[^a-z]*|.*\b(GLN|SSCC|GTIN|UNB|UNT|CSV|edi|txt)\b.*")
# all that a person reads or hears, but for what stands in files, orders and answers of the hub as it is
SAID = """const skipped = 'script, style, pre, code, .exact, .free-text, .code-words code, noscript, #foot option, h2.file-name';
    const walker = document.createTreeWalker(document.documentElement, NodeFilter.SHOW_TEXT);
    const found = [document.title];
    while (walker.nextNode()) if (!walker.currentNode.parentElement.closest(skipped)) found.push(walker.currentNode.data);
    for (const it of document.querySelectorAll('[aria-label], [title], [placeholder]'))
        for (const name of ['aria-label', 'title', 'placeholder']) found.push(it.getAttribute(name) ?? '');
    return found.map(it => it.trim()).filter(Boolean)"""
# words that English alone has
ENGLISH = re.compile(r"\b(the|and|you|your|this|that|with|not|are|has|have|which|been|what|from|they|were)\b")


def texts_of(it):
    return [it] if isinstance(it, str) else it if isinstance(it, list) else [one["said"] for one in it["variants"]]


def alike(_program):
    """Each text is in all tables, with the same parameters, says something, and is not the English one."""
    found = tables()
    english = found["en"]
    for language in LANGUAGES:
        assert list(found[language]) == list(english), (language, set(english) ^ set(found[language]))
        for name, it in found[language].items():
            assert type(it) is type(english[name]), (language, name)
            if isinstance(it, dict):
                assert it["parameters"] == english[name]["parameters"], (language, name, it["parameters"])
            for text, original in zip(texts_of(it), texts_of(english[name])):
                assert bool(text) == bool(original) and not re.search(r"undefined|NaN|\[object|\$\{", text), (language, name, text)
                is_copied = text == original and len(text.split()) > 2 and not ALIKE.fullmatch(text)
                assert not is_copied, f"{language} {name} is still English: {text}"
                assert original.endswith(".") == text.endswith(".") or name.endswith("asItComes"), (language, name, text)
    return f"{len(english)} texts in {len(LANGUAGES) + 1} languages"


def compiler():
    """The compiler's library, by the program that Debian's node-typescript has."""
    program = shutil.which("tsc")
    assert program, "tsc is not there: apt-get install node-typescript"
    return os.path.join(os.path.dirname(os.path.realpath(program)), "..", "lib", "typescript.js")


# what a server says or is asked for, what the page calls reasons and classes in itself, and what is alike in all languages
NO_TEXTS = {"Retry-After", "edihub show\n", "too many", "too large", "field ${}"}


def outside(_program):
    """No module has a text of its own."""
    files = [it for it in glob(os.path.join(ROOT, "page", "**", "*.js"), recursive=True) if not re.search(r"/words/|hub/codes\.js$", it)]
    ran = subprocess.run(["node", os.path.join(HERE, "texts_outside.mjs"), compiler(), *files], stdout=subprocess.PIPE, check=True)
    found = [it for it in json.loads(ran.stdout) if it[1] not in NO_TEXTS]
    assert found == [], found
    return f"{len(files)} modules"


def types(_program):
    """The compiler finds nothing wrong with the types of the page's modules."""
    compiler()
    ran = subprocess.run(["tsc", "-p", os.path.join(HERE, "tsconfig.json")], stdout=subprocess.PIPE, text=True)
    assert (ran.returncode, ran.stdout) == (0, ""), ran.stdout[:4000]
    return "no complaint"


@functools.cache
def plain_english(language):
    """The English texts that the language has not: whole ones, and a pattern of the parts of more than one word."""
    own = {text for it in tables()[language].values() for text in texts_of(it)}
    whole = {it for it in tables()["en"].values() if isinstance(it, str)} - own
    fragments = {it.strip(" .,:;") for pattern, _, _ in patterns(language) for it in literals(pattern)} | whole
    said = " ".join(own)
    some = sorted(it for it in fragments if len(it.split()) > 1 and len(it) > 7 and it not in said)
    return whole, re.compile(rf"(?<!\w)(?:{'|'.join(map(re.escape, some))})(?!\w)")


def all_translated(browser, screen, language):
    whole, parts = plain_english(language)
    for said in browser.run(SAID):
        left = parts.search(said) or ENGLISH.search(said)
        assert said not in whole and not left, (language, screen, said, left)


def fits(browser, screen, language):
    """On a phone and enlarged, the page is not wider than the window, and no cell is cut."""
    for width, height, is_phone in NARROW:
        browser.look(width, height, narrow=is_phone)
        it = browser.run(STRUCTURE)
        assert it["wide"] <= 0 and it["cut"] == [], f"{screen} in {language} at {width} is wider by {it['wide']}, or its cells {it['cut']}"
        assert (it["language"], it["unlabelled"], it["headings"]) == (language, [], 1), (screen, it)
    browser.look()


def speak(browser, stage, language):
    """Chooses the language by the page's own choice."""
    browser.go("about:blank")
    browser.go(stage.address)
    browser.one("form.sign-in")
    choose(browser, language)


def choose(browser, language):
    script = """const it = document.querySelector('#foot select'); it.value = arguments[0]; it.dispatchEvent(new Event('change'))"""
    browser.run(script, language)
    wait(lambda: browser.run("return document.documentElement.lang") == language, f"the page in {language}")


def each_screen(browser, program):
    """Every screen, with what is done on it, in every language."""
    for language in LANGUAGES:
        with Stage(program) as stage:
            furnished(stage)
            speak(browser, stage, language)
            spoken = Spoken(browser, language)
            for name in SCREENS:
                opened(spoken, stage, name)
                all_translated(browser, name, language)
                fits(browser, name, language)
        assert browser.complaints() == [], language
    return f"{len(SCREENS)} screens in {len(LANGUAGES)} languages"


def choice(browser, program):
    """The language is the browser's, until another is chosen: that one stays for other tabs too, with what was typed."""
    with Stage(program) as stage:
        furnished(stage)
        signed_in(browser, stage, ALPHA)
        assert browser.run("return [document.documentElement.lang, localStorage.length]") == ["en", 0]
        browser.run("location.hash = 'answer/4'")
        browser.until_says("Accept all 10 lines")
        change(browser, 2, "40")
        browser.run("const it = document.querySelector('#foot select'); it.value = 'de'; it.dispatchEvent(new Event('change'))")
        browser.until_says("is not sent yet")
        browser.press("Leave")
        browser.until_says("Was Sie hier früher eingegeben haben, ist wieder da.")
        assert browser.run("return document.querySelectorAll('.choices input:checked').length") == 1
        assert browser.run("return document.querySelector('[data-field=\"answer.changedQuantity/2\"]').value") == "40"
        assert browser.run("return JSON.stringify(localStorage)") == '{"edihub.language":"de"}'
        one = browser.tab()
        browser.new_tab()
        browser.go(stage.address)
        browser.until_says("Dieser Tab behält GLN und Schlüssel")
        browser.close_tab(one)
        # numbers and dates are those of the language
        browser.run("sessionStorage.clear(); location.hash = ''; setTimeout(() => location.reload())")
        browser.until_says("Anmelden")
        choose(browser, "fr")
        browser.until_says("Se connecter")
    return "chosen, kept and with its draft"


def rows_in_all(_program):
    """What the page writes into a file in one language it reads in every other."""
    known = {"line": 1, "ordered": 48, "waits": True, "known": "waiting", "least": 8, "most": 48}
    calls = []
    for language in ("en", *LANGUAGES):
        own = tables()[language]
        titles = [own["common.line"], own["answer.yourAnswer"], own["answer.changedTo"]]
        rows = f"{';'.join(titles)}\n1;{own['rows.written.changed']};40\n"
        calls.append(("parts/answer_rows.js", "readAnswers", rows, [known]))
        pallet = [own["common.order"], own["common.line"], own["despatchNote.quantity"], own["rows.pallet"][0]]
        calls.append(("despatch/pallet_rows.js", "readPalletRows", f"{';'.join(pallet)}\n7;1;5;1\n", [{"order": "7", "line": 1}], []))
    for call, it in zip(calls, by_node("call.mjs", calls)):
        right = [{"line": 1, "answer": "changed", "quantity": "40"}] if "answers" in it else [{"place": 0, "quantity": 5, "pallet": 1}]
        assert (it.get("answers", it.get("rows")), it["wrong"]) == (right, []), (call, it)
    return f"{len(calls)} files"


def fallback(_program):
    """A text that a table has not is the English one."""
    english = {"a": "one", "b": {"c": "two", "d": ["three"]}}
    [found] = by_node("call.mjs", [("language.js", "completed", english, {"b": {"d": ["trois"]}})])
    assert found == {"a": "one", "b": {"c": "two", "d": ["trois"]}}, found
    return "a table without two texts"


def harmless(browser, program):
    """The trial of hostile texts, in every language."""
    for language in LANGUAGES:
        begin = functools.partial(speak, browser, language=language)
        said = hostile_texts.hostile(Spoken(browser, language), program, hostile_texts.NUMBERS[:3], begin)
    return f"{said}, in {len(LANGUAGES)} languages"


ALONE = {"tables of words": alike, "texts outside": outside, "types": types, "rows in each": rows_in_all, "a missing text": fallback}
TRIALS = {"each screen in each": each_screen, "the choice of": choice, "no harm in": harmless}
