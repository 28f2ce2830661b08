"""The page's tables of words, and the tests' English words in another language of the page."""
import functools
import json
import os
import re
import subprocess

HERE = os.path.dirname(os.path.abspath(__file__))
LANGUAGES = ("de", "fr", "nl")
THOUSANDS = {"en": ",", "de": ".", "fr": "\u202f", "nl": "."}
MONTHS = {"de": "Juni", "fr": "juin", "nl": "juni"}
FIGURE = r"(\d[\d,]*)"


@functools.cache
def tables():
    """Of each language the texts by their names."""
    ran = subprocess.run(["node", os.path.join(HERE, "tables.mjs")], stdout=subprocess.PIPE, text=True, check=True)
    return json.loads(ran.stdout)


def figure(number, language):
    return f"{number:,}".replace(",", THOUSANDS[language])


def parts(said, words, language):
    """What a function said, split at its words: literal texts, and between them `(place, is_figure)`."""
    found = [it for it in words if isinstance(it, int) and it > 1000]
    marks = {figure(it, language): (words.index(it), True) for it in found} | {str(it): (words.index(it), False) for it in found}
    if not marks:
        return [said]
    pieces = re.split("(" + "|".join(map(re.escape, marks)) + ")", said)
    return [marks.get(it, it) for it in pieces]


@functools.cache
def patterns(language):
    """Each English text that has parts, as a pattern, with its parts in the other language."""
    found = []
    for name, english in tables()["en"].items():
        if not isinstance(english, dict):
            continue
        for one, other in zip(english["variants"], tables()[language][name]["variants"]):
            pieces = parts(one["said"], one["words"], "en")
            groups = [it for it in pieces if isinstance(it, tuple)]
            pattern = "".join(re.escape(it) if isinstance(it, str) else FIGURE if it[1] else "(.+?)" for it in pieces)
            found.append((re.compile(pattern, re.DOTALL), [it[0] for it in groups], parts(other["said"], other["words"], language)))
    return found


def filled(pieces, given, language):
    """Parts of a text in another language, with what an English text has in their places."""
    said = ""
    for it in pieces:
        if isinstance(it, str):
            said += it
        elif it[0] not in given:
            return None
        else:
            said += of_word(given[it[0]], it[1], language)
    return said


def of_word(text, is_figure, language):
    """A number or a text of the page that is filled into another."""
    number = text.replace(",", "")
    if is_figure and number.isdigit():
        return figure(int(number), language)
    own = tables()[language]
    return next((own[name] for name, it in tables()["en"].items() if it == text), text)


def whole(text, language):
    """What an English text of the page can be in another language."""
    own = tables()[language]
    found = [own[name] for name, it in tables()["en"].items() if it == text and isinstance(own[name], str)]
    for pattern, places, pieces in patterns(language):
        match = pattern.fullmatch(text)
        if match:
            found.append(filled(pieces, dict(zip(places, match.groups())), language))
    return [it for it in found if it]


def pieces_of(text):
    """What is between the numbers of a text, as far as it says something."""
    return [it for it in re.split(r"[\d,]+", text.strip(".")) if len(it) >= 6] or [text]


def literals(pattern):
    """What is always the same in an English text."""
    return re.split(r"\(.*?\)", re.sub(r"\\(.)", r"\1", pattern.pattern))


def longest(pieces):
    return max((it for it in pieces if isinstance(it, str)), key=len, default="").strip()


def part(text, language):
    """What a part of an English text can be: the whole text, or the longest part of it that is always the same."""
    own = tables()[language]
    found = [own[name] for name, it in tables()["en"].items() if isinstance(it, str) and text in it]
    for pattern, places, pieces in patterns(language):
        match = pattern.search(text)
        if match and len(match[0]) > len(text) / 2:
            found.append(filled(pieces, dict(zip(places, match.groups())), language))
        elif any(piece in it for it in literals(pattern) for piece in pieces_of(text)):
            found.append(longest(pieces))
    return [it for it in found if it]


class Spoken:
    """A browser for trials that are written in English words, while the page speaks another language."""

    def __init__(self, browser, language):
        self.browser, self.language = browser, language

    def __getattr__(self, name):
        return getattr(self.browser, name)

    def any_of(self, text):
        return [*whole(text, self.language), text]

    def press(self, text, kind="button"):
        self.browser.click(self.named(kind, text))

    def named(self, kind, text):
        return self.browser.named(kind, *self.any_of(text))

    def labelled(self, label, number=0):
        return self.browser.labelled(self.any_of(label), number)

    def until_says(self, text, selector="body"):
        texts = self.any_of(text)
        if len(texts) == 1:
            texts = [*part(text, self.language), text.replace("June", MONTHS[self.language])]
        self.browser.until_says(texts, selector)

    def run(self, script, *words):
        """A name of a control for who listens is a text of the page too."""
        return self.browser.run(script, *(self.any_of(it)[0] for it in words) if "aria-label" in script else words)
