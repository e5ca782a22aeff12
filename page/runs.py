"""Runs the program's words on a text, and puts together what a page shows of them."""
from __future__ import annotations

import os
import re
import subprocess
from typing import NamedTuple

from closes import explain_closes
from faults import Fault, fault_json
from history import History
from page_data import JSON, PageData
from race_texts import race_texts, with_hits
from report import records
from script import FOCUS_CALLS, POINTER_CALLS, Script, extra_numbers, lines_of, without_lines
from word_texts import WordTexts

FAULT = re.compile(r"script line (\d+) kind (\d+)\n?")
FAULT_MOST = 64  # more bytes than a fault's line has
REFUSED = 3
NOT_WRITTEN = 5
NOT_READ = 66
ALL_EXTRA = FOCUS_CALLS | POINTER_CALLS


class PageContent(NamedTuple):
    """What a page shows: the status of the run, its data or None, the packed draw items, and a fault or None."""
    status: int
    run: JSON | None
    groups: list[str]
    fault: JSON | None


class Runs:
    """The runs of a text, each with its own file for what it writes."""

    def __init__(self, play: str, room: str) -> None:
        self.play = play
        self.room = room

    def run(self, word: str, text: bytes) -> tuple[int, str]:
        """Runs a word on a text: the status, and the file with what was written."""
        script, out = os.path.join(self.room, "script"), os.path.join(self.room, word)
        with open(script, "wb") as f:
            f.write(text)
        with open(out, "wb") as f:
            return subprocess.run([self.play, word, script], stdout=f, stderr=subprocess.DEVNULL).returncode, out

    def has(self, word: str) -> bool:
        """Whether the program has a word: the usage of PLAY has a line for each."""
        usage = subprocess.run([self.play, "--help"], capture_output=True, text=True).stdout
        return re.search(r"^ +%s " % word, usage, re.MULTILINE) is not None


class Recorded:
    """A report that was written before, and perhaps the text of `why` beside it."""

    def __init__(self, report: str, why: str | None) -> None:
        self._paths = {"play": report, "race": report} | ({"why": why} if why is not None else {})

    def run(self, word: str, text: bytes) -> tuple[int, str]:
        """The status that the run of a word had, and the file."""
        path = self._paths[word]
        with open(path, encoding="latin-1") as f:
            return REFUSED if FAULT.fullmatch(f.read(FAULT_MOST)) else 0, path

    def has(self, word: str) -> bool:
        """Whether there is such a text."""
        return word in self._paths


def history_of(text: bytes, report_path: str, downs: frozenset[int] = frozenset(), finds_damage: bool = False) -> History:
    """Reads a script without extra lines and its report, and explains the closes."""
    script = Script.read(text)
    with open(report_path, encoding="ascii") as lines:
        history = History(script, downs, finds_damage).read(records(lines, script.probes))
    explain_closes(history)
    return history


def read_fault(path: str, text: bytes, word: str) -> JSON:
    """The fault that the program wrote of a text for a word."""
    with open(path, encoding="ascii") as f:
        found = FAULT.fullmatch(f.read())
    if found is None:
        raise ValueError("the program refused the text without a fault")
    return fault_json(text, word, Fault(int(found[1]), int(found[2])))


def refused(path: str, text: bytes, word: str, run: JSON | None = None, groups: list[str] | None = None) -> PageContent:
    """The page of a text with a fault, and with what was run of it."""
    return PageContent(REFUSED, run, groups or [], read_fault(path, text, word))


def content_of_run(runs: Runs | Recorded, word: str, text: bytes) -> PageContent | int:
    """What a page shows of a text, or the status of a run that leaves nothing to show."""
    return content_of_race(runs, text) if word == "race" else content_of_play(runs, text)


def content_of_play(runs: Runs | Recorded, text: bytes) -> PageContent | int:
    """What a page shows of a play."""
    plain = without_lines(text, extra_numbers(text, ALL_EXTRA))
    status, path = runs.run("play", plain)
    if status != 0:
        return refused(path, plain, "play") if status == REFUSED else status
    history = history_of(plain, path)
    texts = WordTexts()
    status, word, given, path = read_words(runs, text, plain, texts)
    run = PageData(history, texts, False).as_json()
    if status != 0:
        return refused(path, given, word, run, history.items.groups) if status == REFUSED else status
    return PageContent(0, run, history.items.groups, None)


def read_words(runs: Runs | Recorded, text: bytes, plain: bytes, texts: WordTexts) -> tuple[int, str, bytes, str]:
    """Reads the texts of the words beside `play`. If one of them had a status other than 0, that status, the word, the
    text that it was given, and the file with what it wrote."""
    focus, pointer = extra_numbers(text, FOCUS_CALLS), extra_numbers(text, POINTER_CALLS)
    wanted = [("damage", plain, texts.read_damage, True),
              ("focus", without_lines(text, pointer), texts.read_focus, bool(focus)),
              ("pointer", without_lines(text, focus), texts.read_pointer, bool(pointer)),
              ("why", plain, texts.read_why, True)]
    for word, given, read, is_wanted in wanted:
        if is_wanted and runs.has(word):
            status, path = runs.run(word, given)
            if status != 0:
                return status, word, given, path
            with open(path, encoding="ascii") as lines:
                read(lines)
    return 0, "", plain, ""


def content_of_race(runs: Runs | Recorded, text: bytes) -> PageContent | int:
    """A race has no extra lines of its own. So the words that have them judge them first, in a play."""
    focus, pointer = extra_numbers(text, FOCUS_CALLS), extra_numbers(text, POINTER_CALLS)
    for word, given, numbers in [("focus", without_lines(text, pointer), focus), ("pointer", without_lines(text, focus), pointer)]:
        status, path = runs.run(word, given) if numbers and runs.has(word) else (0, "")
        if status != 0:
            return refused(path, given, word) if status == REFUSED else status
    plain = without_lines(text, focus)
    plain, downs = with_hits(lines_of(plain), pointer) if pointer else (plain, frozenset())
    status, path = runs.run("race", plain)
    if status != 0:
        return refused(path, plain, "race") if status == REFUSED else status
    history = history_of(plain, path, downs, True)
    texts = race_texts(text, history, focus, pointer)
    return PageContent(0, PageData(history, texts, True).as_json(), history.items.groups, None)
