#!/usr/bin/env python3
"""Checks the page, and the sentences of faults and closes: page/check.py [--play PLAY] [--browser] [CASE ..]

A page is made of each case that is played and has its whole report, from its text and that report. It is checked that

  the page is one well-formed document, and reads nothing from elsewhere;
  its data have the report: it is written again from them, byte for byte, so each frame has the items, views and points
    that it has there, and each entry and event stands in the lane of its actor;
  each line of the script has its fate: the head, an entry, a carried call, or unplayed;
  what the page adds agrees with the report: each answered get is found, a frame took as many presents as the events
    count, and a fence is signalled if a Wait on it saw that;
  HTML in a text or a name stays text.

Without names of cases, the tables of check_words.py are tried too, each kind of a fault and each reason of a close, and
what check_races.py says of races.

--play      PLAY is `./play` of this repository: each text of a case and page/example (the case `example`) goes through
            write.py, with what the other words write; and damage, focus and pointers found from reports, as for races,
            are compared with what the program's words write
--browser   the pages of cases with frames are opened in Chromium at their first and last frame; a page of 500 frames of
            2,000 items has to open and to step fast enough, and its canvas to look like its SVG. Chromium is installed by apt-get if it isn't there; without
            it, these checks are left out, and the last line says so

It prints how many pages are right, and what is wrong with each other one; the status is then 1.
"""
from __future__ import annotations

import argparse
import concurrent.futures
import glob
import os
import subprocess
import sys
import tempfile

from browser import Browser, find_chromium
from check_browser import check_hostile_in_browser, check_in_browser, check_large, check_uses, check_watch
from check_data import Wrong, blocks_of, check_groups, check_page, unpacked
from check_races import check_races
from check_words import check_words
from document import SCRIPTS, view_file, write_page
from faults import Fault, fault_json
from page_data import PageData, page_json
from race_texts import race_texts
from runs import ALL_EXTRA, FAULT, Runs, PageContent, history_of, read_words, content_of_run
from script import FOCUS_CALLS, POINTER_CALLS, extra_numbers, without_lines
from word_texts import WordTexts

ROOT = os.path.dirname(os.path.dirname(os.path.abspath(__file__)))
CASES = os.path.join(ROOT, "cases")
SECONDS = 120
SHELL = "shell_with_two_apps"  # the case whose page is used, and edited while it is open


def path_of(case: str, name: str) -> str:
    """A file of a case. The page's own example is a text alone."""
    return os.path.join(ROOT, "page", "example") if (case, name) == ("example", "stdin") else os.path.join(CASES, case, name)


def read(case: str, name: str) -> str | None:
    """A file of a case, None if it isn't there."""
    try:
        with open(path_of(case, name), encoding="latin-1", newline="") as f:
            return f.read()
    except FileNotFoundError:
        return None


def read_text(case: str) -> bytes:
    """The text of a case."""
    return (read(case, "stdin") or "").encode("latin-1")


def fault_of(case: str) -> Fault | None:
    """The fault that a case expects."""
    found = FAULT.fullmatch(read(case, "stdout") or "")
    return Fault(int(found[1]), int(found[2])) if found is not None else None


def make_recorded(case: str, path: str) -> tuple[str | None, Fault | None]:
    """Makes the page of a case from its recorded report or fault, and gives them back."""
    text, fault = read_text(case), fault_of(case)
    if fault is not None:
        write_page(path, case, page_json(case, "play", text, None, fault_json(text, "play", fault)), [])
        return None, fault
    history = history_of(without_lines(text, extra_numbers(text, ALL_EXTRA)), path_of(case, "stdout"))
    write_page(path, case, page_json(case, "play", text, PageData(history, WordTexts(), False).as_json(), None), history.items.groups)
    return read(case, "stdout"), None


def make_played(case: str, path: str, play: str) -> tuple[str | None, Fault | None]:
    """Makes the page of a case's text by write.py, and gives back what the case expects: its report or its fault."""
    done = subprocess.run([os.path.join(ROOT, "page", "write.py"), path, play, "play", path_of(case, "stdin")],
                          stderr=subprocess.PIPE, timeout=SECONDS)
    report, fault = read(case, "stdout"), fault_of(case)
    is_played = read(case, "words") == "play\n"
    if is_played and extra_numbers(read_text(case), ALL_EXTRA):
        report, fault = None, None  # a page takes extra lines, which the word `play` refuses
    if done.returncode != (3 if fault else 0):
        raise Wrong("write.py ends with %d: %s" % (done.returncode, done.stderr.decode()[-200:]))
    if fault is None:
        check_computed(case, play)
        check_raced(case, path, play)
    return (report if is_played and not fault else None), fault


def check_computed(case: str, play: str) -> None:
    """Compares what race_texts.py finds from the report of a play with what the program's words write of it."""
    text = read_text(case)
    focus, pointer = extra_numbers(text, FOCUS_CALLS), extra_numbers(text, POINTER_CALLS)
    if pointer:
        return  # a pointer's Down stands in the report of a race alone
    plain = without_lines(text, focus)
    with tempfile.TemporaryDirectory() as room:
        runs, written = Runs(play, room), WordTexts()
        _, report = runs.run("play", plain)
        if read_words(runs, text, plain, written)[0] != 0:
            raise Wrong("a word beside `play` fails")
        found = race_texts(text, history_of(plain, report, frozenset(), True), focus, pointer)
    for name in ("damage", "chains", "answers"):
        if getattr(found, name) != getattr(written, name):
            raise Wrong("%s found from the report differ: %.200r, not %.200r" % (name, getattr(found, name), getattr(written, name)))


def check_raced(case: str, path: str, play: str) -> None:
    """Makes the page of a race of a case's text beside that of its play, and checks it."""
    text = read_text(case)
    with tempfile.TemporaryDirectory() as room:
        content = content_of_run(Runs(play, room), "race", text)
    if not isinstance(content, PageContent) or content.status != 0:
        raise Wrong("a race has no page")
    write_page(path + ".race", case, page_json(case, "race", text, content.run, None), content.groups)
    check_page(path + ".race", None, None)


def check_case(case: str, play: str | None, browser: Browser | None) -> str | None:
    """None if the page of a case is right, else what is wrong."""
    with tempfile.TemporaryDirectory() as room:
        path = os.path.join(room, "page.html")
        try:
            report, fault = make_played(case, path, play) if play else make_recorded(case, path)
            main = check_page(path, report, fault)
            if browser is not None:
                check_in_browser(browser, path, main)
        except (Wrong, ValueError, LookupError, OSError) as wrong:
            return "%s: %s" % (type(wrong).__name__, wrong)
    return None


HOSTILE_NAME = "</title><script>alert(1)</script>"
HOSTILE = b"flatland 1\n</script><script>alert(1)</script> &lt; <!-- `<b>` \n"
HTML_CALLS = ("innerHTML", "outerHTML", "insertAdjacentHTML", "document.write", "eval(", "Function(")


def check_hostile(browser: Browser | None) -> str | None:
    """None if a text with HTML in it, and a name with some, stay a text and a name."""
    calls = [call for name in SCRIPTS for call in HTML_CALLS if call in view_file(name)]
    if calls:
        return "the page calls %s" % calls[0]
    with tempfile.TemporaryDirectory() as room:
        path = os.path.join(room, "page.html")
        fault = fault_json(HOSTILE, "play", Fault(2, 4))
        write_page(path, HOSTILE_NAME, page_json(HOSTILE_NAME, "play", HOSTILE, None, fault), [])
        try:
            main = unpacked(blocks_of(path)["main"])
            if browser is not None:
                check_hostile_in_browser(browser, path, HOSTILE_NAME)
        except (Wrong, ValueError, LookupError) as wrong:
            return "%s: %s" % (type(wrong).__name__, wrong)
        with open(path, encoding="utf-8") as f:
            is_plain = "<script>alert" not in f.read()
        is_kept = main["script"][1] == HOSTILE.decode("ascii").split("\n")[1]
        return None if is_kept and main["name"] == HOSTILE_NAME and is_plain else "a text or a name became something else"


def all_cases(is_played: bool) -> list[str]:
    """The cases with a text and an outcome for it: of recorded ones those that are played and have their whole report."""
    names = [os.path.basename(os.path.dirname(path)) for path in sorted(glob.glob(os.path.join(CASES, "*", "stdin")))]
    words = {"play\n", "damage\n", "focus\n", "pointer\n", "render\n", "race\n", "why\n"} if is_played else {"play\n"}
    whole = [name for name in names if read(name, "words") in words and (is_played or read(name, "stdout"))]
    return [name for name in whole if read(name, "status") in ("0\n", "3\n") and read(name, "until") is None]


def check_cases(cases: list[str], play: str | None, browser: Browser | None, jobs: int) -> bool:
    """Checks the pages of these cases, and prints what is wrong."""
    right = 0
    with concurrent.futures.ThreadPoolExecutor(jobs) as pool:
        for case, wrong in zip(cases, pool.map(lambda case: check_case(case, play, browser), cases)):
            right += wrong is None
            if wrong is not None:
                print("%s: %s" % (case, wrong), flush=True)
    print("%d pages, %d wrong" % (len(cases), len(cases) - right))
    return right == len(cases)


def check_all(given: argparse.Namespace, browser: Browser | None) -> bool:
    """Checks what is asked for, and prints what is wrong."""
    play = os.path.abspath(given.play) if given.play else None
    lines = [] if given.case else check_words() + check_races() + check_groups()
    hostile = check_hostile(browser)
    lines += ["a text with HTML: %s" % hostile] if hostile is not None else []
    print("".join(line + "\n" for line in lines), end="")
    cases = given.case or all_cases(play is not None) + (["example"] if play else [])
    is_right = check_cases(cases, play, browser, given.jobs) and not lines
    if browser is not None and not given.case:
        is_right = check_large(browser) and is_right
        with tempfile.TemporaryDirectory() as room:
            make_recorded(SHELL, os.path.join(room, "page.html"))
            used = check_uses(browser, os.path.join(room, "page.html"))
        watched = check_watch(browser, path_of(SHELL, "stdin"), path_of(SHELL, "stdout"))
        for what, wrong in (("a page that is used", used), ("a watched page", watched)):
            if wrong is not None:
                print("%s: %s" % (what, wrong))
                is_right = False
    return is_right


def main() -> int:
    arguments = argparse.ArgumentParser(description=__doc__, formatter_class=argparse.RawDescriptionHelpFormatter)
    arguments.add_argument("--play")
    arguments.add_argument("--browser", action="store_true")
    arguments.add_argument("--jobs", type=int, default=2)
    arguments.add_argument("case", nargs="*")
    given = arguments.parse_args()
    chromium = find_chromium() if given.browser else None
    if chromium:
        with Browser(chromium) as browser:
            is_right = check_all(given, browser)
    else:
        is_right = check_all(given, None)
    if given.browser and not chromium:
        print("the checks in a browser are left out: Chromium isn't there, and apt-get can't install it")
    return 0 if is_right else 1


if __name__ == "__main__":
    sys.exit(main())
