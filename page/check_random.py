#!/usr/bin/env python3
"""Compares the readers in Python with the program on random scripts: page/check_random.py PROGRAM [--count N] [--seed S]

The scripts are those of cases/fuzz.py, a third of them spoilt, a third with words of other lines, and some with lines
for focus and pointers. It is checked that

  faults.py finds the fault that the program writes, line and kind, and says where;
  closes.py finds the reason of each close, and has more to say of it;
  the page's data have the report, byte for byte.

It prints how many texts were compared, and each that differs; the status is then 1.
"""
from __future__ import annotations

import argparse
import importlib.util
import os
import random
import subprocess
import sys
import tempfile
from collections import Counter
from typing import Any

from check_data import Wrong, check_page
from document import write_page
from faults import Fault, explain, find_fault
from page_data import PageData, page_json
from runs import FAULT, history_of
from word_texts import WordTexts

ROOT = os.path.dirname(os.path.dirname(os.path.abspath(__file__)))
SECONDS = 60
EXTRA = {"focus": ["A Focus B", "mail Focus shell", "z9 Focus z9", "A Focus", "display Focus A", "A Focus B C"],
         "pointer": ["display Down 0 5 5", "display Move 15 -1 +1", "display Up 16", "A Up 0", "display Down 0 5", "display Up 0 0"]}


def load_fuzz() -> Any:
    """cases/fuzz.py as a module."""
    spec = importlib.util.spec_from_file_location("fuzz", os.path.join(ROOT, "cases", "fuzz.py"))
    if spec is None or spec.loader is None:
        raise OSError("cases/fuzz.py isn't there")
    module = importlib.util.module_from_spec(spec)
    spec.loader.exec_module(module)
    return module


def with_other_words(rng: random.Random, lines: list[str]) -> list[str]:
    """Lines of which a few have a word of another line in place of their own."""
    changed = list(lines)
    for _ in range(rng.randint(1, 3)):
        place, other = rng.randrange(len(lines)), rng.choice(lines).split(" ")
        words = changed[place].split(" ")
        words[rng.randrange(len(words))] = rng.choice(other)
        changed[place] = " ".join(words)
    return changed


def make_text(fuzz: Any, rng: random.Random) -> tuple[str, bytes]:
    """A word and a text for it."""
    lines = fuzz.Maker(rng).script()
    word = rng.choice(["play", "play", "focus", "pointer"])
    if word != "play":
        run = lines.index("run") if "run" in lines else 0
        for _ in range(rng.randrange(3)):
            lines.insert(rng.randint(run + 1, len(lines)), rng.choice(EXTRA[word]))
    way = rng.randrange(3)
    if way == 0:
        lines = with_other_words(rng, lines)
    return word, fuzz.spoilt(rng, lines) if way == 1 else ("\n".join(lines) + "\n").encode("ascii")


def compare_fault(text: bytes, word: str, written: str) -> None:
    """The fault that the program wrote is the one that is found here."""
    match = FAULT.fullmatch(written)
    fault = Fault(int(match[1]), int(match[2])) if match is not None else None
    found = find_fault(text, word)
    if (found.fault if found is not None else None) != fault:
        raise Wrong("the program says %s, and faults.py %s" % (fault, found))
    if found is not None and explain(text, word, found.fault) != found.finding:
        raise Wrong("the fault is explained otherwise from its line alone")


def compare_report(text: bytes, report: str, room: str) -> Counter[str]:
    """The page of a report has it, and its closes are explained. Gives the errors of the closes."""
    path, out = os.path.join(room, "report"), os.path.join(room, "page.html")
    with open(path, "w", encoding="ascii") as f:
        f.write(report)
    history = history_of(text, path)
    for close in history.closes:
        if close.error and not close.facts:
            raise Wrong("nothing is said of the close at line %d: %s" % (close.line, close.words))
    write_page(out, "random", page_json("random", "play", text, PageData(history, WordTexts(), False).as_json(), None), history.items.groups)
    check_page(out, report, None)
    return Counter(close.error[-1] for close in history.closes if close.error)


def compare(program: str, word: str, text: bytes) -> Counter[str]:
    """Compares what the program writes of a text."""
    done = subprocess.run([program, word], input=text, capture_output=True, timeout=SECONDS)
    written = done.stdout.decode("ascii")
    if done.returncode not in (0, 3):
        raise Wrong("the program ends with %d" % done.returncode)
    compare_fault(text, word, written if done.returncode == 3 else "")
    if done.returncode == 3:
        return Counter(["kind " + written.split()[-1]])
    with tempfile.TemporaryDirectory() as room:
        return compare_report(text, written, room) if word == "play" else Counter()


def main() -> int:
    arguments = argparse.ArgumentParser(description=__doc__, formatter_class=argparse.RawDescriptionHelpFormatter)
    arguments.add_argument("program")
    arguments.add_argument("--count", type=int, default=100)
    arguments.add_argument("--seed", type=int, default=1)
    given = arguments.parse_args()
    fuzz, wrong, seen = load_fuzz(), 0, Counter[str]()
    for seed in range(given.seed, given.seed + given.count):
        word, text = make_text(fuzz, random.Random(seed))
        try:
            seen += compare(os.path.abspath(given.program), word, text)
        except (Wrong, ValueError, LookupError, OSError) as differs:
            wrong += 1
            print("seed %d, %s: %s: %s" % (seed, word, type(differs).__name__, differs), flush=True)
    print("%d texts, %d differ; among them %s" % (given.count, wrong, ", ".join("%d %s" % (count, what) for what, count in sorted(seen.items()))))
    return 1 if wrong else 0


if __name__ == "__main__":
    sys.exit(main())
