#!/usr/bin/env python3
"""Says in words what is wrong with a script, or why a run closed its sessions.

page/explain.py fault WORD FILE [LINE]   the fault of a text that the program refused for WORD; LINE is what the program
                                         wrote, such as `script line 9 kind 7`
page/explain.py closes PLAY WORD FILE    runs WORD, play or race, by PLAY (`./play`), and explains each close; the status
                                         is the run's

The status is 5 if standard output can't be written, and 66 if the file can't be read.
"""
from __future__ import annotations

import io
import os
import sys
import tempfile

from faults import Fault, explain, find_fault
from history import History
from line_reader import Finding
from reasons import FAULT_KINDS
from runs import ALL_EXTRA, FAULT, NOT_READ, NOT_WRITTEN, REFUSED, Runs, history_of
from script import extra_numbers, lines_of, without_lines

EXCERPT = 100  # how much of a long line is shown
SHOWN = bytes(byte if 32 <= byte <= 126 else ord("?") for byte in range(256))


def excerpt(line: str, column: int, length: int) -> tuple[str, int]:
    """The part of a line around a column, and where the caret stands below it."""
    first = max(0, min(column - 1 - EXCERPT // 2, len(line) - EXCERPT))
    shown = line[first:first + EXCERPT]
    before, behind = "…" if first else "", "…" if first + EXCERPT < len(line) else ""
    return before + shown + behind, len(before) + max(0, column - 1 - first)


def shown_bytes(line: bytes) -> str:
    """A line with one character for each byte."""
    return line.translate(SHOWN).decode("ascii")


def fault_lines(text: bytes, fault: Fault, finding: Finding) -> list[str]:
    """A fault as lines: where and what, the line with a caret below the word, and what may stand there."""
    column = ", column %d" % finding.column if finding.column else ""
    where = "line %d%s: " % (fault.line, column) if fault.line else ""
    said = ["%s%s (kind %d, %s)" % (where, finding.sentence, fault.kind, FAULT_KINDS[fault.kind].name)]
    lines = lines_of(text)
    if 1 <= fault.line <= len(lines):
        shown, caret = excerpt(shown_bytes(lines[fault.line - 1]), finding.column, finding.length)
        number = str(fault.line)
        said.append("  %s | %s" % (number, shown))
        if finding.column:
            length = max(1, min(finding.length, len(shown) - caret))
            said.append("  %s | %s%s" % (" " * len(number), " " * caret, "^" * length))
    return said + ["  " + hint for hint in finding.hints]


def explain_fault(word: str, path: str, written: str) -> int:
    """Prints the fault of a text; if the program's line isn't given, the fault is found here."""
    with open(path, "rb") as f:
        text = f.read()
    match = FAULT.match(written)
    found = None if match else find_fault(text, word)
    if match is not None:
        fault = Fault(int(match[1]), int(match[2]))
        print("\n".join(fault_lines(text, fault, explain(text, word, fault))))
    elif found is not None:
        print("\n".join(fault_lines(text, found.fault, found.finding)))
    return 0


def close_lines(history: History) -> list[str]:
    """Each close: its line, its error, and what explains it."""
    said = []
    for close in history.closes:
        name = history.script.actors[close.actor]
        line = history.script.lines[close.line - 1]
        said.append("line %d: %s" % (close.line, excerpt(line, 1, 1)[0]))
        said.append("  closes %s: %s" % (name, close.words))
        said += ["  " + fact for fact in close.facts]
    return said or ["no session was closed"]


def explain_closes_of(play: str, word: str, path: str) -> int:
    """Runs a text without its extra lines, and prints why it closed sessions, or its fault."""
    with open(path, "rb") as f:
        text = f.read()
    plain = without_lines(text, extra_numbers(text, ALL_EXTRA))
    with tempfile.TemporaryDirectory() as room:
        status, report = Runs(play, room).run(word, plain)
        if status == 0:
            print("\n".join(close_lines(history_of(plain, report))))
        elif status == REFUSED:
            with open(report, encoding="ascii") as f:
                explain_fault(word, path, f.read())
    return status


def said() -> int:
    """What the words after the script's name call for."""
    match sys.argv[1:]:
        case ["fault", word, path]:
            return explain_fault(word, path, "")
        case ["fault", word, path, line]:
            return explain_fault(word, path, line)
        case ["closes", play, ("play" | "race") as word, path]:
            return explain_closes_of(play, word, path)
    sys.exit(__doc__)


def main() -> int:
    if not isinstance(sys.stdout, io.TextIOWrapper):
        return NOT_WRITTEN
    sys.stdout.reconfigure(encoding="utf-8")
    try:
        status = said()
        sys.stdout.flush()
        return status
    except OSError as wrong:
        if wrong.filename is not None:
            print(wrong, file=sys.stderr)
            return NOT_READ
        # so that Python doesn't write again when it ends
        os.dup2(os.open(os.devnull, os.O_WRONLY), sys.stdout.fileno())
        return NOT_WRITTEN


if __name__ == "__main__":
    sys.exit(main())
