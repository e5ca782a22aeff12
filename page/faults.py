"""The fault of a text that is no script, in words: its line and kind, the word and its column, and what may stand there.

The program says the line and the kind. This module finds the word by the same rules (docs/SCRIPT.md); page/check.py compares the
two readers on the worked cases and on random texts.
"""
from __future__ import annotations

from typing import Any, NamedTuple

from body_lines import read_extra
from grammar import HEAD_LINES
from line_reader import Finding, LineReader
from reasons import FAULT_KINDS
from script import FOCUS_CALLS, LINE_BYTES_MOST, POINTER_CALLS, extra_numbers, is_plain, lines_of, without_lines
from script_reader import BODY, ScriptReader

TEXT_BYTES_MOST = 16 * 1024 * 1024
EXTRA_CALLS = {"focus": FOCUS_CALLS, "pointer": POINTER_CALLS}
TOO_LONG, NOT_ASCII, LONG_LINE = 1, 2, 3
BYTE_NAMES = {9: "a tab", 13: "a carriage return", 0: "a NUL", 127: "a DEL"}


class Fault(NamedTuple):
    """A line, 0 for the whole text, and a kind, as the program writes them."""
    line: int
    kind: int


class FoundFault(NamedTuple):
    """A fault, and what is to be said of it."""
    fault: Fault
    finding: Finding


def find_fault(text: bytes, word: str, at: Fault | None = None) -> FoundFault | None:
    """The fault of a text, as the given word of the program reads it; None if it has none. If it is known at which line the
    fault is, the lines before it aren't tested."""
    if len(text) > TEXT_BYTES_MOST:
        return found(0, Finding(TOO_LONG, 0, 0, "the text has {:,} bytes, and {:,} are allowed".format(len(text), TEXT_BYTES_MOST)))
    extra = extra_numbers(text, EXTRA_CALLS[word]) if word in EXTRA_CALLS else []
    reader = ScriptReader(later_names(text))
    known = at.line if at is not None and at.line not in extra else 0
    fault = find_in_script(reader, lines_of(without_lines(text, extra)), known)
    return fault if fault is not None else find_in_extra(reader, lines_of(text), extra)


def found(line: int, finding: Finding) -> FoundFault:
    """A finding at a line."""
    return FoundFault(Fault(line, finding.kind), finding)


def later_names(text: bytes) -> dict[str, int]:
    """The lines of the head that declare names, by name. What is declared above a line is known there in any case."""
    later: dict[str, int] = {}
    for number, line in enumerate(lines_of(text), 1):
        words = line[:LINE_BYTES_MOST].decode("latin-1").split(" ")
        if words[0] == "run":
            break
        if words[0] in HEAD_LINES and words[0] != "display" and len(words) > 1:
            later.setdefault(words[1], number)
    return later


def find_in_script(reader: ScriptReader, lines: list[bytes], known: int) -> FoundFault | None:
    """The fault of the lines of a script. Those before line `known` have none."""
    for number, line in enumerate(lines, 1):
        is_tested = number >= known
        finding = find_in_bytes(line) if is_tested else None
        if finding is None and line and not line.startswith(b"#"):
            words = line.decode("ascii")
            finding = reader.read(words) if is_tested else None
            if finding is None:
                reader.note(number, words)
        if finding is not None:
            return found(number, finding)
    finding = reader.read_end()
    return found(len(lines) + 1, finding) if finding is not None else None


def find_in_bytes(line: bytes) -> Finding | None:
    """A fault that also a remark can have: a byte that isn't plain, or too many bytes."""
    if not is_plain(line):
        column = next(place for place, byte in enumerate(line, 1) if not 32 <= byte <= 126)
        return Finding(NOT_ASCII, column, 1, byte_problem(line, column), ["a line has bytes from 32 to 126 alone, also in a remark"])
    if len(line) > LINE_BYTES_MOST:
        return Finding(LONG_LINE, LINE_BYTES_MOST + 1, 1, "the line has {:,} bytes, and {:,} are allowed".format(len(line), LINE_BYTES_MOST))
    return None


def byte_problem(line: bytes, column: int) -> str:
    """What stands at a column that isn't plain."""
    byte = line[column - 1]
    if byte == 13 and column == len(line):
        return "the line ends with a carriage return: lines end with a line feed alone"
    if byte in BYTE_NAMES:
        return "%s (byte %d) stands here" % (BYTE_NAMES[byte], byte)
    for length in (2, 3, 4):
        try:
            letter = line[column - 1:column - 1 + length].decode("utf-8")
        except UnicodeDecodeError:
            continue
        if len(letter) == 1 and letter.isprintable():
            return "`%s` isn't ASCII" % letter
    return "byte %d stands here" % byte


def find_in_extra(reader: ScriptReader, lines: list[bytes], extra: list[int]) -> FoundFault | None:
    """The first fault of the extra lines, which stand behind `run`."""
    for before, number in enumerate(extra):
        line = LineReader(lines[number - 1].decode("ascii"), reader.scope.names, {})
        read_extra(line, reader.scope, before)
        finding = line.lowest()
        if finding is not None and reader.part == BODY:
            return found(number, finding)
    return None


def explain(text: bytes, word: str, fault: Fault) -> Finding:
    """What is to be said of a fault that the program wrote."""
    ours = find_fault(text, word, fault)
    if ours is not None and ours.fault == fault:
        return ours.finding
    return Finding(fault.kind, 0, 0, FAULT_KINDS[fault.kind].sentence)


def fault_json(text: bytes, word: str, fault: Fault) -> dict[str, Any]:
    """A fault as the page has it."""
    finding = explain(text, word, fault)
    return {"line": fault.line, "kind": fault.kind, "name": FAULT_KINDS[fault.kind].name, "column": finding.column,
            "length": finding.length, "sentence": finding.sentence, "hints": finding.hints}
