"""Tries what race_texts.py finds from a report: focus and pointers on recorded reports, damage on a few items."""
from __future__ import annotations

import os

from frames import ItemGroups
from history import History
from race_texts import race_texts, with_hits
from report import records
from script import FOCUS_CALLS, POINTER_CALLS, Script, extra_numbers, lines_of, without_lines
from word_texts import WordTexts

CASES = os.path.join(os.path.dirname(os.path.dirname(os.path.abspath(__file__))), "cases")


def read_case(case: str, name: str) -> bytes:
    """A file of a case."""
    with open(os.path.join(CASES, case, name), "rb") as f:
        return f.read()


def read_history(text: bytes, case: str, downs: frozenset[int]) -> History:
    """The history of a case's report, with points in place of Downs."""
    script = Script.read(text)
    report = read_case(case, "stdout").decode("ascii").splitlines(keepends=True)
    return History(script, downs, True).read(records(report, script.probes))


def check_focus() -> list[str]:
    """The focus text of a case, found from the report of the same script without its lines for focus."""
    text, wanted = read_case("focus_goes_down_and_not_across", "stdin"), WordTexts()
    wanted.read_focus(read_case("focus_goes_down_and_not_across", "stdout").decode("ascii").splitlines())
    numbers = extra_numbers(text, FOCUS_CALLS)
    found = race_texts(text, read_history(without_lines(text, numbers), "shell_with_two_apps", frozenset()), numbers, [])
    if (found.chains, found.answers) != (wanted.chains, wanted.answers):
        return ["the focus found from a report is %s %s, not %s %s" % (found.chains, found.answers, wanted.chains, wanted.answers)]
    return []


def check_pointers() -> list[str]:
    """A case that asks two points, with two Downs and more lines in place of the last ones."""
    case = "hits_stop_at_the_viewport_edge"
    asked = lines_of(read_case(case, "stdin"))
    points = [number for number, line in enumerate(asked, 1) if line.startswith(b"display hit ")]
    for pointer, number in enumerate(points):
        asked[number - 1] = asked[number - 1].replace(b"hit", b"Down %d" % pointer)
    asked += [b"display Down 1 0 0", b"display Move 0 7 -7", b"display Up 1", b"display Move 1 0 0"]
    text = b"\n".join(asked) + b"\n"
    numbers = extra_numbers(text, POINTER_CALLS)
    plain, downs = with_hits(lines_of(text), numbers)
    # the report answers the two points; the third Down is one more
    history = read_history(plain, case, downs)
    found = [answer.words for answer in race_texts(text, history, [], numbers).answers]
    wanted = ["pointer 0 down B", "pointer 1 down A", "pointer 1 busy", "pointer 0 move B 7 -7", "pointer 1 up A", "pointer 1 nobody"]
    return [] if found == wanted else ["the pointers found from a report are %s, not %s" % (found, wanted)]


def item(x: int, count: int = 1) -> list[str]:
    """Lines of items that stand beside each other."""
    return ["item A 1 fill 0 0 0 0 1 1 m 0 1 1 0 0 v %d 0 %d 1 o 65536 src\n" % (x + i, x + i + 1) for i in range(count)]


def check_damage() -> list[str]:
    """The damage of frames by their items: what is new, what moved between others, nothing, and too many rectangles."""
    groups = ItemGroups(lambda line: "[]", True)
    for lines in (item(0) + item(5) + item(9), item(0) + item(6) + item(9), item(0) + item(6) + item(9), item(20, 17)):
        groups.add(lines)
    wanted = [[[0, 0, 1, 1], [5, 0, 6, 1], [9, 0, 10, 1]], [[5, 0, 6, 1], [6, 0, 7, 1]], [], [[0, 0, 37, 1]]]
    return [] if groups.damage == wanted else ["the damage is %s, not %s" % (groups.damage, wanted)]


def check_races() -> list[str]:
    """What is wrong with what is found from reports."""
    return check_focus() + check_pointers() + check_damage()
