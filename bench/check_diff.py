#!/usr/bin/env python3
"""Tries bench/diff on a recorded report and on changed copies of it: each change is found, or plays no part.

It prints what is wrong, and the status is then 1.
"""
from __future__ import annotations

import os
import re
import subprocess
import sys
import tempfile
from collections.abc import Callable

ROOT = os.path.dirname(os.path.dirname(os.path.abspath(__file__)))
REPORT = os.path.join(ROOT, "cases", "shell_with_two_apps", "stdout")


def with_ends_first(report: str) -> str:
    """The Ends of two sessions stand before the entry that was before them, as in a race."""
    lines = report.splitlines(keepends=True)
    ends = [line for line in lines if re.fullmatch(r"\w+ end \d+\n", line)]
    others = [line for line in lines if line not in ends]
    return "".join(others[:-1] + ends[::-1] + others[-1:])


# What is changed, how, the status of bench/diff, and what it has to print.
ROWS: list[tuple[str, Callable[[str], str], int, str]] = [
    ("nothing", lambda report: report, 0, "are the same"),
    ("numbers of lines", lambda report: re.sub(r"^(\w+) (\d+) ", r"\1 1\2 ", report, flags=re.MULTILINE), 0, "are the same"),
    ("places of Ends", with_ends_first, 0, "are the same"),
    ("a word of an entry", lambda report: report.replace("Present 1 credits 0", "Present 1 credits 1", 1), 1, "Present 1 credits 1"),
    ("an item", lambda report: report.replace("o 65536 src", "o 65535 src", 1), 1, "differ in what follows them"),
    ("an event", lambda report: report.replace("framepresented 1", "framepresented 2", 1), 1, "framepresented 2"),
    ("an End", lambda report: re.sub(r"^(\w+) end 0$", r"\1 end 7", report, count=1, flags=re.MULTILINE), 1, "end 7"),
    ("the last line", lambda report: re.sub(r"frames (\d+)\n$", r"frames 77\n", report), 1, "frames 77"),
    ("the title", lambda report: report.replace("report flatland", "rapport flatland", 1), 2, ""),
]


def main() -> int:
    with open(REPORT, encoding="ascii") as f:
        report = f.read()
    wrong = []
    with tempfile.TemporaryDirectory() as room:
        path = os.path.join(room, "report")
        for what, changed, status, part in ROWS:
            with open(path, "w", encoding="ascii") as f:
                f.write(changed(report))
            done = subprocess.run([os.path.join(ROOT, "bench", "diff"), REPORT, path], capture_output=True, text=True)
            if done.returncode != status or part not in done.stdout:
                wrong.append("%s changed: status %d, %s" % (what, done.returncode, done.stdout + done.stderr))
    print("\n".join([*wrong, "bench/diff: %d changes, %d wrong" % (len(ROWS), len(wrong))]))
    return 1 if wrong else 0


if __name__ == "__main__":
    sys.exit(main())
