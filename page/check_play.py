#!/usr/bin/env python3
"""Tries the script `play`: its statuses, its help, what it says of faults and closes, and (check_play_files) names and
streams that are odd. page/check_play.py PLAY

It prints what is wrong, and the status is then 1.
"""
from __future__ import annotations

import os
import subprocess
import sys
import tempfile
from typing import NamedTuple

from check_play_files import FILE_USES, check_files

ROOT = os.path.dirname(os.path.dirname(os.path.abspath(__file__)))
SECONDS = 120
WORDS = ("play", "race", "render", "damage", "focus", "pointer", "why", "film")


class Row(NamedTuple):
    """The words after `play`, the status, and what standard output and standard error must have. A case stands for its
    text."""
    words: list[str]
    status: int
    output: str
    error: str


def case(name: str) -> str:
    """The text of a case."""
    return os.path.join(ROOT, "cases", name, "stdin")


def report(name: str) -> str:
    """The report of a case."""
    return os.path.join(ROOT, "cases", name, "stdout")


SHELL = case("shell_with_two_apps")
ROWS = [
    Row(["--help"], 0, "usage: ./play FILE", ""),
    *(Row(["--help"], 0, "\n           %s " % word, "") for word in WORDS),
    Row([], 64, "", "usage: ./play FILE"),
    Row(["fly", SHELL], 64, "", "usage: ./play FILE"),
    Row(["/nowhere"], 66, "", "/nowhere can't be read"),
    Row([SHELL], 0, "report ends entries 26 frames 3\n", ""),
    Row(["damage", SHELL], 0, "damage ends frames 3\n", ""),
    Row(["stress", "3"], 0, "stress 3 sessions", ""),
    Row(["stress", "03"], 2, "usage: flatland", ""),
    Row([case("fault_bad_number")], 3, "script line 9 kind 7\n", "line 9, column 20: `x` is no number"),
    Row(["focus", case("fault_focus_on_no_session")], 3, "script line 6 kind 9\n", "no session is called `Z`"),
    Row(["render", case("picture_too_large")], 7, "picture too large", ""),
    Row(["film", case("film_of_too_many_pixels")], 7, "picture too large", ""),
    Row(["judge", SHELL, report("shell_with_two_apps")], 0, "legal entries 26 frames 3\n", ""),
    Row(["judge", SHELL, report("one_fill_one_frame")], 8, "wrong line 2\nwant ", ""),
    Row(["judge", SHELL], 64, "", "usage: ./play FILE"),
    Row(["judge", SHELL, "/nowhere"], 66, "", "/nowhere can't be read"),
    Row(["judge", case("fault_bad_number"), report("one_fill_one_frame")], 3, "script line 9 kind 7\n", "`x` is no number"),
    Row(["--explain", case("misuse_b17_cycle")], 0, "the path from the root is 1 › 1", ""),
    Row(["--explain", "race", case("misuse_b17_cycle")], 0, "B17 Cycle", ""),
    Row(["--explain", case("fault_bad_number")], 3, "`x` is no number", ""),
    Row(["--explain", SHELL], 0, "no session was closed", ""),
]


def run(play: str, words: list[str], to: int = subprocess.PIPE) -> subprocess.CompletedProcess[bytes]:
    """Runs `play`."""
    return subprocess.run([play, *words], stdout=to, stderr=subprocess.PIPE, timeout=SECONDS)


def check_row(play: str, row: Row) -> str | None:
    """None if a row holds, else what is wrong."""
    done = run(play, row.words)
    output, error = done.stdout.decode(), done.stderr.decode()
    if done.returncode != row.status:
        return "status %d, not %d: %s" % (done.returncode, row.status, error[-200:])
    if row.output not in output or row.error not in error:
        return "%r and %r aren't in %r and %r" % (row.output, row.error, output[-200:], error[-200:])
    return "standard error isn't empty: %s" % error[-200:] if error and not row.error else None


def begins_with(path: str, begins: bytes) -> bool:
    """Whether there is such a file, and begins with these bytes."""
    if not os.path.exists(path):
        return False
    with open(path, "rb") as f:
        return f.read(len(begins)) == begins


def check_others(play: str) -> list[str]:
    """What needs more than a row: a full device, a text from a pipe, a page and a picture."""
    wrong = []
    with open("/dev/full", "wb") as full:
        done = run(play, [SHELL], full.fileno())
    if (done.returncode, done.stderr) != (5, b""):
        wrong.append("a full device gives status %d: %s" % (done.returncode, done.stderr.decode()))
    piped = subprocess.run(["bash", "-c", '"$0" <(cat "$1")', play, case("fault_bad_number")], capture_output=True, timeout=SECONDS)
    if piped.returncode != 3 or b"`x` is no number" not in piped.stderr:
        wrong.append("a fault in a text from a pipe gives status %d: %s" % (piped.returncode, piped.stderr.decode()))
    with tempfile.TemporaryDirectory() as room:
        for option, name, begins in (("--page", "page.html", b"<!DOCTYPE html>"), ("--picture", "picture.png", b"\x89PNG"),
                                     ("--film", "film.png", b"\x89PNG")):
            path = os.path.join(room, name)
            done = run(play, [option, path, SHELL])
            if done.returncode != 0 or not begins_with(path, begins):
                wrong.append("%s gives status %d: %s" % (option, done.returncode, done.stderr.decode()))
    return wrong


def main() -> int:
    if len(sys.argv) != 2 or sys.argv[1] == "--help":
        sys.exit(__doc__)
    play = os.path.abspath(sys.argv[1])
    wrong = ["%s: %s" % (" ".join(row.words), what) for row in ROWS if (what := check_row(play, row)) is not None]
    wrong += check_others(play)
    wrong += check_files(play)
    print("\n".join([*wrong, "play: %d uses, %d wrong" % (len(ROWS) + 5 + FILE_USES, len(wrong))]))
    return 1 if wrong else 0


if __name__ == "__main__":
    sys.exit(main())
