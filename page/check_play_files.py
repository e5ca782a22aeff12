"""Tries the script `play` on files, names and streams that are odd: what it says of each stands in its usage.

`check_files` gives what is wrong. If ShellCheck is there, it must be content with `play` too.
"""
from __future__ import annotations

import os
import shutil
import socket
import subprocess
import tempfile
from typing import NamedTuple

ROOT = os.path.dirname(os.path.dirname(os.path.abspath(__file__)))
SECONDS = 120
SHELL = os.path.join(ROOT, "cases", "shell_with_two_apps", "stdin")
FAULTY = os.path.join(ROOT, "cases", "fault_bad_number", "stdin")
CLOSING = os.path.join(ROOT, "cases", "misuse_b17_cycle", "stdin")
NAMES = ("a b", "-x", "--help", "-", "play", "a\nb", " ", "*", "$HOME", "ü", "a'b\"c")
# what `play` needs beside the program, without python3
TOOLS = ("bash", "cat", "dirname", "env", "find", "head", "mktemp", "rm", "tail")
NOT_WRITTEN, BAD_USE, BAD_FILE, NO_PROGRAM = 5, 64, 66, 69


class Use(NamedTuple):
    """A command of bash, run where the odd files are; its status, and what its two streams must have. $P is `play`."""
    command: str
    status: int
    output: str = ""
    error: str = ""


END = "report ends entries 26 frames 3\n"
USES = (
    Use('"$P" play pipe', 0, END),
    Use('"$P" pipe', 0, END),
    Use('"$P" faulty_pipe', 3, "script line 9 kind 7\n", "`x` is no number"),
    Use('"$P" --explain faulty_pipe', 3, "`x` is no number"),
    Use('"$P" --explain closing_pipe', 0, "the path from the root"),
    Use('"$P" --page page.html pipe && head -c 15 page.html', 0, "<!DOCTYPE html>"),
    Use('"$P" --picture picture.png pipe && head -c 4 picture.png', 0, "PNG"),
    Use('"$P" --page page.html --watch pipe', BAD_FILE, "", "can't be watched"),
    Use('"$P" /dev/zero', 3, "script line 0 kind 1\n", "16,777,216 are allowed"),
    Use('"$P" /dev/null', 3, "script line 1 kind 4\n", ""),
    Use('"$P" folder', BAD_FILE, "", "folder can't be read"),
    Use('"$P" --page page.html folder', BAD_FILE, "", "folder can't be read"),
    Use('"$P" socket', BAD_FILE, "", "socket can't be read"),
    Use('"$P" ""', BAD_FILE, "", "can't be read"),
    Use('"$P" -x', BAD_USE, "", "usage: ./play FILE"),
    Use('"$P" --page -page.html shell && head -c 15 ./-page.html', 0, "<!DOCTYPE html>"),
    Use('"$P" --picture -picture.png shell && head -c 4 ./-picture.png', 0, "PNG"),
    *(Use('"$P" %s > /dev/full' % words, NOT_WRITTEN) for words in ("shell", "race shell", "--help", "--explain closing")),
    *(Use('"$P" %s >&-' % words, NOT_WRITTEN) for words in ("shell", "race shell", "--help", "--explain closing")),
    Use('"$P" --page full shell; status=$?; test -c full && exit $status', NOT_WRITTEN, "", "no page is written"),
    Use('"$P" --page folder shell', NOT_WRITTEN, "", "no page is written"),
    Use('"$P" --picture full shell', NOT_WRITTEN, "", "no picture is written"),
    Use('"$P" shell <&-', 0, END),
    Use('PATH="$PWD/tools" "$P" shell', 0, END),
    Use('PATH="$PWD/tools" "$P" faulty', 3, "script line 9 kind 7\n", "python3 is missing"),
    *(Use('PATH="$PWD/tools" "$P" %s shell' % words, NO_PROGRAM, "", "python3 is missing") for words in ("--explain", "--page p", "--picture p")),
    Use('TMPDIR=/nowhere "$P" shell', NO_PROGRAM, "", "no folder can be made"),
)
FILE_USES = len(USES) + 3 * len(NAMES) + 1


def run(command: str, room: str, play: str, name: str = "") -> subprocess.CompletedProcess[bytes]:
    """Runs a command of bash in a folder."""
    env = dict(os.environ, P=play, NAME=name)
    return subprocess.run(["bash", "-c", command], cwd=room, env=env, capture_output=True, timeout=SECONDS)


def make_room(room: str) -> None:
    """The files that the uses name, and the tools without python3."""
    for name, source in (("shell", SHELL), ("faulty", FAULTY), ("closing", CLOSING)):
        shutil.copy(source, os.path.join(room, name))
    for name in ("pipe", "faulty_pipe", "closing_pipe"):
        os.mkfifo(os.path.join(room, name))
    # by a link, so that a fault here can't harm the device
    os.symlink("/dev/full", os.path.join(room, "full"))
    for folder in ("folder", "tools"):
        os.mkdir(os.path.join(room, folder))
    for tool in TOOLS:
        found = shutil.which(tool)
        if found is not None:
            os.symlink(found, os.path.join(room, "tools", tool))
    with socket.socket(socket.AF_UNIX) as it:
        it.bind(os.path.join(room, "socket"))


def feeders(command: str, room: str) -> list[subprocess.Popen[bytes]]:
    """Who writes into the pipe that a command reads."""
    sources = {"faulty_pipe": "faulty", "closing_pipe": "closing", "pipe": "shell"}
    return [subprocess.Popen(["bash", "-c", 'cat "$1" > "$0" || true', pipe, source], cwd=room)
            for pipe, source in sources.items() if (" " + pipe) in command and "--watch" not in command]


def check_use(use: Use, room: str, play: str) -> str | None:
    """None if a use holds, else what is wrong."""
    writing = feeders(use.command, room)
    try:
        done = run(use.command, room, play)
    except subprocess.TimeoutExpired:
        return "%s: no end" % use.command
    finally:
        for it in writing:
            it.kill()
            it.wait()
    output, error = done.stdout.decode("utf-8", "replace"), done.stderr.decode("utf-8", "replace")
    if done.returncode == use.status and use.output in output and use.error in error and "Traceback" not in error:
        return None
    return "%s: status %d with %r and %r" % (use.command, done.returncode, output[-200:], error[-200:])


def check_name(name: str, room: str, play: str) -> list[str]:
    """A script with an odd name is played, explained and shown as any other."""
    with open(SHELL, "rb") as source, open(os.path.join(room, name), "wb") as f:
        f.write(source.read())
    wrong = []
    for command, output in (('"$P" play "$NAME"', END.encode()), ('"$P" --explain "./$NAME"', b"no session was closed\n"),
                            ('"$P" --page page.html "$NAME" && head -c 15 page.html', b"<!DOCTYPE html>")):
        done = run(command, room, play, name)
        if done.returncode != 0 or not done.stdout.endswith(output) or done.stderr:
            wrong.append("%s of %r: status %d with %r" % (command, name, done.returncode, done.stderr[-200:]))
    return wrong


def check_shell(play: str) -> list[str]:
    """What ShellCheck says of `play`, where it is there."""
    if shutil.which("shellcheck") is None:
        return []
    said = subprocess.run(["shellcheck", play], capture_output=True, text=True).stdout
    return [said] if said else []


def check_files(play: str) -> list[str]:
    """What is wrong with any use, name or line."""
    wrong = check_shell(play)
    with tempfile.TemporaryDirectory() as room:
        make_room(room)
        wrong += [what for use in USES if (what := check_use(use, room, play)) is not None]
    for name in NAMES:
        with tempfile.TemporaryDirectory() as room:
            wrong += check_name(name, room, play)
    return wrong
