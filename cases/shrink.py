#!/usr/bin/env python3
"""Makes a script smaller that has a complaint, and keeps the complaint.

shrink.py PROGRAM SCRIPT [--complaint CMD] [--times N] [--out FILE]

The complaint is what fuzz.py says of the script, by all its checks, up to the first number. Or it is the status of CMD,
which the shell runs with the script on standard input, and which isn't 0: then PROGRAM isn't run, but stands in CMD as
$PROGRAM. Lines go as long as the complaint stays, many at a time first and one at a time last; then words at the ends of
lines. A complaint that comes only in some runs, as those of races may, is looked for N times (1).

The smaller script is written to FILE, or to standard output, and what it is about to standard error. The status is 1 if
SCRIPT has no complaint.
"""
import argparse
import os
import random
import re
import subprocess
import sys
from collections import Counter

sys.path.insert(0, os.path.dirname(os.path.abspath(__file__)))

from fuzz import check_text, opened

SECONDS = 120
PLAIN = re.compile(r"[A-Za-z_ :,;'-]*")


def said_by_fuzz(program):
    """The complaint of fuzz.py."""
    def complaint(text):
        why = check_text(opened(program), text, random.Random(0), Counter(), True)
        return None if why is None else PLAIN.match(why)[0]
    return complaint


def said_by_command(program, command):
    """The complaint of a command: its status."""
    def complaint(text):
        env = dict(os.environ, PROGRAM=program)
        done = subprocess.run(command, shell=True, input=text, env=env, stdout=subprocess.DEVNULL, stderr=subprocess.DEVNULL, timeout=SECONDS)
        return done.returncode or None
    return complaint


def without(parts, is_same):
    """What is left of these parts: as many go as keep `is_same`."""
    size = len(parts)
    while size > 1 and len(parts) > 1:
        size = (size + 1) // 2
        is_less = True
        while is_less:
            is_less = False
            at = 0
            while at < len(parts):
                fewer = parts[:at] + parts[at + size:]
                if is_same(fewer):
                    parts, is_less = fewer, size == 1
                else:
                    at += size
    return parts


def smaller(text, is_same):
    """A smaller text of which `is_same` is true too."""
    lines = without(text.split(b"\n"), lambda lines: is_same(b"\n".join(lines)))
    for k, line in enumerate(lines):
        words = line.split(b" ")
        while len(words) > 1 and is_same(b"\n".join(lines[:k] + [b" ".join(words[:-1])] + lines[k + 1:])):
            words.pop()
        lines[k] = b" ".join(words)
    whole = b"\n".join(lines)
    return whole + b"\n" if not whole.endswith(b"\n") and is_same(whole + b"\n") else whole


def main():
    parser = argparse.ArgumentParser(description=__doc__, formatter_class=argparse.RawDescriptionHelpFormatter)
    parser.add_argument("program")
    parser.add_argument("script")
    parser.add_argument("--complaint")
    parser.add_argument("--times", type=int, default=1)
    parser.add_argument("--out")
    args = parser.parse_args()
    program = os.path.abspath(args.program)
    complaint = said_by_command(program, args.complaint) if args.complaint else said_by_fuzz(program)
    with open(args.script, "rb") as f:
        text = f.read()
    first = next((said for _ in range(args.times) if (said := complaint(text)) is not None), None)
    if first is None:
        print("there is no complaint of %s" % args.script, file=sys.stderr)
        return 1
    found = smaller(text, lambda less: any(complaint(less) == first for _ in range(args.times)))
    print("%s: %d bytes, before %d" % (first, len(found), len(text)), file=sys.stderr)
    if args.out:
        with open(args.out, "wb") as f:
            f.write(found)
    else:
        sys.stdout.buffer.write(found)
    return 0


if __name__ == "__main__":
    sys.exit(main())
