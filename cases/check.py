#!/usr/bin/env python3
"""Runs a program on the cases beside this file and compares its bytes and status.

check.py PROGRAM [case ..] [--only GLOB] [--skip GLOB] [--stage LABEL] [--up-to LABEL]
                           [--at LABEL] [--time SECONDS] [--judge] [--list]

A case is a folder with
  words            the command words on one line, or
  words.exact      the command words as bytes, each ended by a NUL
  stdin            the bytes on standard input
  stdout           the exact bytes expected, or
  stdout.contains  the lines that must come, in this order, others between them allowed
  status           the exit status
  stage            the first stage at which the program can pass the case
  until            (some cases) the stage from which the case holds no more
  stdout.from.L    (some cases) the bytes expected from stage L on, in place of `stdout`
  note             what the case shows

--only, --skip   globs on case names, each may be given more than once
--stage LABEL    only the cases of that stage (may be given more than once)
--up-to LABEL    the cases up to and with that stage, in the order of the stages
--at LABEL       the stage that the program has reached, with all before it: they decide
                 on `until` and `stdout.from.L`; by default the stage of --up-to, else those
                 that the file `reached` beside this one names: the first word a stage with
                 all before it, and each word after it one stage more
--judge          of each case of `play` or `race` with a report, has the program judge that report,
                 and the same without the line in its middle: it must find the one legal, and
                 the other wrong
--list runs none, and prints for each case its stage, its name and what it shows. A case
that is named is run whatever its stage. Standard error must stay empty.
Large files are made by make_large.py first.
"""
import fnmatch
import os
import subprocess
import sys

STAGES = ["first_path", "graph", "contents", "presents", "links", "views_and_hits", "stress",
          "stage", "race", "flat_snapshots", "probes", "reuse", "hostile", "family",
          "version_2", "version_3", "render", "damage", "focus", "pointer", "why",
          "film", "judge"]
ROOT = os.path.dirname(os.path.abspath(__file__))
# the status of `judge` for a wrong report
WRONG = 8


def stage_number(label):
    if label not in STAGES:
        sys.exit("unknown stage %s; the stages are %s" % (label, " ".join(STAGES)))
    return STAGES.index(label)


def all_to(stage):
    return set(range(stage + 1))


def reached():
    with open(os.path.join(ROOT, "reached")) as f:
        first, *more = [stage_number(word) for word in f.read().split()]
    return all_to(first) | set(more)


def read(case, name):
    try:
        with open(os.path.join(ROOT, case, name), "rb") as f:
            return f.read()
    except FileNotFoundError:
        return None


def text(case, name):
    b = read(case, name)
    return None if b is None else b.decode("ascii").rstrip("\n")


def show(line):
    if line is None:
        return "nothing"
    s = repr(line)[1:]
    return s if len(s) <= 200 else s[:200] + " .. (%d bytes)" % len(line)


def first_difference(want, got):
    a, b = want.split(b"\n"), got.split(b"\n")
    for i in range(max(len(a), len(b))):
        x = a[i] if i < len(a) else None
        y = b[i] if i < len(b) else None
        if x != y:
            return "line %d: want %s, got %s" % (i + 1, show(x), show(y))
    return "no difference"


def wanted(case, at):
    """The bytes that a case expects at these stages, if it says all of them"""
    want = read(case, "stdout")
    for n in sorted(at):
        newer = read(case, "stdout.from." + STAGES[n])
        want = want if newer is None else newer
    return want


def run(program, case, at, limit):
    """None where the case passes, else what is wrong, on one line"""
    exact = read(case, "words.exact")
    words = (text(case, "words") or "").split() if exact is None else exact.split(b"\0")[:-1]
    stdin = read(case, "stdin")
    want = wanted(case, at)
    contains = read(case, "stdout.contains")
    if stdin is None or (want is None and contains is None):
        return "a file is missing; run make_large.py first"
    try:
        done = subprocess.run([program] + words, input=stdin, stdout=subprocess.PIPE,
                              stderr=subprocess.PIPE, timeout=limit)
    except subprocess.TimeoutExpired:
        return "no end after %d seconds" % limit
    except OSError as e:
        return "can't be run: %s" % e
    wrong = []
    if want is not None and done.stdout != want:
        wrong.append(first_difference(want, done.stdout))
    if contains is not None:
        lines, place = done.stdout.split(b"\n"), 0
        for n, line in enumerate(contains.rstrip(b"\n").split(b"\n"), 1):
            while place < len(lines) and lines[place] != line:
                place += 1
            if place == len(lines):
                wrong.append("required line %d isn't there in its order: %s" % (n, show(line)))
                break
            place += 1
    status = int(text(case, "status"))
    if done.returncode != status:
        wrong.append("status: want %d, got %d" % (status, done.returncode))
    if done.stderr:
        wrong.append("standard error isn't empty: %s" % show(done.stderr.split(b"\n")[0]))
    return "; ".join(wrong) if wrong else None


def misjudged(program, case, at, limit):
    """What is wrong with what the program says of a case's report, or None"""
    script, report = read(case, "stdin"), wanted(case, at)
    script += b"" if script.endswith(b"\n") else b"\n"
    lines = report.splitlines(keepends=True)
    middle = len(lines) // 2
    for part, status in ((lines, 0), (lines[:middle] + lines[middle + 1:], WRONG)):
        text = script + b"".join(part)
        try:
            done = subprocess.run([program, "judge"], input=text, stdout=subprocess.PIPE, timeout=limit)
        except subprocess.TimeoutExpired:
            return "no verdict after %d seconds" % limit
        if done.returncode != status:
            what = "its report" if status == 0 else "its report without line %d" % (middle + 1)
            return "judge says of %s: status %d, %s" % (what, done.returncode, show(done.stdout))
    return None


def has_report(case, at):
    return text(case, "words") in ("play", "race") and text(case, "status") == "0" and wanted(case, at) is not None


def main():
    args = sys.argv[1:]
    plain, only, skip, stages = [], [], [], []
    up_to = at = None
    limit, listing, judging = 120, False, False
    i = 0
    while i < len(args):
        a = args[i]
        if a in ("--only", "--skip", "--stage", "--up-to", "--at", "--time"):
            i += 1
            if i == len(args):
                sys.exit("%s needs a word after it" % a)
            v = args[i]
            if a == "--only":
                only.append(v)
            elif a == "--skip":
                skip.append(v)
            elif a == "--stage":
                stages.append(stage_number(v))
            elif a == "--up-to":
                up_to = stage_number(v)
            elif a == "--at":
                at = all_to(stage_number(v))
            else:
                limit = int(v)
        elif a == "--list":
            listing = True
        elif a == "--judge":
            judging = True
        elif a == "--help":
            print(__doc__.strip())
            return
        elif a.startswith("--"):
            sys.exit("unknown option %s\n\n%s" % (a, __doc__))
        else:
            plain.append(a)
        i += 1
    if not listing and not plain:
        sys.exit(__doc__)
    program = None if listing else os.path.abspath(plain.pop(0))
    known = [d for d in os.listdir(ROOT) if os.path.exists(os.path.join(ROOT, d, "stage"))]
    for c in plain:
        if c.rstrip("/") not in known:
            sys.exit("no case %s" % c)
    if at is None:
        at = all_to(up_to) if up_to is not None else reached()
    cases = []
    for c in known:
        n = stage_number(text(c, "stage"))
        until = text(c, "until")
        if plain:
            if c not in [p.rstrip("/") for p in plain]:
                continue
        elif n not in at or (until is not None and stage_number(until) in at):
            continue
        if only and not any(fnmatch.fnmatch(c, g) for g in only):
            continue
        if any(fnmatch.fnmatch(c, g) for g in skip):
            continue
        if stages and n not in stages or up_to is not None and n > up_to:
            continue
        cases.append((n, c))
    passed = failed = 0
    for n, c in sorted(cases):
        if listing:
            print("%-14s %-52s %s" % (STAGES[n], c, " ".join((text(c, "note") or "").split())))
            continue
        wrong = run(program, c, at, limit)
        if wrong is None and judging and has_report(c, at):
            wrong = misjudged(program, c, at, limit)
        if wrong is None:
            passed += 1
        else:
            failed += 1
            print("FAIL %s (%s): %s" % (c, STAGES[n], wrong), flush=True)
    if not listing:
        print("%d passed, %d failed" % (passed, failed))
        sys.exit(1 if failed else 0)


if __name__ == "__main__":
    main()
