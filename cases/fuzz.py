#!/usr/bin/env python3
"""Plays random scripts, and checks what the rules promise of every run.

fuzz.py PROGRAM [--count N] [--seed S] [--jobs J] [--script K] [--keep FOLDER] [--covered] [--quick]

Scripts of all versions are made at random (fuzz_scripts): sessions that link, present, get, poll, wait and leave, some
of them with misuses, frames beside them, probes that ask, and lines for focus and pointers. A few go to a limit or one
above it (fuzz_limits). Every third is spoilt, in a line or a byte. No second service is asked; it is checked that

  status 0 comes with a report and status 3 with the line of a fault, and nothing else comes;
  each report is consistent (fuzz_reports): each line that makes an entry has one, in written order, and no line
    behind its session's close; the counts at its end and in each End are right; a closed session hears nothing;
    credits add up, what a frame took is what its begin gave back, and of what it took none but the last present is
    unsquashable; a Poll counts the events before it; a view stands below one that was told, no view is apart, and
    items and hits are those of sessions in view; a probe's line stands behind all entries and was answered by the
    frame finished last before it;
  at a limit nothing is wrong, and above it comes its kind of fault, or its reason to close the session;
  a script played twice gives the same bytes;
  a script written otherwise (lines skipped, the head in another order, insets of nothing said) gives the same report
    but for the numbers of lines;
  where a session is added that is linked to nobody, every other is answered and told the same, and each frame has the
    same items and views;
  a race gives a report that `judge` calls legal, or where the program has no such word, the report of a play of its own
    order (as bench/race judges); `judge` refuses a report without one of its lines;
  focus and pointers go where the rules say that are written once more in fuzz_words; what `why`, `damage` and `render`
    write fits the report, and pixels change only where there is damage; a fault is the same for every word;
  the other statuses come with what they promise: bad words, a read and a write that fail, and little memory.

Each script is played and its report checked, and it has some of the other checks, at random; with --quick, a third as many. It prints how many scripts it played, each that broke a promise, which
is kept in FOLDER where one is given, and a table of what the runs met, rule by rule; the status is 1 where a promise was
broken, and with --covered also where a row of the table is met by nothing. Seed and number make a script and its checks;
--script K plays that one alone. cases/shrink.py makes a script smaller that broke a promise.
"""
import argparse
import concurrent.futures
import functools
import importlib.machinery
import importlib.util
import os
import random
import re
import sys
from collections import Counter

HERE = os.path.dirname(os.path.abspath(__file__))
ROOT = os.path.dirname(HERE)
sys.path.insert(0, HERE)

from fuzz_limits import LIMITS, LONG
from fuzz_others import rest_of, renumbered, with_focus, with_pointers, with_stranger, written_otherwise
from fuzz_program import MIB, Program, TookTooLong
from fuzz_reports import Broken, check_report, ensure, read
from fuzz_scripts import Maker
from fuzz_seen import of_report, of_word, print_table
from fuzz_spoilt import spoilt
from fuzz_words import (asking_hits, check_changed, check_damage, check_why, expected_focus, expected_pointers, pixels_of,
                        up_to_frame)

FAULT = re.compile(rb"script line (\d+) kind (\d+)\n")
STRESS = re.compile(rb"stress (\d+) sessions 8 entries (\d+) frames (\d+) presents (\d+) items (\d+)\n")
USAGE = b"usage: flatland "
EXTRA = {"focus": ("Focus",), "pointer": ("Down", "Move", "Up")}
WORDS = ("render", "damage", "focus", "pointer", "why", "film")
BAD_WORDS = ([], ["fly"], ["play", "race"], ["stress"], ["stress", "0"], ["stress", "501"], ["stress", "03"], ["-h"], [""], ["play", ""])
MOST_PIXELS = 4194304
MOST_FILM_PIXELS = 268435456
MOST_LINES = 10000
MOST_OF_ACTOR = 65536
SHARE = 50
# what takes long is done with few scripts: pictures with more pixels than this, and races with a Wait that isn't met
MANY_PIXELS = 262144
FEW = 0.02


def load(name):
    loader = importlib.machinery.SourceFileLoader(name, os.path.join(ROOT, "bench", name))
    module = importlib.util.module_from_spec(importlib.util.spec_from_loader(name, loader))
    loader.exec_module(module)
    return module


RACE = load("race")


def joined(lines):
    return ("\n".join(lines) + "\n").encode()


def lines_of(text):
    """The lines of a script, if it has a head."""
    lines = text.decode("ascii").split("\n")
    return lines[:-1] if lines[-1] == "" else lines


def word_for(text):
    """The word that a text is for, by the lines behind its head."""
    _, _, body = text.partition(b"\nrun\n")
    calls = {line.split(b" ")[1].decode("latin-1") for line in body.split(b"\n") if not line.startswith(b"#") and b" " in line}
    return next((word for word, extra in EXTRA.items() if calls & set(extra)), "play")


class Checks:
    """The checks of one script: those that `rng` chooses, or all. Only a part of them is chosen, if that is below 1."""

    def __init__(self, program, rng, seen, is_all=False, part=1):
        self.program, self.rng, self.seen, self.is_all, self.part = program, rng, seen, is_all, part

    def has(self, share):
        return self.rng.random() < share * self.part or self.is_all

    def does(self):
        """Whether a check that each script has is done."""
        return self.part == 1 or self.has(1)

    def run(self, word, text, memory=None):
        status, out, error = self.program.run([word], text, memory)
        ensure(error == b"", word + " writes to standard error", error[:200])
        self.seen.update([("word", word), ("status", str(status))])
        return status, out

    def played(self, text, sort=""):
        """The status and the output of a play or of another word that is told apart, and the fault's kind."""
        status, out = self.run(sort or "play", text)
        ensure(status in (0, 3), "status", status)
        fault = FAULT.fullmatch(out) if status == 3 else None
        ensure(status == 0 or fault, "no line of a fault")
        if fault:
            ensure(int(fault[1]) <= text.count(b"\n") + 2 and 1 <= int(fault[2]) <= 13, "a fault of no line", out)
        return out, (int(fault[1]), int(fault[2])) if fault else None

    def script(self, text, lines=None, maker=None):
        """All of a script without lines for other words. `lines` are its own, where it isn't spoilt."""
        out, fault = self.played(text)
        wanted = maker.fault if maker else None
        if lines is not None:
            ensure((fault[1] if fault else None) == wanted, "another fault than", wanted, out[:100])
        if self.has(0.2):
            self.seen["check", "same again"] += 1
            ensure(self.played(text) == (out, fault), "another report the second time")
        if fault:
            self.seen["fault", str(fault[1])] += 1
            word = self.rng.choice(("race", *WORDS))
            ensure(self.run(word, text) == (3, out), "another fault for", word)
            return
        own = lines_of(text)
        check_report(own, out)
        self.report(own, out, maker)
        if lines is not None:
            self.others(lines, out, maker)
        if (not (b" Wait unmet " in out or b" await 7" in text) or self.has(FEW)) and self.does():
            self.race(text, out)
        for word in WORDS if self.is_all else self.rng.sample(WORDS, 2):
            if self.does():
                self.word(word, text, own, out)

    def report(self, lines, out, maker):
        """What a report tells: counted, and at a limit looked for."""
        entries = read(out)[0]
        probes = {line.split(" ")[1] for line in lines[:lines.index("run")] if line.startswith("probe ")}
        self.seen.update(of_report(entries, probes))
        self.seen["version", out[16:17].decode()] += 1
        if maker and maker.limit:
            limit = maker.limit
            closes = [entry.words[-1] for entry in entries if entry.actor == limit.session and entry.number in limit.lines and entry.words[2] == "closed"]
            ensure(closes == [limit.reason] * (limit.reason is not None), "another close than", limit.reason, limit.name, closes)

    def others(self, lines, out, maker):
        """The script written otherwise, and with a stranger."""
        mine = renumbered(out, {})
        # more lines may make the text too long
        if len(lines) > MOST_LINES:
            return
        ways = [("written otherwise", written_otherwise, None)] * self.has(0.4)
        if not (maker and maker.limit):
            ways += [("with a stranger", with_stranger, "stranger")] * self.has(0.4)
        for name, change, leave in ways:
            changed, numbers = change(self.rng, lines)
            self.seen["check", name] += 1
            report, fault = self.played(joined(changed))
            ensure(not fault, name + ", it is refused", report)
            ensure(renumbered(report, numbers, leave) == mine, name + ", it is answered otherwise", "\n" + "\n".join(changed))

    def race(self, text, out):
        status, report = self.run("race", text)
        ensure(status == 0, "a race ends with", status)
        self.seen["check", "race in another order"] += report != out
        if self.program.has_judge:
            self.judged(text, report)
        elif report != out and b"\nrun\n" in text:
            why = RACE.judge(self.program.path, text, report)
            ensure(not why, "a race", why)

    def judged(self, text, report):
        """What `judge` says of a race, and of its report without a line."""
        script = text if text.endswith(b"\n") else text + b"\n"
        status, said, _ = self.program.run(["judge"], script + report)
        last = report.splitlines()[-1].split(b" ", 2)[2]
        ensure((status, said) == (0, b"legal %s\n" % last), "a race is judged", status, said)
        self.seen["word", "judge"] += 1
        if self.has(0.1):
            lines = report.splitlines(True)
            lines.pop(self.rng.randrange(1, len(lines)))
            status, said, _ = self.program.run(["judge"], script + b"".join(lines))
            ensure(status == 8 and said.startswith(b"wrong line "), "a report without a line is judged", status, said)
            self.seen["status", "8"] += 1

    def word(self, word, text, lines, report):
        """What another word writes of the script."""
        size = [int(w) for w in next(line for line in lines if line.startswith("display ")).split(" ")[1:3]]
        pixels = size[0] * size[1]
        pictures = {"render": 1, "film": max(1, lines.count("display done"))}.get(word, 0)
        is_too_large = pictures > 0 and (pixels > MOST_PIXELS or pixels * pictures > MOST_FILM_PIXELS)
        if pixels * pictures > MANY_PIXELS and not is_too_large and not self.has(FEW):
            return
        status, out = self.run(word, text)
        if is_too_large:
            ensure((status, out) == (7, b"picture too large\n"), "a picture that is too large", status, out[:100])
            return
        ensure(status == 0, word + " ends with", status)
        if word == "render":
            pixels_of(size, out)
        elif word == "film":
            self.film(text, size, report.count(b" done frame "), out)
        elif word == "damage":
            self.damage(size, lines, check_damage(report, size, out))
        elif word == "why":
            check_why([line.split(" ")[1] for line in lines[:lines.index("run")] if line.startswith("session ")], report, out)
        else:
            wanted = expected_focus(lines, report) if word == "focus" else expected_pointers(lines, report)
            ensure(out == wanted, word + " of frames alone", out[:300], wanted[:300])
        self.seen.update(of_word(word, out))

    def film(self, text, size, frames, out):
        """A picture for each frame, or one; the last is that of `render`."""
        length, odd = divmod(len(out), max(1, frames))
        ensure(odd == 0, "a film of pictures of several sizes")
        for at in range(0, len(out), length):
            pixels_of(size, out[at:at + length])
        ensure(self.run("render", text) == (0, out[-length:]), "the last picture of a film")

    def damage(self, size, lines, damages):
        """Pixels change only within the damage, in one of the frames of a small display."""
        if not damages or size[0] * size[1] > 10000 or not self.has(0.3):
            return
        number = self.rng.randrange(len(damages))
        pictures = [self.run("render", joined(up_to_frame(lines, frame)))[1] for frame in (number, number + 1)]
        self.seen["check", "pixels within the damage"] += 1
        check_changed(size, damages[number], *[pixels_of(size, picture) for picture in pictures])

    def extra(self, word, text):
        """A text with lines for focus or for pointers."""
        out, fault = self.played(text, word)
        lines = lines_of(text)
        if fault:
            is_extra = lines[fault[0] - 1:fault[0]] and lines[fault[0] - 1].split(" ")[1:2] and lines[fault[0] - 1].split(" ")[1] in EXTRA[word]
            self.seen["fault for " + word if is_extra else "fault", str(fault[1])] += 1
            return
        rest = rest_of(lines, EXTRA[word]) if word == "focus" else asking_hits(lines)
        # with a point for each Down, the display may have more lines than an actor may
        if sum(line.startswith("display ") for line in rest[rest.index("run"):]) > MOST_OF_ACTOR:
            return
        report, refused = self.played(joined(rest))
        ensure(not refused, "the rest of a text is refused", report)
        wanted = expected_focus(lines, report) if word == "focus" else expected_pointers(lines, report)
        ensure(out == wanted, "%s goes elsewhere:\n%s\nand not\n%s" % (word, out.decode("ascii"), wanted.decode("ascii")))
        self.seen.update(of_word(word, out))

    def failing(self, text):
        """Words, streams and memory that fail."""
        bad = self.rng.choice(BAD_WORDS)
        status, out, _ = self.program.run(bad, text)
        ensure(status == 2 and out.startswith(USAGE), "bad words end with", status, bad)
        word = self.rng.choice(("play", "race", *WORDS))
        found = self.program.with_bad_input(word)
        ensure(found == (4, b""), word + " of what can't be read ends with", found)
        status = self.program.with_full_output([word], text)
        ensure(status == 5, word + " on a full output ends with", status)
        self.seen.update([("status", "2"), ("status", "4"), ("status", "5")])
        self.stress()
        words = self.rng.choice([[word], ["render"], ["race"], ["stress", str(self.rng.randint(1, 500))]])
        self.little_memory(words, text)

    def stress(self):
        number = self.rng.randint(1, 40)
        status, out, _ = self.program.run(["stress", str(number)], b"")
        found = STRESS.fullmatch(out)
        ensure(status == 0 and found and int(found[1]) == int(found[3]) == number, "stress", status, out)
        ensure(int(found[4]) == 8 * number, "presents of a load", out)
        self.seen["word", "stress"] += 1

    def little_memory(self, words, text):
        """With little memory comes the whole answer or nothing."""
        whole = self.program.run(words, text)[:2]
        status, out, _ = self.program.run(words, text, self.program.least_memory() + self.rng.randrange(8 * MIB))
        self.seen["status", str(status)] += 1
        is_whole = status == whole[0] and (out == whole[1] or words == ["race"])
        ensure((status, out) == (6, b"") or is_whole, " ".join(words) + " with little memory ends with", status, out[:100])


def check_text(program, text, rng, seen, is_all=False):
    """What is wrong with the runs of a text, or None."""
    checks = Checks(program, rng, seen, is_all)
    try:
        word = word_for(text)
        if word == "play":
            checks.script(text)
        else:
            checks.extra(word, text)
    except (Broken, TookTooLong, ValueError, LookupError) as why:
        return "%s: %s" % (type(why).__name__, why)
    return None


def check_script(program, rng, seen, part=1):
    """The text of a random script, and what is wrong with its runs, or None."""
    maker = Maker(rng)
    lines = maker.script()
    kind = rng.random()
    checks = Checks(program, rng, seen, part=part)
    text = joined(lines)
    try:
        if kind < 0.3:
            text = spoilt(rng, lines)
            checks.script(text)
        elif kind < 0.45 and not maker.fault:
            word, change = rng.choice([("focus", with_focus), ("pointer", with_pointers)])
            text = joined(change(rng, lines))
            checks.extra(word, text)
        else:
            if maker.limit:
                seen["above the limit" if maker.limit.is_above else "at the limit", maker.limit.name] += 1
            checks.script(text, lines, maker)
        if kind > 0.98:
            checks.failing(text)
    except (Broken, TookTooLong, ValueError, LookupError) as why:
        return text, "%s: %s" % (type(why).__name__, why)
    return text, None


@functools.cache
def opened(path):
    """The program, once in each process."""
    return Program(path)


def work(job):
    """Plays a share of the scripts."""
    path, seed, first, count, part = job
    program = opened(path)
    bad, seen = [], Counter()
    for k in range(first, first + count):
        text, why = check_script(program, random.Random("%d %d" % (seed, k)), seen, part)
        if why:
            bad.append((k, why, text))
    return count, bad, seen


def arguments():
    parser = argparse.ArgumentParser(description=__doc__, formatter_class=argparse.RawDescriptionHelpFormatter)
    parser.add_argument("program", nargs="?", default=os.path.join(ROOT, "crates/flat_prog/out/flat_prog"))
    parser.add_argument("--count", type=int, default=300)
    parser.add_argument("--seed", type=int, default=1)
    parser.add_argument("--jobs", type=int, default=os.cpu_count())
    parser.add_argument("--script", type=int)
    parser.add_argument("--keep")
    parser.add_argument("--covered", action="store_true")
    parser.add_argument("--quick", dest="part", action="store_const", const=1 / 3, default=1)
    return parser.parse_args()


def keep(folder, name, text):
    os.makedirs(folder, exist_ok=True)
    with open(os.path.join(folder, name), "wb") as f:
        f.write(text)


def main():
    args = arguments()
    program = os.path.abspath(args.program)
    jobs = [(program, args.seed, first, min(SHARE, args.count - first), args.part) for first in range(0, args.count, SHARE)]
    if args.script is not None:
        jobs = [(program, args.seed, args.script, 1, args.part)]
    done, broken, seen = 0, 0, Counter()
    with concurrent.futures.ProcessPoolExecutor(args.jobs) as pool:
        for count, bad, met in pool.map(work, jobs):
            done += count
            seen += met
            for k, why, text in bad:
                broken += 1
                print("seed %d, script %d: %s" % (args.seed, k, why), flush=True)
                if args.keep:
                    keep(args.keep, "%d_%d" % (args.seed, k), text)
    unmet = print_table(seen, [*LIMITS, *LONG], opened(program).has_judge)
    print("seed %d: %d scripts, %d broke a promise" % (args.seed, done, broken))
    return 1 if broken or args.covered and unmet else 0


if __name__ == "__main__":
    sys.exit(main())
