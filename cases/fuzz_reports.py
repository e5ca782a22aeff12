"""Reads reports for fuzz.py, and checks that a report is consistent in itself and with its script.

Begin with `check_report`. `read` gives the entries of a report, which the other tools compare too.
"""
import re

FIRST_CREDITS, LATER_CREDITS = 1, 5
# Lines of a session that make an entry; the others make one only where they are misuses.
ENTERING = ("CreateView", "CreateViewport", "Present", "GetLayout", "GetStatus", "GetChildStatus",
            "Signal", "Poll", "Wait", "Disconnect")


class Broken(Exception):
    """A promise that was broken."""


def ensure(holds, *what):
    if not holds:
        raise Broken(" ".join(str(word) for word in what))


class Entry:
    """An entry of a report: its actor and line (None of an End), its words, the parts of its
    frame, and its events."""

    def __init__(self, words, number):
        self.actor, self.number, self.words = words[0], number, words
        self.parts, self.events = [], []


def read(report):
    """The entries of a report, and the numbers of its last line."""
    lines = report.decode("ascii").split("\n")
    ensure(lines[0] in ["report flatland %d" % version for version in (1, 2, 3)] and lines[-1] == "", "no whole report")
    last = lines[-2].split(" ")
    ensure(last[:3] == ["report", "ends", "entries"] and last[4] == "frames" and len(last) == 6, "no last line")
    entries = []
    for line in lines[1:-2]:
        words = line.split(" ")
        if words[0] == ">":
            entries[-1].events.append(words[1:])
        elif words[0] in ("item", "view", "apart") and not words[1].isdigit() and not is_end(words):
            ensure(not entries[-1].events, "an event before a frame's part")
            entries[-1].parts.append(words)
        elif is_end(words):
            entries.append(Entry(words, None))
        else:
            entries.append(Entry(words, int(words[1])))
    return entries, (int(last[3]), int(last[5]))


def is_end(words):
    """Whether this is the line of an End; sessions may have the names of other lines."""
    return len(words) == 3 and words[1] == "end" and words[2].isdigit()


class Told:
    """What is to be expected of a session, by what the report told so far."""

    def __init__(self):
        self.closed, self.ignored, self.ended = False, 0, False
        self.presents, self.taken, self.taking, self.credits, self.events = 0, 0, 0, FIRST_CREDITS, 0
        self.unsquashable = set()


def check_entry(told, entry, line, frames):
    """An entry of an open session, which a line made."""
    said = entry.words[2:]
    if said[0] == "closed":
        told.closed = True
        if said[1:] == ["NO_PRESENTS_REMAINING"]:
            ensure(line[1] == "Present" and told.credits == 0, "closed with a credit left", line)
        elif said[1:2] == ["BAD_HANGING_GET"]:
            ensure(line[1].startswith("Get"), "closed for a get", line)
        elif said[1:2] == ["BAD_OPERATION"]:
            ensure(re.fullmatch(r"B([1-9]|1\d|2[0-2])", said[2]), "no reason", said)
        else:
            ensure(len(said) == 1 and line[1] == "Disconnect", "closed for nothing", line)
        return
    ensure(said[0] == line[1], "another call is answered", line, said)
    if said[0] == "Present":
        told.presents += 1
        ensure(told.credits > 0, "a present without a credit")
        told.credits -= 1
        if line[3:4] == ["unsquashable"]:
            told.unsquashable.add(told.presents)
        ensure(said == ["Present", str(told.presents), "credits", str(told.credits)], "presents or credits", said)
    elif said[0] == "Poll":
        ensure(said == ["Poll", str(told.events)], "events", said, told.events)
        told.events = 0
    elif said[0] == "Wait" and line[2] in ("credits", "taken", "frames"):
        value = {"credits": told.credits, "taken": told.taken + told.taking, "frames": frames}[line[2]]
        check_wait(said, value, int(line[3]))


def check_events(all_told, entry):
    """The events of an entry: none of a closed session, and credits that add up."""
    for event in entry.events:
        ensure(event[0] in all_told, "an event of nobody", event)
        told = all_told[event[0]]
        ensure(not told.closed, "a closed session is told", event)
        told.events += 1
        if event[1] == "credits":
            ensure(entry.words[2] == "begin" and told.taking == 0, "credits", event)
            more = 0 if told.taken else LATER_CREDITS - FIRST_CREDITS
            told.taking = int(event[2]) - more
            ensure(told.taking > 0, "credits for nothing", event)
            shown = told.taken + told.taking
            ensure(not told.unsquashable & set(range(told.taken + 1, shown)), "an unsquashable present isn't shown", event)
            told.credits += int(event[2])
            most = LATER_CREDITS if told.taken or told.taking else FIRST_CREDITS
            ensure(told.credits + told.presents - told.taken - told.taking == most, "credits don't add up", event)
        elif event[1] == "framepresented":
            ensure(entry.words[2] == "done" and int(event[2]) == told.taking, "another number was taken", event)
            told.taken += told.taking
            told.taking = 0


def check_parts(parts, size):
    """A frame's parts. The sessions in view, with the items' ones among them."""
    views, apart, items = [], [], set()
    for words in parts:
        if words[0] == "item":
            ensure(not views and not apart, "an item behind a view")
            items.add(words[1])
            x0, y0, x1, y1 = [int(w) for w in words[words.index("v") + 1:words.index("v") + 5]]
            ensure(0 <= x0 < x1 <= size[0] << 16 and 0 <= y0 < y1 <= size[1] << 16, "an item off the display", words)
            ensure(0 < int(words[words.index("o") + 1]) <= 65536 or words[words.index("o") + 1] == "0", "an opacity", words)
        elif words[0] == "view":
            ensure(not apart and words[1] not in views, "a view twice", words)
            ensure(words[2] in views if views else words[2] == "-", "a view below nobody", words)
            if not views:
                ensure(words[3:] == ["0", "0", str(size[0] << 16), str(size[1] << 16)], "the first view's bounds", words)
            views.append(words[1])
        else:
            ensure(words[1] not in views and words[1] not in apart, "apart and in view", words)
            apart.append(words[1])
    ensure(items <= set(views), "items of sessions that aren't in view")
    return views


class Reader:
    """Goes through the entries of a report beside the lines of its script."""

    def __init__(self, lines, report):
        entries, (self.count, self.finished) = read(report)
        self.run = lines.index("run")
        head = [line.split(" ") for line in lines[:self.run]]
        self.size = [int(word) for word in next(words for words in head if words[0] == "display")[1:3]]
        self.told = {words[1]: Told() for words in head if words[0] == "session"}
        self.asked = {words[1]: [] for words in head if words[0] == "probe"}
        self.entries, self.at = entries, 0
        self.frames, self.views = 0, []

    def next(self):
        ensure(self.at < len(self.entries), "an entry is missing")
        self.at += 1
        return self.entries[self.at - 1]

    def is_at(self, number):
        return self.at < len(self.entries) and self.entries[self.at].number == number

    def line(self, number, line):
        """A line of the body, with its entry if it has one."""
        if line[0] in self.asked:
            self.asked[line[0]].append((number, line, self.frames, self.views))
            return
        who = self.told.get(line[0])
        if who and who.closed:
            who.ignored += 1
            return
        draft = who and line[1] not in ENTERING
        if draft and not self.is_at(number):
            return
        entry = self.next()
        ensure(entry.number == number and entry.actor == line[0], "another line's entry", number, entry.words)
        if who:
            ensure(not draft or entry.words[2:4] == ["closed", "BAD_OPERATION"], "an entry of a private call", line)
            check_entry(who, entry, line, self.frames)
        else:
            self.display(entry, line)
        ensure(line[1] == "done" or not entry.parts, "parts of no frame", entry.words)
        check_events(self.told, entry)

    def display(self, entry, line):
        said = entry.words[2:]
        if line[1] == "begin":
            ensure(said == ["begin", line[2], "frame", str(self.frames + 1)], "a begin", entry.words)
        elif line[1] == "done":
            self.frames += 1
            ensure(said == ["done", "frame", str(self.frames)], "a done", entry.words)
            self.views = check_parts(entry.parts, self.size)
        elif line[1] == "dpr":
            ensure(said == ["dpr", "ok"], "a pixel ratio", entry.words)
        elif line[1] == "hit":
            ensure(said[:5] == ["hit", line[2], line[3], "frame", str(self.frames)], "a hit", entry.words)
            check_hits(entry.words[7:], self.views)
        elif line[1] == "Wait" and line[2] == "presents":
            check_wait(said, self.told[line[3]].presents, int(line[4]))

    def ends(self):
        """What stands behind the entries of lines."""
        for name, told in self.told.items():
            entry = self.next()
            ensure(entry.words == [name, "end", str(told.ignored)], "an End", entry.words)
            ensure(not entry.parts and not entry.events, "an End with events", entry.words)
        for name, questions in self.asked.items():
            for question in questions:
                check_answer(name, question, self.next())
        ensure(self.at == len(self.entries), "an entry too many")
        seen = sum(map(len, self.asked.values()))
        ensure((self.count, self.finished) == (len(self.entries) - seen, self.frames), "the counts at the end")


def check_report(lines, report):
    """The consistency of the report of a play."""
    version = next(line for line in lines if not is_skipped(line))
    ensure(report.startswith(b"report " + version.encode() + b"\n"), "another version")
    reader = Reader(lines, report)
    for number, text in enumerate(lines[reader.run + 1:], reader.run + 2):
        if not is_skipped(text):
            reader.line(number, text.split(" "))
    reader.ends()


def is_skipped(line):
    return line == "" or line.startswith("#")


def check_hits(words, views):
    """The sessions hit are in view, each once."""
    hit = words[::2]
    ensure(len(set(hit)) == len(hit) and set(hit) <= set(views), "hits of others", words)
    ensure(set(words[1::2]) <= {"0", "1"}, "an interaction", words)


def check_wait(said, value, wanted):
    ensure(said == ["Wait", "met" if value >= wanted else "unmet", str(value)], "a wait", said, value)


def check_answer(name, question, answer):
    """The line of a probe in a report."""
    number, line, frame, views = question
    said = line[1:] if line[1] == "hit" else ["await"]
    begins = [name, str(number)] + said + ["frame", str(frame)]
    ensure(answer.words[:len(begins)] == begins, "a probe's answer", answer.words, begins)
    ensure(not answer.parts and not answer.events, "a probe's line with events", answer.words)
    check_hits(answer.words[len(begins):], views)
