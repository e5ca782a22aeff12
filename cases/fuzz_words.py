"""Says what the words beside `play` must write of a script, by the report of it and by rules of their own.

`expected_focus` and `expected_pointers` follow the rules of docs/INPUT.md from scratch; the points are asked of the
program by `hit` lines. `check_why`, `check_damage` and `check_picture` compare a text with the report.
"""
import re

from fuzz_reports import FIRST_CREDITS, LATER_CREDITS, ensure, is_skipped, read

POINTERS = 16
RECT = re.compile(r"rect (\d+) (\d+) (\d+) (\d+)")
SHOWN = ("rootless", "contentless", "transparent", "sizeless", "clipped")


class Frame:
    """A finished frame of a report: the line of its done, its views in preorder, each with its parent and bounds, and
    its items."""

    def __init__(self, entry):
        self.line = entry.number
        self.views = {words[1]: (words[2], words[3:]) for words in entry.parts if words[0] == "view"}
        self.items = [words for words in entry.parts if words[0] == "item"]

    def path(self, session):
        """The sessions from the root to one in view."""
        found = []
        while session != "-":
            found.insert(0, session)
            session = self.views[session][0]
        return found


def frames_of(report):
    return [Frame(entry) for entry in read(report)[0] if entry.words[0] == "display" and entry.words[2] == "done"]


def body(lines):
    """The lines of the body that aren't skipped, with their numbers."""
    run = lines.index("run")
    return [(number, line.split(" ")) for number, line in enumerate(lines[run + 1:], run + 2) if not is_skipped(line)]


def expected_focus(lines, report):
    """The text of `focus`, where `report` is that of the script without the lines for focus."""
    frames = {frame.line: frame for frame in frames_of(report)}
    chain, shown, out, count, requests = [], None, [], 0, 0
    for number, words in body(lines):
        if number in frames:
            shown, count = frames[number], count + 1
            left = [session for session in chain if session in shown.views] or list(shown.views)[:1]
            chain = shown.path(left[-1]) if left else []
            out.append(["frame", str(count), "chain"] + chain)
        elif words[1:2] == ["Focus"]:
            requests += 1
            path = shown.path(words[2]) if shown and words[2] in shown.views else []
            granted = words[0] in path
            chain = path if granted else chain
            out.append(["focus", str(number), words[0], words[2], "granted" if granted else "denied", "chain"] + chain)
    out.append(["focus", "ends", "requests", str(requests)])
    return "".join(" ".join(words) + "\n" for words in out).encode()


def asking_hits(lines):
    """The script in which each Down is a `hit` of the display, and other lines for pointers are remarks."""
    run = lines.index("run")
    out = lines[:run + 1]
    for line in lines[run + 1:]:
        words = line.split(" ")
        is_extra = words[0] == "display" and words[1:2] and words[1] in ("Down", "Move", "Up")
        out.append(("display hit %s %s" % tuple(words[3:]) if words[1] == "Down" else "#") if is_extra else line)
    return out


def expected_pointers(lines, report):
    """The text of `pointer`, where `report` is that of `asking_hits`."""
    frames = {frame.line: frame for frame in frames_of(report)}
    hits = {entry.number: entry.words[7:8] for entry in read(report)[0] if entry.words[2:3] == ["hit"] and entry.actor == "display"}
    streams, out, count, asked = {}, [], 0, 0
    for number, words in body(lines):
        if number in frames:
            count += 1
            out.append(["frame", str(count)])
            for pointer in range(POINTERS):
                if pointer in streams and streams[pointer] not in frames[number].views:
                    out.append(["cancel", str(count), str(pointer), streams.pop(pointer)])
        elif words[0] == "display" and words[1] in ("Down", "Move", "Up"):
            asked += 1
            out.append(["pointer", str(number), words[2]] + pointed(streams, words, hits.get(number)))
    out.append(["pointer", "ends", "lines", str(asked)])
    return "".join(" ".join(words) + "\n" for words in out).encode()


def pointed(streams, words, hit):
    """What a pointer's line is answered."""
    pointer = int(words[2])
    has = streams.get(pointer)
    if words[1] == "Down":
        if has or not hit:
            return ["busy"] if has else ["nobody"]
        streams[pointer] = hit[0]
        return ["down", hit[0]]
    if not has:
        return ["nobody"]
    if words[1] == "Up":
        return ["up", streams.pop(pointer)]
    return ["move", has] + words[3:5]


class Sessions:
    """What the report tells of the sessions up to the begin of a frame: who was closed by what, how many presents were
    made, and how many the frame and those before it took."""

    def __init__(self, names):
        self.closed, self.made, self.taken = {}, dict.fromkeys(names, 0), dict.fromkeys(names, 0)
        self.closed_then, self.made_then = {}, {}

    def note(self, entry):
        if entry.words[2:3] == ["begin"]:
            self.closed_then, self.made_then = dict(self.closed), dict(self.made)
        elif entry.words[2:3] == ["closed"]:
            self.closed[entry.actor] = [str(entry.number)] + entry.words[3:]
        elif entry.words[2:3] == ["Present"]:
            self.made[entry.actor] += 1
        for event in entry.events:
            if event[1] == "credits":
                self.taken[event[0]] += int(event[2]) - (0 if self.taken[event[0]] else LATER_CREDITS - FIRST_CREDITS)


def check_why(names, report, text):
    """The text of `why` fits the report: who is shown where with how many items, who was closed at the frame's begin,
    and how many presents waited then."""
    found = iter([line.split(" ") for line in text.decode("ascii").split("\n")])
    sessions, count = Sessions(names), 0
    for entry in read(report)[0]:
        sessions.note(entry)
        if entry.words[2:3] != ["done"] or entry.words[0] != "display":
            continue
        count += 1
        frame = Frame(entry)
        for name in names:
            check_session(name, str(count), frame, sessions, next(found))
        waiting = sorted([str(count), name, str(k)] for name in names if name not in sessions.closed_then
                         for k in range(sessions.taken[name] + 1, sessions.made_then[name] + 1))
        said = [next(found) for _ in waiting]
        ensure(sorted(words[1:4] for words in said) == waiting, "presents that wait", said, waiting)
    ensure([next(found), next(found), next(found, None)] == [["why", "ends", "frames", str(count)], [""], None], "the end of why")


def check_session(name, count, frame, sessions, said):
    """The line of a session in the text of `why`."""
    if name in frame.views:
        own = sum(item[1] == name for item in frame.items)
        begins = ["shown", count, name] + frame.views[name][1] + [str(own)]
        ensure(said[:len(begins)] == begins, "a session that is shown", said, begins)
        ensure(len(said) == len(begins) + (own == 0) and (own or said[-1] in SHOWN), "why nothing is drawn", said)
        return
    ensure(said[:3] == ["hidden", count, name], "a session that is hidden", said)
    if name in sessions.closed_then:
        ensure(said[3:] == ["closed"] + sessions.closed_then[name], "how it was closed", said, sessions.closed_then[name])
        return
    first = "waits" if sessions.made_then[name] else "unpresented"
    is_first = said[3] in ("viewless", "viewport", "cycle", "parent") if sessions.taken[name] else said[3] == first
    ensure(is_first, "why it is hidden", said, first)


def check_damage(report, size, text):
    """The text of `damage` fits the report: its frames, rectangles on the display, and none where nothing changed. The
    rectangles of each frame."""
    frames, lines = frames_of(report), text.decode("ascii").split("\n")
    before, at, found = [], 0, []
    for number, frame in enumerate(frames, 1):
        words = lines[at].split(" ")
        ensure(words[:4] == ["damage", "frame", str(number), "rects"] and len(words) == 5, "damage of a frame", lines[at])
        rects = [RECT.fullmatch(line) for line in lines[at + 1:at + 1 + int(words[4])]]
        ensure(all(rects), "no rectangles")
        rects = [tuple(map(int, rect.groups())) for rect in rects]
        for x0, y0, x1, y1 in rects:
            ensure(0 <= x0 < x1 <= size[0] << 16 and 0 <= y0 < y1 <= size[1] << 16, "damage off the display", x0, y0, x1, y1)
        ensure(frame.items != before or not rects, "damage where nothing changed")
        before, at = frame.items, at + 1 + len(rects)
        found.append(rects)
    ensure(lines[at:] == ["damage ends frames %d" % len(frames), ""], "the end of damage", lines[at:])
    return found


def pixels_of(size, picture):
    """The pixels of a picture, which has to be of this size."""
    head = b"P6\n%d %d\n255\n" % tuple(size)
    ensure(picture.startswith(head) and len(picture) == len(head) + 3 * size[0] * size[1], "no picture of its size")
    return picture[len(head):]


def up_to_frame(lines, number):
    """The script up to the end of so many frames, which may be none."""
    ends = [k for k, line in enumerate(lines) if line == "display done"]
    return lines[:ends[number - 1] + 1 if number else lines.index("run") + 1]


def check_changed(size, rects, before, after):
    """Pixels change only where there is damage. The rectangles are in fixed point."""
    spans = [[r / 65536 for r in rect] for rect in rects]
    for y in range(size[1]):
        row = slice(3 * size[0] * y, 3 * size[0] * (y + 1))
        if before[row] == after[row]:
            continue
        for x in range(size[0]):
            pixel = slice(3 * (size[0] * y + x), 3 * (size[0] * y + x + 1))
            is_damaged = any(x0 < x + 1 and x < x1 and y0 < y + 1 and y < y1 for x0, y0, x1, y1 in spans)
            ensure(before[pixel] == after[pixel] or is_damaged, "a pixel changed outside of the damage", x, y)
