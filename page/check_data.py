"""Checks the data of a page: the report is written again from them, and what the page adds agrees with the report."""
from __future__ import annotations

import base64
import html.parser
import json
import zlib
from typing import Any

from faults import Fault
from frames import GROUP_FRAMES, ItemGroups
from page_data import JSON

VOID = frozenset({"meta", "input", "br", "link", "img", "hr"})
FILL = 0  # the kind of a fill in item_code (report.py); the other kind is an image


class Wrong(Exception):
    """What is wrong with a page."""


class Document(html.parser.HTMLParser):
    """The blocks of data of a page. Refuses one that isn't well-formed or reads anything from elsewhere."""

    def __init__(self) -> None:
        super().__init__()
        self.blocks: dict[str, str] = {}
        self.open: list[str] = []
        self._block = ""

    def handle_starttag(self, tag: str, attrs: list[tuple[str, str | None]]) -> None:
        """An element begins."""
        named = dict(attrs)
        if "src" in named or tag == "link" or (named.get("href") or "").startswith("http"):
            raise Wrong("the page reads something from elsewhere: <%s>" % tag)
        if tag not in VOID:
            self.open.append(tag)
        self._block = named.get("id") or "" if tag == "script" and "type" in named else ""

    def handle_endtag(self, tag: str) -> None:
        """An element ends."""
        if not self.open or self.open.pop() != tag:
            raise Wrong("</%s> ends nothing" % tag)
        self._block = ""

    def handle_data(self, data: str) -> None:
        """Text within an element."""
        if self._block:
            self.blocks[self._block] = self.blocks.get(self._block, "") + data


def unpacked(block: str) -> Any:
    """The value of a block of data."""
    return json.loads(zlib.decompress(base64.b64decode(block, validate=True)))


def blocks_of(path: str) -> dict[str, str]:
    """The blocks of data of a page, by their ids."""
    with open(path, encoding="utf-8") as f:
        document = Document()
        document.feed(f.read())
        document.close()
    if document.open:
        raise Wrong("<%s> isn't ended" % document.open[-1])
    return document.blocks


# The report, written again from a page's data.

def unfolded(groups: list[list[JSON]]) -> list[list[list[int]]]:
    """The items of each frame."""
    frames = []
    for group in groups:
        before: list[list[int]] = []
        for frame in group:
            before = before[:frame["keep"]] + frame["items"] + before[len(before) - frame["tail"]:]
            frames.append(before)
    return frames


def item_line(run: JSON, item: list[int]) -> str:
    """The report's line of a draw item."""
    kind, actor, serial, swap, a, b, x, y, x0, y0, x1, y1, opacity, over, width, height, *paint = item
    if kind == FILL:
        what = ["fill", *paint, width, height]
    else:
        what = ["image", run["buffers"][paint[0]], paint[1], "sample", *paint[2:6], "size", width, height, "flip", paint[6]]
    words = ["item", run["actors"][actor]["name"], serial, *what, "m", swap, a, b, x, y, "v", x0, y0, x1, y1, "o", opacity,
             "over" if over else "src"]
    return " ".join(map(str, words))


def frame_lines(run: JSON, frame: JSON, items: list[list[int]]) -> list[str]:
    """The report's lines of a frame, between its done and its events."""
    names = [actor["name"] for actor in run["actors"]]
    lines = [item_line(run, item) for item in items]
    lines += ["view %s %s %d %d %d %d" % (names[actor], names[parent] if parent >= 0 else "-", *bounds)
              for actor, parent, *bounds in frame["views"]]
    lines += ["apart %s" % names[actor] for actor in frame["apart"]]
    return lines + ["display %d lost at frame %d" % (display, frame["number"]) for display in frame["lost"]]


def report_of(run: JSON, frames: list[list[list[int]]], script: list[str]) -> str:
    """The report, as the data of a page have it."""
    actors, steps, events = run["actors"], run["steps"], run["events"]
    done = {frame["done"]: (frame, frames[place]) for place, frame in enumerate(run["frames"])}
    posted: dict[int, list[str]] = {}
    for step, actor, words in zip(events["step"], events["actor"], events["words"]):
        posted.setdefault(step, []).append("> %s %s" % (actors[actor]["name"], words))
    lines, probed = ["report flatland %d" % run["version"]], []
    for step, (actor, line, words) in enumerate(zip(steps["actor"], steps["line"], steps["words"])):
        who = actors[actor]
        if words.startswith(("Focus ", "pointer ")):
            continue  # an extra line, which no report has
        if who["sort"] == "probe":
            probed.append((actor, line, "%s %d %s" % (who["name"], line, words)))
            continue
        lines.append(" ".join([who["name"], words] if line > len(script) else [who["name"], str(line), words]))
        if step in done:
            lines += frame_lines(run, *done[step])
        lines += posted.get(step, [])
    lines += [text for _, _, text in sorted(probed)]
    lines.append("report ends entries %d frames %d" % (run["totals"]["entries"], run["totals"]["frames"]))
    return "\n".join(lines) + "\n"


def first_difference(want: str, got: str) -> str:
    """Where two texts differ first."""
    pairs = zip(want.split("\n") + [""], got.split("\n") + [""])
    return next(("line %d: want %r, got %r" % (n, a[:160], b[:160]) for n, (a, b) in enumerate(pairs, 1) if a != b), "the length")


def check_run(main: JSON, groups: list[list[JSON]], report: str | None) -> None:
    """Checks the data of a script that was run."""
    run = main["run"]
    frames = unfolded(groups)
    if [len(items) for items in frames] != [frame["count"] for frame in run["frames"]]:
        raise Wrong("a frame has another number of items than its count says")
    if report is not None:
        again = report_of(run, frames, main["script"])
        if again != report:
            raise Wrong("the page has another report: " + first_difference(report, again))
    if len(run["lines"]["sort"]) != len(main["script"]) or len(run["lines"]["step"]) != len(main["script"]):
        raise Wrong("a line of the script has no fate")
    for line, (sort, step) in enumerate(zip(run["lines"]["sort"], run["lines"]["step"]), 1):
        if (step < 0) != (sort == "-") or (sort == "e") != (step >= 0 and run["steps"]["line"][step] == line):
            raise Wrong("line %d has sort %s and step %d" % (line, sort, step))
        text = main["script"][line - 1]
        if sort != "-" and text.split(" ")[0] != run["actors"][run["steps"]["actor"][step]]["name"]:
            raise Wrong("line %d is another actor's" % line)
    carried = sum(run["steps"]["carried"])
    if carried != run["lines"]["sort"].count("c"):
        raise Wrong("%d calls are carried, and %d lines say so" % (carried, run["lines"]["sort"].count("c")))
    if main["word"] == "play" and run["steps"]["line"] != sorted(run["steps"]["line"]):
        raise Wrong("the steps of a play don't stand in the order of their lines")
    check_links(main, run)
    check_why(run)


def check_links(main: JSON, run: JSON) -> None:
    """Checks what the page adds to a report by what the report itself has."""
    events, steps = run["events"], run["steps"]
    answers = sum(words.split()[0] in ("layout", "status", "child") for words in events["words"])
    found = sum(get["answered"] > get["step"] for get in run["gets"])
    if answers != found:
        raise Wrong("%d events answer gets, and %d gets are answered so" % (answers, found))
    counts = {(step, actor): int(words.split()[1]) for step, actor, words in zip(events["step"], events["actor"], events["words"])
            if words.startswith("framepresented")}
    for frame in run["frames"]:
        took = {actor: last - first + 1 for actor, first, last in frame["took"]}
        heard = {actor: count for (step, actor), count in counts.items() if step == frame["done"]}
        if any(took.get(actor) != count for actor, count in heard.items()):
            raise Wrong("frame %d took other presents" % frame["number"])
    for present in run["presents"]:
        if present["frame"] and run["frames"][present["frame"] - 1]["begin"] != present["taken"]:
            raise Wrong("present %d is taken elsewhere" % present["number"])
    for step, (line, words) in enumerate(zip(steps["line"], steps["words"])):
        if words.startswith("Wait ") and main["script"][line - 1].split()[2] == "fence":
            fence = main["script"][line - 1].split()[3]
            if (run["signals"].get(fence, step) < step) != (words.split()[2] == "1"):
                raise Wrong("a Wait at line %d looked at fence %s otherwise" % (line, fence))


def check_groups() -> list[str]:
    """Items of many frames come out of their groups as they went in."""
    frames = [["%d" % (item + (frame if item % 3 == 1 else 0)) for item in range(frame % 7 + 3)] for frame in range(5 * GROUP_FRAMES)]
    groups = ItemGroups(lambda line: "[%s]" % line, False)
    for lines in frames:
        groups.add(lines)
    groups.close()
    again = unfolded([unpacked(group) for group in groups.groups])
    firsts = list(range(0, len(frames), GROUP_FRAMES))
    is_right = again == [[[int(line)] for line in lines] for lines in frames] and groups.first_frames == firsts
    return [] if is_right else ["items of many frames come out of their groups otherwise"]


def check_why(run: JSON) -> None:
    """If the word `why` was run, it says of each session whether a frame shows it, as the view tree does."""
    sessions = {number for number, actor in enumerate(run["actors"]) if actor["sort"] == "session"}
    for frame in run["frames"] if run["has"]["why"] else ():
        shown = {actor for actor, sentence in frame["why"] if sentence.startswith("shown ")}
        hidden = {actor for actor, sentence in frame["why"] if sentence.startswith("hidden: ")}
        if shown != {view[0] for view in frame["views"]} or hidden != sessions - shown:
            raise Wrong("of frame %d `why` shows other sessions than the view tree" % frame["number"])


def check_page(path: str, report: str | None, fault: Fault | None) -> JSON:
    """Checks a page against a report or a fault, and gives its data."""
    blocks = blocks_of(path)
    main: JSON = unpacked(blocks["main"])
    groups = [unpacked(blocks["items-%d" % number]) for number in range(len(blocks) - 1)]
    if fault is not None:
        if main["fault"] is None or Fault(main["fault"]["line"], main["fault"]["kind"]) != fault:
            raise Wrong("the page has another fault")
        if not main["fault"]["sentence"]:
            raise Wrong("the fault has no sentence")
    elif main["run"] is None:
        raise Wrong("the page has no run")
    if main["run"] is not None:
        check_run(main, groups, report)
    return main
