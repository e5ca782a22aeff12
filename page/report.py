"""Reads a report line by line, as docs/REPORT.md describes it.

A session may be called `item` or `end`, so the first word alone doesn't decide what a line is. A report may have
gigabytes of items, so it is read as a stream of small records.
"""
from __future__ import annotations

from collections.abc import Iterable, Iterator
from typing import NamedTuple


class NotAReport(ValueError):
    """A line that no report has at its place."""


class Entry(NamedTuple):
    """`S L words`: an entry of the history."""
    actor: str
    line: int
    words: list[str]


class End(NamedTuple):
    """`S end N`: a session's end, with the number of lines behind its closing entry."""
    session: str
    unplayed: int


class Event(NamedTuple):
    """`> S words`: an event that the entry before posts to a session."""
    session: str
    words: list[str]


class Items(NamedTuple):
    """`item ..`: the draw items of the frame just finished, as lines with their line feeds."""
    lines: list[str]


class View(NamedTuple):
    """`view S P X0 Y0 X1 Y1`: a view with its parent, if it has one, and its bounds."""
    session: str
    parent: str | None
    bounds: list[int]


class Apart(NamedTuple):
    """`apart S`"""
    session: str


class Lost(NamedTuple):
    """`display N lost at frame F`"""
    display: int
    frame: int


class ProbeLine(NamedTuple):
    """`P L words`: a line of a probe."""
    probe: str
    line: int
    words: list[str]


class Total(NamedTuple):
    """`report ends entries E frames F`"""
    entries: int
    frames: int


BLENDS = {"src": 0, "over": 1}

Record = Entry | End | Event | Items | View | Apart | Lost | ProbeLine | Total


def records(lines: Iterable[str], probes: Iterable[str]) -> Iterator[Record]:
    """The records of a report, in order, without its title."""
    known_probes = frozenset(probes)
    stream = iter(lines)
    if not next(stream, "").startswith("report flatland "):
        raise NotAReport("the first line is no title")
    items: list[str] = []
    for line in stream:
        # most lines of a large report are draw items: they are tested first, and all of a frame make one record
        if line.startswith("item ") and not line[5].isdigit() and line.count(" ") > 2:
            items.append(line)
            continue
        if items:
            yield Items(items)
            items = []
        yield record_of(line.rstrip("\n").split(" "), known_probes)


def record_of(words: list[str], probes: frozenset[str]) -> Record:
    """The record of a line other than a draw item."""
    match words:
        case [">", session, *event]:
            return Event(session, event)
        case ["display", number, "lost", "at", "frame", frame]:
            return Lost(int(number), int(frame))
        case ["report", "ends", "entries", entries, "frames", frames]:
            return Total(int(entries), int(frames))
        case ["view", session, parent, x0, y0, x1, y1] if not session.isdigit():
            return View(session, None if parent == "-" else parent, [int(x0), int(y0), int(x1), int(y1)])
        case ["apart", session]:
            return Apart(session)
        case [session, "end", unplayed]:
            return End(session, int(unplayed))
        case [actor, line, *reply] if line.isdigit() and reply:
            return ProbeLine(actor, int(line), reply) if actor in probes else Entry(actor, int(line), reply)
    raise NotAReport("no line of a report: %s" % " ".join(words)[:200])


def item_code(line: str, actors: dict[str, int], buffers: dict[str, int]) -> str:
    """A draw item as a JSON list of numbers, in the order that view/store.js names.

    Of all items: 0 or 1 (fill, image), actor, serial, swap, a, b, x, y, the four bounds of the visible
    rectangle, opacity, 0 or 1 (src, over), width, height. Then of a fill red, green, blue, alpha; of an
    image the collection, the index, the four numbers of the sample, the flip.
    """
    match line.split():
        case ["item", session, serial, "fill", red, green, blue, alpha, width, height, "m", swap, a, b, x, y,
              "v", x0, y0, x1, y1, "o", opacity, blend]:
            kind, paint = 0, f"{red},{green},{blue},{alpha}"
        case ["item", session, serial, "image", name, index, "sample", sx, sy, sw, sh, "size", width, height, "flip", flip,
              "m", swap, a, b, x, y, "v", x0, y0, x1, y1, "o", opacity, blend]:
            kind, paint = 1, f"{buffers[name]},{index},{sx},{sy},{sw},{sh},{flip}"
        case _:
            raise NotAReport("no draw item: %s" % line[:200])
    over = BLENDS[blend]
    return f"[{kind},{actors[session]},{serial},{swap},{a},{b},{x},{y},{x0},{y0},{x1},{y1},{opacity},{over},{width},{height},{paint}]"
