"""The parts of a history: what `history.py` keeps of presents, gets, sessions and frames."""
from __future__ import annotations

from collections import deque
from dataclasses import dataclass, field
from typing import NamedTuple

from report import View
from script import Present


@dataclass
class Delay:
    """Why the begins of these frames, from the first to the last, left a present waiting."""
    from_frame: int
    to_frame: int
    why: str


@dataclass
class Presented:
    """A present that was accepted. `frame` is the number of the frame that took it, 0 if none did."""
    actor: int
    entry: int
    number: int
    credits: int
    fields: Present
    frame: int = 0
    taken_at: int = -1
    is_shown: bool = False
    delays: list[Delay] = field(default_factory=list)


@dataclass
class Get:
    """A get, with the entry that answered it, -1 if none did."""
    actor: int
    entry: int
    watcher: str
    answered_at: int = -1
    value: str = ""


@dataclass
class Watcher:
    """The last answer of a watcher, and the get that it holds."""
    last: str = ""
    held: Get | None = None


@dataclass
class Frame:
    """A frame: its begin, and once it is done what it shows."""
    number: int
    time: int
    ratio: int
    begin: int
    done: int = -1
    presents: list[Presented] = field(default_factory=list)
    count: int = 0
    views: list[View] = field(default_factory=list)
    apart: list[str] = field(default_factory=list)
    lost: list[int] = field(default_factory=list)
    points: list[tuple[int, str]] = field(default_factory=list)


@dataclass
class Session:
    """What is known of a session at a place of the report."""
    actor: int
    waiting: deque[Presented] = field(default_factory=deque)
    has_taken: bool = False
    closed_at: int | None = None
    view: str = ""
    viewports: dict[str, tuple[str, int]] = field(default_factory=dict)
    watchers: dict[tuple[str, str, int], Watcher] = field(default_factory=dict)


@dataclass
class LineFate:
    """What became of a line of the script: one of the sorts of view/store.js, and the entry."""
    sort: str = "-"
    entry: int = -1


class EntryRow(NamedTuple):
    """An entry: the number of its actor, its line, its words in the report, and how many calls it carries."""
    actor: int
    line: int
    words: str
    carried: int


class EventRow(NamedTuple):
    """An event that an entry posts to a session."""
    entry: int
    actor: int
    words: str


class ProbeRow(NamedTuple):
    """The answer to a line of a probe, and the frame that the probe saw."""
    actor: int
    line: int
    words: str
    frame: int


class PointRow(NamedTuple):
    """The answer to a point that was asked in place of a pointer's Down, and how many entries stand before it."""
    before: int
    line: int
    words: str


@dataclass
class Close:
    """The closing entry of a session: its error as the report has it, and what explains it."""
    actor: int
    entry: int
    line: int
    error: list[str]
    words: str = ""
    facts: list[str] = field(default_factory=list)
