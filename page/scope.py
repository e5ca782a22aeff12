"""What the lines of a script before another one say: names, frames and counts."""
from __future__ import annotations

from collections import Counter

from line_reader import BAD_ORDER, Declared, Finding

ACTOR_LINES_MOST = 65_536
FRAMES_MOST = 512


class Scope:
    """Names with their declarations, and the counts that limits ask for. A line number of 0 says that there is no such line."""

    def __init__(self, later: dict[str, int]) -> None:
        self.later = later
        self.version = 1
        self.names: dict[str, Declared] = {}
        self.counts: Counter[str] = Counter()
        self.display_line = 0
        self.display_pair = 0
        self.run_line = 0
        self.begins = 0
        self.last_time = 0
        self.last_begin = 0
        self.is_open = False
        self.actor_lines: Counter[str] = Counter()

    def declare(self, number: int, words: list[str]) -> None:
        """Takes a line of the head that has no fault."""
        match words:
            case ["display", *_]:
                self.display_line = number
            case ["pair", name, viewport, view]:
                self._add(name, "pair", number, {"viewport end": [viewport], "view end": [view]})
                self.display_pair = number if viewport == "display" else self.display_pair
            case ["buffers", name, owner, *_]:
                self._add(name, "buffers", number, {"collection": [owner]})
            case ["fence", name, *owners]:
                self._add(name, "fence", number, {"fence": owners})
            case [sort, name]:
                self._add(name, sort, number, {})

    def _add(self, name: str, sort: str, number: int, owners: dict[str, list[str]]) -> None:
        self.names[name] = Declared(sort, number, owners)
        self.counts[sort] += 1

    def note_body(self, number: int, words: list[str]) -> None:
        """Takes a line of the body that has no fault."""
        self.actor_lines[words[0]] += 1
        match words:
            case ["display", "begin", time]:
                self.begins += 1
                self.last_time, self.last_begin, self.is_open = int(time), number, True
            case ["display", "done"]:
                self.is_open = False

    def sort_of(self, actor: str) -> str | None:
        """The sort of an actor: display, session or probe; None if the word is no actor."""
        if actor == "display":
            return "display"
        declared = self.names.get(actor)
        return declared.sort if declared is not None and declared.sort in ("session", "probe") else None

    @property
    def actors(self) -> list[str]:
        """The names of all actors."""
        return ["display", *(name for name in self.names if self.sort_of(name))]

    def open_at_end(self) -> Finding | None:
        """The fault of a text that ends while a frame is open."""
        if not self.is_open:
            return None
        return Finding(BAD_ORDER, 0, 0, "the text ends while the frame begun at line %d is open" % self.last_begin,
                       ["`display done` finishes it"])
