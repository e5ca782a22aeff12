"""Packs the draw items of many frames, and finds what changed from frame to frame.

A page has the items in groups of frames, and unpacks a group when it shows a frame of it. In a group the first
frame has its items whole. Each other one has what changed from the frame before it: how many items it keeps at the
beginning (`keep`) and at the end (`tail`), and the items between.
"""
from __future__ import annotations

import base64
import json
import zlib
from collections.abc import Callable

GROUP_FRAMES = 16
GROUP_ITEMS = 40_000
RECTS_MOST = 16


def packed(data: bytes) -> str:
    """Bytes as the page keeps them: deflated, in base64."""
    return base64.b64encode(zlib.compress(data, 6)).decode("ascii")


def packed_json(value: object) -> str:
    """A value as the page keeps it."""
    return packed(json.dumps(value, separators=(",", ":")).encode("ascii"))


def common(old: list[str], new: list[str]) -> tuple[int, int]:
    """How many items two lists share at the beginning, and how many of the others at the end."""
    most = min(len(old), len(new))
    keep = 0
    while keep < most and old[keep] == new[keep]:
        keep += 1
    tail = 0
    while tail < most - keep and old[-1 - tail] == new[-1 - tail]:
        tail += 1
    return keep, tail


def between(lines: list[str], keep: int, tail: int) -> list[str]:
    """What two lists don't share, of one of them."""
    return lines[keep:len(lines) - tail]


def visible_rect(line: str) -> list[int]:
    """The visible rectangle of a draw item, which ends with `v X0 Y0 X1 Y1 o O BLEND`."""
    return [int(word) for word in line.rsplit(" ", 7)[1:5]]


def bounded(rects: list[list[int]]) -> list[list[int]]:
    """These rectangles, or if there are too many the one that has them all."""
    if len(rects) <= RECTS_MOST:
        return rects
    x0, y0, x1, y1 = zip(*rects)
    return [[min(x0), min(y0), max(x1), max(y1)]]


class ItemGroups:
    """Takes the items of one frame after another, as lines of the report, and makes the groups. If it is asked to
    find damage, `damage` has for each frame the rectangles that changed (docs/PAGE.md)."""

    def __init__(self, code: Callable[[str], str], finds_damage: bool) -> None:
        self.groups: list[str] = []
        self.first_frames: list[int] = []
        self.damage: list[list[list[int]]] = []
        self._code = code
        self._finds_damage = finds_damage
        self._lines: list[str] = []
        self._codes: list[str] = []
        self._group: list[str] = []
        self._in_group = 0
        self._frames = 0

    def add(self, lines: list[str]) -> None:
        """The next frame has these items."""
        keep, tail = common(self._lines, lines)
        if self._finds_damage:
            changed = between(self._lines, keep, tail) + between(lines, keep, tail)
            self.damage.append(bounded([visible_rect(line) for line in changed]))
        middle = [self._code(line) for line in between(lines, keep, tail)]
        self._codes = self._codes[:keep] + middle + (self._codes[len(self._codes) - tail:] if tail else [])
        self._lines = lines
        if not self._group or len(self._group) == GROUP_FRAMES or self._in_group + len(middle) > GROUP_ITEMS:
            self.close()
            self.first_frames.append(self._frames)
            keep, tail, middle = 0, 0, self._codes
        self._group.append('{"keep":%d,"tail":%d,"items":[%s]}' % (keep, tail, ",".join(middle)))
        self._in_group += len(middle)
        self._frames += 1

    def close(self) -> None:
        """No frame follows in this group."""
        if self._group:
            self.groups.append(packed(("[" + ",".join(self._group) + "]").encode("ascii")))
        self._group, self._in_group = [], 0
