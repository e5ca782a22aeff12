"""A session's draft: what its calls made so far, and why the next call is a misuse (docs/DRAFTS.md).

The program judges the calls. This draft is made again from the script, so that a close can be explained with the ids, the
lines that made them, and what the call wanted of them.
"""
from __future__ import annotations

from dataclasses import dataclass, field
from typing import NamedTuple

NAMED_MOST = 1024
CHILDREN_MOST = 64
REGIONS_MOST = 16
SIDE_MOST = 65_536
SCALE_MOST = 2**24
OPACITY_MOST = 65_536
I32_MOST = 2**31 - 1
IDS_LISTED = 12


class Misuse(NamedTuple):
    """The reason of a misuse, and what explains it."""
    reason: str
    facts: list[str]


@dataclass
class Transform:
    """A transform: its id and line, its children with the lines that added them, and its content."""
    id: str
    line: int
    children: list[tuple[int, int]] = field(default_factory=list)
    content: int | None = None


@dataclass
class Content:
    """A content: its sort, its id and line, the size of an image, and the pair of a viewport."""
    sort: str
    id: str
    line: int
    width: int = 0
    height: int = 0
    pair: str = ""


class Names:
    """What the ids of transforms or of contents name, as places in a list, and where names went."""

    def __init__(self, what: str) -> None:
        self.what = what
        self.places: dict[str, int] = {}
        self.gone: dict[str, tuple[str, int]] = {}

    def release(self, name: str, how: str, line: int) -> None:
        """An id names nothing any more."""
        self.places.pop(name, None)
        self.gone[name] = (how, line)

    def unknown(self, name: str) -> str:
        """Why an id names nothing."""
        if name in self.gone:
            how, line = self.gone[name]
            return "%s %s: line %d %s it" % (self.what, name, line, how)
        count = len(self.places)
        more = " and %d more" % (count - IDS_LISTED) if count > IDS_LISTED else ""
        some = "the %s%s %s" % (self.what, "" if count == 1 else "s", ", ".join(list(self.places)[:IDS_LISTED])) + more
        return "no line made %s %s; the session has %s" % (self.what, name, some if count else "none")


class Draft:
    """What a session's calls made so far."""

    def __init__(self, collections: dict[str, tuple[str, int, int, int]]) -> None:
        self.collections = collections
        self.transforms: list[Transform] = []
        self.contents: list[Content] = []
        self.transform_names = Names("transform")
        self.content_names = Names("content")
        self.root: int | None = None
        self.view: tuple[str, int] | None = None
        self.view_gone: tuple[str, int] | None = None
        # by pairs, the lines that used each end, and those that released or cleared a viewport
        self.view_uses: dict[str, int] = {}
        self.viewport_uses: dict[str, int] = {}
        self.viewport_releases: dict[str, int] = {}
        self.viewport_clears: dict[str, int] = {}

    # What an id names.

    def transform(self, name: str) -> Transform:
        """The transform that an id names."""
        return self.transforms[self.transform_names.places[name]]

    def content(self, name: str) -> Content:
        """The content that an id names."""
        return self.contents[self.content_names.places[name]]

    def made(self, thing: Transform | Content) -> str:
        """An id with the line that made what it names."""
        sort = thing.sort if isinstance(thing, Content) else "transform"
        return "%s %s (line %d)" % (sort, thing.id, thing.line)

    # Calls that are no misuse.

    def apply(self, line: int, call: str, words: list[str]) -> None:
        """Takes a call; calls that no test of a later one looks at change nothing here."""
        match [call, *words]:
            case ["CreateView", pair]:
                self.view, self.view_uses[pair] = (pair, line), line
            case ["ReleaseView"]:
                self.view, self.view_gone = None, ("released", line)
            case ["CreateTransform", name]:
                self.transform_names.places[name] = len(self.transforms)
                self.transforms.append(Transform(name, line))
            case ["ReleaseTransform", name]:
                self.transform_names.release(name, "released", line)
            case ["AddChild", parent, child]:
                self.transform(parent).children.append((self.transform_names.places[child], line))
            case ["RemoveChild", parent, child]:
                place = self.transform_names.places[child]
                self.transform(parent).children = [edge for edge in self.transform(parent).children if edge[0] != place]
            case ["ReplaceChildren", parent, *children]:
                self.transform(parent).children = [(self.transform_names.places[child], line) for child in children]
            case ["SetRootTransform", name]:
                self.root = self.transform_names.places.get(name)
            case ["SetContent", name, content]:
                self.transform(name).content = self.content_names.places.get(content)
            case _:
                self._apply_content(line, call, words)

    def _apply_content(self, line: int, call: str, words: list[str]) -> None:
        match [call, *words]:
            case ["CreateViewport", name, pair, *_]:
                self._add_content(Content("viewport", name, line, pair=pair))
                self.viewport_uses[pair] = line
            case ["CreateImage", name, _, _, width, height]:
                self._add_content(Content("image", name, line, int(width), int(height)))
            case ["CreateFilledRect", name]:
                self._add_content(Content("filled rectangle", name, line))
            case ["ReleaseViewport", name]:
                self._release_viewport(self.content_names.places[name], line)
                self.content_names.release(name, "released", line)
            case [("ReleaseImage" | "ReleaseFilledRect"), name]:
                self.content_names.release(name, "released", line)
            case ["Clear"]:
                self._clear(line)

    def _add_content(self, content: Content) -> None:
        self.content_names.places[content.id] = len(self.contents)
        self.contents.append(content)

    def _release_viewport(self, place: int, line: int) -> None:
        self.viewport_releases[self.contents[place].pair] = line
        for transform in self.transforms:
            if transform.content == place:
                transform.content = None

    def _clear(self, line: int) -> None:
        for pair, used in self.viewport_uses.items():
            if self.viewport_releases.get(pair, 0) < used:
                self.viewport_clears.setdefault(pair, line)
        for names in (self.transform_names, self.content_names):
            for name in list(names.places):
                names.release(name, "cleared", line)
        if self.view is not None:
            self.view, self.view_gone = None, ("cleared", line)
        self.root = None
