"""The grammar of scripts as tables: which words an actor's line may have, and what each place wants (docs/SCRIPT.md)."""
from __future__ import annotations

from typing import NamedTuple

RATIO_LEAST, RATIO_MOST = 16_384, 1_048_576
SIDE_MOST = 65_536
I32_MOST = 2**31 - 1
U32_MOST = 2**32 - 1
ID_MOST = 2**64 - 1
TIME_MOST = 2**63 - 1
VERSION_MOST = 3
DIGITS_MOST = 20
NAME_BYTES_MOST = 16
RESERVED = ("display", "acquire", "release")


class Number(NamedTuple):
    """A place with a number of a range."""
    what: str
    least: int
    most: int


class Name(NamedTuple):
    """A place with a declared name of a sort. If `end` isn't empty, the actor has to own that end of what is named."""
    what: str
    sort: str
    end: str = ""


Place = Number | Name

PLACES: dict[str, Place] = {
    "transform": Number("the id of a transform", 0, ID_MOST),
    "parent": Number("the id of the parent, a transform", 0, ID_MOST),
    "child": Number("the id of a child, a transform", 0, ID_MOST),
    "content": Number("the id of a content", 0, ID_MOST),
    "x": Number("x", -I32_MOST - 1, I32_MOST),
    "y": Number("y", -I32_MOST - 1, I32_MOST),
    "rect_width": Number("the width of a rectangle", -I32_MOST - 1, I32_MOST),
    "rect_height": Number("the height of a rectangle", -I32_MOST - 1, I32_MOST),
    "orientation": Number("an orientation: 1 no turn, 2, 3 and 4 turned 90, 180 and 270 degrees against the clock", 1, 4),
    "scale_x": Number("a scale, in fixed point with 65536 for one", 0, U32_MOST),
    "scale_y": Number("a scale, in fixed point with 65536 for one", 0, U32_MOST),
    "opacity": Number("an opacity, in fixed point with 65536 for one", 0, U32_MOST),
    "red": Number("red", 0, 255),
    "green": Number("green", 0, 255),
    "blue": Number("blue", 0, 255),
    "alpha": Number("alpha", 0, 255),
    "width": Number("a width", 0, U32_MOST),
    "height": Number("a height", 0, U32_MOST),
    "index": Number("the index of a buffer", 0, U32_MOST),
    "blending": Number("a blending function: 1 source, 2 source over", 1, 2),
    "flip": Number("a flip: 1 none, 2 left and right, 3 up and down", 1, 3),
    "interaction": Number("an interaction: 0 default, 1 semantically invisible", 0, 1),
    "top": Number("the inset at the top", 0, 65_536),
    "right": Number("the inset at the right", 0, 65_536),
    "bottom": Number("the inset at the bottom", 0, 65_536),
    "left": Number("the inset at the left", 0, 65_536),
    "time": Number("a time", 0, TIME_MOST),
    "number": Number("the number that is waited for", 0, U32_MOST),
    "frame": Number("the number of a frame", 0, U32_MOST),
    "ratio": Number("a pixel ratio, in fixed point with 65536 for one", RATIO_LEAST, RATIO_MOST),
    "display_width": Number("a width", 1, SIDE_MOST),
    "display_height": Number("a height", 1, SIDE_MOST),
    "count": Number("the number of buffers", 1, 64),
    "version": Number("the version", 0, U32_MOST),
    "pointer": Number("the number of a pointer", 0, 15),
    "view_pair": Name("a pair whose view end the session owns", "pair", "view end"),
    "viewport_pair": Name("a pair whose viewport end the session owns", "pair", "viewport end"),
    "collection": Name("a buffer collection that the session owns", "buffers", "collection"),
    "fence": Name("a fence that the actor owns", "fence", "fence"),
    "session": Name("a session", "session"),
    "owner": Name("an owner: a session or `display`", "owner"),
}

# What follows a call: a label of PLACES for each word. `[..]` is all there or not at all, `(..)*` and `child*` are repeated to
# the end of the line, `owner+` is there once or more.
SESSION_CALLS = {
    "CreateView": "view_pair",
    "ReleaseView": "",
    "CreateTransform": "transform",
    "ReleaseTransform": "transform",
    "SetTranslation": "transform x y",
    "SetOrientation": "transform orientation",
    "SetScale": "transform scale_x scale_y",
    "SetOpacity": "transform opacity",
    "SetClipBoundary": "transform [x y rect_width rect_height]",
    "AddChild": "parent child",
    "RemoveChild": "parent child",
    "ReplaceChildren": "parent child*",
    "SetRootTransform": "transform",
    "CreateViewport": "content viewport_pair width height [top right bottom left]",
    "SetViewportProperties": "content width height [top right bottom left]",
    "ReleaseViewport": "content",
    "CreateImage": "content collection index width height",
    "SetImageSampleRegion": "content x y rect_width rect_height",
    "SetImageDestinationSize": "content width height",
    "SetImageBlendingFunction": "content blending",
    "SetImageFlip": "content flip",
    "SetImageOpacity": "content opacity",
    "ReleaseImage": "content",
    "CreateFilledRect": "content",
    "SetSolidFill": "content red green blue alpha width height",
    "ReleaseFilledRect": "content",
    "SetHitRegions": "transform (x y rect_width rect_height interaction)*",
    "SetInfiniteHitRegion": "transform interaction",
    "SetContent": "transform content",
    "Clear": "",
}

SESSION_LINES = SESSION_CALLS | {
    "Present": "time",  # and what follows it, which body_lines.py reads
    "GetLayout": "",
    "GetStatus": "",
    "GetChildStatus": "content",
    "Signal": "fence",
    "Poll": "",
    "Wait": "condition",
    "Disconnect": "",
}
DISPLAY_LINES = {"begin": "time", "done": "", "Signal": "fence", "Wait": "condition", "hit": "x y", "dpr": "ratio"}
PROBE_LINES = {"hit": "x y", "await": "frame"}
LINES = {"session": SESSION_LINES, "display": DISPLAY_LINES, "probe": PROBE_LINES}

CONDITIONS = {
    "session": {"frames": "number", "credits": "number", "taken": "number", "answers": "number", "fence": "fence"},
    "display": {"presents": "session number", "fence": "fence"},
}

# Words that a version lacks, with the first version that has them.
WORD_SINCE = {"ReplaceChildren": 2, "unsquashable": 2, "dpr": 3}
RATIO_SINCE = 3

EXTRA_LINES = {"Focus": "session", "Down": "pointer x y", "Move": "pointer x y", "Up": "pointer"}

HEAD_LINES = {
    "display": "display_width display_height",
    "session": "name",
    "probe": "name",
    "buffers": "name session count display_width display_height",
    "pair": "name owner session",
    "fence": "name owner+",
}
# How many declarations of a sort a script may have.
DECLARED_MOST = {"session": 16, "probe": 8, "buffers": 256, "pair": 4096, "fence": 4096}
SORT_NAMES = {"session": "session", "probe": "probe", "buffers": "buffer collection", "pair": "pair", "fence": "fence"}


def knows(version: int, word: str) -> bool:
    """Whether scripts of a version may use a word."""
    return version >= WORD_SINCE.get(word, 1)


def natural(word: str) -> int | None:
    """The number that a word without a sign writes."""
    if len(word) == 1:
        return int(word) if "0" <= word <= "9" else None
    is_number = word.isascii() and word.isdigit() and word[0] != "0" and len(word) <= DIGITS_MOST
    return int(word) if is_number else None


def signed(word: str) -> int | None:
    """The number that a word writes which may have a sign."""
    if word.startswith("-"):
        number = natural(word[1:])
        return -number if number else None
    return natural(word)


def is_name_letter(letter: str) -> bool:
    """Whether a name may have this character."""
    return letter.isascii() and (letter.isalnum() or letter == "_")


def is_name(word: str) -> bool:
    """Whether a word may be declared as a name."""
    return (word[:1].isascii() and word[:1].isalpha() and all(map(is_name_letter, word))
            and len(word) <= NAME_BYTES_MOST and word not in RESERVED)


def bound(number: int) -> str:
    """A bound of a range; large ones are written as powers."""
    for power in (31, 32, 63, 64):
        if number == 2**power - 1:
            return "2^%d - 1" % power
        if number == -(2**power):
            return "-2^%d" % power
    return "{:,}".format(number)


def usage(spec: str) -> str:
    """What follows a call, as a reader sees it: `PARENT CHILD`."""
    return spec.upper().replace("RECT_", "").replace("DISPLAY_", "")
