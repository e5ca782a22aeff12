"""The sentence of each kind of a script's faults, and of each reason of a misuse."""
from __future__ import annotations

from typing import NamedTuple


class Meaning(NamedTuple):
    """The name of a number in the code, and its sentence."""
    name: str
    sentence: str


FAULT_KINDS = {
    1: Meaning("TooLong", "the text has more than 16 MiB"),
    2: Meaning("NotAscii", "the line has a byte that isn't printable ASCII"),
    3: Meaning("LongLine", "the line has more than 1,024 bytes"),
    4: Meaning("BadHead", "the line has no place in the head, or the head lacks something"),
    5: Meaning("UnknownActor", "the first word is no session, no probe and not `display`"),
    6: Meaning("UnknownCall", "the actor has no such call in this version"),
    7: Meaning("BadNumber", "a word is no number of the range that its place has"),
    8: Meaning("WrongCount", "the line has too few words or too many"),
    9: Meaning("UnknownName", "a word is no declared name of the sort that its place wants"),
    10: Meaning("NotOwner", "the actor doesn't own what it names"),
    11: Meaning("Limit", "the script has one declaration, frame or line of an actor too many"),
    12: Meaning("BadOrder", "a frame begins or ends out of order"),
    13: Meaning("UnknownVersion", "there is no such version"),
}

CLOSE_REASONS = {
    "B1": Meaning("ZeroId", "the id 0 names nothing"),
    "B2": Meaning("IdInUse", "the id already names something"),
    "B3": Meaning("UnknownTransform", "the id names no transform"),
    "B4": Meaning("UnknownContent", "the id names no content"),
    "B5": Meaning("WrongContent", "the content is of another sort"),
    "B6": Meaning("AlreadyChild", "the transform is a child already, or is listed twice"),
    "B7": Meaning("NotChild", "the transform is no child of that parent"),
    "B8": Meaning("BadScale", "a scale is 0 or above 2^24"),
    "B9": Meaning("BadOpacity", "an opacity is above 65,536"),
    "B10": Meaning("BadRect", "a rectangle is empty, ends above 2^31 - 1, or leaves its image"),
    "B11": Meaning("BadSize", "a side is 0 or too long"),
    "B12": Meaning("BadBuffer", "the collection has no buffer of that index"),
    "B13": Meaning("TooManyRegions", "a transform has at most 16 hit regions"),
    "B14": Meaning("HasView", "the session has a view already"),
    "B15": Meaning("NoView", "the session has no view"),
    "B16": Meaning("TokenNotHeld", "the session doesn't hold the token of that end"),
    "B17": Meaning("Cycle", "a transform that the root reaches reaches itself"),
    "B18": Meaning("TreeTooLarge", "a tree has at most 1,024 nodes, and a path at most 64"),
    "B19": Meaning("ViewportTwice", "one viewport is the content of two nodes"),
    "B20": Meaning("TooManyNamed", "at most 1,024 transforms have names at one time, and as many contents"),
    "B21": Meaning("TooManyChildren", "a transform has at most 64 children"),
    "B22": Meaning("TooManyFences", "a list has at most 16 fences"),
}

CLOSE_ERRORS = {
    "NO_PRESENTS_REMAINING": "it presented without a credit",
    "BAD_HANGING_GET": "it asked a watcher that still held its earlier get",
}


def close_sentence(error: list[str]) -> str:
    """The sentence of a closing entry, by the words behind `closed` in the report."""
    match error:
        case []:
            return "it disconnected"
        case ["BAD_OPERATION", reason] if reason in CLOSE_REASONS:
            meaning = CLOSE_REASONS[reason]
            return "%s %s: %s" % (reason, meaning.name, meaning.sentence)
        case [name] if name in CLOSE_ERRORS:
            return "%s: %s" % (name, CLOSE_ERRORS[name])
    return " ".join(error)
