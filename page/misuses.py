"""Why a call is a misuse: its tests in the order of the reasons, each with the ids and numbers that explain it."""
from __future__ import annotations

from collections.abc import Iterator

from draft import CHILDREN_MOST, I32_MOST, NAMED_MOST, OPACITY_MOST, REGIONS_MOST, SCALE_MOST, SIDE_MOST, Draft, Misuse, Names

REGION_WORDS = 5
FENCES_MOST = 16
CONTENT_SORTS = {
    "SetViewportProperties": "viewport", "ReleaseViewport": "viewport", "GetChildStatus": "viewport",
    "SetImageSampleRegion": "image", "SetImageDestinationSize": "image", "SetImageBlendingFunction": "image",
    "SetImageFlip": "image", "SetImageOpacity": "image", "ReleaseImage": "image",
    "SetSolidFill": "filled rectangle", "ReleaseFilledRect": "filled rectangle",
}
SIDES_AT = {"CreateViewport": 2, "SetViewportProperties": 1, "SetImageDestinationSize": 1, "SetSolidFill": 5}


def find_misuse(draft: Draft, call: str, words: list[str]) -> Misuse | None:
    """The first reason why a call is a misuse; that a token isn't held (B16) isn't tested."""
    return next(misuses(draft, call, words), None)


def misuses(draft: Draft, call: str, words: list[str]) -> Iterator[Misuse]:
    """The reasons of a call, lowest first."""
    if call in ("CreateView", "ReleaseView", "GetLayout", "GetStatus"):
        yield from view_misuses(draft, call)
    elif call in ("CreateTransform", "CreateViewport", "CreateImage", "CreateFilledRect"):
        yield from create_misuses(draft, call, words)
    elif call in ("AddChild", "RemoveChild", "ReplaceChildren"):
        yield from child_misuses(draft, call, words[0], words[1:])
    elif call in CONTENT_SORTS:
        yield from content_misuses(draft, call, words)
    elif call == "SetRootTransform":
        if words[0] != "0":
            yield from unknown(draft.transform_names, "B3", words)
    elif call not in ("Clear", "Present", "Poll", "Wait", "Signal", "Disconnect"):
        yield from transform_misuses(draft, call, words)


def zero(words: list[str], what: str) -> Iterator[Misuse]:
    """An id of 0 where something has to be named."""
    if "0" in words:
        yield Misuse("B1", ["the %s is 0, and ids begin at 1" % what])


def unknown(names: Names, reason: str, words: list[str]) -> Iterator[Misuse]:
    """An id that names nothing."""
    for word in words:
        if word not in names.places:
            yield Misuse(reason, [names.unknown(word)])


def view_misuses(draft: Draft, call: str) -> Iterator[Misuse]:
    """A view that is there already, or isn't there."""
    if call == "CreateView" and draft.view is not None:
        yield Misuse("B14", ["line %d made its view, of the pair %s" % (draft.view[1], draft.view[0]), "ReleaseView ends it"])
    if call != "CreateView" and draft.view is None:
        gone = draft.view_gone
        yield Misuse("B15", ["line %d %s the view" % (gone[1], gone[0]) if gone else "no line made a view; CreateView makes one"])


def create_misuses(draft: Draft, call: str, words: list[str]) -> Iterator[Misuse]:
    """An id that can't be made to name something new."""
    is_transform = call == "CreateTransform"
    names = draft.transform_names if is_transform else draft.content_names
    name = words[0]
    yield from zero([name], "%s's id" % names.what)
    if name in names.places:
        yield Misuse("B2", ["it names %s" % draft.made(draft.transform(name) if is_transform else draft.content(name))])
    if call == "CreateImage":
        yield from image_misuses(draft, words)
    elif call in SIDES_AT:
        yield from side_misuses(words[SIDES_AT[call]:SIDES_AT[call] + 2], (SIDE_MOST, SIDE_MOST), "")
    if len(names.places) >= NAMED_MOST:
        yield Misuse("B20", ["{:,} {}s have names; releasing one makes room".format(len(names.places), names.what)])


def image_misuses(draft: Draft, words: list[str]) -> Iterator[Misuse]:
    """An image that doesn't fit its buffers."""
    collection, index = words[1], int(words[2])
    _, count, width, height = draft.collections[collection]
    yield from side_misuses(words[3:5], (width, height), " of the buffers of %s, which are %d by %d" % (collection, width, height))
    if index >= count:
        yield Misuse("B12", ["%s has %d buffer%s, with %s, and %d isn't among them" % (collection, count, "" if count == 1 else "s",
                                                                                  "the index 0" if count == 1 else "the indices 0 to %d" % (count - 1), index)])


def side_misuses(sides: list[str], most: tuple[int, int], of_what: str) -> Iterator[Misuse]:
    """Sides that are 0 or too long."""
    for side, word, limit in zip(("width", "height"), sides, most):
        if not 1 <= int(word) <= limit:
            above = "{} {:,} is above {:,}".format(side, int(word), limit) + (", the %s%s" % (side, of_what) if of_what else "")
            yield Misuse("B11", ["the %s" % (above if int(word) else "%s is 0, and sides begin at 1" % side)])


def child_misuses(draft: Draft, call: str, parent: str, children: list[str]) -> Iterator[Misuse]:
    """Parents and children."""
    yield from zero([parent], "parent")
    yield from zero(children, "child")
    yield from unknown(draft.transform_names, "B3", [parent, *children])
    names = draft.transform_names.places
    if parent not in names or any(child not in names for child in children):
        return
    old = dict(draft.transform(parent).children)
    if call == "ReplaceChildren":
        twice = next((child for place, child in enumerate(children) if child in children[:place]), None)
        if twice is not None:
            yield Misuse("B6", ["transform %s is listed twice" % twice])
        if len(children) > CHILDREN_MOST:
            yield Misuse("B21", ["%d children are listed" % len(children)])
        return
    edge = old.get(names[children[0]])
    if call == "AddChild" and edge is not None:
        yield Misuse("B6", ["transform %s is a child of transform %s since line %d" % (children[0], parent, edge)])
    if call == "AddChild" and len(old) >= CHILDREN_MOST:
        yield Misuse("B21", ["transform %s has %d children" % (parent, len(old))])
    if call == "RemoveChild" and edge is None:
        ids = ", ".join(draft.transforms[place].id for place in old)
        yield Misuse("B7", ["transform %s has %s" % (parent, "the children %s" % ids if old else "no children")])


def content_misuses(draft: Draft, call: str, words: list[str]) -> Iterator[Misuse]:
    """A content that isn't there, is of another sort, or can't have these numbers."""
    name, wanted = words[0], CONTENT_SORTS[call]
    yield from zero([name], "content's id")
    yield from unknown(draft.content_names, "B4", [name])
    if name not in draft.content_names.places:
        return
    content = draft.content(name)
    if content.sort != wanted:
        yield Misuse("B5", ["it names %s, and %s wants %s %s" % (draft.made(content), call, "an" if wanted == "image" else "a", wanted)])
    if call == "SetImageOpacity":
        yield from opacity_misuses(words[1])
    if call == "SetImageSampleRegion":
        yield from rect_misuses(words[1:5], "the sample")
        yield from leaving_misuses(words[1:5], content.width, content.height)
    if call in SIDES_AT:
        yield from side_misuses(words[SIDES_AT[call]:SIDES_AT[call] + 2], (SIDE_MOST, SIDE_MOST), "")


def opacity_misuses(word: str) -> Iterator[Misuse]:
    """An opacity above one."""
    if int(word) > OPACITY_MOST:
        yield Misuse("B9", ["the opacity {:,} is above {:,}, which is fully opaque".format(int(word), OPACITY_MOST)])


def rect_misuses(words: list[str], what: str) -> Iterator[Misuse]:
    """A rectangle without area, or that ends too far out."""
    x, y, width, height = map(int, words)
    for side, length in (("width", width), ("height", height)):
        if length < 1:
            yield Misuse("B10", ["%s has the %s %d, and sides begin at 1" % (what, side, length)])
    for side, end in (("right", x + width), ("bottom", y + height)):
        if end > I32_MOST:
            yield Misuse("B10", ["{} ends at the {} at {:,}, above 2^31 - 1".format(what, side, end)])


def leaving_misuses(words: list[str], image_width: int, image_height: int) -> Iterator[Misuse]:
    """A sample that leaves its image."""
    x, y, width, height = map(int, words)
    if x < 0 or y < 0 or x + width > image_width or y + height > image_height:
        yield Misuse("B10", ["the sample goes from %d, %d to %d, %d, and the image from 0, 0 to %d, %d" % (x, y, x + width, y + height, image_width, image_height)])


def transform_misuses(draft: Draft, call: str, words: list[str]) -> Iterator[Misuse]:
    """A transform that isn't there, or can't have these numbers."""
    yield from zero(words[:1], "transform's id")
    yield from unknown(draft.transform_names, "B3", words[:1])
    match call:
        case "SetScale":
            for axis, word in zip("xy", words[1:]):
                if not 1 <= int(word) <= SCALE_MOST:
                    yield Misuse("B8", ["the scale {:,} of {} isn't from 1 to {:,}, where 65,536 is one".format(int(word), axis, SCALE_MOST)])
        case "SetOpacity":
            yield from opacity_misuses(words[1])
        case "SetClipBoundary" if len(words) > 1:
            yield from rect_misuses(words[1:], "the clip")
        case "SetHitRegions":
            count = len(words) // REGION_WORDS
            for number in range(count):
                first = 1 + number * REGION_WORDS
                yield from rect_misuses(words[first:first + 4], "hit region %d" % (number + 1))
            if count > REGIONS_MOST:
                yield Misuse("B13", ["%d hit regions are given" % count])
        case "SetContent" if words[1] != "0":
            yield from unknown(draft.content_names, "B4", words[1:2])
