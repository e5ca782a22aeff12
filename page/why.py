"""The sentences of the word `why`: a session is shown, or the first cause that hides it, and what a present waits for."""
from __future__ import annotations

from reasons import close_sentence

UNIT = 65536

BLANKS = {
    "rootless": "it has no root",
    "contentless": "none of its nodes has a fill or an image",
    "transparent": "its fills and images are seen through with opacity 0",
    "sizeless": "its fills and images have no area",
    "clipped": "its fills and images are clipped away or lie outside the display",
}

PARTINGS = {
    "unmade": "{parent} hasn't made the viewport of {pair}",
    "unshown": "{parent} hasn't presented the viewport of {pair} yet",
    "ended": "{parent} has released or cleared the viewport of {pair}",
    "loose": "the viewport of {pair} is the content of no node of {parent}",
}


def units(place: str) -> str:
    """A place in fixed point, in units."""
    value = int(place) / UNIT
    return "%d" % value if value.is_integer() else "%.3f" % value


def hold_words(hold: list[str]) -> str:
    """What a present waits for."""
    match hold:
        case ["time", time]:
            return "waits for time %s" % time
        case ["fence", fence]:
            return "waits for fence %s" % fence
        case ["behind"]:
            return "waits behind an earlier present"
        case ["unsquashable"]:
            return "waits behind an unsquashable present that has this frame"
    return " ".join(hold)


def cause_words(cause: list[str]) -> str:
    """Why a session is hidden."""
    match cause:
        case ["closed", line, *error]:
            return "line %s closed it (%s)" % (line, close_sentence(error))
        case ["unpresented"]:
            return "it has presented nothing"
        case ["waits", *hold]:
            return "its first present " + hold_words(hold)
        case ["viewless"]:
            return "what it presented has no view"
        case ["cycle"]:
            return "it hangs below itself"
        case ["viewport", pair, parent, parting] if parting in PARTINGS:
            return PARTINGS[parting].format(pair=pair, parent=parent)
        case ["parent", parent]:
            return "its parent %s is hidden" % parent
    return " ".join(cause)


def why_sentence(state: str, rest: list[str]) -> str:
    """The sentence of a line, by its first word and the words behind the session."""
    match [state, *rest]:
        case ["shown", x0, y0, x1, y1, count, *blank]:
            place = "%s, %s to %s, %s" % (units(x0), units(y0), units(x1), units(y1))
            if blank:
                return "shown at %s, but draws nothing: %s" % (place, BLANKS.get(blank[0], blank[0]))
            return "shown at %s with %s item%s" % (place, count, "" if count == "1" else "s")
        case ["hidden", *cause]:
            return "hidden: " + cause_words(cause)
        case ["waits", number, *hold]:
            return "present %s %s" % (number, hold_words(hold))
    return " ".join([state, *rest])
