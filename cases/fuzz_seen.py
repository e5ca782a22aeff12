"""Counts what random runs have met, rule by rule, for the table at the end of fuzz.py.

Each row is a rule or a case of one: `ROWS` lists all that a long run has to meet. What isn't listed is counted too.
"""
from collections import Counter

GETS = ("GetLayout", "GetStatus", "GetChildStatus")
ROWS = {
    "status": ("0", "2", "3", "4", "5", "6", "7"),
    "word": ("play", "race", "render", "damage", "focus", "pointer", "why", "film", "stress"),
    "version": ("1", "2", "3"),
    "fault": tuple(str(kind) for kind in range(1, 14)),
    "fault for focus": ("5", "8", "9", "11"),
    "fault for pointer": ("5", "7", "8", "11"),
    "close": (*("B%d" % reason for reason in range(1, 23)), "NO_PRESENTS_REMAINING", "BAD_HANGING_GET", "Disconnect"),
    "reply": ("CreateView", "CreateViewport", "Signal", "Present", "Poll", "Wait met", "Wait unmet", "end", "begin", "done", "dpr",
              "hit", "hit somebody", *("%s held" % get for get in GETS), "GetLayout now W H", "GetLayout now gone",
              "GetStatus now connected", "GetStatus now disconnected", "GetStatus now gone",
              "GetChildStatus now content_has_presented", "GetChildStatus now gone"),
    "probe": ("hit", "hit somebody", "await"),
    "event": ("layout W H", "layout gone", "status connected", "status disconnected", "status gone",
              "child content_has_presented", "child gone", "framepresented", "tokenback", "credits"),
    "part": ("fill", "image", "src", "over", "flip 2", "flip 3", "opacity 0", "swapped", "view", "view below", "apart"),
    "hidden": ("closed", "waits time", "waits fence", "unpresented", "viewless", "viewport unmade", "viewport unshown", "viewport ended",
               "viewport loose", "cycle", "parent"),
    "shown": ("items", "rootless", "contentless", "transparent", "sizeless", "clipped"),
    "waits": ("time", "fence", "behind", "unsquashable"),
    "focus": ("granted", "denied", "frame"),
    "pointer": ("down", "move", "up", "nobody", "busy", "cancel"),
    "damage": ("none", "one", "several"),
    "check": ("same again", "written otherwise", "with a stranger", "race in another order", "pixels within the damage"),
}


def of_replies(words):
    """The rows of an entry's line; a probe's line is not one."""
    if words[1] == "end":
        return [("reply", "end")]
    said = words[2:]
    if said[0] == "closed":
        return [("close", said[-1] if len(said) > 1 else "Disconnect")]
    if said[0] in GETS:
        value = said[1] if said[1] == "held" else "now W H" if said[2].isdigit() else "now " + said[2]
        return [("reply", "%s %s" % (said[0], value))]
    if said[0] == "hit":
        return [("reply", "hit")] + [("reply", "hit somebody")] * (len(said) > 5)
    return [("reply", "Wait " + said[1] if said[0] == "Wait" else said[0])]


def of_part(words):
    if words[0] != "item":
        return [("part", words[0])] + [("part", "view below")] * (words[0] == "view" and words[2] != "-")
    found = [("part", words[3]), ("part", words[-1])]
    if words[3] == "image":
        found.append(("part", "flip " + words[words.index("flip") + 1]))
    if words[words.index("m") + 1] == "1":
        found.append(("part", "swapped"))
    return found + [("part", "opacity 0")] * (words[words.index("o") + 1] == "0")


def of_event(words):
    value = words[3] if words[1] in ("layout", "status", "child") else None
    return [("event", "%s %s" % (words[1], "W H" if value.isdigit() else value) if value else words[1])]


def of_report(entries, probes):
    """The rows of a report's entries."""
    found = Counter()
    for entry in entries:
        if entry.actor in probes:
            said = entry.words[2]
            rows = [("probe", said)] + [("probe", "hit somebody")] * (said == "hit" and len(entry.words) > 7)
        else:
            rows = of_replies(entry.words)
        for words in entry.parts:
            rows += of_part(words)
        for words in entry.events:
            rows += of_event(words)
        found.update(rows)
    return found


def of_why(text):
    found = Counter()
    for line in text.decode("ascii").splitlines():
        words = line.split(" ")
        if words[0] == "hidden":
            cause = words[3]
            cause += " " + (words[4] if cause == "waits" else words[6]) if cause in ("waits", "viewport") else ""
            found["hidden", cause] += 1
        elif words[0] == "shown":
            found["shown", words[-1] if words[-1] in ROWS["shown"] else "items"] += 1
        elif words[0] == "waits":
            found["waits", words[3 + 1]] += 1
    return found


def of_word(word, text):
    """The rows of the text that another word wrote."""
    lines = [line.split(" ") for line in text.decode("ascii").splitlines()] if word not in ("render", "film") else []
    if word == "why":
        return of_why(text)
    if word == "focus":
        return Counter(("focus", "frame" if words[0] == "frame" else words[4]) for words in lines if words[1] != "ends")
    if word == "pointer":
        return Counter(("pointer", "cancel" if words[0] == "cancel" else words[3]) for words in lines
                       if words[0] in ("cancel", "pointer") and words[1] != "ends")
    if word == "damage":
        counts = [int(words[4]) for words in lines if words[:2] == ["damage", "frame"]]
        return Counter(("damage", ("none", "one")[count] if count < 2 else "several") for count in counts)
    return Counter()


def print_table(seen, limits, has_judge):
    """Prints the table. Gives the rows that nothing has met."""
    rows = {**ROWS, "at the limit": tuple(limits), "above the limit": tuple(limits)}
    if has_judge:
        rows["word"] += ("judge",)
        rows["status"] += ("8",)
    unmet = []
    for group, names in rows.items():
        others = [name for sort, name in seen if sort == group and name not in names]
        print("%s: %s" % (group, ", ".join("%s %d" % (name, seen[group, name]) for name in [*names, *sorted(others)])))
        unmet += ["%s %s" % (group, name) for name in names if not seen[group, name]]
    print("%d rows, %d of them met by nothing%s" % (sum(map(len, rows.values())), len(unmet), ": " + ", ".join(unmet) if unmet else ""))
    return unmet
