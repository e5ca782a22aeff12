"""Writes a script of fuzz.py otherwise, so that the rules promise the same of both, and compares their reports.

`written_otherwise` and `with_stranger` give a script and the number of each old line in it, and `renumbered` the report
of one with the numbers of the other. `with_focus` and `with_pointers` add lines for those words, and `without_unmet` takes
away what a race would look for long.
"""
from fuzz_clients import Client
from fuzz_reports import read
from fuzz_scripts import Maker


def written_otherwise(rng, lines):
    """The script with lines that are skipped, its head in another order and insets that say
    nothing, and the number of each old line in it."""
    run = lines.index("run")
    sorts = {}
    for number, line in enumerate(lines[:run], 1):
        sorts.setdefault(line.split(" ")[0], []).append((number, line))
    first, display, sessions = sorts.pop("flatland"), sorts.pop("display"), sorts.pop("session")
    rest = []
    queues = [list(queue) for queue in sorts.values()]
    while any(queues):
        rest.append(rng.choice([queue for queue in queues if queue]).pop(0))
    head = sessions + rest
    head.insert(rng.randrange(len(head) + 1), display[0])
    out, numbers = [], {}
    for number, line in first + head + [(n, l) for n, l in enumerate(lines[run:], run + 1)]:
        while rng.random() < 0.1:
            out.append(rng.choice(["", "#", "# a remark"]))
        words = line.split(" ")
        if words[1:2] == ["CreateViewport"] and len(words) == 6:
            line += " 0 0 0 0"
        out.append(line)
        numbers[len(out)] = number
    return out, numbers


def with_stranger(rng, lines):
    """The script with one more session that is linked to nobody, and the number of each old
    line in it."""
    run = lines.index("run")
    stranger = Maker(rng)
    stranger.version = int(lines[0].split(" ")[1])
    client = Client("stranger")
    client.viewports_of, client.views_of, client.fences, client.buffers = ["own"], ["own"], ["alone"], ["pixels"]
    stranger.clients, stranger.display_fences = [client], []
    out, numbers = [], {}
    for number, line in enumerate(lines, 1):
        if number == run + 1:
            out += ["session stranger", "pair own stranger stranger", "fence alone stranger", "buffers pixels stranger 2 9 9"]
        out.append(line)
        numbers[len(out)] = number
        while number > run and rng.random() < 0.5:
            make = rng.choice([stranger.transform_call, stranger.content_call, stranger.entering_call])
            out.append("stranger " + make(client))
    return out, numbers


def renumbered(report, numbers, leave=None):
    """The entries of a report by the old numbers of lines, without those of a session."""
    out = []
    for entry in read(report)[0]:
        if entry.actor == leave:
            continue
        number = numbers.get(entry.number, entry.number)
        events = [event for event in entry.events if event[0] != leave]
        parts = [part for part in entry.parts if part != ["apart", leave]]
        out.append((entry.actor, number, entry.words[2:], parts, events))
    return out


def with_extra(rng, lines, make):
    """The script with lines of its maker behind `run`."""
    run, out = lines.index("run"), []
    share = rng.choice([0.02, 0.1, 0.3])
    for number, line in enumerate(lines):
        out.append(line)
        while number >= run and rng.random() < share:
            out.append(make(rng))
    return out + [make(rng)] * 65536 if rng.random() < 0.002 else out + [make(rng) for _ in range(rng.choice([1, 10, 30]))]


def with_focus(rng, lines):
    """The script with requests for the focus; a few have a fault."""
    names = [line.split(" ")[1] for line in lines if line.startswith("session ")]
    wrong = rng.choice([0, 0, 0.05])

    def make(rng):
        if rng.random() < wrong:
            return rng.choice(["display Focus %s", "%s Focus", "%s Focus nobody", "nobody Focus %s", "%s Focus a b"]).replace("%s", names[0])
        return "%s Focus %s" % (rng.choice(names), rng.choice(names))
    return with_extra(rng, lines, make)


def with_pointers(rng, lines):
    """The script with lines of pointers; a few have a fault."""
    few, wrong = rng.choice([1, 2, 16]), rng.choice([0, 0, 0.05])

    def make(rng):
        if rng.random() < wrong:
            return rng.choice(["display Down 16 5 5", "display Up", "display Move 0 1", "A Up 0", "display Down 0 1 2147483648", "display Up 0 0"])
        pointer, point = rng.randrange(few), (rng.choice([0, 3, -1, 50, 2 ** 31 - 1]), rng.choice([0, 3, 99]))
        return rng.choice(["display Down %d %d %d" % (pointer, *point), "display Move %d %d %d" % (pointer, *point), "display Up %d" % pointer])
    return with_extra(rng, lines, make)


def rest_of(lines, calls):
    """The script with `#` in place of the lines of these calls."""
    run = lines.index("run")
    return lines[:run + 1] + ["#" if not line.startswith("#") and line.split(" ")[1:2] and line.split(" ")[1] in calls else line for line in lines[run + 1:]]


def without_unmet(lines, report):
    """The script without the Waits and awaits that its play didn't meet."""
    unmet = set()
    for entry in read(report)[0]:
        words = entry.words
        asked = lines[entry.number - 1].split(" ") if entry.number and entry.number <= len(lines) else []
        if words[2:4] == ["Wait", "unmet"] or words[2] == "await" and int(words[4]) < int(asked[2]):
            unmet.add(entry.number)
    return [line for number, line in enumerate(lines, 1) if number not in unmet]
