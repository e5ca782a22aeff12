"""Tries the sentences of faults and closes by two tables: each kind, each reason, with the column and what has to be said."""
from __future__ import annotations

import glob
import os
import re
from typing import NamedTuple

from closes import judge
from draft import Draft
from faults import Fault, explain, find_fault
from reasons import CLOSE_ERRORS, CLOSE_REASONS, FAULT_KINDS
from runs import history_of
from why import why_sentence
from word_texts import WordTexts

ROOT = os.path.dirname(os.path.dirname(os.path.abspath(__file__)))
CASES = os.path.join(ROOT, "cases")
SCRIPT_WORDS = ("play", "race", "render", "damage", "focus", "pointer", "why", "film")
HEAD = """flatland 2
display 100 100
session mail
session shell
pair tm shell mail
pair t0 display shell
buffers mb mail 2 64 64
fence g1 mail
probe eye
run
"""


class FaultRow(NamedTuple):
    """A text, its fault, the column of the word, and parts of what has to be said, of the sentence or a hint."""
    kind: int
    line: int
    column: int
    text: str
    parts: list[str]


def body(line: str) -> str:
    """A script with this line behind its head, as line 11."""
    return HEAD + line + "\n"


FAULTS = [
    FaultRow(1, 0, 0, "#" * (16 * 1024 * 1024 + 1), ["16,777,217 bytes"]),
    FaultRow(2, 11, 5, body("mail\tClear"), ["a tab (byte 9)"]),
    FaultRow(2, 1, 11, "flatland 1\r\nrun\r\n", ["ends with a carriage return"]),
    FaultRow(2, 11, 3, body("# \u00e9"), ["`\u00e9` isn't ASCII"]),
    FaultRow(3, 11, 1025, body("#" * 1030), ["1,030 bytes"]),
    FaultRow(4, 2, 1, "flatland 1\ndisplays 5 5\n", ["`displays`", "did you mean `display`?"]),
    FaultRow(4, 2, 9, "flatland 1\nsession 1st\n", ["doesn't begin with a letter"]),
    FaultRow(4, 2, 9, "flatland 1\nsession acquire\n", ["a word of the grammar"]),
    FaultRow(4, 3, 7, "flatland 1\nsession mail\nprobe mail\n", ["line 2 has it as a session"]),
    FaultRow(4, 4, 8, "flatland 1\nsession a\npair t display a\npair u display a\n", ["line 3 has the pair with the display"]),
    FaultRow(4, 3, 1, "flatland 1\ndisplay 5 5\nrun\n", ["lacks a session"]),
    FaultRow(4, 2, 0, "flatland 1\n", ["ends before `run`"]),
    FaultRow(5, 11, 1, body("mial Clear"), ["no actor is called `mial`", "did you mean `mail`?"]),
    FaultRow(5, 11, 1, body("tm Clear"), ["line 5 declares it as a pair"]),
    FaultRow(5, 11, 1, body("session late"), ["`run` ended at line 10"]),
    FaultRow(6, 11, 6, body("mail CreateTransfrom 1"), ["did you mean `CreateTransform`?"]),
    FaultRow(6, 11, 6, body("mail begin 5"), ["a call of the display, not of a session"]),
    FaultRow(6, 11, 9, body("display dpr 65536"), ["it came with version 3"]),
    FaultRow(6, 11, 11, body("mail Wait frame 1"), ["did you mean `frames`?"]),
    FaultRow(6, 11, 6, body("mail Focus shell"), ["`./play focus FILE`"]),
    FaultRow(7, 11, 17, body("mail AddChild 1 x"), ["`x` is no number", "the id of a child"]),
    FaultRow(7, 11, 25, body("mail SetSolidFill 1 0 0 256 0 5 5"), ["`256` is above 255", "blue"]),
    FaultRow(7, 11, 23, body("mail SetOrientation 1 0"), ["`0` is below 1", "from 1 to 4"]),
    FaultRow(7, 11, 11, body("eye await 007"), ["leading zero"]),
    FaultRow(8, 11, 17, body("mail AddChild 1"), ["a word is missing: the id of a child", "`mail AddChild PARENT CHILD`"]),
    FaultRow(8, 11, 12, body("mail Clear 1"), ["`1` is one word too many"]),
    FaultRow(8, 11, 16, body("mail Present 0 acquire"), ["`acquire` has no fence behind it"]),
    FaultRow(8, 11, 16, body("mail Present 0 aquire g1"), ["did you mean `acquire`?"]),
    FaultRow(9, 11, 17, body("mail CreateView tn"), ["no pair is called `tn`", "did you mean `tm`"]),
    FaultRow(9, 11, 17, body("mail CreateView g1"), ["`g1` is a fence (line 8), and no pair"]),
    FaultRow(9, 3, 8, "flatland 1\ndisplay 5 5\npair t shell mail\nsession shell\n", ["declared further down, at line 4"]),
    FaultRow(10, 11, 18, body("shell CreateView tm"), ["the view end of `tm` belongs to `mail`"]),
    FaultRow(10, 11, 14, body("shell Signal g1"), ["fence `g1` belongs to `mail`", "`shell` owns none"]),
    FaultRow(10, 11, 21, body("shell CreateImage 1 mb 0 5 5"), ["buffer collection `mb` belongs to `mail`"]),
    FaultRow(11, 18, 1, "flatland 1\n" + "".join("session s%d\n" % n for n in range(17)), ["at most 16 sessions"]),
    FaultRow(11, 1035, 9, HEAD + "display begin 0\ndisplay done\n" * 512 + "display begin 0\n", ["at most 512 frames"]),
    FaultRow(12, 12, 9, HEAD + "display begin 5\ndisplay begin 6\n", ["the frame begun at line 11 is still open"]),
    FaultRow(12, 13, 15, HEAD + "display begin 5\ndisplay done\ndisplay begin 4\n", ["4 is below 5"]),
    FaultRow(12, 11, 9, body("display done"), ["no frame is open"]),
    FaultRow(12, 12, 0, HEAD + "display begin 5\n", ["ends while the frame begun at line 11 is open"]),
    FaultRow(13, 1, 10, "flatland 4\n", ["no version 4", "1, 2 and 3"]),
]

# A case that is closed for each reason, and what has to be said of it.
CLOSES = {
    "B1": ("misuse_b01_child_of_id_zero", "the child is 0"),
    "B2": ("misuse_b02_id_in_use", "it names "),
    "B3": ("misuse_b03_unknown_transform", "no line made transform"),
    "B4": ("misuse_b04_unknown_content", "no line made content"),
    "B5": ("misuse_b05_wrong_content", "it names "),
    "B6": ("misuse_b06_already_child", "since line"),
    "B7": ("misuse_b07_not_child", "has no children"),
    "B8": ("misuse_b08_bad_scale", "the scale"),
    "B9": ("misuse_b09_bad_opacity", "the opacity 65,537"),
    "B10": ("misuse_b10_bad_rect", "the clip"),
    "B11": ("misuse_b11_fill_of_65537", "65,537 is above 65,536"),
    "B12": ("misuse_b12_bad_buffer", "isn't among them"),
    "B13": ("misuse_b13_too_many_regions", "17 hit regions"),
    "B14": ("misuse_b14_has_view", "made its view"),
    "B15": ("misuse_b15_no_view", "no line made a view"),
    "B16": ("misuse_b16_view_end_used_twice", "used the view end"),
    "B17": ("misuse_b17_cycle_through_a_diamond", "the path from the root is 1 › 2 › 4 › 1"),
    "B18": ("misuse_b18_tree_of_1025_nodes", "1,025 nodes"),
    "B19": ("misuse_b19_viewport_twice", "is at the nodes"),
    "B20": ("misuse_b20_too_many_named", "1,024 transforms have names"),
    "B21": ("misuse_b21_too_many_children", "has 64 children"),
    "B22": ("misuse_b22_too_many_fences", "17 acquire fences"),
    "NO_PRESENTS_REMAINING": ("sixth_waiting_present_closes", "waits"),
    "BAD_HANGING_GET": ("layout_before_first_present", "asked for the layout of"),
}

# Calls of a session, the reason why the last one is a misuse, and what has to be said of it.
CALLS = [
    (["CreateTransform 1", "CreateTransform 2", "AddChild 1 2", "RemoveChild 1 2", "RemoveChild 1 2"], "B7", "has no children"),
    (["CreateTransform 1", "CreateTransform 2", "CreateTransform 3", "AddChild 1 2", "RemoveChild 1 3"], "B7", "has the children 2"),
    (["CreateTransform 1", "CreateTransform 2", "ReplaceChildren 1 2", "AddChild 1 2"], "B6", "since line 3"),
    (["CreateTransform 1", "ReleaseTransform 1", "SetOpacity 1 5"], "B3", "line 2 released it"),
    (["CreateFilledRect 1", "Clear", "SetSolidFill 1 0 0 0 0 5 5"], "B4", "line 2 cleared it"),
    (["CreateView t", "ReleaseView", "GetLayout"], "B15", "line 2 released the view"),
    (["CreateImage 1 b 0 9 8"], "B11", "the width 9 is above 8, the width of the buffers of b, which are 8 by 8"),
    (["CreateImage 1 b 1 8 8"], "B12", "b has 1 buffer, with the index 0"),
    (["CreateImage 1 b 0 8 8", "SetImageSampleRegion 1 4 0 5 8"], "B10", "the sample goes from 4, 0 to 9, 8"),
    (["CreateTransform 1", "SetHitRegions 1 0 0 5 5 0 2147483647 0 1 5 0"], "B10", "hit region 2 ends at the right at 2,147,483,648"),
    (["CreateViewport 1 u 5 5", "CreateViewport 2 u 5 5"], "B16", "once ReleaseViewport was presented"),
    (["CreateViewport 1 u 5 5", "ReleaseViewport 1", "CreateViewport 2 u 5 5"], "B16", "line 2 released it"),
    (["CreateViewport 1 u 5 5", "Clear", "CreateViewport 1 u 5 5"], "B16", "line 2 cleared it"),
    (["CreateTransform 1", "SetRootTransform 1", "AddChild 1 1", "Present 0"], "B17", "the path from the root is 1 › 1\n"),
    (["CreateTransform 1", "SetRootTransform 1", "AddChild 1 1", "RemoveChild 1 1", "Present 0"], "", ""),
    (["CreateTransform 1", "CreateTransform 2", "AddChild 1 2", "AddChild 2 1", "Present 0"], "", ""),
]

WHYS = [
    ("shown 1 shell 0 0 6553600 6553600 3", "shown at 0, 0 to 100, 100 with 3 items"),
    ("shown 1 app 0 0 3276800 3276800 0 rootless", "it has no root"),
    ("hidden 2 app closed 28 BAD_OPERATION B1", "line 28 closed it (B1 ZeroId"),
    ("hidden 2 idle unpresented", "it has presented nothing"),
    ("hidden 2 blind viewless", "no view"),
    ("hidden 1 app waits fence f", "waits for fence f"),
    ("hidden 1 app viewport ta shell loose", "the viewport of ta is the content of no node of shell"),
    ("hidden 1 app viewport ta shell ended", "shell has released or cleared the viewport of ta"),
    ("hidden 1 app cycle", "it hangs below itself"),
    ("hidden 1 kid parent app", "its parent app is hidden"),
    ("waits 3 shell 2 time 50", "present 2 waits for time 50"),
]


def check_names() -> list[str]:
    """The names of kinds and reasons are those of the code, in the same order."""
    wrong = []
    for path, enum, names in [("flat_places/src/kinds.rt", "FaultKind", [m.name for m in FAULT_KINDS.values()]),
                              ("flat_base/src/errors.rt", "Reason", [m.name for m in CLOSE_REASONS.values()])]:
        with open(os.path.join(ROOT, "crates", path), encoding="utf-8") as f:
            found = re.search(r"pub enum %s \{(.*?)\n\}" % enum, f.read(), re.DOTALL)
        variants = re.findall(r"^    (\w+),", found[1] if found else "", re.MULTILINE)
        if variants != names:
            wrong.append("%s has the variants %s, and reasons.py %s" % (enum, variants, names))
    return wrong


def check_faults() -> list[str]:
    """Each row of the table of faults, and that each kind has one."""
    wrong = ["no row for kind %d" % kind for kind in FAULT_KINDS if kind not in {row.kind for row in FAULTS}]
    for row in FAULTS:
        text = row.text.encode("utf-8")
        found, fault = find_fault(text, "play"), Fault(row.line, row.kind)
        where = "the fault of %r" % row.text[-40:]
        if found is None or found.fault != fault:
            wrong.append("%s is %s, not %s" % (where, found.fault if found else None, fault))
            continue
        said = explain(text, "play", fault)
        words = "\n".join([said.sentence, *said.hints])
        if said != found.finding or said.column != row.column:
            wrong.append("%s is at column %d, not %d" % (where, said.column, row.column))
        wrong += ["%s is explained without %r: %s" % (where, part, words) for part in row.parts if part not in words]
    return wrong


def check_closes() -> list[str]:
    """Each row of the table of closes, and that each reason has one."""
    wrong = ["no row for %s" % reason for reason in [*CLOSE_REASONS, *CLOSE_ERRORS] if reason not in CLOSES]
    for reason, (case, part) in CLOSES.items():
        with open(os.path.join(CASES, case, "stdin"), "rb") as f:
            history = history_of(f.read(), os.path.join(CASES, case, "stdout"))
        closes = [close for close in history.closes if close.error[-1:] == [reason]]
        if not closes:
            wrong.append("%s closes nobody with %s" % (case, reason))
        elif part not in "\n".join(closes[0].facts) or reason not in closes[0].words:
            wrong.append("%s is explained without %r: %s %s" % (case, part, closes[0].words, closes[0].facts))
    return wrong


def check_calls() -> list[str]:
    """Each row of the table of calls."""
    wrong = []
    for calls, reason, part in CALLS:
        draft = Draft({"b": ("A", 1, 8, 8)})
        for line, call in enumerate(calls[:-1], 1):
            name, *words = call.split(" ")
            draft.apply(line, name, words)
        name, *words = calls[-1].split(" ")
        misuse = judge(draft, name, words, ["A", name, *words], reason)
        facts = "".join(fact + "\n" for fact in (misuse.facts if misuse is not None else []))
        if (misuse.reason if misuse is not None else "") != reason or part not in facts:
            wrong.append("%s is explained as %s, without %s %r" % (calls, misuse, reason, part))
    return wrong


def check_fault_cases() -> list[str]:
    """The fault of each worked case is the one that faults.py finds, and a case without one has none there."""
    wrong = []
    for path in sorted(glob.glob(os.path.join(CASES, "*", "stdin"))):
        folder = os.path.dirname(path)
        word, status = (read_word(folder, name) for name in ("words", "status"))
        if word not in SCRIPT_WORDS or status not in ("0", "3") or os.path.exists(os.path.join(folder, "until")):
            continue
        with open(path, "rb") as f:
            found = find_fault(f.read(), word)
        written = "script line %d kind %d" % found.fault if found is not None else ""
        if written != (read_word(folder, "stdout") if status == "3" else ""):
            wrong.append("%s has another fault than %r" % (os.path.basename(folder), written))
    return wrong


def read_word(folder: str, name: str) -> str:
    """A short file of a case; nothing if it isn't there."""
    path = os.path.join(folder, name)
    if not os.path.exists(path):
        return ""
    with open(path, encoding="latin-1") as f:
        return f.read(100).rstrip("\n")


def check_whys() -> list[str]:
    """Each row of the table of sentences of the word `why`."""
    wrong = []
    for line, part in WHYS:
        state, _, _, *rest = line.split(" ")
        if part not in why_sentence(state, rest):
            wrong.append("%s is explained without %r: %s" % (line, part, why_sentence(state, rest)))
    texts = WordTexts()
    texts.read_why([line for line, _ in WHYS] + ["why ends frames 3"])
    if sum(map(len, texts.whys.values())) != len(WHYS) or [name for name, _ in texts.whys[3]] != ["shell"]:
        wrong.append("the text of `why` is read otherwise: %s" % texts.whys)
    return wrong


def check_words() -> list[str]:
    """What is wrong with the sentences."""
    return check_names() + check_faults() + check_fault_cases() + check_closes() + check_calls() + check_whys()
