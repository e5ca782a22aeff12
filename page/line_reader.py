"""Reads the words of one line, place by place, and keeps what is wrong with each."""
from __future__ import annotations

from dataclasses import dataclass, field

from grammar import DIGITS_MOST, PLACES, SORT_NAMES, Name, Number, bound, natural, signed, usage

BAD_HEAD, UNKNOWN_ACTOR, UNKNOWN_CALL, BAD_NUMBER, WRONG_COUNT, UNKNOWN_NAME, NOT_OWNER, LIMIT, BAD_ORDER, UNKNOWN_VERSION = range(4, 14)
NAMES_LISTED = 12
NEAR_MOST = 3
NEAR_LETTERS_MOST = 40
EMPTY_WORD = "an empty word stands here: two spaces in a row, or one at the end of the line"


@dataclass
class Finding:
    """A fault of a line: its kind, where it stands, and what to say of it. A column of 0 is the whole line."""
    kind: int
    column: int
    length: int
    sentence: str
    hints: list[str] = field(default_factory=list)


@dataclass
class Declared:
    """A declared name: its sort, its line, and who owns which end of it."""
    sort: str
    line: int
    owners: dict[str, list[str]] = field(default_factory=dict)


def quoted(word: str) -> str:
    """A word in a sentence."""
    return "`%s`" % word


def unless_empty(word: str, sentence: str) -> str:
    """The sentence about a word; an empty word has its own."""
    return sentence if word else EMPTY_WORD


def listed(names: list[str]) -> str:
    """Some names in a sentence, not too many of them."""
    more = len(names) - NAMES_LISTED
    return ", ".join("`%s`" % name for name in names[:NAMES_LISTED]) + (" and %d more" % more if more > 0 else "")


def edits(word: str, name: str) -> int:
    """How many letters have to be added, dropped, changed or swapped with the next one to make a name of a word."""
    before, row = list[int](), list(range(len(name) + 1))
    for i, letter in enumerate(word, 1):
        older, before, row = before, row, [i]
        for j, other in enumerate(name, 1):
            row.append(min(before[j] + 1, row[j - 1] + 1, before[j - 1] + (letter != other)))
            if i > 1 and j > 1 and letter == name[j - 2] and word[i - 2] == other:
                row[j] = min(row[j], older[j - 2] + 1)
    return row[-1]


def near(word: str, names: list[str]) -> list[str]:
    """A hint if names are near a word: those that it takes the fewest edits to make, if these are few for its length."""
    if not 1 <= len(word) <= NEAR_LETTERS_MOST:
        return []
    counts = {name: edits(word.lower(), name.lower()) for name in names if name != word}
    least = min(counts.values(), default=len(word))
    found = [name for name, count in counts.items() if count == least <= max(1, len(word) // 3)]
    return ["did you mean %s?" % " or ".join(map(quoted, found[:NEAR_MOST]))] if found and len(word) > 1 else []


def number_problem(word: str, place: Number) -> str:
    """What is wrong with a word in a number's place."""
    if word == "":
        return EMPTY_WORD
    value = signed(word) if place.least < 0 else natural(word)
    if value is not None:
        return "`%s` is %s" % (word, "below " + bound(place.least) if value < place.least else "above " + bound(place.most))
    digits = word[1:] if word[0] in "+-" else word
    if not (digits.isascii() and digits.isdigit()):
        return "`%s` is no number" % word
    if word[0] == "+":
        return "`%s` has a plus sign, which no number has" % word
    if word == "-0":
        return "`-0` is no number: zero is `0`"
    if word[0] == "-" and place.least >= 0:
        return "`%s` is below 0" % word
    if digits[0] == "0":
        return "`%s` has a leading zero" % word
    return "`%s` has more than %d digits" % (word, DIGITS_MOST)


class LineReader:
    """The words of a line, and the findings so far. `names` has what is declared, and `later` the lines that declare
    more names further down."""

    def __init__(self, text: str, names: dict[str, Declared], later: dict[str, int]) -> None:
        self.words = text.split(" ")
        self.names = names
        self.later = later
        self.findings: list[Finding] = []
        self.place = 0
        self._columns = [1]
        for word in self.words:
            self._columns.append(self._columns[-1] + len(word) + 1)

    def add(self, kind: int, place: int | None, sentence: str, *hints: str) -> None:
        """A finding at a word, or at the whole line."""
        if place is None:
            self.findings.append(Finding(kind, 0, 0, sentence, list(hints)))
            return
        # a word that is missing stands behind the last one
        length = len(self.words[place]) if place < len(self.words) else 0
        self.findings.append(Finding(kind, self._columns[min(place, len(self.words))], max(1, length), sentence, list(hints)))

    def lowest(self) -> Finding | None:
        """The first finding of the lowest kind."""
        return min(self.findings, key=lambda finding: finding.kind) if self.findings else None

    def next_word(self) -> str | None:
        """The word at the next place, which is taken."""
        self.place += 1
        return self.words[self.place - 1] if self.place <= len(self.words) else None

    def peek(self) -> str | None:
        """The word at the next place."""
        return self.words[self.place] if self.place < len(self.words) else None

    # Places.

    def read_spec(self, spec: str, actor: str = "") -> None:
        """Reads the places of a spec of grammar.py, up to the end of the line."""
        whole = " ".join([*self.words[:self.place], usage(spec)]).rstrip()
        for part in spec.replace(" [", "|[").replace(" (", "|(").split("|"):
            if part[:1] in ("[", "("):
                self._read_group(part, whole, actor)
            else:
                for label in part.split():
                    self._read_label(label, whole, actor)
        self.finish(whole)

    def _read_group(self, part: str, whole: str, actor: str) -> None:
        labels = part.strip("[]()*").split()
        while self.place < len(self.words):
            for label in labels:
                self.read_place(label, whole, actor)
            if part.startswith("["):
                return

    def _read_label(self, label: str, whole: str, actor: str) -> None:
        name = label.rstrip("*+")
        if label == name or (label.endswith("+") and self.place >= len(self.words)):
            self.read_place(name, whole, actor)
        while label != name and self.place < len(self.words):
            self.read_place(name, whole, actor)

    def read_place(self, label: str, whole: str, actor: str = "") -> str | None:
        """Reads a word at a place of that label, and gives it if it may stand there."""
        place = PLACES[label]
        word = self.next_word()
        if word is None:
            self.add_missing(place.what, whole)
            return None
        if isinstance(place, Name):
            return self._read_name(word, place, actor)
        value = signed(word) if place.least < 0 else natural(word)
        if value is None or not place.least <= value <= place.most:
            wanted = "here stands %s: a number from %s to %s" % (place.what, bound(place.least), bound(place.most))
            self.add(BAD_NUMBER, self.place - 1, number_problem(word, place), wanted)
            return None
        return word

    def add_missing(self, what: str, whole: str) -> None:
        """Notes that the word at the place just asked for isn't there. Only the first missing word of a line is noted."""
        if self.place == len(self.words) + 1:
            self.add(WRONG_COUNT, len(self.words), "a word is missing: %s" % what, "the line goes `%s`" % whole)

    def _read_name(self, word: str, place: Name, actor: str) -> str | None:
        if place.sort == "owner" and word == "display":
            return word
        sort = "session" if place.sort == "owner" else place.sort
        declared = self.names.get(word)
        if declared is None or declared.sort != sort:
            self._add_unknown(word, place, sort, declared)
            return None
        owners = declared.owners.get(place.end, [actor])
        if actor not in owners:
            what = {"fence": "fence `%s`" % word, "collection": "buffer collection `%s`" % word}.get(place.end, "the %s of `%s`" % (place.end, word))
            theirs = [name for name, other in self.names.items() if other.sort == sort and actor in other.owners.get(place.end, [])]
            hint = "`%s` owns %s" % (actor, listed(theirs)) if theirs else "`%s` owns none" % actor
            self.add(NOT_OWNER, self.place - 1, "%s belongs to %s (line %d), not to `%s`" % (what, " and ".join("`%s`" % o for o in owners), declared.line, actor), hint)
            return None
        return word

    def _add_unknown(self, word: str, place: Name, sort: str, declared: Declared | None) -> None:
        known = [name for name, other in self.names.items() if other.sort == sort]
        if declared is not None:
            sentence = "`%s` is a %s (line %d), and no %s" % (word, SORT_NAMES[declared.sort], declared.line, SORT_NAMES[sort])
        elif word == "display":
            sentence = "`display` is no %s" % SORT_NAMES[sort]
        elif word in self.later:
            sentence = "`%s` is declared further down, at line %d: a name is declared before it is used" % (word, self.later[word])
        else:
            sentence = unless_empty(word, "no %s is called %s" % (SORT_NAMES[sort], quoted(word)))
        what = "here stands %s" % place.what
        self.add(UNKNOWN_NAME, self.place - 1, sentence, *near(word, known), what + (": %s" % listed(known) if known else ", and none is declared"))

    def finish(self, whole: str) -> None:
        """No word may be left."""
        if self.place < len(self.words):
            word = self.words[self.place]
            self.add(WRONG_COUNT, self.place, unless_empty(word, "%s is one word too many" % quoted(word)), "the line goes `%s`" % whole)
        self.place = len(self.words)
