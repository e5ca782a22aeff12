"""Reads a script line by line as docs/SCRIPT.md says, and finds the fault of a line, with the word and what may stand there."""
from __future__ import annotations

from body_lines import BodyLine
from grammar import DECLARED_MOST, HEAD_LINES, RATIO_SINCE, SORT_NAMES, VERSION_MOST, is_name, is_name_letter, usage
from line_reader import BAD_HEAD, EMPTY_WORD, LIMIT, UNKNOWN_VERSION, Finding, LineReader, near, quoted, unless_empty
from scope import Scope

START, HEAD, BODY = range(3)


class ScriptReader:
    """What was read of a text so far. Lines come in order; a line with a fault changes nothing."""

    def __init__(self, later: dict[str, int]) -> None:
        self.part = START
        self.scope = Scope(later)

    def note(self, number: int, line: str) -> None:
        """Takes a line that has no fault."""
        words = line.split(" ")
        if self.part == BODY:
            self.scope.note_body(number, words)
        elif self.part == START:
            self.scope.version, self.part = int(words[1]), HEAD
        elif words[0] == "run":
            self.scope.run_line, self.part = number, BODY
        else:
            self.scope.declare(number, words)

    def read(self, line: str) -> Finding | None:
        """The fault of the next line, if it has one."""
        reader = LineReader(line, self.scope.names, self.scope.later)
        if self.part == START:
            self._read_first(reader)
        elif self.part == HEAD:
            self._read_head(reader)
        else:
            BodyLine(reader, self.scope).read()
        return reader.lowest()

    def read_end(self) -> Finding | None:
        """The fault of a text that ends here, if it has one."""
        if self.part != BODY:
            lacks = self._lacks()
            hint = ["the head still lacks %s" % lacks] if lacks else []
            return Finding(BAD_HEAD, 0, 0, "the text ends before `run`", hint)
        return self.scope.open_at_end()

    # The head.

    def _read_first(self, reader: LineReader) -> None:
        word = reader.next_word()
        if word != "flatland":
            reader.add(BAD_HEAD, 0, "a script begins with `flatland` and its version, not with %s" % quoted(word or ""),
                       "a first line is `flatland 1`, `flatland 2` or `flatland 3`")
            return
        version = reader.read_place("version", "flatland VERSION")
        if version is not None and not 1 <= int(version) <= VERSION_MOST:
            reader.add(UNKNOWN_VERSION, 1, "there is no version %s" % version, "the versions are 1, 2 and 3")
        reader.finish("flatland VERSION")

    def _read_head(self, reader: LineReader) -> None:
        sort = reader.next_word() or ""
        if sort == "run":
            lacks = self._lacks()
            if lacks:
                reader.add(BAD_HEAD, 0, "`run` ends the head, but the head lacks %s" % lacks)
            reader.finish("run")
        elif sort in HEAD_LINES:
            self._read_declaration(reader, sort)
        elif sort == "flatland":
            reader.add(BAD_HEAD, 0, "the version stands in the first line alone")
        elif sort in self.scope.names:
            reader.add(BAD_HEAD, 0, "`%s` is a name, and a line of an actor stands behind `run`" % sort, "`run` is missing above this line, or the line stands too early")
        else:
            reader.add(BAD_HEAD, 0, unless_empty(sort, "no line of the head begins with %s" % quoted(sort)), *near(sort, [*HEAD_LINES, "run"]),
                       "a line of the head begins with `display`, `session`, `probe`, `buffers`, `pair`, `fence` or `run`")

    def _lacks(self) -> str:
        scope = self.scope
        lacks = [what for what, is_there in [("the display's size (`display W H`)", scope.display_line), ("a session (`session NAME`)", scope.counts["session"]),
                                             ("a pair with the display (`pair NAME display SESSION`)", scope.display_pair)] if not is_there]
        return " and ".join(lacks)

    def _read_declaration(self, reader: LineReader, sort: str) -> None:
        scope = self.scope
        if sort == "display":
            if scope.display_line:
                reader.add(BAD_HEAD, 0, "line %d gives the display's size already" % scope.display_line)
            has_ratio = scope.version >= RATIO_SINCE
            reader.read_spec("display_width display_height" + (" [ratio]" if has_ratio else ""))
            self._hint_ratio(reader)
            return
        if scope.counts[sort] >= DECLARED_MOST[sort]:
            reader.add(LIMIT, 0, "a script has at most {:,} {}s".format(DECLARED_MOST[sort], SORT_NAMES[sort]))
        self._read_new_name(reader, sort)
        spec = HEAD_LINES[sort].removeprefix("name").strip()
        if sort == "pair":
            self._check_display_pair(reader)
        reader.read_spec(spec)

    def _hint_ratio(self, reader: LineReader) -> None:
        """A third number of `display` is a word too many before version 3."""
        finding = reader.lowest()
        if finding is not None and len(reader.words) > 3 and self.scope.version < RATIO_SINCE:
            finding.hints.append("a pixel ratio may stand here from version 3 on; this script has version %d" % self.scope.version)

    def _read_new_name(self, reader: LineReader, sort: str) -> None:
        whole = ("%s %s" % (sort, usage(HEAD_LINES[sort]))).strip()
        word = reader.next_word()
        if word is None:
            reader.add_missing("the name", whole)
        elif not is_name(word):
            reader.add(BAD_HEAD, 1, name_problem(word), "a name has 1 to 16 letters, digits or `_`, and a letter first")
        elif word in self.scope.names:
            declared = self.scope.names[word]
            reader.add(BAD_HEAD, 1, "`%s` is declared already: line %d has it as a %s" % (word, declared.line, SORT_NAMES[declared.sort]),
                       "all names differ, whatever they name")

    def _check_display_pair(self, reader: LineReader) -> None:
        if reader.peek() == "display" and self.scope.display_pair:
            reader.add(BAD_HEAD, 2, "line %d has the pair with the display already" % self.scope.display_pair, "just one pair has the display as its owner")


def name_problem(word: str) -> str:
    """Why a word can't be declared."""
    if word == "":
        return EMPTY_WORD
    if word in ("display", "acquire", "release"):
        return "`%s` is a word of the grammar, and no name" % word
    if not (word[0].isascii() and word[0].isalpha()):
        return "`%s` doesn't begin with a letter" % word
    wrong = [letter for letter in word if not is_name_letter(letter)]
    if wrong:
        return "`%s` has a `%s`" % (word, wrong[0])
    return "`%s` has %d letters" % (word, len(word))

