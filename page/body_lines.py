"""Reads a line of the body: an actor, a call of the actor, and the places of the call."""
from __future__ import annotations

from grammar import CONDITIONS, EXTRA_LINES, HEAD_LINES, LINES, SORT_NAMES, WORD_SINCE, knows, natural, usage
from line_reader import BAD_ORDER, LIMIT, UNKNOWN_ACTOR, UNKNOWN_CALL, WRONG_COUNT, NAMES_LISTED, LineReader, listed, near, quoted, unless_empty
from scope import ACTOR_LINES_MOST, FRAMES_MOST, Scope

PRESENT_FORM = "TIME [unsquashable] [acquire FENCE ..] [release FENCE ..]"


class BodyLine:
    """One line of the body, read in the scope of the lines before it."""

    def __init__(self, reader: LineReader, scope: Scope) -> None:
        self.reader = reader
        self.scope = scope
        self.actor = ""
        self.sort = ""

    def read(self) -> None:
        """Reads the whole line."""
        self.actor = self.reader.next_word() or ""
        sort = self.scope.sort_of(self.actor)
        if sort is None:
            self._add_unknown_actor()
            return
        self.sort = sort
        if self.scope.actor_lines[self.actor] >= ACTOR_LINES_MOST:
            self.reader.add(LIMIT, 0, "an actor has at most {:,} lines, and `{}` has as many".format(ACTOR_LINES_MOST, self.actor))
        call = self.reader.next_word()
        if call is None or call not in LINES[sort] or not knows(self.scope.version, call):
            self._add_unknown_call(call)
        elif call == "Present":
            self._read_present()
        elif call == "Wait":
            self._read_wait()
        elif sort == "display" and call in ("begin", "done"):
            self._read_frame(call)
        else:
            self.reader.read_spec(LINES[sort][call], self.actor)

    # Actors and calls.

    def _add_unknown_actor(self) -> None:
        word, names = self.actor, self.scope.names
        if word in names:
            sentence = "`%s` is no actor: line %d declares it as a %s" % (word, names[word].line, SORT_NAMES[names[word].sort])
        elif word in HEAD_LINES or word in ("flatland", "run"):
            sentence = "%s stands in the head, which `run` ended at line %d" % (quoted(word), self.scope.run_line)
        else:
            sentence = unless_empty(word, "no actor is called %s" % quoted(word))
        self.reader.add(UNKNOWN_ACTOR, 0, sentence, *near(word, self.scope.actors), "the actors are %s" % listed(self.scope.actors))

    def _add_unknown_call(self, word: str | None) -> None:
        version = self.scope.version
        calls = [call for call in LINES[self.sort] if knows(version, call)]
        who = "the display" if self.sort == "display" else "a " + self.sort
        has_few = len(calls) <= NAMES_LISTED
        hints = near(word or "", calls) + ["%s may call %s" % (who, listed(calls)) if has_few else "docs/SCRIPT.md lists the calls of %s" % who]
        others = [sort for sort in LINES if word in LINES[sort] and sort != self.sort]
        if word is None:
            self.reader.add(UNKNOWN_CALL, 1, "a call is missing behind `%s`" % self.actor, *hints)
        elif word in LINES[self.sort]:
            self.reader.add(UNKNOWN_CALL, 1, "version %d has no `%s`: it came with version %d" % (version, word, WORD_SINCE[word]),
                            "the first line says `flatland %d`" % version)
        elif word in EXTRA_LINES:
            runner = "focus" if word == "Focus" else "pointer"
            self.reader.add(UNKNOWN_CALL, 1, "`%s` is a call of an extra line, which the word `%s` reads" % (word, runner), "`./play %s FILE` and a page read it" % runner)
        elif others:
            theirs = " and ".join("the display" if sort == "display" else "a " + sort for sort in others)
            self.reader.add(UNKNOWN_CALL, 1, "`%s` is a call of %s, not of %s" % (word, theirs, who), *hints)
        else:
            self.reader.add(UNKNOWN_CALL, 1, unless_empty(word, "%s has no call %s" % (who, quoted(word))), *hints)

    # Lines with a form of their own.

    def _read_wait(self) -> None:
        conditions = CONDITIONS[self.sort]
        word = self.reader.next_word()
        if word is None or word not in conditions:
            sentence = "a condition is missing behind `Wait`" if word is None else unless_empty(word, "`%s` can't wait for %s" % (self.actor, quoted(word)))
            self.reader.add(UNKNOWN_CALL, 2, sentence, *near(word or "", list(conditions)), "here may stand %s" % listed(list(conditions)))
            return
        self.reader.read_spec(conditions[word], self.actor)

    def _read_frame(self, call: str) -> None:
        reader, scope = self.reader, self.scope
        if call == "done":
            if not scope.is_open:
                reader.add(BAD_ORDER, 1, "no frame is open here", "`display begin TIME` begins one")
            reader.finish("display done")
            return
        if scope.begins >= FRAMES_MOST:
            reader.add(LIMIT, 1, "a script has at most %d frames, and that many have begun" % FRAMES_MOST)
        if scope.is_open:
            reader.add(BAD_ORDER, 1, "the frame begun at line %d is still open" % scope.last_begin, "`display done` finishes it")
        time = reader.read_place("time", "display begin TIME")
        if time is not None and (natural(time) or 0) < scope.last_time:
            reader.add(BAD_ORDER, 2, "the time %s is below %d, at which line %d began a frame" % (time, scope.last_time, scope.last_begin),
                       "times never fall: here may stand %d or more" % scope.last_time)
        reader.finish("display begin TIME")

    def _read_present(self) -> None:
        reader = self.reader
        form = "%s Present %s" % (self.actor, PRESENT_FORM)
        reader.read_place("time", form)
        word = reader.peek()
        if word == "unsquashable" and knows(self.scope.version, word):
            reader.next_word()
            word = reader.peek()
        if word == "acquire":
            reader.next_word()
            self._read_fences("acquire", "release", form)
            word = reader.peek()
        if word == "release":
            reader.next_word()
            self._read_fences("release", None, form)
        elif word is not None:
            self._add_no_list(word, form)

    def _read_fences(self, keyword: str, until: str | None, form: str) -> None:
        """One or more fences, up to a keyword or the end of the line."""
        first = self.reader.place
        while self.reader.peek() is not None and self.reader.peek() != until:
            self.reader.read_place("fence", form, self.actor)
        if self.reader.place == first:
            self.reader.add(WRONG_COUNT, first - 1, "`%s` has no fence behind it" % keyword, "a list has one or more fences, or isn't there: `%s`" % form)

    def _add_no_list(self, word: str, form: str) -> None:
        hints = ["the line goes `%s`" % form]
        if word == "unsquashable" and not knows(self.scope.version, word):
            hints.insert(0, "`unsquashable` came with version 2, and the first line says `flatland %d`" % self.scope.version)
        else:
            hints = near(word, ["acquire", "release", "unsquashable"]) + hints
        self.reader.add(WRONG_COUNT, self.reader.place, unless_empty(word, "%s can't stand here" % quoted(word)), *hints)
        self.reader.place = len(self.reader.words)


def read_extra(reader: LineReader, scope: Scope, before: int) -> None:
    """Reads an extra line, before which so many others stand."""
    actor, call = reader.next_word() or "", reader.next_word() or ""
    if call == "Focus" and scope.sort_of(actor) != "session":
        sessions = [name for name in scope.names if scope.sort_of(name) == "session"]
        reader.add(UNKNOWN_ACTOR, 0, "a session asks for the focus, and no session is called %s" % quoted(actor), *near(actor, sessions), "the sessions are %s" % listed(sessions))
    elif call != "Focus" and actor != "display":
        reader.add(UNKNOWN_ACTOR, 0, "a line of a pointer is the display's, not %s's" % quoted(actor), "the line goes `display %s %s`" % (call, usage(EXTRA_LINES[call])))
    if before >= ACTOR_LINES_MOST:
        reader.add(LIMIT, 0, "a text has at most {:,} extra lines".format(ACTOR_LINES_MOST))
    reader.read_spec(EXTRA_LINES[call], actor)
