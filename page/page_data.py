"""The data of a page, as one value for JSON.

The page counts in steps: the entries of the history in their order, and between them the lines that make
no entry but have an answer, which are those of probes and extra lines. Names, sorts and columns are those
that view/store.js reads.
"""
from __future__ import annotations

from bisect import bisect_left, bisect_right
from typing import Any, NamedTuple

from history import History
from model import Close, Frame, Get, Presented
from script import Script, shown_lines
from word_texts import WordTexts

JSON = dict[str, Any]


class ExtraStep(NamedTuple):
    """A line with an answer that is no entry, and how many entries stand before it."""
    before: int
    actor: int
    line: int
    words: str


class PageData:
    """Numbers the steps of a run, and writes it as JSON."""

    def __init__(self, history: History, texts: WordTexts, is_raced: bool) -> None:
        self.history = history
        self.texts = texts
        self._extra = sorted(self._extra_steps(is_raced), key=lambda step: (step.before, step.line))
        self._places = [step.before for step in self._extra]

    def _extra_steps(self, is_raced: bool) -> list[ExtraStep]:
        lines = [row.line for row in self.history.entries]
        done = [0] + [frame.done + 1 for frame in self.history.frames]
        steps = []
        for actor, line, words, frame in self.history.probe_rows:
            # a play goes by lines; in a race a probe's line is put right behind the frame that it saw
            before = done[frame] if is_raced else bisect_left(lines, line)
            steps.append(ExtraStep(before, actor, line, words))
        for answer in self.texts.answers:
            actor = self.history.numbers[answer.actor]
            before = self._place_in_race(answer.line) if is_raced else bisect_left(lines, answer.line)
            steps.append(ExtraStep(before, actor, answer.line, answer.words))
        return steps

    def _place_in_race(self, line: int) -> int:
        """How many entries stand before an extra line of a race: a pointer's Down has its place in the history,
        and every other line stands behind the last frame that was done at an earlier line."""
        for point in self.history.points:
            if point.line == line:
                return point.before
        done = [frame.done for frame in self.history.frames]
        lines = [self.history.entries[entry].line for entry in done]
        count = bisect_left(lines, line)
        return done[count - 1] + 1 if count else 0

    def step(self, entry: int) -> int:
        """The step of an entry."""
        return entry if entry < 0 else entry + bisect_right(self._places, entry)

    def as_json(self) -> JSON:
        """All but the draw items."""
        history, script = self.history, self.history.script
        return {
            "actors": self._actors(script),
            "buffers": script.buffers,
            "pairs": script.pairs,
            "display": [script.width, script.height],
            "version": script.version,
            "steps": self._steps(),
            "lines": self._lines(),
            "events": {
                "step": [self.step(row.entry) for row in history.events],
                "actor": [row.actor for row in history.events],
                "words": [row.words for row in history.events],
            },
            "presents": [self._present(present) for present in history.presents],
            "gets": [self._get(get) for get in history.gets],
            "closes": [self._close(close) for close in history.closes],
            "signals": {fence: self.step(entry) for fence, entry in history.signalled.items()},
            "frames": [self._frame(frame) for frame in history.frames],
            "groups": history.items.first_frames,
            "has": {"damage": self.texts.has_damage, "focus": self.texts.has_focus, "pointer": self.texts.has_pointer,
                    "why": self.texts.has_why},
            "totals": {"entries": history.total.entries, "frames": history.total.frames},
        }

    def _actors(self, script: Script) -> list[JSON]:
        sorts = ["display"] + ["session"] * len(script.sessions) + ["probe"] * len(script.probes)
        return [{"name": name, "sort": sort} for name, sort in zip(script.actors, sorts)]

    def _steps(self) -> JSON:
        """The steps in order, as columns: the actor, the line, the words, and how many calls the step carries."""
        rows = [(self.step(entry), (row.actor, row.line, row.words, row.carried)) for entry, row in enumerate(self.history.entries)]
        rows += [(e.before + place, (e.actor, e.line, e.words, 0)) for place, e in enumerate(self._extra)]
        rows.sort(key=lambda row: row[0])
        columns = list(zip(*(row for _, row in rows))) or [(), (), (), ()]
        return {name: list(column) for name, column in zip(("actor", "line", "words", "carried"), columns)}

    def _lines(self) -> JSON:
        """What became of each line of the script: its sort and its step."""
        sorts = [line.sort for line in self.history.lines]
        steps = [self.step(line.entry) for line in self.history.lines]
        for place, extra in enumerate(self._extra):
            sorts[extra.line - 1] = "e"
            steps[extra.line - 1] = extra.before + place
        return {"sort": "".join(sorts), "step": steps}

    def _present(self, present: Presented) -> JSON:
        fields = present.fields
        return {
            "actor": present.actor,
            "step": self.step(present.entry),
            "number": present.number,
            "credits": present.credits,
            "time": fields.time,
            "unsquashable": fields.unsquashable,
            "acquire": fields.acquire,
            "release": fields.release,
            "frame": present.frame,
            "taken": self.step(present.taken_at),
            "shown": present.is_shown,
            "delays": [[delay.from_frame, delay.to_frame, delay.why] for delay in present.delays],
        }

    def _get(self, get: Get) -> JSON:
        return {
            "actor": get.actor,
            "step": self.step(get.entry),
            "watcher": get.watcher,
            "answered": self.step(get.answered_at),
            "value": get.value,
        }

    def _close(self, close: Close) -> JSON:
        return {"actor": close.actor, "step": self.step(close.entry), "words": close.words, "facts": close.facts}

    def _frame(self, frame: Frame) -> JSON:
        number = frame.number
        numbers = self.history.numbers
        taken: dict[int, list[int]] = {}
        for present in frame.presents:
            taken.setdefault(present.actor, []).append(present.number)
        return {
            "number": number,
            "time": frame.time,
            "ratio": frame.ratio,
            "begin": self.step(frame.begin),
            "done": self.step(frame.done),
            "took": [[actor, own[0], own[-1]] for actor, own in taken.items()],
            "count": frame.count,
            "views": [[numbers[v.session], -1 if v.parent is None else numbers[v.parent], *v.bounds] for v in frame.views],
            "apart": [numbers[name] for name in frame.apart],
            "lost": frame.lost,
            "points": [[line, words] for line, words in frame.points],
            "damage": self.texts.damage.get(number) if self.texts.has_damage else None,
            "chain": [numbers[name] for name in self.texts.chains.get(number, [])] if self.texts.has_focus else None,
            "cancels": self.texts.cancels.get(number, []),
            "why": [[numbers[name], sentence] for name, sentence in self.texts.whys.get(number, [])],
        }


def page_json(name: str, word: str, text: bytes, run: JSON | None, fault: JSON | None) -> JSON:
    """The whole value: the text with what was run of it, or with its fault."""
    return {"name": name, "word": word, "script": shown_lines(text), "run": run, "fault": fault}
