"""Reads the texts of the words `damage`, `focus`, `pointer` and `why` (docs/RUN.md)."""
from __future__ import annotations

from collections.abc import Iterable
from dataclasses import dataclass, field

from why import why_sentence


@dataclass
class Answer:
    """The answer to an extra line of the script."""
    line: int
    actor: str
    words: str


@dataclass
class WordTexts:
    """What the words beside `play` say of each frame, by its number, and of the extra lines."""
    has_damage: bool = False
    has_focus: bool = False
    has_pointer: bool = False
    has_why: bool = False
    damage: dict[int, list[list[int]]] = field(default_factory=dict)
    chains: dict[int, list[str]] = field(default_factory=dict)
    cancels: dict[int, list[str]] = field(default_factory=dict)
    answers: list[Answer] = field(default_factory=list)
    whys: dict[int, list[tuple[str, str]]] = field(default_factory=dict)

    def read_damage(self, lines: Iterable[str]) -> None:
        """`damage frame F rects N`, and N lines `rect X0 Y0 X1 Y1`"""
        self.has_damage = True
        rects: list[list[int]] = []
        for line in lines:
            match line.split():
                case ["damage", "frame", frame, "rects", _]:
                    rects = self.damage[int(frame)] = []
                case ["rect", *bounds]:
                    rects.append([int(b) for b in bounds])

    def read_focus(self, lines: Iterable[str]) -> None:
        """`frame F chain S ..`, and `focus L A B granted chain S ..`"""
        self.has_focus = True
        for line in lines:
            match line.split():
                case ["frame", frame, "chain", *chain]:
                    self.chains[int(frame)] = chain
                case ["focus", number, session, _, answer, "chain", *chain]:
                    self.answers.append(Answer(int(number), session, " ".join(["Focus", answer, "chain", *chain])))

    def read_pointer(self, lines: Iterable[str]) -> None:
        """`frame F`, `cancel F P S`, and `pointer L P answer ..`"""
        self.has_pointer = True
        for line in lines:
            match line.split():
                case ["cancel", frame, pointer, session]:
                    self.add_cancel(int(frame), int(pointer), session)
                case ["pointer", number, pointer, *answer] if number.isdigit():
                    self.answers.append(Answer(int(number), "display", " ".join(["pointer", pointer, *answer])))

    def add_cancel(self, frame: int, pointer: int, session: str) -> None:
        """A frame cancels the stream of a pointer."""
        self.cancels.setdefault(frame, []).append("pointer %d of %s" % (pointer, session))

    def read_why(self, lines: Iterable[str]) -> None:
        """`shown F S ..`, `hidden F S ..` and `waits F S ..`: a sentence of a session and a frame each"""
        self.has_why = True
        for line in lines:
            match line.split():
                case [("shown" | "hidden" | "waits") as state, frame, session, *rest] if frame.isdigit():
                    self.whys.setdefault(int(frame), []).append((session, why_sentence(state, rest)))
