"""Damage, the focus chain and pointer streams of a race, which the program's words give for plays alone.

They follow the rules of docs/INPUT.md and docs/SHOWN.md, applied to what the report of the race shows. The display's lines are made
in order by one thread, so a frame has the line of its `done` here too, and an extra line sees the last frame that
was done at an earlier line. A pointer's Down is raced as a `hit` of the display: the report says who was hit.
"""
from __future__ import annotations

from collections.abc import Iterator

from history import History
from model import Frame
from script import lines_of
from word_texts import Answer, WordTexts


def with_hits(lines: list[bytes], numbers: list[int]) -> tuple[bytes, frozenset[int]]:
    """A text in which each Down among the lines of these numbers is a `hit`, and each other one a remark; and the
    numbers of the Downs."""
    downs = set()
    for number in numbers:
        words = lines[number - 1].split(b" ")
        lines[number - 1] = b"#"
        if words[1] == b"Down":
            downs.add(number)
            lines[number - 1] = b" ".join([b"display hit", *words[3:]])
    return b"\n".join(lines) + b"\n", frozenset(downs)


class FramesAndLines:
    """Finished frames and extra lines, in the order of their lines: all that focus and pointers depend on."""

    def __init__(self, text: bytes, history: History, numbers: list[int]) -> None:
        self._lines = lines_of(text)
        self._history = history
        self._numbers = numbers

    def __iter__(self) -> Iterator[Frame | tuple[int, list[str]]]:
        rows: list[tuple[int, Frame | None]] = [(self._history.entries[frame.done].line, frame) for frame in self._history.frames]
        rows += [(number, None) for number in self._numbers]
        rows.sort(key=lambda row: row[0])
        for line, frame in rows:
            yield frame if frame is not None else (line, self._lines[line - 1].decode("ascii").split(" "))


def path_to(parents: dict[str, str | None], session: str) -> list[str]:
    """The sessions from the root of a view tree to one of its nodes; none if it is no node."""
    path: list[str] = []
    at: str | None = session if session in parents else None
    while at is not None:
        path.insert(0, at)
        at = parents[at]
    return path


def find_focus(events: FramesAndLines, texts: WordTexts) -> None:
    """The chain after each frame, and the answer to each line that asks for the focus."""
    texts.has_focus = True
    parents: dict[str, str | None] = {}
    chain: list[str] = []
    for event in events:
        if isinstance(event, Frame):
            parents = {view.session: view.parent for view in event.views}
            focus = next((session for session in reversed(chain) if session in parents), next(iter(parents), ""))
            chain = texts.chains[event.number] = path_to(parents, focus)
        else:
            line, (by, _, of) = event
            path = path_to(parents, of)
            is_granted = by in path
            chain = path if is_granted else chain
            texts.answers.append(Answer(line, by, " ".join(["Focus", "granted" if is_granted else "denied", "chain", *chain])))


def find_pointers(events: FramesAndLines, history: History, texts: WordTexts) -> None:
    """The streams that each frame cancels, and the answer to each line of a pointer."""
    texts.has_pointer = True
    first_hits = {point.line: point.words.split(" ")[5:6] for point in history.points}
    streams: dict[int, str] = {}
    for event in events:
        if isinstance(event, Frame):
            nodes = {view.session for view in event.views}
            for pointer in sorted(streams):
                if streams[pointer] not in nodes:
                    texts.add_cancel(event.number, pointer, streams.pop(pointer))
        else:
            line, words = event
            answer = answer_pointer(streams, words, first_hits.get(line, []))
            texts.answers.append(Answer(line, "display", "pointer %s %s" % (words[2], answer)))


def answer_pointer(streams: dict[int, str], words: list[str], first_hit: list[str]) -> str:
    """The answer to a line of a pointer, which may begin or end the pointer's stream."""
    call, pointer = words[1], int(words[2])
    stream = streams.get(pointer)
    if call == "Down":
        if stream is not None:
            return "busy"
        if first_hit:
            streams[pointer] = first_hit[0]
        return "down " + first_hit[0] if first_hit else "nobody"
    if stream is None:
        return "nobody"
    if call == "Up":
        return "up " + streams.pop(pointer)
    return " ".join(["move", stream, *words[3:]])


def race_texts(text: bytes, history: History, focus_lines: list[int], pointer_lines: list[int]) -> WordTexts:
    """All of it, of a text with extra lines of these numbers."""
    texts = WordTexts()
    texts.has_damage = True
    texts.damage = {frame.number: rects for frame, rects in zip(history.frames, history.items.damage)}
    if focus_lines:
        find_focus(FramesAndLines(text, history, focus_lines), texts)
    if pointer_lines:
        find_pointers(FramesAndLines(text, history, pointer_lines), history, texts)
    return texts
