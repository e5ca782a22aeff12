"""The history of a run, read from its report, with what a reader has to look up otherwise.

The report has each entry, each event and each frame. This module adds which frame took a present, or why
none did; which fences it waited for and when they were signalled; which later entry answered a held get; and
which calls an entry carries. It follows the rules of docs/SERVICE.md and judges nothing: the program did.
"""
from __future__ import annotations

from collections.abc import Iterable

from frames import ItemGroups
from model import Close, Delay, EntryRow, EventRow, Frame, Get, LineFate, PointRow, Presented, ProbeRow, Session, Watcher
from report import Apart, End, Entry, Event, Items, Lost, NotAReport, ProbeLine, Record, Total, View, item_code
from script import Script, present_of

GETS = {"GetLayout": "layout", "GetStatus": "status", "GetChildStatus": "child"}


class History:
    """Reads the records of a report in order. A point at one of the lines of `downs` was asked in place of a
    pointer's Down, and is kept beside the entries."""

    def __init__(self, script: Script, downs: frozenset[int] = frozenset(), finds_damage: bool = False) -> None:
        self.script = script
        self.downs = downs
        self.numbers = {name: number for number, name in enumerate(script.actors)}
        buffers = {name: number for number, name in enumerate(script.buffers)}
        self.items = ItemGroups(lambda line: item_code(line, self.numbers, buffers), finds_damage)
        self.sessions = {name: Session(self.numbers[name]) for name in script.sessions}
        self.lines = [LineFate() for _ in script.lines]
        self.entries: list[EntryRow] = []
        self.events: list[EventRow] = []
        self.presents: list[Presented] = []
        self.gets: list[Get] = []
        self.closes: list[Close] = []
        self.frames: list[Frame] = []
        self.signalled: dict[str, int] = {}
        self.probe_rows: list[ProbeRow] = []
        self.points: list[PointRow] = []
        self.total = Total(0, 0)
        self._ratio = script.ratio
        self._uses: dict[str, int] = {}
        self._next_line = {name: 0 for name in script.actors}
        self._open: Frame | None = None
        self._parts: list[str] | None = None
        self._is_begin = False

    def read(self, stream: Iterable[Record]) -> History:
        """Takes all records."""
        for record in stream:
            self._take_record(record)
        self.items.close()
        if self.total.frames != len(self.frames):
            raise NotAReport("%d frames are read, but the last line counts %d" % (len(self.frames), self.total.frames))
        return self

    def _take_record(self, record: Record) -> None:
        match record:
            case Items(lines):
                self._take_items(lines)
            case Event(session, words):
                self._take_event(session, words)
            case View():
                self.frames[-1].views.append(record)
            case Apart(session):
                self.frames[-1].apart.append(session)
            case Lost(display, _):
                self.frames[-1].lost.append(display)
            case _:
                self._finish_entry()
                self._take_entry(record)

    def _take_entry(self, record: Record) -> None:
        match record:
            case Entry(actor, line, words) if actor == "display" and line in self.downs:
                self._take_point(line, words)
            case Entry(actor, line, words):
                self._add_entry(actor, line, words)
            case End(session, unplayed):
                self._end_session(session, unplayed)
            case ProbeLine(probe, line, words):
                self._take_probe_line(probe, line, words)
            case Total():
                self.total = Total(record.entries - len(self.points), record.frames)

    # The parts of an entry, and what follows it.

    def _take_items(self, lines: list[str]) -> None:
        if self._parts != []:
            raise NotAReport("draw items that are of no frame")
        self._parts = lines

    def _finish_entry(self) -> None:
        """All that the report has of the last entry was read."""
        if self._is_begin:
            self._explain_waiting()
        if self._parts is not None:
            self.frames[-1].count = len(self._parts)
            self.items.add(self._parts)
        self._is_begin, self._parts = False, None

    def _add_entry(self, actor: str, line: int, words: list[str]) -> None:
        entry = len(self.entries)
        carried = self._carry(actor, line, entry)
        self.entries.append(EntryRow(self.numbers[actor], line, " ".join(words), carried))
        asked = self.script.words(line)
        if actor == "display":
            self._read_display_entry(entry, line, words, asked)
        else:
            self._read_session_entry(self.sessions[actor], entry, line, words, asked)

    def _carry(self, actor: str, line: int, entry: int) -> int:
        """Notes that an entry carries the lines before its own, and gives their number."""
        own = self.script.lines_by_actor.get(actor, [])
        first = place = self._next_line[actor]
        while place < len(own) and own[place] < line:
            self.lines[own[place] - 1] = LineFate("c", entry)
            place += 1
        carried = place - first
        if place < len(own) and own[place] == line:
            self.lines[line - 1] = LineFate("e", entry)
            place += 1
        self._next_line[actor] = place
        return carried

    def _end_session(self, name: str, unplayed: int) -> None:
        """A session's End carries the calls that wait, or follows lines that weren't played."""
        session = self.sessions[name]
        entry = len(self.entries)
        line = len(self.script.lines) + 1
        first = self._next_line[name]
        carried = self._carry(name, line, entry)
        if session.closed_at is not None:
            for number in self.script.lines_by_actor.get(name, [])[first:]:
                self.lines[number - 1].sort = "x"
            carried = 0
        self.entries.append(EntryRow(session.actor, line, "end %d" % unplayed, carried))

    def _take_probe_line(self, probe: str, line: int, words: list[str]) -> None:
        frame = int(words[words.index("frame") + 1])
        self.probe_rows.append(ProbeRow(self.numbers[probe], line, " ".join(words), frame))
        if words[0] == "hit" and frame:
            self.frames[frame - 1].points.append((line, " ".join(words)))

    def _take_point(self, line: int, words: list[str]) -> None:
        self._carry("display", line, len(self.entries))
        self.points.append(PointRow(len(self.entries), line, " ".join(words)))

    # Sessions.

    def _read_session_entry(self, session: Session, entry: int, line: int, words: list[str], asked: list[str]) -> None:
        match words:
            case ["closed", *error]:
                session.closed_at = entry
                self.closes.append(Close(session.actor, entry, line, error))
            case ["Present", number, "credits", credits]:
                present = Presented(session.actor, entry, int(number), int(credits), present_of(asked))
                self.presents.append(present)
                session.waiting.append(present)
            case ["CreateView", "ok"]:
                session.view = asked[2]
            case ["CreateViewport", "ok"]:
                pair = asked[3]
                self._uses[pair] = self._uses.get(pair, 0) + 1
                session.viewports[asked[2]] = (pair, self._uses[pair])
            case ["Signal", "ok"]:
                self.signalled.setdefault(asked[2], entry)
            case [call, state, *value] if call in GETS:
                self._read_get(session, entry, call, state, value, asked)

    def _read_get(self, session: Session, entry: int, call: str, state: str, value: list[str], asked: list[str]) -> None:
        sort = GETS[call]
        pair, use = session.viewports.get(asked[2], ("", 0)) if sort == "child" else (session.view, 0)
        watcher = session.watchers.setdefault((sort, pair, use), Watcher())
        get = Get(session.actor, entry, "%s of %s" % (sort, pair))
        self.gets.append(get)
        if state == "now":
            get.answered_at, get.value = entry, " ".join(value)
            watcher.last = get.value
        else:
            watcher.held = get

    def _take_event(self, name: str, words: list[str]) -> None:
        session = self.sessions[name]
        entry = len(self.entries) - 1
        self.events.append(EventRow(entry, session.actor, " ".join(words)))
        match words:
            case ["credits", gained]:
                self._take_presents(session, int(gained))
            case [("layout" | "status" | "child") as sort, pair, *value]:
                self._answer_get(session, entry, sort, pair, " ".join(value))

    def _answer_get(self, session: Session, entry: int, sort: str, pair: str, value: str) -> None:
        """Answers the held get of the first use of the pair whose watcher answered another value last."""
        uses = sorted(use for (s, p, use) in session.watchers if (s, p) == (sort, pair))
        for use in uses:
            watcher = session.watchers[(sort, pair, use)]
            if watcher.held is not None and watcher.last != value:
                watcher.held.answered_at, watcher.held.value = entry, value
                watcher.held, watcher.last = None, value
                return

    # Frames.

    def _read_display_entry(self, entry: int, line: int, words: list[str], asked: list[str]) -> None:
        match words:
            case ["begin", time, "frame", number]:
                self._open = Frame(int(number), int(time), self._ratio, entry)
                self._is_begin = True
            case ["done", "frame", _] if self._open is not None:
                self._open.done = entry
                self.frames.append(self._open)
                self._parts = []
                self._release_fences(self._open)
                self._open = None
            case ["dpr", "ok"]:
                self._ratio = int(asked[2])
            case ["Signal", "ok"]:
                self.signalled.setdefault(asked[2], entry)
            case ["hit", _, _, "frame", frame, *_] if frame != "0":
                self.frames[int(frame) - 1].points.append((line, " ".join(words)))

    def _take_presents(self, session: Session, gained: int) -> None:
        """The open frame takes presents of a session: one if no frame took any before, else as many as credits come back."""
        if self._open is None:
            raise NotAReport("credits come back, but no frame begins")
        count = gained if session.has_taken else 1
        if count > len(session.waiting):
            raise NotAReport("a frame takes more presents than wait")
        taken = [session.waiting.popleft() for _ in range(count)]
        for present in taken:
            present.frame, present.taken_at = self._open.number, self._open.begin
        taken[-1].is_shown = True
        session.has_taken = True
        self._open.presents += taken

    def _explain_waiting(self) -> None:
        """Notes why this begin left the first waiting present of each session."""
        frame = self._open
        if frame is None:
            return
        for session in self.sessions.values():
            if session.waiting:
                present = session.waiting[0]
                is_closed = session.closed_at is not None
                why = "its session was closed" if is_closed else self._why_waiting(present, frame)
                if present.delays and present.delays[-1].why == why:
                    present.delays[-1].to_frame = frame.number
                else:
                    present.delays.append(Delay(frame.number, frame.number, why))

    def _why_waiting(self, present: Presented, frame: Frame) -> str:
        missing = [fence for fence in present.fields.acquire if fence not in self.signalled]
        if present.fields.time > frame.time:
            return "its time %d was later than the begin's" % present.fields.time
        if missing:
            return "%s %s not signalled" % (" and ".join(missing), "was" if len(missing) == 1 else "were")
        return "an unsquashable present before it had the frame"

    def _release_fences(self, frame: Frame) -> None:
        """The end of a frame signals the release fences of the presents that it lets go."""
        going = list(frame.presents)
        for session in self.sessions.values():
            if session.closed_at is not None and session.closed_at < frame.begin:
                going += session.waiting
                session.waiting.clear()
        for present in going:
            for fence in present.fields.release:
                self.signalled.setdefault(fence, frame.done)
