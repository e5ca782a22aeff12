"""Scripts as the page needs them: the lines of a text, its head, and its extra lines.

`Script.read` is for a text that the program accepted, and takes its words as they stand (docs/SCRIPT.md). `faults.py`
reads a text that the program refused.
"""
from __future__ import annotations

from dataclasses import dataclass, field

ONE = 65536
LINE_BYTES_MOST = 1024
PLAIN_BYTES = bytes(range(32, 127))
FOCUS_CALLS = frozenset({b"Focus"})
POINTER_CALLS = frozenset({b"Down", b"Move", b"Up"})


def lines_of(text: bytes) -> list[bytes]:
    """The lines of a text: what follows the last line feed is one only if it isn't empty."""
    lines = text.split(b"\n")
    return lines[:-1] if lines[-1] == b"" else lines


def is_plain(line: bytes) -> bool:
    """Whether all bytes of a line are printable ASCII."""
    return not line.translate(None, PLAIN_BYTES)


def is_extra(line: bytes, calls: frozenset[bytes]) -> bool:
    """Whether a line behind `run` is an extra line of that set."""
    if not line or line[:1] == b"#" or len(line) > LINE_BYTES_MOST or not is_plain(line):
        return False
    words = line.split(b" ", 2)
    return len(words) > 1 and words[1] in calls


def extra_numbers(text: bytes, calls: frozenset[bytes]) -> list[int]:
    """The numbers of the extra lines of that set."""
    lines = lines_of(text)
    if b"run" not in lines:
        return []
    return [number for number in range(lines.index(b"run") + 2, len(lines) + 1) if is_extra(lines[number - 1], calls)]


def without_lines(text: bytes, numbers: list[int]) -> bytes:
    """The text with `#` in place of each of these lines."""
    if not numbers:
        return text
    lines = lines_of(text)
    for number in numbers:
        lines[number - 1] = b"#"
    return b"\n".join(lines) + b"\n"


@dataclass
class Present:
    """The fields of a Present line."""
    time: int
    unsquashable: bool = False
    acquire: list[str] = field(default_factory=list)
    release: list[str] = field(default_factory=list)


def present_of(words: list[str]) -> Present:
    """Reads the words of a line such as `mail Present 16 acquire g1 release d1`."""
    present = Present(int(words[2]))
    rest = words[3:]
    if rest and rest[0] == "unsquashable":
        present.unsquashable, rest = True, rest[1:]
    fences: list[str] = []
    for word in rest:
        if word == "acquire":
            fences = present.acquire
        elif word == "release":
            fences = present.release
        else:
            fences.append(word)
    return present


@dataclass
class Script:
    """A text that the program accepted: its lines, and what its head declares."""
    lines: list[str]
    version: int = 1
    width: int = 0
    height: int = 0
    ratio: int = ONE
    sessions: list[str] = field(default_factory=list)
    probes: list[str] = field(default_factory=list)
    buffers: list[str] = field(default_factory=list)
    collections: dict[str, tuple[str, int, int, int]] = field(default_factory=dict)
    pairs: list[tuple[str, str, str]] = field(default_factory=list)
    fences: dict[str, list[str]] = field(default_factory=dict)
    lines_by_actor: dict[str, list[int]] = field(default_factory=dict)

    @staticmethod
    def read(text: bytes) -> Script:
        """Reads the lines and the head of a text without faults."""
        script = Script([line.decode("ascii") for line in lines_of(text)])
        in_head = True
        for number, line in enumerate(script.lines, 1):
            if line == "" or line.startswith("#"):
                continue
            if not in_head:
                actor = line.split(" ", 1)[0]
                script.lines_by_actor.setdefault(actor, []).append(number)
            elif line == "run":
                in_head = False
            else:
                script._declare(line.split(" "))
        return script

    def _declare(self, words: list[str]) -> None:
        """Takes one line of the head."""
        match words:
            case ["flatland", version]:
                self.version = int(version)
            case ["display", width, height, *ratio]:
                self.width, self.height = int(width), int(height)
                self.ratio = int(ratio[0]) if ratio else ONE
            case ["session", name]:
                self.sessions.append(name)
            case ["probe", name]:
                self.probes.append(name)
            case ["buffers", name, owner, count, width, height]:
                self.buffers.append(name)
                self.collections[name] = (owner, int(count), int(width), int(height))
            case ["pair", name, viewport_owner, view_owner]:
                self.pairs.append((name, viewport_owner, view_owner))
            case ["fence", name, *owners]:
                self.fences[name] = owners

    @property
    def actors(self) -> list[str]:
        """The display, the sessions and the probes: an actor's number is its place here."""
        return ["display", *self.sessions, *self.probes]

    def words(self, number: int) -> list[str]:
        """The words of a line, by its number."""
        return self.lines[number - 1].split(" ")


LINES_SHOWN = 1_200_000
BYTES_SHOWN = 1_200


def shown_lines(text: bytes) -> list[str]:
    """The lines of any text, also of one that is no script, as a page can show them."""
    def shown(line: bytes) -> str:
        start = line[:BYTES_SHOWN].decode("ascii", "backslashreplace")
        plain = "".join(c if " " <= c <= "~" else "\\x%02x" % ord(c) for c in start)
        return plain if len(line) <= BYTES_SHOWN else "%s .. (%d bytes)" % (plain, len(line))
    return [shown(line) for line in lines_of(text)[:LINES_SHOWN]]
