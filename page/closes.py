"""Why sessions were closed: the reason in words, and the ids, lines and numbers that explain it."""
from __future__ import annotations

from collections.abc import Iterator

from draft import Draft, Misuse
from history import History
from misuses import find_misuse
from model import Close, Presented
from reasons import close_sentence
from script import present_of
from trees import present_misuses

PRESENTS_SHOWN = 5


def explain_closes(history: History) -> None:
    """Gives each close its sentence and what explains it."""
    for close in history.closes:
        close.words = close_sentence(close.error)
        match close.error:
            case ["BAD_OPERATION", reason]:
                misuse = find_closing_misuse(history, close, reason)
                close.facts = misuse.facts if misuse is not None and misuse.reason == reason else []
            case ["NO_PRESENTS_REMAINING"]:
                close.facts = list(credit_facts(history, close))
            case ["BAD_HANGING_GET"]:
                close.facts = list(get_facts(history, close))


def find_closing_misuse(history: History, close: Close, reason: str) -> Misuse | None:
    """The misuse of a closing line, by the draft of the session's lines before it."""
    script = history.script
    name = script.actors[close.actor]
    draft = Draft(script.collections)
    for line in script.lines_by_actor.get(name, []):
        _, call, *words = script.words(line)
        if line == close.line:
            return judge(draft, call, words, script.words(line), reason)
        draft.apply(line, call, words)
    return None


def judge(draft: Draft, call: str, words: list[str], whole: list[str], reason: str) -> Misuse | None:
    """The first reason of a call. Whether a token isn't held hangs on frames, so for that the report is believed."""
    if call == "Present":
        present = present_of(whole)
        return next(present_misuses(draft, present.acquire, present.release), None)
    misuse = find_misuse(draft, call, words)
    return token_misuse(draft, call, words) if misuse is None and reason == "B16" else misuse


def token_misuse(draft: Draft, call: str, words: list[str]) -> Misuse:
    """Who used an end, and why its token isn't back."""
    if call == "CreateView":
        pair = words[0]
        facts = ["line %d used the view end of %s" % (draft.view_uses[pair], pair)] if pair in draft.view_uses else []
        return Misuse("B16", [*facts, "a view end is used once ever"])
    pair = words[1]
    used, released = draft.viewport_uses.get(pair, 0), draft.viewport_releases.get(pair, 0)
    facts = ["line %d used the viewport end of %s" % (used, pair)] if used else []
    if pair in draft.viewport_clears:
        facts.append("line %d cleared it, and for a Clear no token comes back" % draft.viewport_clears[pair])
    elif released > used:
        facts.append("line %d released it, and its token comes back at the end of a frame that took a later present" % released)
    else:
        facts.append("its token comes back once ReleaseViewport was presented and a frame took that present")
    return Misuse("B16", facts)


def credit_facts(history: History, close: Close) -> Iterator[str]:
    """The presents that waited when a session presented without a credit."""
    waiting = [present for present in history.presents
               if present.actor == close.actor and present.entry < close.entry and not 0 <= present.taken_at < close.entry]
    has_taken = any(present.actor == close.actor and 0 <= present.taken_at < close.entry for present in history.presents)
    yield "a session has %s" % ("at most 5 presents waiting" if has_taken else "1 present waiting until a frame takes one, and 5 from then on")
    for present in waiting[:PRESENTS_SHOWN]:
        yield waiting_words(history, close, present)


def waiting_words(history: History, close: Close, present: Presented) -> str:
    """A present that waits, with what the last begin before the close left it for."""
    line = history.entries[present.entry].line
    begun = sum(1 for row in history.entries[:close.entry] if row.actor == 0 and row.words.startswith("begin "))
    why = [delay.why for delay in present.delays if delay.from_frame <= begun]
    return "present %d (line %d) waits%s" % (present.number, line, ": " + why[-1] if why else "")


def get_facts(history: History, close: Close) -> Iterator[str]:
    """The gets that the session held when it asked again."""
    call = history.script.words(close.line)[1]
    sort = {"GetLayout": "layout", "GetStatus": "status", "GetChildStatus": "child"}[call]
    for get in history.gets:
        is_held = get.answered_at < 0 or get.answered_at > close.entry
        if get.actor == close.actor and get.entry < close.entry and is_held and get.watcher.startswith(sort + " "):
            yield "line %d asked for the %s, and wasn't answered yet" % (history.entries[get.entry].line, get.watcher)
