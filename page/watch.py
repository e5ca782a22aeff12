"""Writes a page again whenever its script changes."""
from __future__ import annotations

import os
import sys
import time
from collections.abc import Callable

SECONDS = 0.5
STAMP_MOST = 10_000
WITH_PAGE = (0, 3)  # the statuses of runs that leave a page


def change_of(path: str) -> tuple[int, int] | None:
    """What tells one state of a file from the next; None while there is no file, as some editors leave it for a moment."""
    try:
        state = os.stat(path)
    except FileNotFoundError:
        return None
    return state.st_mtime_ns, state.st_size


def stamp_path(out: str) -> str:
    """The picture beside a page whose width is the number of the last writing."""
    return out + ".stamp.svg"


def write_stamp(out: str, stamp: int) -> None:
    """An open page looks at this picture, and loads itself again when its width changes: a page from a file may show a
    picture beside it, but read no file."""
    with open(stamp_path(out) + ".new", "w", encoding="ascii") as f:
        f.write('<svg xmlns="http://www.w3.org/2000/svg" width="%d" height="1"/>\n' % stamp)
    os.replace(f.name, stamp_path(out))


def follow(path: str, out: str, write: Callable[[int], int]) -> int:
    """Writes the page now and after each change, with the number of the writing, until the user interrupts. The status is
    the last writing's."""
    status, stamp, before = 0, int(time.time()) % STAMP_MOST, None
    try:
        while True:
            now = change_of(path)
            if now is not None and now != before:
                before, stamp = now, stamp % STAMP_MOST + 1
                status = write(stamp)
                is_written = status in WITH_PAGE
                if is_written:
                    write_stamp(out, stamp)
                print("%s: %s, status %d" % (out, "written" if is_written else "not written", status), file=sys.stderr, flush=True)
            time.sleep(SECONDS)
    except KeyboardInterrupt:
        return status
    finally:
        if os.path.exists(stamp_path(out)):
            os.remove(stamp_path(out))
