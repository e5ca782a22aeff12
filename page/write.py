#!/usr/bin/env python3
"""Writes a page that shows a run of a script.

page/write.py [--report REPORT] [--why WHY] [--watch] OUT.html PLAY WORD FILE

PLAY is the command that runs the program (`./play`), and WORD is play or race. The script is run without its extra
lines. Of a play the page also has the damage, and the focus and pointer texts if the script has lines for them; of a
race these are found from its report. The status is the run's. A text that is no script (status 3) has a page too,
which shows the fault. The status is 5 if the page can't be written, and 66 if the script can't be read.

--report  a report that was written before is shown, and nothing is run
--why     the text of the word `why` for that report
--watch   the page is written again whenever the script changes, until this is interrupted
"""
from __future__ import annotations

import argparse
import os
import sys
import tempfile

from document import write_page
from page_data import page_json
from runs import NOT_READ, NOT_WRITTEN, Recorded, Runs, PageContent, content_of_run
from watch import follow


def shown_name(path: str) -> str:
    """The name of a script, with its folder if it is a case's `stdin`."""
    folder, name = os.path.split(os.path.abspath(path))
    shown = os.path.join(os.path.basename(folder), name) if name == "stdin" else name
    return os.fsencode(shown).decode("utf-8", "replace")


def write_run(given: argparse.Namespace, stamp: int | None) -> int:
    """Writes the page once. `stamp` is the number of this writing if the page is to follow the next ones."""
    with open(given.file, "rb") as f:
        text = f.read()
    with tempfile.TemporaryDirectory() as room:
        runs: Runs | Recorded = Recorded(given.report, given.why) if given.report else Runs(given.play, room)
        content = content_of_run(runs, given.word, text)
    if isinstance(content, PageContent):
        name = shown_name(given.file)
        write_page(given.out, name, page_json(name, given.word, text, content.run, content.fault), content.groups, stamp)
    return content.status if isinstance(content, PageContent) else content


def main() -> int:
    arguments = argparse.ArgumentParser(description=__doc__, formatter_class=argparse.RawDescriptionHelpFormatter)
    arguments.add_argument("--report")
    arguments.add_argument("--why")
    arguments.add_argument("--watch", action="store_true")
    arguments.add_argument("out")
    arguments.add_argument("play")
    arguments.add_argument("word", choices=["play", "race"])
    arguments.add_argument("file")
    given = arguments.parse_args()
    try:
        if given.watch:
            return follow(given.file, given.out, lambda stamp: write_run(given, stamp))
        return write_run(given, None)
    except OSError as wrong:
        print("no page is written: %s" % wrong, file=sys.stderr)
        return NOT_READ if wrong.filename == given.file else NOT_WRITTEN


if __name__ == "__main__":
    sys.exit(main())
