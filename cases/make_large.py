#!/usr/bin/env python3
"""Makes the large files of the cases that have some, beside the small ones that are stored.

make_large.py [FOLDER]   FOLDER holds the cases; this file's own folder by default.
"""
import os
import sys

HEAD = b"flatland 1\ndisplay 100 100\nsession A\npair t0 display A\nrun\n"
TWO = (b"flatland 1\ndisplay 100 100\nsession A\nsession B\n"
       b"pair t0 display A\npair t1 A B\nrun\n")
MIB16 = 16 * 1024 * 1024


def remarks(size):
    """remark lines of 1,024 bytes with their line feed, the last one shorter"""
    full, rest = divmod(size, 1024)
    text = (b"#" * 1023 + b"\n") * full
    if rest:
        text += b"#" * (rest - 1) + b"\n"
    return text


FILES = {
    # one byte more than 16 MiB
    "fault_more_than_16_mib/stdin": lambda: b"#" * (MIB16 + 1),
    # exactly 16 MiB without a line feed
    "fault_16_mib_in_one_line/stdin": lambda: b"#" * MIB16,
    # exactly 16 MiB, a head and remarks
    "limit_text_of_16_mib/stdin": lambda: HEAD + remarks(MIB16 - len(HEAD)),
    # the greatest number of lines of one session, and one more
    "limit_65536_lines_of_one_session/stdin": lambda: HEAD + b"A Clear\n" * 65536,
    "limit_65537_lines_of_one_session/stdin": lambda: HEAD + b"A Clear\n" * 65537,
    # one line too many that also names an end of somebody else
    "fault_kind_10_before_11/stdin": lambda: TWO + b"A Clear\n" * 65536 + b"A CreateView t1\n",
    # a black picture of 4,194,304 pixels
    "picture_of_the_greatest_size/stdout": lambda: b"P6\n4096 1024\n255\n" + bytes(3 * 4096 * 1024),
}


def main():
    root = sys.argv[1] if len(sys.argv) > 1 else os.path.dirname(os.path.abspath(__file__))
    for path, text in FILES.items():
        full = os.path.join(root, *path.split("/"))
        if not os.path.exists(os.path.join(os.path.dirname(full), "stage")):
            continue  # no such case yet
        with open(full, "wb") as out:
            out.write(text())


if __name__ == "__main__":
    main()
