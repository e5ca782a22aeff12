"""Spoils scripts for fuzz.py, in bytes or in lines. Some of what comes out is a script all the same."""
from fuzz_scripts import NAMES

NUMBERS = ["18446744073709551615", "18446744073709551616", "4294967296", "4294967295", "9223372036854775808", "-2147483649",
           "2147483648", "65537", "16383", "007", "-0", "+1", ""]


def spoilt(rng, lines):
    """The script's bytes with something wrong, or something that only looks so."""
    if rng.random() < 0.5:
        lines = spoilt_lines(rng, lines)
        return ("\n".join(lines) + "\n").encode()
    text = bytearray(("\n".join(lines) + "\n").encode())
    for _ in range(rng.choice([1, 1, 3])):
        at = rng.randrange(len(text))
        kind = rng.randrange(6)
        if kind == 0:
            text[at] = rng.randrange(256)
        elif kind == 1:
            text[at] = rng.choice(b"0123456789 \n-AZ#")
        elif kind == 2:
            del text[at:at + rng.randint(1, 12)]
        elif kind == 3:
            text[at:at] = bytes(rng.choice(b"0123456789 -x") for _ in range(rng.randint(1, 30)))
        elif kind == 4:
            number = rng.choice(NUMBERS).encode()
            spot = text.find(b" ", at)
            text[spot + 1:spot + 2] = number if spot >= 0 else b""
        else:
            text = text[:at]
        if not text:
            return b""
    return bytes(text)


def spoilt_lines(rng, lines):
    """Lines that change places or words, come twice or not at all."""
    out = list(lines)
    for _ in range(rng.choice([1, 1, 2])):
        at, other = rng.randrange(len(out)), rng.randrange(len(out))
        words = out[at].split(" ")
        kind = rng.randrange(8)
        if kind == 0:
            out[at], out[other] = out[other], out[at]
        elif kind == 1:
            out.insert(at, out[other])
        elif kind == 2 and len(out) > 1:
            del out[at]
        elif kind == 3:
            words[rng.randrange(len(words))] = rng.choice(out[other].split(" "))
        elif kind == 4:
            words[rng.randrange(len(words))] = rng.choice(NUMBERS)
        elif kind == 5:
            words = words[:-1] if rng.random() < 0.5 else words + [rng.choice(out[other].split(" "))]
        elif kind == 6:
            at, words = 0, ["flatland", rng.choice(["0", "1", "2", "3", "4", "4294967295", "4294967296"])]
        else:
            words[0] = rng.choice(["display", "nobody", "flatland", "session", "run", *NAMES])
        if kind > 2:
            out[at] = " ".join(words)
    return out
