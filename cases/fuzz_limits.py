"""Pieces that take a random script of fuzz.py to a limit, or one above it.

A piece says what stands in the head and what behind `run`, and what comes of the line one above the limit: a fault of
that kind, or the close of its session for that reason. `LIMITS` has them all by their names.
"""
from typing import NamedTuple

FIRST = 1000001
BAD_NUMBER, BAD_NAME, LONG_LINE, TOO_LONG, TOO_MANY, NO_VERSION = 7, 4, 3, 1, 11, 13
MIB = 1 << 20


class Piece(NamedTuple):
    """The lines of the head and of the body that a piece adds, and what is wrong above the limit: a kind, or a reason."""
    head: list
    body: list
    wrong: object


class Limit(NamedTuple):
    """A limit that a script goes to: its name, whether it goes above, the session, and its reason to be closed there, with
    the numbers of the lines at which it may be."""
    name: str
    is_above: bool
    session: str
    reason: object
    lines: range


def many(count, line):
    return [line % (FIRST + k) for k in range(count)]


def sessions(maker, c, above):
    return Piece(["session L%d" % k for k in range(16 + above - len(maker.clients))], [], TOO_MANY)


def probes(maker, c, above):
    return Piece(["probe L%d" % k for k in range(8 + above - len(maker.probes))], [], TOO_MANY)


def declared(maker, sort):
    return sum(line.startswith(sort + " ") for line in maker.lines)


def collections(maker, c, above):
    return Piece(["buffers L%d %s 1 9 9" % (k, c.name) for k in range(256 + above - declared(maker, "buffers"))], [], TOO_MANY)


def pairs(maker, c, above):
    return Piece(["pair L%d %s %s" % (k, c.name, c.name) for k in range(4096 + above - declared(maker, "pair"))], [], TOO_MANY)


def fences(maker, c, above):
    return Piece(["fence L%d %s" % (k, c.name) for k in range(4096 + above - declared(maker, "fence"))], [], TOO_MANY)


def in_head(line, most, wrong=BAD_NUMBER):
    """A line of the head with a number of this range at its end."""
    return lambda maker, c, above: Piece([line % (c.name, most + above)], [], wrong)


def name_length(maker, c, above):
    return Piece(["fence %s %s" % ("L" * (16 + above), c.name)], [], BAD_NAME)


def line_length(maker, c, above):
    return Piece(["#" * (1024 + above)], [], LONG_LINE)


def text_length(maker, c, above):
    """A text of 16 MiB, by comments behind `run`."""
    left = 16 * MIB + above - sum(len(line) + 1 for line in maker.lines)
    full, rest = divmod(left, 1000)
    return Piece([], ["#" * 999] * full + ["#" * (rest - 1)] * (rest > 0), TOO_LONG)


def frames(maker, c, above):
    return Piece([], ["display begin 0", "display done"] * (512 - declared(maker, "display begin") + above), TOO_MANY)


def lines_of_one(maker, c, above):
    left = 65536 + above - declared(maker, c.name)
    return Piece([], [c.name + " Wait frames 0"] * left, TOO_MANY)


def in_body(line, most):
    """A call with a number of this range at its end, or of a range that ends with 0."""
    step = -1 if most < 0 else 1
    return lambda maker, c, above: Piece([], ["%s %s %d" % (c.name, line, most + step * above)], BAD_NUMBER)


def call(lines, most, reason):
    """Calls that are allowed up to a number, which stands at %d."""
    return lambda maker, c, above: Piece([], ["%s %s" % (c.name, line % (most + above) if "%d" in line else line) for line in lines], reason)


def made(c, lines):
    return ["%s %s" % (c.name, line) for line in lines]


def regions(maker, c, above):
    return Piece([], made(c, ["CreateTransform 1000001", "SetHitRegions 1000001" + " 0 0 1 1 0" * (16 + above)]), "B13")


def present_fences(keyword):
    """A present with a list of as many fences as it may have."""
    return lambda maker, c, above: Piece(["fence Lf " + c.name], made(c, ["Present 0 %s%s" % (keyword, " Lf" * (16 + above))]), "B22")


def children(maker, c, above):
    count = 64 + above
    return Piece([], made(c, many(count + 1, "CreateTransform %d") + ["AddChild 1000001 %d" % (FIRST + k) for k in range(1, count + 1)]), "B21")


def other_children(maker, c, above):
    if maker.version == 1:
        return children(maker, c, above)
    listed = " ".join(str(FIRST + k) for k in range(1, 65 + above))
    return Piece([], made(c, many(66, "CreateTransform %d") + ["ReplaceChildren 1000001 " + listed]), "B21")


def transforms(maker, c, above):
    return Piece([], made(c, many(1024 + above, "CreateTransform %d")), "B20")


def contents(maker, c, above):
    return Piece([], made(c, many(1024 + above, "CreateFilledRect %d")), "B20")


def chain(count):
    """The calls that make a path of so many nodes below the root, which is the first."""
    return many(count, "CreateTransform %d") + ["AddChild %d %d" % (FIRST + k, FIRST + k + 1) for k in range(count - 1)]


def path(maker, c, above):
    return Piece([], made(c, chain(64 + above) + ["SetRootTransform 1000001", "Present 0"]), "B18")


def nodes(maker, c, above):
    """Eight diamonds below one another, which unfold to 1,021 nodes, and as many leaves as are left."""
    calls = many(25 + 4, "CreateTransform %d")
    for k in range(8):
        top = FIRST + 3 * k
        calls += ["AddChild %d %d" % edge for side in (1, 2) for edge in ((top, top + side), (top + side, top + 3))]
    calls += ["AddChild 1000001 %d" % (FIRST + 25 + k) for k in range(3 + above)]
    return Piece([], made(c, calls + ["SetRootTransform 1000001", "Present 0"]), "B18")


def cycle(maker, c, above):
    return Piece([], made(c, chain(3) + ["SetRootTransform 1000001"] + ["AddChild 1000003 1000002"] * above + ["Present 0"]), "B17")


def viewport_twice(maker, c, above):
    calls = chain(3) + ["SetRootTransform 1000001", "CreateViewport 1000001 Lp 9 9", "SetContent 1000002 1000001"]
    return Piece(["pair Lp %s %s" % (c.name, c.name)], made(c, calls + ["SetContent 1000003 1000001"] * above + ["Present 0"]), "B19")


def view_twice(maker, c, above):
    return Piece(["pair Lp %s %s" % (c.name, c.name)], made(c, ["CreateView Lp", "ReleaseView"] + ["CreateView Lp"] * above), "B16")


def two_views(maker, c, above):
    head = ["pair Lp %s %s" % (c.name, c.name), "pair Lq %s %s" % (c.name, c.name)]
    return Piece(head, made(c, ["CreateView Lp"] + ["CreateView Lq"] * above), "B14")


def no_view(maker, c, above):
    return Piece(["pair Lp %s %s" % (c.name, c.name)], made(c, ["CreateView Lp", "ReleaseView"] + ["ReleaseView"] * above), "B15")


def buffer_index(maker, c, above):
    return Piece(["buffers Lb %s 2 9 9" % c.name], made(c, ["CreateImage 1000001 Lb %d 9 9" % (1 + above)]), "B12")


def image_side(maker, c, above):
    return Piece(["buffers Lb %s 2 9 9" % c.name], made(c, ["CreateImage 1000001 Lb 0 9 %d" % (9 + above)]), "B11")


def sample(maker, c, above):
    calls = ["CreateImage 1000001 Lb 0 9 9", "SetImageSampleRegion 1000001 1 1 8 %d" % (8 + above)]
    return Piece(["buffers Lb %s 2 9 9" % c.name], made(c, calls), "B10")


def credits(maker, c, above):
    """One present for the credit at first; where a frame took it, five."""
    calls = made(c, ["Present 0"])
    if maker.chance(0.5):
        calls += ["display begin 0", "display done"] + made(c, ["Present %d" % (2 ** 63 - 1)] * 5)
    return Piece([], calls + made(c, ["Present 0"]) * above, "NO_PRESENTS_REMAINING")


def hanging(maker, c, above):
    get = maker.rng.choice(["GetLayout", "GetStatus", "GetChildStatus 1000001"])
    calls = ["CreateView Lp"] + ["CreateViewport 1000001 Lq 9 9"] * ("Child" in get) + [get] * (1 + above)
    return Piece(["pair Lp %s %s" % (c.name, c.name), "pair Lq %s %s" % (c.name, c.name)], made(c, calls), "BAD_HANGING_GET")


T, F = "CreateTransform 1000001", "CreateFilledRect 1000001"
LIMITS = {
    "16 sessions": sessions, "8 probes": probes, "256 collections": collections,
    "64 buffers": lambda maker, c, above: Piece(["buffers L %s %d 9 9" % (c.name, 64 + above)], [], BAD_NUMBER),
    "sides of buffers": in_head("buffers L %s 1 9 %d", 65536), "names of 16": name_length, "lines of 1,024 bytes": line_length,
    "512 frames": frames, "ids of transforms": in_body("CreateTransform", 2 ** 64 - 1),
    "ids of contents": in_body("CreateFilledRect", 2 ** 64 - 1), "times": in_body("Present", 2 ** 63 - 1),
    "Waits": in_body("Wait frames", 2 ** 32 - 1), "16 hit regions": regions, "16 acquire fences": present_fences("acquire"),
    "16 release fences": present_fences("release"), "64 children": children, "64 other children": other_children,
    "1,024 transforms": transforms, "1,024 contents": contents, "paths of 64": path, "1,024 nodes": nodes, "cycles": cycle,
    "a viewport twice": viewport_twice, "a view end twice": view_twice, "two views": two_views, "no view": no_view,
    "indices of buffers": buffer_index, "sides of images": image_side, "samples": sample, "credits": credits,
    "gets that hang": hanging,
    "translations": call([T, "SetTranslation 1000001 0 %d"], 2 ** 31 - 1, BAD_NUMBER),
    "orientations": call([T, "SetOrientation 1000001 %d"], 4, BAD_NUMBER),
    "interactions": call([T, "SetInfiniteHitRegion 1000001 %d"], 1, BAD_NUMBER),
    "colours": call([F, "SetSolidFill 1000001 0 0 %d 0 9 9"], 255, BAD_NUMBER),
    "scales": call([T, "SetScale 1000001 1 %d"], 2 ** 24, "B8"), "opacities": call([T, "SetOpacity 1000001 %d"], 65536, "B9"),
    "ends of clips": call([T, "SetClipBoundary 1000001 0 1 1 %d"], 2 ** 31 - 2, "B10"),
    "ends of regions": call([T, "SetHitRegions 1000001 1 0 %d 1 1"], 2 ** 31 - 2, "B10"),
    "sides of fills": call([F, "SetSolidFill 1000001 0 0 0 0 9 %d"], 65536, "B11"),
    "ids that are 0": lambda maker, c, above: Piece([], made(c, ["CreateTransform %d" % (0 if above else FIRST)]), "B1"),
    "ids in use": lambda maker, c, above: Piece([], made(c, [T] * (1 + above)), "B2"),
    "unknown transforms": lambda maker, c, above: Piece([], made(c, [T, "SetRootTransform %d" % (FIRST + above)]), "B3"),
    "unknown contents": lambda maker, c, above: Piece([], made(c, [T, F, "SetContent 1000001 %d" % (FIRST + above)]), "B4"),
    "wrong contents": lambda maker, c, above: Piece([], made(c, [F, "Release%s 1000001" % ("Image" if above else "FilledRect")]), "B5"),
    "children twice": lambda maker, c, above: Piece([], made(c, chain(2) + ["AddChild 1000001 1000002"] * above), "B6"),
    "no children": lambda maker, c, above: Piece([], made(c, chain(2) + ["RemoveChild 1000001 1000002"] * (1 + above)), "B7"),
}
# long scripts, which stand in few
LONG = {"4,096 pairs": pairs, "4,096 fences": fences, "65,536 lines": lines_of_one, "16 MiB": text_length}
LONG_SHARE = 0.01


def add_limit(maker, lines):
    """The script with a piece behind its head, which goes to a limit or one above it. It says so in `maker`."""
    rng = maker.rng
    limits = LONG if rng.random() < LONG_SHARE else LIMITS
    name = rng.choice(sorted(limits))
    c, above, run = rng.choice(maker.clients), rng.randrange(2), lines.index("run")
    maker.lines = lines
    piece = limits[name](maker, c, above)
    out = lines[:run] + piece.head + ["run"] + piece.body + lines[run + 1:]
    is_fault = isinstance(piece.wrong, int)
    maker.fault = piece.wrong if is_fault and above else None
    first = run + len(piece.head) + 2
    reason = None if is_fault or not above else piece.wrong
    maker.limit = Limit(name, bool(above), c.name, reason, range(first, first + len(piece.body)))
    return out
