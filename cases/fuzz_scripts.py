"""Makes random scripts of all versions for fuzz.py.

Begin with `Maker`: its `script` gives the lines of a script. Most calls are allowed, since a Maker remembers what its
clients made; `misuse` is the share of those that aren't. A few scripts have a piece of fuzz_limits, which goes to a
limit or one above it.
"""
from fuzz_clients import Client
from fuzz_limits import add_limit, made

NAMES = ["A", "B", "mail", "shell", "S_3", "Clear", "clock", "Present", "z9", "item", "end", "report"]
EDGES = [0, 1, 65535, 65536, 65537, 2 ** 31 - 1, 2 ** 31, 2 ** 32 - 1]


class Maker:
    """A maker of one script."""

    def __init__(self, rng):
        self.rng = rng
        self.misuse = rng.choice([0, 0, 0.01, 0.05])
        self.version = rng.choice([1, 2, 3])
        self.time = 0
        self.open = False
        self.frames = 0
        # the kind of the fault that the script must have, and the limit that it goes to
        self.fault, self.limit = None, None
        self.signalled = set()

    def chance(self, p):
        return self.rng.random() < p

    def pick(self, of, wrong=9):
        """One of some names; sometimes, and where there is none, one that isn't among them."""
        if not of or self.chance(self.misuse):
            return self.rng.choice([0, wrong, 77])
        return self.rng.choice(of)

    def number(self, usual, most):
        """A usual number, or where misuses are made one at an edge."""
        if self.chance(self.misuse):
            return self.rng.choice([edge for edge in EDGES if edge <= most])
        return self.rng.choice(usual)

    def size(self):
        return self.number([1, 2, 7, 30, 100, 640, 65536], 2 ** 32 - 1)

    def ratio(self):
        return self.rng.choice([16384, 32768, 65536, 98304, 131072, 1048576])

    def place(self):
        return self.rng.choice([0, 1, -1, 5, 40, -300, 2147483647, -2147483648])

    def fixed(self):
        return self.number([0, 1, 32768, 65536], 2 ** 32 - 1)

    def inset(self):
        return self.rng.choice(["", "", " 1 2 3 4", " 0 0 0 0", " 65536 0 65536 0"])

    def head(self):
        rng = self.rng
        count = rng.choice([1, 1, 2, 2, 3, 4, 6])
        names = rng.sample(NAMES, count)
        self.clients = [Client(name) for name in names]
        self.display_fences = []
        lines = ["display %d %d" % (rng.choice([1, 20, 100, 1280, 65536]), rng.choice([1, 20, 100, 800]))]
        if self.version > 2 and self.chance(0.5):
            lines[0] += " %d" % self.ratio()
        lines += ["session " + name for name in names]
        tail = []
        self.top = rng.choice(self.clients)
        tail.append("pair top display " + self.top.name)
        self.top.views_of.append("top")
        for i in range(rng.randrange(2 * count + 1)):
            above, below = rng.choice(self.clients), rng.choice(self.clients)
            tail.append("pair p%d %s %s" % (i, above.name, below.name))
            above.viewports_of.append("p%d" % i)
            below.views_of.append("p%d" % i)
        for i in range(rng.randrange(3)):
            owner = rng.choice(self.clients)
            sides = rng.choice([1, 7, 640, 65536]), rng.choice([1, 30, 65536])
            tail.append("buffers b%d %s %d %d %d" % (i, owner.name, rng.choice([1, 2, 64]), *sides))
            owner.buffers.append("b%d" % i)
        for i in range(rng.randrange(4)):
            owners = rng.sample(self.clients, rng.randint(1, min(2, count)))
            shared = self.chance(0.3)
            tail.append("fence f%d %s" % (i, " ".join([o.name for o in owners] + ["display"] * shared)))
            for owner in owners:
                owner.fences.append("f%d" % i)
            if shared:
                self.display_fences.append("f%d" % i)
        self.probes = rng.sample(["eye", "Q", "await"], rng.choice([0, 0, 1, 2, 3]))
        tail += ["probe " + name for name in self.probes]
        rng.shuffle(tail)
        return ["flatland %d" % self.version] + lines + tail + ["run"]

    def transform_call(self, c):
        rng, t = self.rng, self.pick(c.transforms)
        kind = rng.randrange(14)
        if kind < 3 or not c.transforms:
            new = rng.randint(1, 8) if self.chance(0.1 + self.misuse) else max(c.transforms, default=0) + 1
            if new not in c.transforms or self.chance(self.misuse):
                c.transforms.append(new)
                return "CreateTransform %d" % new
            return self.clear(c) if self.chance(0.02) else "SetTranslation %d 1 1" % new
        if kind == 3 and self.chance(0.3):
            if t in c.transforms:
                c.transforms.remove(t)
            return "ReleaseTransform %d" % t
        if kind in (4, 5):
            child = self.pick(c.transforms)
            is_new = (t, child) not in c.children and (child > t or self.chance(self.misuse))
            if is_new and (child != t or self.chance(self.misuse)):
                c.children.add((t, child))
                return "AddChild %d %d" % (t, child)
        if kind == 6:
            return self.fewer_children(c, t)
        return self.property_call(kind, t)

    def fewer_children(self, c, t):
        """A child less, or other children."""
        rng = self.rng
        if c.children and self.chance(0.4):
            edge = rng.choice(sorted(c.children))
            if edge[0] in c.transforms and edge[1] in c.transforms:
                c.children.remove(edge)
                return "RemoveChild %d %d" % edge
        if self.version > 1 and self.chance(0.5):
            return self.replaced(c, t)
        if self.chance(self.misuse):
            return "RemoveChild %d %d" % (t, self.pick(c.transforms))
        return "SetTranslation %d %d %d" % (t, self.place(), self.place())

    def property_call(self, kind, t):
        """A property of a transform."""
        rng = self.rng
        if kind == 7:
            scale = rng.choice([1, 1, 32768, 65536, 16777216])
            return "SetScale %d %d %d" % (t, self.number([scale], 2 ** 32 - 1), rng.choice([1, 65536, 131072]))
        if kind == 8:
            return "SetOrientation %d %d" % (t, rng.randint(1, 4))
        if kind == 9:
            return "SetOpacity %d %d" % (t, self.fixed())
        if kind == 10:
            clips = ["", " 0 0 9 9", " -5 3 100 1"] + [" 1 1 0 5", " 2147483647 0 1 1"] * self.chance(self.misuse)
            return "SetClipBoundary %d" % t + rng.choice(clips)
        if kind == 11:
            count = 17 if self.chance(self.misuse / 2) else rng.randrange(4)
            regions = [(rng.choice([0, -2, 5]), 0, self.number([1, 50], 65536), 60, rng.randrange(2)) for _ in range(count)]
            return " ".join(["SetHitRegions %d" % t] + ["%d %d %d %d %d" % region for region in regions])
        if kind == 12:
            return "SetInfiniteHitRegion %d %d" % (t, rng.randrange(2))
        return "SetTranslation %d %d %d" % (t, self.place(), self.place())

    def replaced(self, c, t):
        """Other children of a transform, mostly of those that were made after it."""
        rng = self.rng
        below = [k for k in c.transforms if k > t]
        children = rng.sample(below, rng.randint(0, min(4, len(below))))
        children += [self.pick(c.transforms)] * self.chance(self.misuse)
        c.children = {edge for edge in c.children if edge[0] != t} | {(t, k) for k in children}
        return " ".join(["ReplaceChildren %d" % t] + [str(k) for k in children])

    def clear(self, c):
        c.view, c.transforms, c.fills, c.images, c.viewports, c.children = False, [], [], [], [], set()
        return "Clear"

    def release(self, of, call):
        """A call that releases one of these names."""
        name = self.pick(of)
        if name in of:
            of.remove(name)
        return "%s %d" % (call, name)

    def content_call(self, c):
        rng = self.rng
        contents = c.fills + c.images + c.viewports
        kind = rng.randrange(10)
        new = max(contents, default=0) + 1
        if kind == 0 or not contents:
            c.fills.append(new)
            return "CreateFilledRect %d" % new
        if kind == 1 and c.buffers:
            c.images.append(new)
            index = self.number([0], 65536)
            return "CreateImage %d %s %d %d %d" % (new, rng.choice(c.buffers), index, self.number([1], 65537), 1)
        if kind == 2 and c.viewports_of:
            c.viewports.append(new)
            return "CreateViewport %d %s %d %d%s" % (new, rng.choice(c.viewports_of), self.size(), self.size(), self.inset())
        if kind == 3 and c.viewports:
            if self.chance(0.3):
                return self.release(c.viewports, "ReleaseViewport")
            return "SetViewportProperties %d %d %d%s" % (self.pick(c.viewports), self.size(), self.size(), self.inset())
        if kind == 4 and c.images:
            return self.image_call(c)
        if kind in (5, 6) and c.fills:
            if self.chance(0.05):
                return self.release(c.fills, "ReleaseFilledRect")
            colours = rng.randrange(256), rng.choice([0, 128, 255])
            fill = self.pick(contents if self.chance(self.misuse) else c.fills)
            return "SetSolidFill %d %d 2 3 %d %d %d" % (fill, *colours, self.size(), self.size())
        if kind == 7 and c.transforms:
            root = 0 if self.chance(0.03) else self.pick([min(c.transforms)])
            return "SetRootTransform %d" % root
        content = 0 if self.chance(0.05) else self.pick(contents)
        return "SetContent %d %d" % (self.pick(c.transforms), content)

    def image_call(self, c):
        rng = self.rng
        if self.chance(0.1):
            return self.release(c.images, "ReleaseImage")
        image = self.pick(c.images)
        return rng.choice(["SetImageOpacity %d 40000", "SetImageFlip %d 2", "SetImageFlip %d 3",
                           "SetImageBlendingFunction %d 1", "SetImageBlendingFunction %d 2",
                           "SetImageDestinationSize %d 30 7", "SetImageSampleRegion %d 0 0 1 1"]) % image

    def entering_call(self, c):
        rng = self.rng
        kind = rng.randrange(16)
        if kind == 0 and c.views_of and not (c.view and not self.chance(self.misuse)):
            c.view = True
            return "CreateView " + rng.choice(c.views_of)
        if kind == 1 and (c.view and self.chance(0.3) or self.chance(self.misuse)):
            c.view = False
            return "ReleaseView"
        if kind == 2 and (c.view or self.chance(self.misuse)):
            return rng.choice(["GetLayout", "GetStatus"]) if self.chance(0.5) else "Poll"
        if kind == 3 and c.viewports and self.chance(0.6):
            return "GetChildStatus %d" % self.pick(c.viewports)
        if kind == 4 and c.fences:
            return self.signal(c.fences)
        if kind == 5:
            return "Poll"
        if kind == 6:
            return self.wait(c)
        if kind == 7 and self.chance(0.05):
            return "Disconnect"
        if kind > 11:
            return self.transform_call(c)
        return self.present(c)

    def signal(self, fences):
        fence = self.rng.choice(fences)
        self.signalled.add(fence)
        return "Signal " + fence

    def wait(self, c):
        """A Wait, mostly one that is met: a race looks long for what doesn't come."""
        rng = self.rng
        values = {"frames": self.frames, "credits": c.credits, "taken": c.taken, "answers": 0}
        if self.chance(0.03):
            return "Wait fence " + rng.choice(c.fences) if c.fences else "Wait %s 3" % rng.choice(sorted(values))
        signalled = sorted(self.signalled & set(c.fences))
        if signalled and self.chance(0.3):
            return "Wait fence " + rng.choice(signalled)
        asked = rng.choice(sorted(values))
        return "Wait %s %d" % (asked, rng.randint(0, max(0, values[asked])))

    def present(self, c):
        rng = self.rng
        if c.credits < 1 and not self.chance(0.02 + self.misuse):
            return "Poll"
        lists = " unsquashable" if self.version > 1 and self.chance(0.4) else ""
        if c.fences and self.chance(0.3):
            lists += " acquire " + " ".join(rng.choice(c.fences) for _ in range(rng.randint(1, 2)))
        if c.fences and self.chance(0.3):
            lists += " release " + rng.choice(c.fences)
        time = 2 ** 63 - 1 if self.chance(0.02) else rng.choice([0, 0, self.time, self.time + 3])
        c.presents(time <= self.time and "acquire" not in lists)
        return "Present %d%s" % (time, lists)

    def display_call(self):
        rng = self.rng
        if self.chance(0.15):
            return "hit %d %d" % (rng.choice([0, 3, -1, 50]), rng.choice([0, 3, 99]))
        if self.chance(0.1) and self.display_fences:
            signalled = sorted(self.signalled & set(self.display_fences))
            return "Wait fence " + rng.choice(signalled) if signalled and self.chance(0.5) else self.signal(self.display_fences)
        if self.version > 2 and self.chance(0.1):
            return "dpr %d" % self.ratio()
        if self.chance(0.05):
            c = rng.choice(self.clients)
            return "Wait presents %s %d" % (c.name, rng.randint(0, c.made) if self.chance(0.97) else 3)
        self.open = not self.open
        if not self.open:
            self.frames += 1
            return "done"
        return self.begin(rng.choice([0, 1, 16]))

    def begin(self, later):
        self.time += later
        for c in self.clients:
            c.begin()
        return "begin %d" % self.time

    def probe_call(self):
        rng = self.rng
        if self.chance(0.3):
            return "await %d" % (rng.choice([0, self.frames]) if self.chance(0.97) else 7)
        return "hit %d %d" % (rng.choice([0, 3, -1, 50]), rng.choice([0, 3, 99]))

    def line(self):
        if self.probes and self.chance(0.08):
            return self.rng.choice(self.probes) + " " + self.probe_call()
        if self.chance(0.22):
            return "display " + self.display_call()
        c = self.rng.choice(self.clients)
        make = self.rng.choices([self.transform_call, self.content_call, self.entering_call], [3, 3, 4])[0]
        return c.name + " " + make(c)

    def frame(self):
        """The lines of a whole frame, behind the one that is open."""
        lines = ["display done"] if self.open else []
        self.frames += 1 + self.open
        self.open = False
        return lines + ["display " + self.begin(16), "display done"]

    def show(self, c):
        """The calls with which a client makes a root with a fill, and perhaps what keeps it from being drawn."""
        t, f = max(c.transforms, default=0) + 1, max(c.fills + c.images + c.viewports, default=0) + 1
        c.transforms.append(t)
        c.fills.append(f)
        calls = ["CreateTransform %d" % t, "SetRootTransform %d" % t, "CreateFilledRect %d" % f, "SetContent %d %d" % (t, f)]
        if self.chance(0.9):
            calls.append("SetSolidFill %d 9 8 7 %d 5 5" % (f, self.rng.choice([0, 255])))
        below = ["CreateTransform %d" % (t + 1), "AddChild %d %d" % (t, t + 1), "SetContent %d 0" % t, "SetContent %d %d" % (t + 1, f)]
        faint = ["SetOpacity %d 1" % t, *below, "SetOpacity %d 1" % (t + 1)]
        small = ["SetScale %d 1 1" % t, *below, "SetScale %d 1 1" % (t + 1)]
        turned = ["SetOrientation %d 4" % t, "SetTranslation %d 9 9" % t]
        more = self.rng.choice([[], [], [], ["SetOpacity %d 0" % t], ["SetTranslation %d -9 0" % t], turned, faint, small])
        c.transforms += [t + 1] * (more in (faint, small))
        return calls + more

    def picture(self, c):
        """The calls that make an image, where there are buffers, and show it below the last node."""
        if not c.buffers:
            return []
        t, i = max(c.transforms) + 1, max(c.fills + c.images + c.viewports, default=0) + 1
        c.transforms.append(t)
        c.images.append(i)
        faint = ["SetOpacity %d 1" % t, "SetImageOpacity %d 1" % i] * self.chance(0.2)
        return ["CreateTransform %d" % t, "AddChild %d %d" % (t - 1, t), "CreateImage %d %s 0 1 1" % (i, c.buffers[0]), *faint,
                "SetImageDestinationSize %d 4 4" % i, "SetImageFlip %d %d" % (i, self.rng.randint(1, 3)), "SetContent %d %d" % (t, i)]

    def linked(self):
        """The lines that show a pair's view in its viewport, with all watchers, as well-behaved clients do."""
        rng, top = self.rng, self.top
        lines = made(top, ["CreateView top"] * (not top.view) + self.show(top) + self.picture(top) + ["Present 0"]) + self.frame()
        top.view = True
        pairs = [(a, b, p) for a in self.clients for b in self.clients for p in a.viewports_of if p in b.views_of]
        near = [pair for pair in pairs if pair[0] is top and pair[1] is not top]
        if not pairs:
            return lines
        above, below, pair = rng.choice(near if near and self.chance(0.7) else pairs)
        shown = [] if above.transforms else self.show(above)
        v = max(above.fills + above.images + above.viewports, default=0) + 1
        above.viewports.append(v)
        t = max(above.transforms)
        hangs = ["SetContent %d %d" % (t, v)] * self.chance(0.8)
        calls = made(above, shown + ["CreateViewport %d %s 20 30" % (v, pair), *hangs, "GetChildStatus %d" % v, "Present 0"])
        theirs = ["CreateView " + pair] * (not below.view) + rng.choice([["GetLayout", "GetStatus"], ["GetStatus"], [], []])
        below.view = True
        own = [] if above is below else self.show(below) + self.picture(below)
        theirs = made(below, theirs + own + ["Present 0"] * (above is not below))
        if self.chance(0.6):
            # told at once that it is disconnected, it waits for the next news
            lines += calls + theirs[:1] + made(below, ["GetStatus", "GetStatus"] * self.chance(0.4)) + theirs[1:]
        else:
            lines += theirs + calls
        lines += self.frame() * self.chance(0.9) + made(below, ["GetStatus", "GetLayout"]) * self.chance(0.3)
        if self.chance(0.5):
            ends = rng.choice([above, below])
            calls = ["ReleaseViewport %d" % v, "Clear", "Disconnect", "SetViewportProperties %d 9 9" % v, "SetContent %d 0" % t]
            lines += made(ends, [rng.choice(calls if ends is above else ["ReleaseView", "Clear", "Disconnect"]), "Present 0"])
        return lines + self.frame()

    def script(self):
        """The lines of a script, which has no fault but `fault`."""
        lines = self.head()
        count = self.rng.choice([5, 20, 60, 60, 150])
        start = self.rng.randrange(count) if self.chance(0.5) else None
        for k in range(count):
            if k == start:
                lines += self.linked()
            lines.append(self.line())
        lines += ["display done"] * self.open
        return add_limit(self, lines) if self.chance(0.1) else lines
