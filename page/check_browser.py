"""Checks pages in Chromium: what is drawn, the lanes, and how fast a large page opens and steps."""
from __future__ import annotations

import os
import shutil
import signal
import subprocess
import sys
import tempfile
import threading
import time
from collections.abc import Callable, Iterator

from browser import Browser
from check_data import Wrong
from document import write_page
from history import History
from page_data import JSON, PageData, page_json
from report import records
from script import Script
from watch import stamp_path
from word_texts import WordTexts

HERE = os.path.dirname(os.path.abspath(__file__))
WAIT_SECONDS = 20
IN_TURN = threading.Lock()  # one browser has one page
FRAMES, ITEMS = 500, 2000
OPEN_SECONDS, STEP_MILLISECONDS = 3.0, 100.0
STEPS, ROUNDS = 20, 4
DIFFERING_MOST = 0.005  # of the pixels: those at the display's edge, which SVG smooths

# Of each lane the steps, which are the actor's own in their order, and whether each step has one lane.
LANES_ARE_RIGHT = """(() => {
    const {store, timeline} = app;
    const all = timeline.lanes.flatMap((lane) => lane.steps);
    return all.length === store.stepCount && timeline.lanes.every((lane) => lane.steps.every((step, i) =>
        store.steps.actor[step] === lane.actor && (i === 0 || lane.steps[i - 1] < step)));
})()"""

# How long each step to the next frame takes, from asking for it until the browser has painted it.
TIME_STEPS = """(async () => {
    const drawn = (wanted) => new Promise((done) => new MutationObserver((changes, observer) => {
        if (document.body.dataset.drawn === wanted) {
            observer.disconnect();
            done();
        }
    }).observe(document.body, {attributes: true}));
    const times = [];
    for (let i = 0; i < %d; i++) {
        const start = performance.now();
        const isDrawn = drawn(String(app.frame.number + 1));
        app.chooseFrame(app.state.place + 1);
        await isDrawn;
        await new Promise((done) => requestAnimationFrame(() => setTimeout(done)));
        times.push(performance.now() - start);
    }
    return times;
})()"""


PAINTED = "new Promise((done) => requestAnimationFrame(() => requestAnimationFrame(() => setTimeout(done))))"
KEY_CODES = {"ArrowLeft": 37, "ArrowUp": 38, "ArrowRight": 39, "ArrowDown": 40, "Home": 36, "End": 35, "Escape": 27}

# What the keys do, one after another: what is meant, the key or None, and what holds then.
KEY_USES = [
    ("the address chooses a frame", None, "app.frame.number === 2"),
    ("the right arrow steps on", "ArrowRight", "app.frame.number === 3 && byId('slider').value === '3'"),
    ("the left arrow steps back", "ArrowLeft", "app.frame.number === 2"),
    ("Home goes to the first frame", "Home", "app.frame.number === 1"),
    ("the down arrow chooses the first step", "ArrowDown", "app.state.step === 0 && byId('step-panel').textContent.includes('line')"),
    ("Escape chooses nothing", "Escape", "app.state.step === -1"),
]
# What a page of the shell with two applications can be used for: what is done, and what holds then.
USES = [
    ("a line of the script leads to its step", "[...document.querySelectorAll('#script-rows .row.is-link')].at(-1).click()",
     "app.state.step >= 0 && document.querySelector('.row.is-chosen') !== null"),
    ("a link of the step leads to a frame", "app.chooseStep(app.store.presents.at(-1).step); "
     "[...document.querySelectorAll('#step-panel .link')].find((link) => link.textContent.startsWith('frame')).click()",
     "app.frame.number === app.store.presents.at(-1).frame"),
    ("the search counts and finds lines", "byId('find').value = 'Present'; byId('find').dispatchEvent(new Event('input'))",
     "byId('find-count').textContent.endsWith('lines') && document.querySelector('.row.is-found') !== null"),
    ("the address has what is chosen", "new Promise((done) => setTimeout(done, 400))", "location.hash.includes('frame=') && location.hash.includes('step=')"),
]

# Draws the stage again, and waits until that is painted.
DRAW_STAGE = """(async () => {
    app.picture.svgItemsMost = %d;
    app.picture.show(app.picture.items);
    for (let i = 0; i < 3; i++) {
        await new Promise((done) => requestAnimationFrame(() => setTimeout(done)));
    }
})()"""

# The part of the pixels in which two pictures differ.
COUNT_DIFFERING = """(async () => {
    const [a, b] = await Promise.all(["%s", "%s"].map(async (data) => {
        const image = new Image();
        image.src = "data:image/png;base64," + data;
        await image.decode();
        const canvas = make("canvas", {width: image.width, height: image.height});
        const pen = canvas.getContext("2d");
        pen.drawImage(image, 0, 0);
        return new Uint32Array(pen.getImageData(0, 0, image.width, image.height).data.buffer);
    }));
    return a.filter((pixel, i) => pixel !== b[i]).length / a.length;
})()"""


def check_in_browser(browser: Browser, path: str, main: JSON) -> None:
    """Opens a page at its first and its last frame, counts the shapes in the picture, and looks at the lanes."""
    frames = main["run"]["frames"] if main["run"] else []
    with IN_TURN:
        for number in sorted({1, len(frames)} if frames else {0}):
            browser.open(path, "frame=%d" % number)
            drawn = browser.evaluate("[document.body.dataset.drawn, document.body.dataset.items]")
            if number and drawn != [str(number), str(frames[number - 1]["count"])]:
                raise Wrong("of frame %d the browser drew frame %s with %s items" % (number, *drawn))
            if not browser.evaluate(LANES_ARE_RIGHT):
                raise Wrong("a step isn't in the lane of its actor")


def check_hostile_in_browser(browser: Browser, path: str, name: str) -> None:
    """A page whose name and text have HTML in them has its own two scripts alone, and shows the name as it is."""
    browser.open(path)
    if browser.evaluate("[document.scripts.length, document.title, byId('name').textContent]") != [2, name, name]:
        raise Wrong("a text or a name became markup")
    if browser.evaluate("document.querySelector('#script-rows b, #fault b') !== null"):
        raise Wrong("a word of the text became an element")


def press(browser: Browser, key: str) -> None:
    """Presses a key."""
    for kind in ("keyDown", "keyUp"):
        browser.call("Input.dispatchKeyEvent", type=kind, key=key, code=key, windowsVirtualKeyCode=KEY_CODES.get(key, 0))
    browser.evaluate(PAINTED)


def check_uses(browser: Browser, path: str) -> str | None:
    """Goes through the page of the shell with two applications by keys, links and the search. None if it answers as it
    should, else what is wrong."""
    browser.open(path, "frame=2")
    for what, key, holds in KEY_USES:
        if key is not None:
            press(browser, key)
        if not browser.evaluate(holds):
            return "not so: " + what
    for what, does, holds in USES:
        browser.evaluate(does)
        browser.evaluate(PAINTED)
        if not browser.evaluate(holds):
            return "not so: " + what
    return None


def large_report() -> Iterator[str]:
    """The report of a run whose frames have many items, half of which move in each frame."""
    yield "report flatland 1\n"
    for frame in range(1, FRAMES + 1):
        yield "A %d Present %d credits 0\n" % (6 * frame, frame)
        yield "display %d begin %d frame %d\n" % (6 * frame + 1, frame, frame)
        yield "> A credits 1\n"
        yield "display %d done frame %d\n" % (6 * frame + 2, frame)
        for item in range(ITEMS):
            x, y = item % 50 * 25 + (frame % 20 if item % 2 else 0), item // 50 * 20
            bounds = [65536 * n for n in (x, y, x + 20, y + 15)]
            yield "item A %d fill %d %d 90 255 20 15 m 0 65536 65536 %d %d v %d %d %d %d o 65536 src\n" % (
                item + 1, item % 256, (item * 7) % 256, bounds[0], bounds[1], *bounds)
        yield "view A - 0 0 83886080 52428800\n"
        yield "> A framepresented 1\n"
    yield "A end 0\n"
    yield "report ends entries %d frames %d\n" % (3 * FRAMES + 1, FRAMES)


def large_script() -> bytes:
    """A script whose lines fit that report."""
    lines = ["flatland 1", "display 1280 800", "session A", "pair t display A", "run"]
    for frame in range(1, FRAMES + 1):
        lines += ["A Present 0", "display begin %d" % frame, "display done", "#", "#", "#"]
    return ("\n".join(lines) + "\n").encode("ascii")


def stage_picture(browser: Browser, svg_items_most: int) -> str:
    """A picture of the stage, drawn as SVG or on the canvas, as base64 of a PNG."""
    browser.evaluate(DRAW_STAGE % svg_items_most)
    clip = browser.evaluate("(({x, y, width, height}) => ({x, y, width, height, scale: 1}))(byId('stage').getBoundingClientRect())")
    picture: str = browser.call("Page.captureScreenshot", format="png", clip=clip)["data"]
    return picture


def time_steps(browser: Browser) -> float:
    """How many milliseconds a step to the next frame takes: the median of some steps, in the best of some rounds, since other
    work of the machine only adds to it."""
    medians = []
    for _ in range(ROUNDS):
        times: list[float] = sorted(browser.evaluate(TIME_STEPS % STEPS))
        medians.append(times[len(times) // 2])
    return min(medians)


def check_large(browser: Browser) -> bool:
    """Opens a page of many large frames and steps through it, and compares its canvas with its SVG. Prints what it finds."""
    with tempfile.TemporaryDirectory() as room:
        path, text = os.path.join(room, "page.html"), large_script()
        history = History(Script.read(text)).read(records(large_report(), []))
        run = PageData(history, WordTexts(), False).as_json()
        write_page(path, "large", page_json("large", "play", text, run, None), history.items.groups)
        size = os.path.getsize(path) / 1e6
        seconds = browser.open(path, "frame=1")
        step = time_steps(browser)
        pictures = [stage_picture(browser, most) for most in (ITEMS, 0)]
        differing = browser.evaluate(COUNT_DIFFERING % tuple(pictures))
    print("a page of %d frames of %d items (%.1f MB) opens in %.2f s, a step takes %.0f ms" % (FRAMES, ITEMS, size, seconds, step))
    is_right = True
    for what, is_wrong in [("it has to open below %.0f s" % OPEN_SECONDS, seconds >= OPEN_SECONDS),
                           ("a step has to take less than %.0f ms" % STEP_MILLISECONDS, step >= STEP_MILLISECONDS),
                           ("the canvas differs from the SVG in %.1f %% of the pixels" % (100 * differing), differing > DIFFERING_MOST)]:
        if is_wrong:
            print("a large page is wrong: " + what)
            is_right = False
    return is_right


def check_watch(browser: Browser, script: str, report: str) -> str | None:
    """Edits a script while its page is open and watched. None if the page then shows the new text, else what is wrong."""
    with tempfile.TemporaryDirectory() as room:
        edited, out = os.path.join(room, "script"), os.path.join(room, "page.html")
        shutil.copyfile(script, edited)
        command = [sys.executable, os.path.join(HERE, "write.py"), "--watch", "--report", report, out, "-", "play", edited]
        writer = subprocess.Popen(command, stderr=subprocess.DEVNULL)
        try:
            if not wait_for(lambda: os.path.exists(stamp_path(out))):
                return "a watched page isn't written"
            browser.open(out)
            with open(edited, "a", encoding="ascii") as f:
                f.write("# edited\n")
            if not wait_for(lambda: browser.evaluate("globalThis.app?.store.script.at(-1) === '# edited'") is True):
                return "an open page doesn't follow its script"
        finally:
            writer.send_signal(signal.SIGINT)
            writer.wait(WAIT_SECONDS)
        return "a picture is left beside a page that isn't watched any more" if os.path.exists(stamp_path(out)) else None


def wait_for(is_done: Callable[[], bool]) -> bool:
    """Waits until something is done, but not for ever."""
    end = time.monotonic() + WAIT_SECONDS
    while time.monotonic() < end:
        if is_done():
            return True
        time.sleep(0.1)
    return False
