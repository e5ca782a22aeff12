// The timeline: a lane for each actor, the steps from left to right in their order.
//
// The part in sight is drawn on a canvas of its size (lane_painter.js), which stays in place while the sheet below it scrolls.

const GUTTER = 118;        // the room of the names
const RULER = 22;          // the room of the frames' numbers
const START_WIDTH = 56;    // of a step, unless all steps are in sight if each is wider
const WIDEST = 160;
const SHEET_MOST = 15e6;   // no browser lays out more

class Timeline {
    /** `onChoose(step, frame)` is called when a step is chosen, with its frame or null. */
    constructor(root, store, onChoose) {
        this.root = root;
        this.store = store;
        this.onChoose = onChoose;
        this.lanes = lanesOf(store);
        this.height = RULER + this.lanes.reduce((sum, lane) => sum + lane.height, 0);
        this.canvas = make("canvas", {role: "img", "aria-label": "The steps of each actor in their order; the script has the same in words"});
        this.sheet = make("div.sheet", {}, this.canvas);
        this.root.replaceChildren(this.sheet);
        this.chosen = {step: -1, frame: null};
        this.redraw = onceADrawing(() => new LanePainter(this).draw());
        this.root.addEventListener("scroll", this.redraw);
        new ResizeObserver(() => this._resize()).observe(this.root);
        matchMedia("(prefers-color-scheme: dark)").addEventListener("change", this.redraw);
        this._listen();
        this.setWidth(Math.max(this._fitting(), START_WIDTH));
    }

    /** The width of a step at which all of them are in sight. */
    _fitting() {
        return (this.root.clientWidth - GUTTER - 16) / Math.max(1, this.store.stepCount);
    }

    fit() {
        this.setWidth(this._fitting());
    }

    /** The width of a step, while the place below x stays where it is. */
    setWidth(width, x = GUTTER) {
        const steps = this.store.stepCount + 1;
        const place = (this.root.scrollLeft + x - GUTTER) / (this.width ?? 1);
        this.width = limited(0.02, Math.min(width, WIDEST, SHEET_MOST / steps), WIDEST);
        this.sheet.style.width = Math.ceil(GUTTER + steps * this.width) + "px";
        this.sheet.style.height = this.height + "px";
        this.root.scrollLeft = place * this.width - (x - GUTTER);
        this._resize();
    }

    zoom(factor, x = (this.root.clientWidth + GUTTER) / 2) {
        this.setWidth(this.width * factor, x);
    }

    choose(step, frame) {
        this.chosen = {step, frame};
        this.redraw();
    }

    /** Brings a step into sight, if it isn't. */
    reveal(step) {
        const x = (step + 0.5) * this.width;
        const left = this.root.scrollLeft;
        const room = this.root.clientWidth - GUTTER;
        if (x < left + 20 || x > left + room - 20) {
            this.root.scrollLeft = x - room / 2;
        }
        const lane = this.lanes[this.store.steps.actor[step]];
        const above = this.root.scrollTop;
        const roomDown = this.root.clientHeight - RULER;
        if (lane && (lane.top < above || lane.top + MARKS > above + roomDown)) {
            this.root.scrollTop = lane.top - roomDown / 3;
        }
        this.redraw();
    }

    _resize() {
        const scale = devicePixelRatio || 1;
        this.canvas.width = Math.max(1, Math.round(this.root.clientWidth * scale));
        this.canvas.height = Math.max(1, Math.round(this.root.clientHeight * scale));
        this.canvas.style.width = this.root.clientWidth + "px";
        this.canvas.style.height = this.root.clientHeight + "px";
        this.redraw();
    }

    // Places of steps and lanes.

    x(step) {
        return GUTTER + step * this.width - this.root.scrollLeft;
    }

    top(lane) {
        return RULER + lane.top - this.root.scrollTop;
    }

    stepAt(x) {
        return Math.floor((x - GUTTER + this.root.scrollLeft) / this.width);
    }

    /** What lies at a place of the canvas: a frame of the ruler, a bar, or a step. */
    _find(x, y) {
        const step = this.stepAt(x);
        if (x < GUTTER || step < 0 || step >= this.store.stepCount) {
            return null;
        }
        if (y < RULER) {
            const place = firstAtLeast(this.store.frames.map((frame) => frame.done), step);
            const frame = this.store.frames[Math.min(place, this.store.frames.length - 1)];
            return frame ? {frame, step: frame.begin} : null;
        }
        const lane = this.lanes.find((one) => y >= this.top(one) && y < this.top(one) + one.height);
        if (!lane) {
            return null;
        }
        const within = y - this.top(lane) - MARKS;
        const row = Math.floor(within / BAR);
        const bar = within < 0 ? undefined : lane.bars.find((one) => one.row === row && this.x(one.from + 0.5) <= x && x <= this.x(one.to + 0.5));
        if (bar) {
            return {bar, step: bar.step, frame: bar.frame};
        }
        const near = this._nearest(lane, step);
        return near < 0 ? null : {step: near, lane};
    }

    /** The step of a lane at a column, or one that posts it an event there, or one within three pixels beside it; else -1. */
    _nearest(lane, step) {
        const reach = Math.max(0, Math.floor(3 / this.width));
        for (const list of [lane.steps, lane.events]) {
            const found = list[firstAtLeast(list, step - reach)];
            if (found !== undefined && found <= step + reach) {
                return found;
            }
        }
        return -1;
    }

    _listen() {
        const place = (event) => {
            const box = this.canvas.getBoundingClientRect();
            return [event.clientX - box.left, event.clientY - box.top];
        };
        this.canvas.addEventListener("pointermove", (event) => {
            const found = this._find(...place(event));
            this.canvas.style.cursor = found ? "pointer" : "default";
            if (found) {
                tip.show(event, stepText(this.store, found.step));
            } else {
                tip.hide();
            }
        });
        this.canvas.addEventListener("pointerleave", () => tip.hide());
        this.canvas.addEventListener("click", (event) => {
            const found = this._find(...place(event));
            if (found) {
                this.onChoose(found.step, found.frame ?? this.store.frameAt.get(found.step) ?? null);
            }
        });
        this.root.addEventListener("wheel", (event) => this._wheel(event, place(event)[0]), {passive: false});
    }

    /** With Ctrl the lanes become wider or narrower; else the wheel scrolls, from left to right if all lanes are in sight. */
    _wheel(event, x) {
        if (event.ctrlKey || event.metaKey) {
            event.preventDefault();
            this.zoom(Math.pow(1.002, -event.deltaY), x);
        } else if (!event.deltaX && this.height <= this.root.clientHeight) {
            event.preventDefault();
            this.root.scrollLeft += event.deltaY;
        }
    }
}
