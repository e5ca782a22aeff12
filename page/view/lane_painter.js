// Draws the part of the timeline that is in sight.
//
// A step is a mark in its actor's lane, with a word if it is wide enough. What lasts is a bar: a frame from its begin to its
// done, a present until the frame that takes it, a get until its answer. A thin line leads from a step to each session that
// it posts an event to. If steps are narrower than a pixel, one mark is drawn for all that share it.

const MARK_TOP = 11;
const MARK_MIDDLE = 20;
const WIDE_ENOUGH = 40;    // from this width of a step on its mark is a word
const SMALL = "11px system-ui, sans-serif";

class LanePainter {
    constructor(timeline) {
        this.timeline = timeline;
        this.store = timeline.store;
        this.width = timeline.width;
        this.chosen = timeline.chosen;
        this.size = {width: timeline.root.clientWidth, height: timeline.root.clientHeight};
        this.from = Math.max(0, timeline.stepAt(GUTTER) - 1);
        this.to = Math.min(this.store.stepCount, timeline.stepAt(this.size.width) + 1);
        this.style = getComputedStyle(document.documentElement);
        this.colours = {};
        this.pen = timeline.canvas.getContext("2d");
    }

    /** A colour of style.css. */
    paint(name) {
        this.colours[name] ??= this.style.getPropertyValue("--" + name).trim();
        return this.colours[name];
    }

    _x(step) {
        return this.timeline.x(step);
    }

    _top(lane) {
        return this.timeline.top(lane);
    }

    draw() {
        const scale = devicePixelRatio || 1;
        const pen = this.pen;
        pen.setTransform(scale, 0, 0, scale, 0, 0);
        pen.clearRect(0, 0, this.size.width, this.size.height);
        pen.textBaseline = "middle";
        const inSight = this.timeline.lanes.filter((lane) => this._top(lane) + lane.height > RULER && this._top(lane) < this.size.height);
        pen.save();
        pen.beginPath();
        pen.rect(GUTTER, 0, this.size.width, this.size.height);
        pen.clip();
        this._drawFrameColumns();
        this._drawChosenColumn();
        inSight.forEach((lane) => this._drawLife(lane));
        this._drawEvents();
        inSight.forEach((lane) => this._drawBars(lane));
        inSight.forEach((lane) => this._drawMarks(lane));
        this._drawRuler();
        pen.restore();
        this._drawNames(inSight);
    }

    _framesInSight() {
        return this.store.frames.filter((frame) => frame.done >= this.from && frame.begin <= this.to);
    }

    _drawFrameColumns() {
        const pen = this.pen;
        for (const frame of this._framesInSight()) {
            const x = this._x(frame.begin);
            pen.fillStyle = frame === this.chosen.frame ? this.paint("accent-soft") : this.paint("raised");
            pen.fillRect(x, RULER, this._x(frame.done + 1) - x, this.size.height);
        }
    }

    _drawChosenColumn() {
        const pen = this.pen;
        if (this.chosen.step >= 0) {
            pen.fillStyle = this.paint("accent");
            const [x, width] = [this._x(this.chosen.step), Math.max(2, this.width)];
            pen.globalAlpha = 0.14;
            pen.fillRect(x, RULER, width, this.size.height);
            pen.globalAlpha = 0.6;
            pen.fillRect(x, RULER, 1, this.size.height);
            pen.fillRect(x + width - 1, RULER, 1, this.size.height);
            pen.globalAlpha = 1;
        }
    }

    /** The line of a lane, which ends where its session is closed. */
    _drawLife(lane) {
        const pen = this.pen;
        const y = this._top(lane) + MARK_MIDDLE;
        const end = lane.closed === null ? this._x(this.store.stepCount) : this._x(lane.closed + 0.5);
        pen.strokeStyle = this.paint("line");
        pen.lineWidth = 1;
        pen.beginPath();
        pen.moveTo(GUTTER, Math.round(this._top(lane)) + 0.5);
        pen.lineTo(this.size.width, Math.round(this._top(lane)) + 0.5);
        pen.stroke();
        pen.strokeStyle = colourOf(this.store, lane.actor);
        pen.globalAlpha = 0.35;
        pen.beginPath();
        pen.moveTo(Math.max(GUTTER, this._x(0)), y);
        pen.lineTo(Math.min(this.size.width, end), y);
        pen.stroke();
        pen.globalAlpha = 1;
    }

    /** A line from each step to each session that it posts an event to. */
    _drawEvents() {
        const pen = this.pen;
        if (this.width < 4) {
            return;
        }
        const {step: steps, actor: actors} = this.store.events;
        const end = firstAtLeast(steps, this.to + 1);
        for (let i = firstAtLeast(steps, this.from); i < end; i++) {
            const from = this.timeline.lanes[this.store.steps.actor[steps[i]]];
            const to = this.timeline.lanes[actors[i]];
            const x = Math.round(this._x(steps[i] + 0.5)) + 0.5;
            const y = this._top(to) + MARK_MIDDLE;
            pen.strokeStyle = pen.fillStyle = this.paint("faint");
            pen.globalAlpha = 0.6;
            pen.beginPath();
            pen.moveTo(x, this._top(from) + MARK_MIDDLE);
            pen.lineTo(x, y);
            pen.stroke();
            pen.globalAlpha = 1;
            pen.beginPath();
            pen.arc(x, y, 3, 0, 2 * Math.PI);
            pen.fill();
        }
    }

    _drawBars(lane) {
        const pen = this.pen;
        const colour = colourOf(this.store, lane.actor);
        pen.font = SMALL;
        const painted = [];  // of each row, up to where it has a bar
        for (const bar of lane.bars) {
            if (bar.to < this.from || bar.from > this.to) {
                continue;
            }
            const left = this._x(bar.from + (bar.sort === "frame" ? 0 : 0.5));
            const right = Math.max(left + 2, this._x(bar.to + (bar.sort === "frame" ? 1 : 0.5)));
            if (left > this.size.width || right < GUTTER || right <= (painted[bar.row] ?? -Infinity) + 0.5) {
                continue;
            }
            painted[bar.row] = right;
            const top = this._top(lane) + MARKS + bar.row * BAR + 1;
            const isChosen = bar.frame ? bar.frame === this.chosen.frame : bar.step === this.chosen.step;
            this._drawBar({left, right, top, colour, isChosen, ...bar});
        }
    }

    _drawBar({left, right, top, colour, isChosen, sort, isOpen, text, signals = []}) {
        const pen = this.pen;
        const [x, end] = [Math.max(left, -50), Math.min(right, this.size.width + 50)];
        const height = BAR - 3;
        pen.fillStyle = pen.strokeStyle = colour;
        pen.globalAlpha = sort === "get" ? 0.16 : sort === "frame" ? 0.35 : 0.5;
        pen.beginPath();
        pen.roundRect(x, top, end - x, height, Math.min(4, (end - x) / 2));
        pen.fill();
        pen.globalAlpha = 1;
        if (isChosen || sort === "get" || isOpen) {
            pen.lineWidth = isChosen ? 2 : 1;
            pen.setLineDash(isOpen || sort === "get" ? [4, 3] : []);
            pen.strokeStyle = isChosen ? this.paint("accent") : colour;
            pen.stroke();
            pen.setLineDash([]);
        }
        pen.fillStyle = this.paint("ink");
        for (const step of signals) {
            pen.fillRect(this._x(step + 0.5) - 1, top - 2, 2, height + 4);
        }
        const start = Math.max(left, GUTTER) + 5;
        const room = Math.min(right, this.size.width) - start - 3;
        if (room > 16) {
            pen.fillStyle = this.paint("ink");
            pen.fillText(this._cut(text, room), start, top + height / 2 + 0.5);
        }
    }

    _drawMarks(lane) {
        const colour = colourOf(this.store, lane.actor);
        const asWords = this.width >= WIDE_ENOUGH;
        const end = firstAtLeast(lane.steps, this.to + 1);
        let before = -Infinity;
        for (let i = firstAtLeast(lane.steps, this.from); i < end; i++) {
            const step = lane.steps[i];
            const x = this._x(step);
            if (x - before < 1) {
                continue;  // the same pixel has a mark
            }
            before = x;
            this._drawMark({step, x, top: this._top(lane), colour, asWords});
        }
    }

    _drawMark({step, x, top, colour, asWords}) {
        const pen = this.pen;
        const isClosed = this.store.closeAt.has(step);
        const isChosen = step === this.chosen.step;
        const width = asWords ? this.width - 5 : limited(1.2, this.width - 2, 8);
        const left = asWords ? x + 2.5 : x + this.width / 2 - width / 2;
        pen.fillStyle = this.paint("panel");
        pen.strokeStyle = isClosed ? this.paint("bad") : colour;
        pen.lineWidth = isChosen ? 2.5 : 1.2;
        pen.beginPath();
        pen.roundRect(left, top + MARK_TOP, width, 2 * (MARK_MIDDLE - MARK_TOP), Math.min(4, width / 2));
        pen.fill();
        pen.globalAlpha = asWords ? 0.2 : 1;
        pen.fillStyle = pen.strokeStyle;
        pen.fill();
        pen.globalAlpha = 1;
        if (asWords || isChosen) {
            pen.stroke();
        }
        if (asWords) {
            pen.font = SMALL;
            pen.fillStyle = isClosed ? this.paint("bad") : this.paint("ink");
            const text = this._cut(shortText(this.store, step), width - 6);
            pen.fillText(text, left + (width - pen.measureText(text).width) / 2, top + MARK_MIDDLE + 0.5);
            this._drawCarried(step, left, top);
        }
    }

    /** The number of calls that a step carries, at the corner of its mark. */
    _drawCarried(step, left, top) {
        const pen = this.pen;
        const carried = this.store.steps.carried[step];
        if (carried) {
            pen.font = "600 9px system-ui, sans-serif";
            const text = "+" + carried;
            const width = pen.measureText(text).width + 5;
            pen.fillStyle = this.paint("soft");
            pen.beginPath();
            pen.roundRect(left + 2, top + 2, width, 10, 3);
            pen.fill();
            pen.fillStyle = this.paint("panel");
            pen.fillText(text, left + 4.5, top + 7.5);
        }
    }

    _drawRuler() {
        const pen = this.pen;
        pen.fillStyle = this.paint("panel");
        pen.fillRect(0, 0, this.size.width, RULER);
        pen.font = SMALL;
        let before = -Infinity;
        for (const frame of this._framesInSight()) {
            const [x, end] = [this._x(frame.begin), this._x(frame.done + 1)];
            const isChosen = frame === this.chosen.frame;
            pen.fillStyle = this.paint(isChosen ? "accent" : "accent-soft");
            pen.fillRect(x, 3, Math.max(1, end - x - (end - x > 4 ? 1 : 0)), RULER - 6);
            const text = String(frame.number);
            const width = pen.measureText(text).width;
            const start = Math.max(x + (end - x - width) / 2, x + 1);
            if (start > before + 6 && (width + 4 < end - x || isChosen)) {
                pen.fillStyle = isChosen ? this.paint("panel") : this.paint("accent");
                if (isChosen && width + 4 >= end - x) {
                    pen.fillStyle = this.paint("accent");
                }
                pen.fillText(text, width + 4 >= end - x ? end + 3 : start, RULER / 2 + 0.5);
                before = start + width;
            }
        }
    }

    _drawNames(inSight) {
        const pen = this.pen;
        pen.fillStyle = this.paint("panel");
        pen.fillRect(0, 0, GUTTER, this.size.height);
        pen.font = "600 12px system-ui, sans-serif";
        for (const lane of inSight) {
            const y = this._top(lane) + MARK_MIDDLE;
            pen.fillStyle = colourOf(this.store, lane.actor);
            pen.beginPath();
            pen.arc(14, y, 4.5, 0, 2 * Math.PI);
            pen.fill();
            pen.fillStyle = lane.closed === null ? this.paint("ink") : this.paint("faint");
            pen.fillText(this._cut(this.store.nameOf(lane.actor), GUTTER - 32), 25, y + 0.5);
            pen.strokeStyle = this.paint("line");
            pen.beginPath();
            pen.moveTo(0, Math.round(this._top(lane)) + 0.5);
            pen.lineTo(GUTTER, Math.round(this._top(lane)) + 0.5);
            pen.stroke();
        }
        pen.fillStyle = this.paint("panel");
        pen.fillRect(0, 0, GUTTER, RULER);
        pen.fillStyle = this.paint("soft");
        pen.font = SMALL;
        pen.fillText("frames", 8, RULER / 2 + 0.5);
        pen.fillStyle = this.paint("line");
        pen.fillRect(GUTTER - 1, 0, 1, this.size.height);
        pen.fillRect(0, RULER - 0.5, this.size.width, 1);
    }

    /** A text as far as there is room for it. */
    _cut(text, room) {
        const pen = this.pen;
        if (pen.measureText(text).width <= room) {
            return text;
        }
        let length = text.length;
        while (length > 0 && pen.measureText(text.slice(0, length) + "…").width > room) {
            length--;
        }
        return length ? text.slice(0, length) + "…" : "";
    }
}
