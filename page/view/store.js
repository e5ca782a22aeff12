// What the program wrote, as page/page_data.py and page/report.py put it down.

const UNIT = 65536;  // a unit of place, an opacity of one, a scale of one

// Where the numbers of a draw item stand (item_code in page/report.py).
const ITEM = {kind: 0, actor: 1, serial: 2, swap: 3, a: 4, b: 5, x: 6, y: 7, x0: 8, y0: 9, x1: 10, y1: 11, opacity: 12, over: 13,
    width: 14, height: 15,
    red: 16, green: 17, blue: 18, alpha: 19,
    buffers: 16, index: 17, sampleX: 18, sampleY: 19, sampleW: 20, sampleH: 21, flip: 22};
const IMAGE = 1;  // the kind of an image; that of a fill is 0

// What became of a line of the script (page/page_data.py): it is of the head or a remark; it makes an entry or has an
// answer; a later entry carries it; or it stands behind the close of its session.
const SORTS = {"-": "is-head", e: "is-entry", c: "is-call", x: "is-unplayed"};

/** A block of the page: base64 of deflated JSON. */
async function unpacked(id) {
    const raw = atob(byId(id).textContent);
    const bytes = new Uint8Array(raw.length);
    for (let i = 0; i < raw.length; i++) {
        bytes[i] = raw.charCodeAt(i);
    }
    return new Response(new Blob([bytes]).stream().pipeThrough(new DecompressionStream("deflate"))).json();
}

/** The items of each frame of a group (page/frames.py). An item that a frame keeps from the one before is the same object. */
function unfolded(group) {
    const lists = [];
    let before = [];
    for (const {keep, tail, items} of group) {
        before = before.slice(0, keep).concat(items, before.slice(before.length - tail));
        lists.push(before);
    }
    return lists;
}

const GROUPS_KEPT = 3;

class Store {
    static async open() {
        return new Store(await unpacked("main"));
    }

    constructor(main) {
        Object.assign(this, {name: main.name, word: main.word, script: main.script, fault: main.fault, run: main.run, stamp: main.stamp, stampFile: main.stampFile});
        const run = main.run ?? {actors: [], buffers: [], pairs: [], frames: [], groups: [], presents: [], gets: [], closes: [], signals: {},
            steps: {actor: [], line: [], words: [], carried: []}, lines: {sort: "", step: []}, events: {step: [], actor: [], words: []}};
        Object.assign(this, {actors: run.actors, buffers: run.buffers, pairs: run.pairs, frames: run.frames, steps: run.steps,
            lines: run.lines, events: run.events, presents: run.presents, gets: run.gets, closes: run.closes, signals: run.signals});
        this.display = run.display ?? [1, 1];
        this.has = run.has ?? {};
        this.stepCount = this.steps.actor.length;
        this.presentAt = new Map(this.presents.map((present) => [present.step, present]));
        this.delayed = this.presents.filter((present) => present.delays.length);
        this.getAt = new Map(this.gets.map((get) => [get.step, get]));
        this.closeAt = new Map(this.closes.map((close) => [close.step, close]));
        this.frameAt = new Map(this.frames.flatMap((frame) => [[frame.begin, frame], [frame.done, frame]]));
        this._groups = run.groups;
        this._unfolded = new Map();
    }

    /** The draw items of a frame, by its place in the list of frames. */
    async items(place) {
        const group = firstAtLeast(this._groups, place + 1) - 1;
        if (!this._unfolded.has(group)) {
            this._unfolded.set(group, unpacked("items-" + group).then(unfolded));
            if (this._unfolded.size > GROUPS_KEPT) {
                this._unfolded.delete(this._unfolded.keys().next().value);
            }
        }
        return (await this._unfolded.get(group))[place - this._groups[group]];
    }

    /** The numbers of the events that a step posts, from the first up to the last, which isn't among them. */
    eventsOf(step) {
        return [firstAtLeast(this.events.step, step), firstAtLeast(this.events.step, step + 1)];
    }

    nameOf(actor) {
        return this.actors[actor].name;
    }

    /** The line of a step, or 0 for a session's end, which stands behind all lines. */
    lineOf(step) {
        const line = this.steps.line[step];
        return line <= this.script.length ? line : 0;
    }

    /** The step of a line, or -1. */
    stepOf(line) {
        return this.lines.step[line - 1] ?? -1;
    }

    /** The lines of the calls that a step carries, in order. */
    carriedBy(step) {
        const lines = [];
        const actor = this.nameOf(this.steps.actor[step]) + " ";
        for (let line = Math.min(this.steps.line[step], this.script.length); line > 0 && lines.length < this.steps.carried[step]; line--) {
            if (this.lines.step[line - 1] === step && this.lines.sort[line - 1] === "c" && this.script[line - 1].startsWith(actor)) {
                lines.unshift(line);
            }
        }
        return lines;
    }
}
