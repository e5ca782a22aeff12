// The lanes of the timeline: the bars of each actor's lane, and the row in which each stands.

const MARKS = 31;          // the room of a lane's marks, with the numbers of carried calls above them
const BAR = 17;            // the room of a bar
const BARS_MOST = 8;       // further bars of a lane at one place stand in the last row

/** Gives each bar of a lane a row that no earlier bar still fills. The bars are in the order of their begins. */
function setRows(bars) {
    const free = [];
    for (const bar of bars) {
        let row = free.findIndex((end) => end <= bar.from);
        row = row < 0 ? Math.min(free.length, BARS_MOST - 1) : row;
        bar.row = row;
        free[row] = Math.max(free[row] ?? 0, bar.to + 0.5);
    }
    return free.length;
}

/** The steps within a present's bar that signalled fences it waited for. */
function signalsOf(store, present, to) {
    return present.acquire.map((fence) => store.signals[fence]).filter((step) => step !== undefined && present.step < step && step < to);
}

function barText(present) {
    const waits = present.acquire.length ? " waits for " + present.acquire.join(", ") : "";
    return `P${present.number}${waits}` + (present.frame ? ` → frame ${present.frame}` : ", not taken");
}

/** The lanes with their steps, events and bars. */
function lanesOf(store) {
    const lanes = store.actors.map((actor, number) => ({actor: number, steps: [], events: [], bars: [], closed: null}));
    store.steps.actor.forEach((actor, step) => lanes[actor].steps.push(step));
    for (let i = 0; i < store.events.step.length; i++) {
        const events = lanes[store.events.actor[i]].events;
        if (events[events.length - 1] !== store.events.step[i]) {
            events.push(store.events.step[i]);
        }
    }
    for (const close of store.closes) {
        lanes[close.actor].closed = close.step;
    }
    for (const frame of store.frames) {
        lanes[0].bars.push({from: frame.begin, to: frame.done, sort: "frame", text: "at " + frame.time, frame, step: frame.begin});
    }
    for (const present of store.presents) {
        const to = present.frame ? present.taken : lanes[present.actor].closed ?? store.stepCount;
        lanes[present.actor].bars.push({from: present.step, to, sort: "present", isOpen: !present.frame, step: present.step, signals: signalsOf(store, present, to),
            text: barText(present)});
    }
    for (const get of store.gets) {
        if (get.answered !== get.step) {
            const to = get.answered < 0 ? lanes[get.actor].closed ?? store.stepCount : get.answered;
            lanes[get.actor].bars.push({from: get.step, to, sort: "get", isOpen: get.answered < 0, step: get.step, text: get.watcher});
        }
    }
    let top = 0;
    for (const lane of lanes) {
        lane.bars.sort((bar, other) => bar.from - other.from);
        lane.rows = setRows(lane.bars);
        lane.top = top;
        lane.height = MARKS + lane.rows * BAR + 5;
        top += lane.height;
    }
    return lanes;
}
