// The page's sentences on steps, lines, frames and draw items.

/** A number in fixed point, in units, with few digits. */
function units(places) {
    const value = places / UNIT;
    return Number.isInteger(value) ? String(value) : String(Math.round(value * 1000) / 1000);
}

/** "20, 40 to 60, 80": bounds in places, in units of the display. */
function boundsText(x0, y0, x1, y1) {
    return `${units(x0)}, ${units(y0)} to ${units(x1)}, ${units(y1)}`;
}

function percent(part, whole) {
    const value = 100 * part / whole;
    return (value >= 10 || value === 0 ? Math.round(value) : Math.round(value * 10) / 10) + " %";
}

const SHORT = {CreateView: "view", CreateViewport: "viewport", Present: "present", GetLayout: "layout?", GetStatus: "status?",
    GetChildStatus: "child?", Signal: "signal", Poll: "poll", Wait: "wait", Focus: "focus", closed: "closed"};

/** A word or two for a step, as it stands in a lane. */
function shortText(store, step) {
    const words = store.steps.words[step].split(" ");
    switch (words[0]) {
        case "begin": return "begin";
        case "pointer": return words[2];
        case "Wait": return words[1] === "met" ? "wait" : "wait ✗";
        case "Focus": return words[1] === "granted" ? "focus" : "focus ✗";
        case "Poll": return "poll " + words[1];
        default: return SHORT[words[0]] ?? words[0];
    }
}

/** Whether a step is an extra line of the script, for focus or pointers: the report has no line for it. */
function isExtra(store, step) {
    return /^(Focus|pointer) /.test(store.steps.words[step]);
}

/** The report's line of a step. */
function reportText(store, step) {
    const words = store.steps.words[step];
    const line = store.lineOf(step);
    return store.nameOf(store.steps.actor[step]) + " " + (line ? line + " " : "") + words;
}

function frameLink(number) {
    return {text: "frame " + number, frame: number};
}

function lineLink(store, step) {
    const line = store.lineOf(step);
    return {text: line ? "line " + line : "the end", step};
}

/** What a present waited for and what became of it: a list of facts, each a list of texts and links. */
function presentFacts(store, present) {
    const facts = [];
    facts.push([`Present ${present.number}, for time ${present.time}` + (present.unsquashable ? ", unsquashable" : "")
        + `; ${counted(present.credits, "credit")} left`]);
    for (const fence of present.acquire) {
        const signalled = store.signals[fence];
        facts.push(signalled === undefined ? [`Waits for fence ${fence}, which was never signalled`]
            : [`Waits for fence ${fence}, signalled at `, lineLink(store, signalled)]);
    }
    for (const [from, to, why] of present.delays) {
        facts.push(from === to ? ["Not taken by ", frameLink(from), ": " + why]
            : ["Not taken by ", frameLink(from), " to ", frameLink(to), ": " + why]);
    }
    if (present.frame) {
        facts.push(["Taken by ", frameLink(present.frame), ", begun at ", lineLink(store, present.taken),
            present.shown ? "" : "; a later present that was taken with it was shown instead"]);
    } else if (!present.delays.length) {
        facts.push(["No frame began after it"]);
    }
    for (const fence of present.release) {
        const signalled = store.signals[fence];
        facts.push(signalled === undefined ? [`Releases fence ${fence}: not yet`]
            : [`Releases fence ${fence}, signalled at `, lineLink(store, signalled)]);
    }
    return facts;
}

function getFacts(store, get) {
    if (get.answered === get.step) {
        return [[`Asks the ${get.watcher}; answered at once: ${get.value}`]];
    }
    return get.answered < 0 ? [[`Asks the ${get.watcher}; held, and never answered`]]
        : [[`Asks the ${get.watcher}; held, and answered at `, lineLink(store, get.answered), ": " + get.value]];
}

function frameFacts(store, frame, step) {
    const facts = [[step === frame.begin ? "Begins " : "Finishes ", frameLink(frame.number), `, at time ${frame.time}`]];
    if (step === frame.begin) {
        facts.push(...tookFacts(store, frame), ...leftFacts(store, frame));
    }
    return facts;
}

/** Which presents of each session a frame took. */
function tookFacts(store, frame) {
    if (!frame.took.length) {
        return [["Took no present"]];
    }
    return frame.took.map(([actor, from, to]) => [`Took ${from === to ? `present ${from}` : `presents ${from} to ${to}`} of ${store.nameOf(actor)}`]);
}

/** The presents that a frame's begin left waiting, first of each session, and why. */
function leftFacts(store, frame) {
    const facts = [];
    for (const present of store.delayed) {
        const delay = present.delays.find(([from, to]) => from <= frame.number && frame.number <= to);
        if (delay) {
            facts.push([`Left present ${present.number} of ${store.nameOf(present.actor)} waiting: ${delay[2]}; `, lineLink(store, present.step)]);
        }
    }
    return facts;
}

/** The answer to a point. */
function pointText(store, words) {
    const [, x, y, , frame, ...hits] = words.split(" ");
    const names = [];
    for (let i = 0; i + 1 < hits.length; i += 2) {
        names.push(hits[i] + (hits[i + 1] === "0" ? "" : ` (interaction ${hits[i + 1]})`));
    }
    const where = frame === "0" ? "no frame yet" : "frame " + frame;
    return `${x}, ${y} in ${where} hits ${names.join(", ") || "nobody"}`;
}

/** All facts of a step. */
function stepFacts(store, step) {
    const words = store.steps.words[step].split(" ");
    const present = store.presentAt.get(step);
    const get = store.getAt.get(step);
    const close = store.closeAt.get(step);
    const frame = store.frameAt.get(step);
    const facts = [];
    if (present) {
        facts.push(...presentFacts(store, present));
    }
    if (get) {
        facts.push(...getFacts(store, get));
    }
    if (close) {
        facts.push([{text: "Closed: " + close.words, bad: true}], ...close.facts.map((fact) => [fact]));
    }
    if (frame && ["begin", "done"].includes(words[0])) {
        facts.push(...frameFacts(store, frame, step));
    }
    switch (words[0]) {
        case "hit": facts.push(["The point " + pointText(store, store.steps.words[step])]); break;
        case "await": facts.push([`Saw frame ${words[2]}`]); break;
        case "Wait": facts.push([`${words[1] === "met" ? "Met" : "Not met"}: the value was ${words[2]}`]); break;
        case "Poll": facts.push([`Handed over ${counted(Number(words[1]), "event")}`]); break;
        case "Focus": facts.push([`${words[1] === "granted" ? "Granted" : "Denied"}; the focus chain is ${words.slice(3).join(" › ") || "empty"}`]); break;
        case "pointer": facts.push([`Pointer ${words[1]}: ${words.slice(2).join(" ")}`]); break;
        case "end": facts.push(["The session's end" + (words[1] === "0" ? "" : `; ${counted(Number(words[1]), "line")} behind its close weren't played`)]); break;
    }
    return facts;
}

/** The events that a step posts, each with its session. */
function stepEvents(store, step, actor = -1) {
    const [from, to] = store.eventsOf(step);
    const events = [];
    for (let i = from; i < to; i++) {
        if (actor < 0 || store.events.actor[i] === actor) {
            events.push(`${store.nameOf(store.events.actor[i])} gets ${store.events.words[i]}`);
        }
    }
    return events;
}

function plainFact(fact) {
    return fact.map((part) => part.text ?? part).join("");
}

/** A step in a few lines, for the box beside the pointer. */
function stepText(store, step) {
    const line = store.lineOf(step);
    const first = line ? `${line}  ${store.script[line - 1]}` : reportText(store, step);
    return [first, ...stepFacts(store, step).map(plainFact), ...stepEvents(store, step)].join("\n");
}

/** What the page puts behind a line of the script: the answer, or what became of the line. */
function lineAnswer(store, line) {
    const sort = store.lines.sort[line - 1];
    const step = store.stepOf(line);
    if (sort === "x") {
        return "not played: the session was closed";
    }
    if (sort === "c") {
        const by = store.lineOf(step);
        return by ? "carried by line " + by : "carried by the session's end";
    }
    if (sort !== "e") {
        return "";
    }
    const words = store.steps.words[step].split(" ");
    const present = store.presentAt.get(step);
    const get = store.getAt.get(step);
    if (present) {
        return present.frame ? `taken by frame ${present.frame}` : "taken by no frame";
    }
    if (get) {
        return get.answered === step ? get.value : get.answered < 0 ? "held, never answered"
            : `held until ${plainFact([lineLink(store, get.answered)])}: ${get.value}`;
    }
    switch (words[0]) {
        case "closed": return "closed: " + store.closeAt.get(step).words;
        case "hit": return pointText(store, store.steps.words[step]);
        case "begin": case "done": return "frame " + words[words.length - 1];
        case "await": return "frame " + words[2];
        case "Wait": return `${words[1]}, ${words[2]}`;
        case "Focus": return `${words[1]}: ${words.slice(3).join(" › ") || "no chain"}`;
        case "pointer": return words.slice(2).join(" ");
        default: return words.slice(1).join(" ");
    }
}

const TURNS = {"false++": "", "true+-": "turned 90° against the clock", "false--": "turned 180°", "true-+": "turned 270° against the clock"};

/** Scale and turn of an item's matrix, as a transform sets them. */
function matrixText(item) {
    const swap = item[ITEM.swap] === 1;
    const [a, b] = [item[ITEM.a], item[ITEM.b]];
    const key = swap + (a < 0 ? "-" : "+") + (b < 0 ? "-" : "+");
    const turn = TURNS[key] ?? "";
    const [sx, sy] = swap ? [Math.abs(b), Math.abs(a)] : [Math.abs(a), Math.abs(b)];
    const scale = sx === UNIT && sy === UNIT ? "" : sx === sy ? `scaled ${units(sx)}` : `scaled ${units(sx)} by ${units(sy)}`;
    return [scale, turn].filter(Boolean).join(", ");
}

const FLIPS = ["", "", "flipped left and right", "flipped up and down"];

function paintText(store, item) {
    if (item[ITEM.kind] === IMAGE) {
        return `image ${store.buffers[item[ITEM.buffers]]}[${item[ITEM.index]}]`;
    }
    return `fill ${item[ITEM.red]} ${item[ITEM.green]} ${item[ITEM.blue]} ${item[ITEM.alpha]}`;
}

/** All fields of an item, in several lines. */
function itemText(store, item, place) {
    const first = `${place + 1}. ${store.nameOf(item[ITEM.actor])} content ${item[ITEM.serial]}: ${paintText(store, item)}, ${item[ITEM.width]} by ${item[ITEM.height]}`;
    const lines = [first, `moved to ${units(item[ITEM.x])}, ${units(item[ITEM.y])}` + (matrixText(item) ? ", " + matrixText(item) : ""),
        `visible ${boundsText(item[ITEM.x0], item[ITEM.y0], item[ITEM.x1], item[ITEM.y1])}`,
        `opacity ${percent(item[ITEM.opacity], UNIT)}, ${item[ITEM.over] ? "source over" : "source"}`];
    if (item[ITEM.kind] === IMAGE) {
        const sample = [item[ITEM.sampleX], item[ITEM.sampleY], item[ITEM.sampleW], item[ITEM.sampleH]].join(" ");
        lines.push(`sample ${sample}` + (FLIPS[item[ITEM.flip]] ? ", " + FLIPS[item[ITEM.flip]] : ""));
    }
    return lines.join("\n");
}
