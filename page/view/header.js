// The top of the page: its name, a summary or the fault, the legend, and the list of keys.

const SHOWN = [
    {name: "views", key: "v", title: "Bounds of the views"},
    {name: "damage", key: "d", title: "What changed from the frame before"},
    {name: "outlines", key: "o", title: "Visible rectangles of the items"},
    {name: "points", key: "p", title: "Points that were asked of this frame"},
    {name: "pattern", key: "b", title: "Buffers as the pattern that the program draws for them"},
];
const POINTER_HINT = "The wheel zooms, dragging moves, a double click shows all.";

const KEYS = [["← →", "frame before, next frame"], ["Home End", "first frame, last frame"], ["↑ ↓", "step before, next step"],
    ["+ − 0", "timeline wider, narrower, all of it"], ["/", "find in the script; Enter goes on"],
    ...SHOWN.map(({key, title}) => [key, title]), ["Esc", "nothing chosen; the whole picture"], ["?", "these keys"]];

// What the timeline shows: its name, what it is, and how dark it is drawn.
const LEGEND = [["frame", "a frame, from begin to done", 0.35], ["present", "a present, until a frame takes it", 0.5],
    ["held get", "a get, until its answer", 0.16], ["+3 calls carried", "calls that make no entry are carried by the next one", 0]];

function summaryText(store) {
    const sessions = store.actors.filter(({sort}) => sort === "session").length;
    const probes = store.actors.filter(({sort}) => sort === "probe").length;
    const parts = [store.word === "race" ? "raced" : "played in written order", `version ${store.run.version}`, `display ${store.display.join(" × ")}`,
        counted(sessions, "session"), ...(probes ? [counted(probes, "probe")] : []), counted(store.run.totals.entries, "entry", "entries"),
        counted(store.frames.length, "frame"), ...(store.closes.length ? [`${store.closes.length} closed`] : [])];
    return parts.join(" · ");
}

/** Draws it. `reveal(line)` brings a line of the script into sight. */
function drawHead(store, reveal) {
    byId("name").textContent = store.name;
    byId("pointer-note").textContent = POINTER_HINT;
    byId("summary").textContent = store.run ? summaryText(store) : "This text is no script, and wasn't run.";
    document.body.classList.toggle("is-fault", store.run === null);
    if (store.fault) {
        drawFault(store.fault, reveal);
    }
    byId("legend").replaceChildren(...LEGEND.map(([name, title, opacity]) => make("span", {title},
        opacity ? make("span.swatch", {style: `background:color-mix(in srgb, ${SESSION_COLOURS[0]} ${opacity * 100}%, transparent)`}) : null, name)));
    byId("help").replaceChildren(make("h2", {}, "Keys"), make("table", {}, ...KEYS.map(([keys, does]) => make("tr", {},
        make("td", {}, ...keys.split(" ").flatMap((key) => [make("kbd", {}, key), " "])), make("td", {}, does)))),
        make("form", {method: "dialog"}, make("button", {}, "Close")));
}

function drawFault(fault, reveal) {
    const place = (fault.line ? `Line ${fault.line}` : "The whole text") + (fault.column ? `, column ${fault.column}` : "");
    byId("fault").replaceChildren(make("strong", {}, place),
        make("span", {}, ...withCode(`${fault.sentence} (kind ${fault.kind}, ${fault.name})`), ...fault.hints.flatMap((hint) => [make("br"), ...withCode(hint)])),
        fault.line ? make("button", {type: "button", onclick: () => reveal(fault.line)}, "Show the line") : "");
    byId("fault").hidden = false;
    reveal(Math.max(1, fault.line));
}
