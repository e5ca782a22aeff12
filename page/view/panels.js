// The panels beside the picture: the script, the frame, its draw list, and the chosen step.

/** The parts of a fact: texts, and links to steps and frames. */
function factParts(app, fact) {
    return fact.map((part) => {
        if (typeof part === "string") {
            return part;
        }
        if (part.bad) {
            return make("span.bad", {}, part.text);
        }
        const go = () => part.frame === undefined ? app.chooseStep(part.step) : app.chooseFrame(part.frame - 1);
        return make("button.link", {type: "button", onclick: go}, part.text);
    });
}

function factList(app, facts) {
    return make("ul", {}, ...facts.map((fact) => make("li", {}, ...factParts(app, fact))));
}

class ScriptPanel {
    constructor(app) {
        this.app = app;
        this.found = null;
        this.rows = new VirtualList(byId("script-rows"), (place) => this._row(place + 1));
        const fault = app.store.fault;
        // a text may lack a line at its end: the fault stands behind the last one
        const count = Math.max(app.store.script.length, fault ? fault.line : 0);
        byId("script-rows").style.setProperty("--digits", String(count).length);
        this.rows.setCount(count);
        byId("find").addEventListener("input", () => this._find(byId("find").value));
        byId("find").addEventListener("keydown", (event) => {
            if (event.key === "Enter") {
                this._next(event.shiftKey ? -1 : 1);
            }
        });
    }

    _row(line) {
        const store = this.app.store;
        const text = store.script[line - 1];
        const isFault = store.fault !== null && store.fault.line === line;
        const sort = SORTS[store.lines.sort[line - 1] ?? "-"];
        const isRemark = text === undefined || text.startsWith("#");
        const step = store.stepOf(line);
        const answer = isFault ? store.fault.sentence : lineAnswer(store, line);
        const row = make("div.row." + (isRemark ? "is-remark" : sort), {title: answer ? `${text ?? ""}\n${answer}` : text ?? ""},
            make("span.number", {}, String(line)), isFault && store.fault.column ? this._faultText(text) : this._text(text, sort),
            answer ? make("span.answer" + (store.closeAt.has(step) && sort === "is-entry" ? ".is-closed" : ""), {}, ...(isFault ? withCode(answer) : [answer])) : null);
        row.classList.toggle("is-bad", isFault);
        row.classList.toggle("is-of-frame", this._isOfFrame(line));
        row.classList.toggle("is-found", this.found !== null && this.found.has(line));
        if (step >= 0) {
            row.classList.add("is-link");
            row.classList.toggle("is-chosen", step === this.app.state.step);
            row.addEventListener("click", () => this.app.chooseStep(step));
        }
        return row;
    }

    /** Whether a line stands from the begin to the done of the frame that is shown. */
    _isOfFrame(line) {
        const frame = this.app.frame;
        return frame !== null && this.app.store.lineOf(frame.begin) <= line && line <= this.app.store.lineOf(frame.done);
    }

    /** Brings the lines of a frame into sight. */
    showFrame(frame) {
        this.rows.reveal(this.app.store.lineOf(frame.begin) - 1);
    }

    /** The line with the fault, the faulty word marked. A word that is missing is marked by a caret. */
    _faultText(text) {
        const {column, length} = this.app.store.fault;
        const word = (text ?? "").slice(column - 1, column - 1 + length);
        return make("span.text", {}, (text ?? "").slice(0, column - 1).padEnd(column - 1), make("mark", {}, word || "‸"), (text ?? "").slice(column - 1 + length));
    }

    /** A line of the body: its actor in its colour, and its call. */
    _text(text, sort) {
        if (text === undefined) {
            return make("span.text.soft", {}, "(the text ends here)");
        }
        const [actor, call, ...rest] = text.split(" ");
        const number = sort === "is-head" ? -1 : this.app.store.actors.findIndex(({name}) => name === actor);
        if (number < 0 || call === undefined) {
            return make("span.text", {}, text);
        }
        return make("span.text", {}, make("span", {style: `color:color-mix(in oklab, ${colourOf(this.app.store, number)} 78%, var(--ink))`}, actor),
            " ", make("span.call", {}, call), rest.length ? " " + rest.join(" ") : "");
    }

    _find(text) {
        const script = this.app.store.script;
        this.found = null;
        this.hits = [];
        if (text) {
            for (let line = 1; line <= script.length; line++) {
                if (script[line - 1].includes(text)) {
                    this.hits.push(line);
                }
            }
            this.found = new Set(this.hits);
        }
        byId("find-count").textContent = text ? counted(this.hits.length, "line") : "";
        this.place = -1;
        this._next(1);
        this.rows.refresh();
    }

    _next(by) {
        if (this.hits && this.hits.length) {
            this.place = (this.place + by + this.hits.length) % this.hits.length;
            this.rows.reveal(this.hits[this.place] - 1);
        }
    }
}

class ItemPanel {
    constructor(app) {
        this.app = app;
        this.items = [];
        this.rows = new VirtualList(byId("item-rows"), (place) => this._row(place));
        byId("item-rows").addEventListener("pointerleave", () => {
            tip.hide();
            app.heatItem(-1);
        });
    }

    show(items) {
        this.items = items;
        byId("item-count").textContent = items.length ? counted(items.length, "item") + ", last on top" : "nothing is drawn";
        byId("item-rows").style.setProperty("--digits", String(items.length).length);
        this.rows.setCount(items.length);
    }

    _row(place) {
        const store = this.app.store;
        const item = this.items[place];
        const isImage = item[ITEM.kind] === IMAGE;
        const paint = isImage ? `repeating-linear-gradient(45deg, ${colourOf(store, item[ITEM.actor])} 0 3px, #fff6 3px 5px)`
            : `rgba(${item[ITEM.red]}, ${item[ITEM.green]}, ${item[ITEM.blue]}, ${item[ITEM.alpha] / 255})`;
        const what = isImage ? `${store.buffers[item[ITEM.buffers]]}[${item[ITEM.index]}]` : `${item[ITEM.width]}×${item[ITEM.height]}`;
        const opacity = item[ITEM.opacity] === UNIT ? "" : " · " + percent(item[ITEM.opacity], UNIT);
        const row = make("div.row.is-link", {},
            make("span.number", {}, String(place + 1)), make("span.swatch", {style: "background:" + paint}), dot(store, item[ITEM.actor]),
            make("span.text", {}, `${store.nameOf(item[ITEM.actor])} ${item[ITEM.serial]} ${what}`),
            make("span.answer.num", {}, `${units(item[ITEM.x0])}, ${units(item[ITEM.y0])}${opacity}`));
        row.classList.toggle("is-chosen", place === this.app.state.item);
        row.addEventListener("pointermove", (event) => {
            tip.show(event, itemText(store, item, place));
            this.app.heatItem(place);
        });
        row.addEventListener("click", () => this.app.chooseItem(place));
        return row;
    }
}

/** What the frame shows, but for its items: its views as a tree, who is apart, damage, focus, points. */
class FramePanel {
    constructor(app) {
        this.app = app;
        this.root = byId("frame-panel");
    }

    show(frame) {
        if (!frame) {
            this.root.replaceChildren(make("h2", {}, "No frame"), make("p.soft", {}, "The script finishes no frame."));
            return;
        }
        const store = this.app.store;
        const parts = [make("h2", {}, `Frame ${frame.number}`), this._where(frame), factList(this.app, [...tookFacts(store, frame), ...leftFacts(store, frame)]),
            make("h3", {}, "View tree"), this._tree(frame)];
        parts.push(...this._why(frame), ...this._damage(frame), ...this._focus(frame), ...this._points(frame));
        this.root.replaceChildren(...parts);
    }

    _where(frame) {
        const store = this.app.store;
        const ratio = frame.ratio === UNIT ? "" : `, pixel ratio ${units(frame.ratio)}`;
        const lost = frame.lost.length ? `. Lost here: display ${frame.lost.join(", ")}` : "";
        return make("p.soft", {}, `time ${frame.time}${ratio}, `, ...factParts(this.app, ["begun at ", lineLink(store, frame.begin), ", done at ", lineLink(store, frame.done)]), lost);
    }

    _tree(frame) {
        const store = this.app.store;
        const depths = new Map();
        const rows = frame.views.map(([actor, parent, ...bounds]) => {
            const depth = parent < 0 ? 0 : depths.get(parent) + 1;
            depths.set(actor, depth);
            return this._view(actor, depth, boundsText(...bounds), (frame.chain ?? []).at(-1) === actor);
        });
        rows.push(...frame.apart.map((actor) => this._view(actor, 0, "apart: linked to no view that is shown", false)));
        return rows.length ? make("ul.tree", {}, ...rows) : make("p.soft", {}, "no view is connected");
    }

    _view(actor, depth, says, hasFocus) {
        const store = this.app.store;
        const heat = () => this.app.heatView(actor);
        const cool = () => this.app.heatView(null);
        return make("li", {tabindex: 0, style: `margin-left:${depth * 16}px`, onpointerenter: heat, onpointerleave: cool, onfocus: heat, onblur: cool},
            dot(store, actor), store.nameOf(actor), hasFocus ? make("span.badge", {}, "focus") : null, make("span.bounds", {}, says));
    }

    /** Of each session that it is shown or why it isn't, if the word `why` was run. */
    _why(frame) {
        if (!this.app.store.has.why) {
            return [];
        }
        const rows = frame.why.map(([actor, sentence]) => make("li", {}, dot(this.app.store, actor), make("span", {}, make("b", {}, this.app.store.nameOf(actor)), ` ${sentence}`)));
        return [make("h3", {}, "Sessions"), make("ul.tree", {}, ...rows)];
    }

    _damage(frame) {
        if (frame.damage === null) {
            return [];
        }
        const all = this.app.store.display[0] * this.app.store.display[1];
        const one = frame.damage.length === 1 ? frame.damage[0] : null;
        const area = one ? `, ${percent((one[2] - one[0]) * (one[3] - one[1]) / UNIT / UNIT, all)} of the display` : "";
        return [make("h3", {}, "Damage"), make("p", {}, frame.damage.length ? counted(frame.damage.length, "rectangle") + area : "none: as the frame before")];
    }

    _focus(frame) {
        const parts = [];
        if (frame.chain !== null) {
            const chain = frame.chain.map((actor) => this.app.store.nameOf(actor)).join(" › ");
            parts.push(make("h3", {}, "Focus chain"), make("p", {}, chain || "empty"));
        }
        if (frame.cancels.length) {
            parts.push(make("h3", {}, "Pointer streams cancelled"), make("p", {}, frame.cancels.join(", ")));
        }
        return parts;
    }

    _points(frame) {
        if (!frame.points.length) {
            return [];
        }
        const store = this.app.store;
        const shown = frame.points.slice(0, POINTS_LISTED).map(([line, words]) => [pointText(store, words).replace(` in frame ${frame.number}`, "") + ", ", lineLink(store, store.stepOf(line))]);
        const more = frame.points.length - shown.length;
        return [make("h3", {}, "Points asked"), factList(this.app, shown), more > 0 ? make("p.soft", {}, `and ${more} more`) : ""];
    }
}

const POINTS_LISTED = 40;
const CALLS_LISTED = 60;

class StepPanel {
    constructor(app) {
        this.app = app;
        this.root = byId("step-panel");
    }

    show(step) {
        const store = this.app.store;
        if (step < 0) {
            this.root.replaceChildren(make("h2", {}, "Step"), make("p.soft", {}, "Choose a step in the timeline or a line of the script, with the pointer or with ↑ and ↓."));
            return;
        }
        const actor = store.steps.actor[step];
        const line = store.lineOf(step);
        const parts = [make("h2", {}, dot(store, actor), ` ${store.nameOf(actor)} `, make("span.soft", {}, line ? `line ${line}` : "the end"))];
        if (line) {
            parts.push(make("p.line", {}, store.script[line - 1]));
        }
        const facts = stepFacts(store, step);
        parts.push(facts.length ? factList(this.app, facts) : make("p", {}, "Done"));
        const events = stepEvents(store, step);
        if (events.length) {
            parts.push(make("h3", {}, "Events"), factList(this.app, events.map((text) => [text])));
        }
        parts.push(...this._carried(step));
        if (!isExtra(store, step)) {
            parts.push(make("h3", {}, "In the report"), make("p.line", {}, reportText(store, step)));
        }
        this.root.replaceChildren(...parts);
        this.root.scrollTop = 0;
    }

    _carried(step) {
        const store = this.app.store;
        const lines = store.carriedBy(step);
        if (!lines.length) {
            return [];
        }
        const shown = lines.slice(0, CALLS_LISTED).map((line) => [`${line}  ${store.script[line - 1]}`]);
        const more = lines.length - shown.length;
        return [make("h3", {}, `Carries ${counted(lines.length, "call")}`), factList(this.app, shown), more ? make("p.soft", {}, `and ${more} more`) : ""];
    }
}
