// The page as a whole: what is chosen, and which part shows it.
//
// The address has what is chosen behind `#`, as in #frame=3&step=12&show=damage,views, so that a link leads to it.

const OUTLINES_MOST = 4000;

class App {
    constructor(store) {
        this.store = store;
        this.state = {place: -1, step: -1, item: -1, view: null, hotItem: -1, shown: new Set(["points"])};
        this.items = [];
        this.script = new ScriptPanel(this);
        this.itemPanel = new ItemPanel(this);
        this.framePanel = new FramePanel(this);
        this.stepPanel = new StepPanel(this);
        this.timeline = new Timeline(byId("lanes"), store, (step, frame) => {
            this.chooseStep(step);
            if (frame) {
                this.chooseFrame(store.frames.indexOf(frame));
            }
        });
        this._asked = onceADrawing(() => this._showFrame());
        this._overlay = onceADrawing(() => this._drawOverlay());
        this.picture = new Picture(byId("stage"), store, (event, found) => this._pointed(event, found), this._overlay);
        drawHead(store, (line) => this.script.rows.reveal(line - 1));
        this._listen();
    }

    /** What the address asks for, or the last frame. */
    start() {
        const wanted = new URLSearchParams(location.hash.slice(1));
        const number = (name, otherwise) => /^\d+$/.test(wanted.get(name) ?? "") ? Number(wanted.get(name)) : otherwise;
        if (wanted.has("show")) {
            this.state.shown = new Set(wanted.get("show").split(",").filter((name) => SHOWN.some((one) => one.name === name)));
        }
        this._showToggles();
        this.state.item = number("item", 0) - 1;
        this.chooseFrame(number("frame", this.store.frames.length) - 1);
        const step = number("step", -1);
        this.chooseStep(step < this.store.stepCount ? step : -1);
    }

    // What is chosen.

    chooseFrame(place) {
        if (this.store.frames.length) {
            this.state.place = limited(0, place, this.store.frames.length - 1);
        }
        this._asked();
    }

    chooseStep(step) {
        this.state.step = step;
        this.stepPanel.show(step);
        this.timeline.choose(step, this.frame);
        if (step >= 0) {
            this.timeline.reveal(step);
            const line = this.store.lineOf(step);
            if (line) {
                this.script.rows.reveal(line - 1);
            }
        }
        this.script.rows.refresh();
        this._address();
    }

    chooseItem(place) {
        this.state.item = place === this.state.item ? -1 : place;
        if (this.state.item >= 0) {
            this.itemPanel.rows.reveal(place);
        }
        this.itemPanel.rows.refresh();
        this._overlay();
        this._address();
    }

    heatItem(place) {
        if (place !== this.state.hotItem) {
            this.state.hotItem = place;
            this._overlay();
        }
    }

    heatView(actor) {
        this.state.view = actor;
        this._overlay();
    }

    toggle(name) {
        if (!this.state.shown.delete(name)) {
            this.state.shown.add(name);
        }
        this._showToggles();
        this._overlay();
        this._address();
    }

    get frame() {
        return this.store.frames[this.state.place] ?? null;
    }

    // What is shown.

    async _showFrame() {
        const {frame, state: {place}} = this;
        this.framePanel.show(frame);
        this._showSlider(frame);
        this.timeline.choose(this.state.step, frame);
        if (!frame) {
            this.itemPanel.show([]);
            return;
        }
        this.timeline.reveal(frame.begin);
        this.script.showFrame(frame);
        const items = await this.store.items(place);
        if (place !== this.state.place) {
            return;  // another frame was chosen meanwhile
        }
        this.items = items;
        this.picture.show(items);
        this.itemPanel.show(items);
        if (this.state.item >= items.length) {
            this.state.item = -1;
        }
        this._drawOverlay();
        this._address();
        document.body.dataset.drawn = String(frame.number);
        document.body.dataset.items = String(this.picture.count);
    }

    _showSlider(frame) {
        const count = this.store.frames.length;
        const slider = byId("slider");
        slider.max = Math.max(1, count);
        slider.value = this.state.place + 1;
        slider.disabled = count < 2;
        byId("first").disabled = byId("previous").disabled = this.state.place <= 0;
        byId("last").disabled = byId("next").disabled = this.state.place >= count - 1;
        byId("frame-label").replaceChildren(...(frame ? ["Frame ", make("b", {}, String(frame.number)), ` of ${count}, at time ${frame.time}`] : ["No frame"]));
        slider.setAttribute("aria-valuetext", frame ? `frame ${frame.number} of ${count}` : "no frame");
    }

    _drawOverlay() {
        const {frame, state, items, store} = this;
        const shapes = [];
        if (frame) {
            if (state.shown.has("outlines") && items.length <= OUTLINES_MOST) {
                shapes.push(...outlineShapes(store, items));
            }
            if (state.shown.has("views")) {
                shapes.push(...viewShapes(store, frame, null, this.picture.pixel));
            }
            if (state.shown.has("damage")) {
                shapes.push(...damageShapes(frame));
            }
            if (state.view !== null) {
                shapes.push(...viewShapes(store, frame, state.view, this.picture.pixel));
            }
            if (state.shown.has("points")) {
                shapes.push(...pointShapes(frame, this.picture.pixel));
            }
            for (const place of new Set([state.item, state.hotItem])) {
                shapes.push(...(items[place] ? hotShapes(items[place]) : []));
            }
        }
        this.picture.setPattern(state.shown.has("pattern"));
        this.picture.setOverlay(shapes);
    }

    _showToggles() {
        byId("toggles").replaceChildren(...SHOWN.filter(({name}) => name !== "damage" || this.store.has.damage).map(({name, key, title}) => make("button",
            {type: "button", title: `${title} (${key})`, "aria-pressed": String(this.state.shown.has(name)), onclick: () => this.toggle(name)}, name)));
    }

    /** Puts what is chosen into the address, once nothing more is chosen for a moment. */
    _address() {
        clearTimeout(this.addressing);
        this.addressing = setTimeout(() => this._putAddress(), 200);
    }

    _putAddress() {
        const parts = [];
        if (this.frame) {
            parts.push("frame=" + this.frame.number);
        }
        if (this.state.step >= 0) {
            parts.push("step=" + this.state.step);
        }
        if (this.state.item >= 0) {
            parts.push("item=" + (this.state.item + 1));
        }
        parts.push("show=" + [...this.state.shown].join(","));
        history.replaceState(null, "", "#" + parts.join("&"));
    }

    // What the user does.

    _pointed(event, found) {
        if (!found) {
            tip.hide();
            this.heatItem(-1);
            byId("pointer-note").textContent = POINTER_HINT;
            return;
        }
        const item = this.items[found.place];
        byId("pointer-note").textContent = `${Math.floor(found.x)}, ${Math.floor(found.y)}` + (item ? `  ${this.store.nameOf(item[ITEM.actor])} ${item[ITEM.serial]}, ${paintText(this.store, item)}` : "");
        this.heatItem(found.place);
        if (found.isChosen && found.place >= 0) {
            this.chooseItem(found.place);
        }
        if (item) {
            tip.show(event, itemText(this.store, item, found.place));
        } else {
            tip.hide();
        }
    }

    _listen() {
        const go = (id, place) => byId(id).addEventListener("click", () => this.chooseFrame(place()));
        go("first", () => 0);
        go("previous", () => this.state.place - 1);
        go("next", () => this.state.place + 1);
        go("last", () => this.store.frames.length - 1);
        byId("slider").addEventListener("input", () => this.chooseFrame(Number(byId("slider").value) - 1));
        byId("zoom-in").addEventListener("click", () => this.timeline.zoom(1.5));
        byId("zoom-out").addEventListener("click", () => this.timeline.zoom(1 / 1.5));
        byId("zoom-fit").addEventListener("click", () => this.timeline.fit());
        byId("help-button").addEventListener("click", () => byId("help").showModal());
        document.addEventListener("keydown", (event) => this._key(event));
        addEventListener("hashchange", () => this.start());
    }

    _key(event) {
        const isText = event.target.matches("input[type=search]");
        if (event.ctrlKey || event.metaKey || event.altKey || byId("help").open) {
            return;
        }
        if (isText) {
            if (event.key === "Escape") {
                event.target.blur();
            }
            return;
        }
        const does = this._keys()[event.key];
        if (does) {
            event.preventDefault();
            does();
        }
    }

    _keys() {
        const {state, store} = this;
        const step = (by) => this.chooseStep(limited(0, state.step < 0 && by < 0 ? store.stepCount - 1 : state.step + by, store.stepCount - 1));
        return {
            ArrowLeft: () => this.chooseFrame(state.place - 1),
            ArrowRight: () => this.chooseFrame(state.place + 1),
            Home: () => this.chooseFrame(0),
            End: () => this.chooseFrame(store.frames.length - 1),
            ArrowUp: () => step(-1),
            ArrowDown: () => step(1),
            "+": () => this.timeline.zoom(1.5),
            "=": () => this.timeline.zoom(1.5),
            "-": () => this.timeline.zoom(1 / 1.5),
            "0": () => this.timeline.fit(),
            "/": () => byId("find").focus(),
            "?": () => byId("help").showModal(),
            Escape: () => this._chooseNothing(),
            ...Object.fromEntries(SHOWN.map(({key, name}) => [key, () => this.toggle(name)])),
        };
    }

    _chooseNothing() {
        this.state.item = -1;
        this.picture.showWhole();
        this.itemPanel.rows.refresh();
        this.chooseStep(-1);
        this._overlay();
    }
}

Store.open().then((store) => {
    const app = new App(store);
    document.body.classList.remove("is-loading");
    app.start();
    followWritings(store);
    globalThis.app = app;  // for the console, and for page/check.py
}).catch((error) => {
    document.body.classList.remove("is-loading");
    byId("summary").textContent = "The page could not be read: " + error.message;
    throw error;
});
