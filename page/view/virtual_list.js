// A list of any number of rows. Only the rows in sight are elements of the page.

const ROW = 20;
// Browsers can't lay out taller boxes: beyond this a longer list scrolls in larger steps.
const TALLEST = 8e6;

class VirtualList {
    /** `draw(place)` makes the row of a place; each is ROW high. */
    constructor(root, draw) {
        this.root = root;
        this.draw = draw;
        this.count = 0;
        this.shown = make("div.shown");
        this.sheet = make("div.sheet", {}, this.shown);
        this.root.replaceChildren(this.sheet);
        this.refresh = onceADrawing(() => this._draw());
        this.root.addEventListener("scroll", this.refresh);
        new ResizeObserver(this.refresh).observe(this.root);
    }

    setCount(count) {
        this.count = count;
        this.height = Math.min(TALLEST, count * ROW);
        this.sheet.style.height = this.height + "px";
        this.refresh();
    }

    /** How many pixels of all rows lie above the top. In a list that is too long this is more than is scrolled. */
    _above() {
        const scrollable = Math.max(1, this.height - this.root.clientHeight);
        const real = Math.max(1, this.count * ROW - this.root.clientHeight);
        return this.root.scrollTop * (this.count * ROW > TALLEST ? real / scrollable : 1);
    }

    _draw() {
        const above = this._above();
        const first = Math.floor(above / ROW);
        const last = Math.min(this.count, first + Math.ceil(this.root.clientHeight / ROW) + 1);
        const rows = [];
        for (let place = first; place < last; place++) {
            rows.push(this.draw(place));
        }
        this.shown.style.transform = `translateY(${this.root.scrollTop - (above - first * ROW)}px)`;
        this.shown.replaceChildren(...rows);
    }

    /** Brings a row into sight, if it isn't. */
    reveal(place) {
        const above = this._above();
        const room = this.root.clientHeight;
        const top = place * ROW;
        if (top < above || top + ROW > above + room) {
            const wanted = Math.max(0, top - room / 2 + ROW / 2);
            const ratio = this.count * ROW > TALLEST ? (this.height - room) / Math.max(1, this.count * ROW - room) : 1;
            this.root.scrollTop = wanted * ratio;
        }
        this.refresh();
    }
}
