// The picture of one frame as SVG: an element for each draw item.

class SvgScene {
    /** Draws into `root`, a group of an SVG picture, with paints in `defs`. */
    constructor(root, defs, store) {
        this.root = root;
        this.defs = defs;
        this.store = store;
        this.items = [];
        this.nodes = [];
        this.asPattern = false;
        this.drawn = new WeakMap();  // of each fill's element its attributes, since asking the element is slow
    }

    /** How many items are drawn. */
    get count() {
        return this.root.childElementCount;
    }

    /** Draws these items. Elements of items that the picture has already stay. */
    show(items) {
        const old = this.items;
        const most = Math.min(old.length, items.length);
        let head = 0;
        while (head < most && old[head] === items[head]) {
            head++;
        }
        let tail = 0;
        while (tail < most - head && old[old.length - 1 - tail] === items[items.length - 1 - tail]) {
            tail++;
        }
        this.items = items;
        const isFew = hasFewImages(items);
        const olds = this.nodes.slice(head, this.nodes.length - tail);
        const after = this.nodes.slice(this.nodes.length - tail);
        const fresh = items.slice(head, items.length - tail).map((item, i) => this._node(item, olds[i], isFew));
        const added = document.createDocumentFragment();
        fresh.forEach((node, i) => {
            if (i >= olds.length) {
                added.append(node);
            } else if (node !== olds[i]) {
                olds[i].replaceWith(node);
            }
        });
        this.root.insertBefore(added, after[0] ?? null);
        olds.slice(fresh.length).forEach((node) => node.remove());
        this.nodes = this.nodes.slice(0, head).concat(fresh, after);
    }

    /** Whether images are drawn as the pattern. */
    setPattern(asPattern) {
        if (asPattern !== this.asPattern) {
            this.asPattern = asPattern;
            const items = this.items;
            this.show([]);
            this.show(items);
        }
    }

    // An item is one element. A fill's is a `rect`, which may be one that stood for another fill.

    _node(item, old, isFew) {
        const area = coveredArea(item);
        if (item[ITEM.kind] === IMAGE) {
            return area.width && area.height ? this._image(item, area, isFew) : makeSvg("g");
        }
        const attributes = {...area, ...fillOf(item)};
        const before = this.drawn.get(old);
        const node = before === undefined ? makeSvg("rect", attributes) : old;
        for (const name in before) {
            if (before[name] !== attributes[name]) {
                node.setAttribute(name, attributes[name]);
            }
        }
        this.drawn.set(node, attributes);
        return node;
    }

    _image(item, area, isFew) {
        const {x, y, width, height} = area;
        const frame = makeSvg("svg", {...area, viewBox: `${x} ${y} ${width} ${height}`, preserveAspectRatio: "none"});
        const shown = makeSvg("g", {opacity: item[ITEM.opacity] / UNIT});
        if (!item[ITEM.over]) {
            frame.append(makeSvg("rect", {...area, fill: "black"}));
        }
        if (this.asPattern && isFew && width * height <= TEXELS_MOST) {
            shown.append(makeSvg("image", {...area, href: texelsOf(item, area).toDataURL(), style: "image-rendering:pixelated", preserveAspectRatio: "none"}));
        } else {
            const colour = colourOf(this.store, item[ITEM.actor]);
            shown.append(makeSvg("rect", {...area, fill: this._hatch(item, colour)}), this._corner(item),
                ...(isFew ? this._label(item, area) : []));
        }
        frame.append(shown);
        return frame;
    }

    /** A hatching in the colour of the session, turned otherwise for each buffer of its collection. */
    _hatch(item, colour) {
        const [buffers, index] = [item[ITEM.buffers], item[ITEM.index]];
        return this._paint(`hatch-${buffers}-${index}`, (id) => {
            const size = Math.max(this.store.display[0], this.store.display[1]) / 90;
            return makeSvg("pattern", {id, patternUnits: "userSpaceOnUse", width: size, height: size, patternTransform: `rotate(${45 + 37 * index})`},
                makeSvg("rect", {width: size, height: size, fill: colour}),
                makeSvg("rect", {width: size / 2, height: size, fill: "white", "fill-opacity": 0.14}));
        });
    }

    /** A paint of `defs`, made when it is first asked for. */
    _paint(id, made) {
        if (!this.defs.querySelector("#" + id)) {
            this.defs.append(made(id));
        }
        return `url(#${id})`;
    }

    /** A mark at the corner that shows an image's first texel, so that turns and flips are seen. */
    _corner(item) {
        const [width, height] = [item[ITEM.width], item[ITEM.height]];
        const side = Math.min(width, height) / 8;
        const fromX = (x) => item[ITEM.flip] === FLIP_COLUMNS ? width - x : x;
        const fromY = (y) => item[ITEM.flip] === FLIP_ROWS ? height - y : y;
        const corners = [[0, 0], [side, 0], [0, side]].map(([x, y]) => mapped(item, fromX(x), fromY(y)).join(" "));
        return makeSvg("path", {d: `M${corners.join("L")}Z`, fill: "white", "fill-opacity": 0.8});
    }

    _label(item, area) {
        const text = `${this.store.buffers[item[ITEM.buffers]]}[${item[ITEM.index]}]`;
        const size = Math.min(area.height * 0.4, area.width * 1.3 / text.length, this.store.display[1] / 22);
        const middle = {x: area.x + area.width / 2, y: area.y + area.height / 2};
        const label = makeSvg("text", {...middle, "text-anchor": "middle", "dominant-baseline": "central", "font-size": size,
            "font-family": "ui-monospace, Menlo, Consolas, monospace", "font-weight": 600, fill: "white"}, text);
        return [label];
    }
}
