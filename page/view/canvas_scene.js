// The picture of one frame on a canvas: for frames with too many items for an element each.

const HATCH = 8;   // pixels of the screen

class CanvasScene {
    constructor(canvas, store) {
        this.canvas = canvas;
        this.store = store;
        this.items = [];
        this.count = 0;
        this.asPattern = false;
        this.view = null;
        this.hatches = new Map();
        this.texels = new WeakMap();
        this.redraw = onceADrawing(() => this._draw());
    }

    /** Draws these items; of none, nothing. */
    show(items) {
        this.items = items;
        this.count = items.length;
        this.isFew = hasFewImages(items);
        this.canvas.hidden = items.length === 0;
        this.redraw();
    }

    /** Whether images are drawn as the pattern. */
    setPattern(asPattern) {
        if (asPattern !== this.asPattern) {
            this.asPattern = asPattern;
            this.redraw();
        }
    }

    /** The canvas has this size, the display's corner is at left, top, and a unit has `scale` pixels. */
    place(view) {
        this.view = view;
        this.redraw();
    }

    _draw() {
        const {width, height, scale, left, top} = this.view ?? {width: 1, height: 1, scale: 1, left: 0, top: 0};
        const ratio = devicePixelRatio || 1;
        this.canvas.width = Math.max(1, Math.round(width * ratio));
        this.canvas.height = Math.max(1, Math.round(height * ratio));
        this.pen = this.canvas.getContext("2d");
        this.pen.imageSmoothingEnabled = false;
        this.scale = scale * ratio;
        this.corner = [left * ratio, top * ratio];
        const display = this._onScreen({x: 0, y: 0, width: this.store.display[0], height: this.store.display[1]});
        this.pen.fillStyle = "black";
        this.pen.fillRect(...display);
        this.pen.beginPath();
        this.pen.rect(...display);
        this.pen.clip();
        for (const item of this.items) {
            this._drawItem(item);
        }
    }

    /** An area of the display in whole pixels of the canvas: x, y, width and height. */
    _onScreen({x, y, width, height}) {
        const [left, top] = this.corner;
        const [x0, y0] = [Math.round(left + x * this.scale), Math.round(top + y * this.scale)];
        return [x0, y0, Math.round(left + (x + width) * this.scale) - x0, Math.round(top + (y + height) * this.scale) - y0];
    }

    _drawItem(item) {
        const area = coveredArea(item);
        const box = this._onScreen(area);
        const [x, y, width, height] = box;
        if (width <= 0 || height <= 0 || x > this.canvas.width || y > this.canvas.height || x + width < 0 || y + height < 0) {
            return;
        }
        if (item[ITEM.kind] === IMAGE) {
            this._drawImage(item, area, box);
        } else {
            const {fill, "fill-opacity": opacity} = fillOf(item);
            this.pen.globalAlpha = opacity;
            this.pen.fillStyle = fill;
            this.pen.fillRect(...box);
        }
    }

    _drawImage(item, area, box) {
        const pen = this.pen;
        pen.globalAlpha = 1;
        if (!item[ITEM.over]) {
            pen.fillStyle = "black";
            pen.fillRect(...box);
        }
        pen.globalAlpha = item[ITEM.opacity] / UNIT;
        if (this.asPattern && this.isFew && area.width * area.height <= TEXELS_MOST) {
            if (!this.texels.has(item)) {
                this.texels.set(item, texelsOf(item, area));
            }
            pen.drawImage(this.texels.get(item), ...box);
        } else {
            pen.fillStyle = this._hatch(colourOf(this.store, item[ITEM.actor]));
            pen.fillRect(...box);
        }
    }

    /** A hatching in a colour. */
    _hatch(colour) {
        if (!this.hatches.has(colour)) {
            const canvas = make("canvas", {width: HATCH, height: HATCH});
            const pen = canvas.getContext("2d");
            pen.fillStyle = colour;
            pen.fillRect(0, 0, HATCH, HATCH);
            pen.fillStyle = "rgb(255 255 255 / 0.18)";
            pen.fillRect(0, 0, HATCH / 2, HATCH / 2);
            pen.fillRect(HATCH / 2, HATCH / 2, HATCH / 2, HATCH / 2);
            this.hatches.set(colour, this.pen.createPattern(canvas, "repeat"));
        }
        return this.hatches.get(colour);
    }
}
