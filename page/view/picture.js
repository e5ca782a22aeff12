// The picture of a frame: its scene of draw items, the shapes over it, and zooming and moving about.

const SVG_ITEMS_MOST = 4000;  // a frame with more items is drawn on a canvas

class Picture {
    /** `onPoint(event, found)` is called with the point below the pointer, the place of the item on top of it or -1, and
     *  whether it was chosen; and with null when the pointer leaves. `onMove()` is called when another part is shown. */
    constructor(root, store, onPoint, onMove) {
        this.store = store;
        this.onPoint = onPoint;
        this.onMove = onMove;
        this.items = [];
        this.svgItemsMost = SVG_ITEMS_MOST;
        const [width, height] = store.display;
        const margin = Math.max(width, height) / 60;
        this.whole = [-margin, -margin, width + 2 * margin, height + 2 * margin];
        const group = makeSvg("g", {class: "scene", "clip-path": "url(#display)"});
        const defs = makeSvg("defs", {}, makeSvg("clipPath", {id: "display"}, makeSvg("rect", {width, height, "shape-rendering": "crispEdges"})));
        this.overlay = makeSvg("g", {class: "overlay"});
        this.ground = makeSvg("rect", {width, height, fill: "black", "shape-rendering": "crispEdges"});
        this.svg = makeSvg("svg", {role: "img", "aria-label": "The picture of the frame", preserveAspectRatio: "xMidYMid meet"}, defs,
            this.ground, group, this.overlay);
        this.canvas = make("canvas");
        root.replaceChildren(this.canvas, this.svg);
        this.svgScene = new SvgScene(group, defs, store);
        this.canvasScene = new CanvasScene(this.canvas, store);
        this.scene = this.svgScene;
        this.room = root.getBoundingClientRect();
        new ResizeObserver(([{contentRect}]) => {
            this.room = contentRect;
            this._changed();
        }).observe(root);
        this._setBox(this.whole);
        this._listen();
    }

    /** Draws these items, as SVG or on the canvas. */
    show(items) {
        this.items = items;
        const scene = items.length > this.svgItemsMost ? this.canvasScene : this.svgScene;
        if (scene !== this.scene) {
            this.scene.show([]);
            scene.setPattern(this.scene.asPattern);
            this.scene = scene;
            this.ground.toggleAttribute("hidden", scene === this.canvasScene);
        }
        scene.show(items);
        this._changed();
    }

    /** How many items are drawn. */
    get count() {
        return this.scene.count;
    }

    /** Whether images are drawn as the pattern. */
    setPattern(asPattern) {
        this.scene.setPattern(asPattern);
    }

    /** Puts these shapes over the picture. */
    setOverlay(shapes) {
        this.overlay.replaceChildren(...shapes);
    }

    // Pointer, zoom and moving about.

    /** Shows all of the display. */
    showWhole() {
        this._setBox(this.whole);
    }

    _setBox(box) {
        this.box = box;
        this.svg.setAttribute("viewBox", box.join(" "));
        this._changed();
    }

    /** Another part of the display is shown, or in another size. */
    _changed() {
        if (this.scene === this.canvasScene) {
            const [x, y] = this.box;
            const pixel = this.pixel;
            const [left, top] = [(this.room.width - this.box[2] / pixel) / 2, (this.room.height - this.box[3] / pixel) / 2];
            this.canvasScene.place({width: this.room.width, height: this.room.height, scale: 1 / pixel, left: left - x / pixel, top: top - y / pixel});
        }
        this.onMove();
    }

    /** How many units of the display a pixel of the screen has. */
    get pixel() {
        return Math.max(this.box[2] / this.room.width, this.box[3] / this.room.height);
    }

    /** The place of the display below the pointer, in units. */
    _point(event) {
        return new DOMPoint(event.clientX, event.clientY).matrixTransform(this.svg.getScreenCTM().inverse());
    }

    /** The place in the draw list of the item on top at a point, or -1. */
    itemAt(x, y) {
        const [px, py] = [x * UNIT, y * UNIT];
        for (let place = this.items.length - 1; place >= 0; place--) {
            const item = this.items[place];
            if (item[ITEM.x0] <= px && px < item[ITEM.x1] && item[ITEM.y0] <= py && py < item[ITEM.y1]) {
                return place;
            }
        }
        return -1;
    }

    _listen() {
        let drag = null;
        this.svg.addEventListener("wheel", (event) => {
            event.preventDefault();
            this._zoom(this._point(event), Math.pow(1.0018, event.deltaY));
        }, {passive: false});
        this.svg.addEventListener("dblclick", () => this.showWhole());
        this.svg.addEventListener("pointerdown", (event) => {
            drag = {x: event.clientX, y: event.clientY, box: this.box, hasMoved: false};
            this.svg.setPointerCapture(event.pointerId);
        });
        this.svg.addEventListener("pointermove", (event) => {
            if (drag) {
                this._move(drag, event);
            } else {
                const {x, y} = this._point(event);
                this.onPoint(event, {x, y, place: this.itemAt(x, y), isChosen: false});
            }
        });
        this.svg.addEventListener("pointerup", (event) => {
            if (drag && !drag.hasMoved) {
                const {x, y} = this._point(event);
                this.onPoint(event, {x, y, place: this.itemAt(x, y), isChosen: true});
            }
            drag = null;
        });
        this.svg.addEventListener("pointerleave", (event) => this.onPoint(event, null));
    }

    _move(drag, event) {
        const scale = this.svg.getScreenCTM().a;
        const [dx, dy] = [event.clientX - drag.x, event.clientY - drag.y];
        drag.hasMoved = drag.hasMoved || Math.abs(dx) + Math.abs(dy) > 3;
        if (drag.hasMoved) {
            const [x, y, width, height] = drag.box;
            this._setBox([x - dx / scale, y - dy / scale, width, height]);
        }
    }

    /** Shows more or less of the display, around a point. */
    _zoom(point, factor) {
        const [x, y, width, height] = this.box;
        const most = this.whole[2] / width;
        const by = limited(4 / width, factor, most);
        this._setBox(by === most ? this.whole
            : [point.x - (point.x - x) * by, point.y - (point.y - y) * by, width * by, height * by]);
    }
}
