// Shapes over the picture: bounds of views, damage, outlines, points.

function boundsShape(x0, y0, x1, y1, attributes) {
    return makeSvg("rect", {x: x0 / UNIT, y: y0 / UNIT, width: Math.max(0, x1 - x0) / UNIT, height: Math.max(0, y1 - y0) / UNIT, ...attributes});
}

/** The bounds of the views, or of one of them, each with its name. `pixel` is the size of a pixel of the screen. */
function viewShapes(store, frame, hotActor, pixel) {
    const views = frame.views.filter(([actor]) => hotActor === null || actor === hotActor);
    const used = new Map();  // of each corner, how much room names have there already
    return views.flatMap(([actor, , ...bounds]) => {
        const colour = colourOf(store, actor);
        const isHot = hotActor !== null;
        const corner = bounds[0] + " " + bounds[1];
        const x = bounds[0] / UNIT + (5 + (used.get(corner) ?? 0)) * pixel;
        used.set(corner, (used.get(corner) ?? 0) + 8 * store.nameOf(actor).length + 10);
        const name = makeSvg("text", {x, y: bounds[1] / UNIT + 14 * pixel, "font-size": 12 * pixel}, store.nameOf(actor));
        return [boundsShape(...bounds, {class: isHot ? "view is-hot" : "view", stroke: colour, style: isHot ? "fill:" + colour : null}), name];
    });
}

function damageShapes(frame) {
    return (frame.damage ?? []).map((bounds) => boundsShape(...bounds, {class: "damage"}));
}

function outlineShapes(store, items) {
    return items.map((item) => boundsShape(...item.slice(ITEM.x0, ITEM.y1 + 1), {class: "outline", stroke: colourOf(store, item[ITEM.actor])}));
}

function hotShapes(item) {
    const bounds = item.slice(ITEM.x0, ITEM.y1 + 1);
    return [boundsShape(...bounds, {class: "hot-dark"}), boundsShape(...bounds, {class: "hot"})];
}

const POINTS_DRAWN = 2000;

/** A dot of one size on the screen at each point that was asked. */
function pointShapes(frame, pixel) {
    return frame.points.slice(0, POINTS_DRAWN).map(([, words]) => {
        const [, x, y] = words.split(" ").map(Number);
        return makeSvg("circle", {class: "point", cx: x, cy: y, r: 5 * pixel});
    });
}
