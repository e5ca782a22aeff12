// What a draw item covers, and with which colours.
//
// An item covers the pixels whose centres its visible rectangle has (flat_render: Pixels), so it is drawn as that area of
// whole pixels. A fill blended `src` replaces what is below it by its colour at the opacity; one blended `over` is mixed with
// it. Images are drawn as boxes in the colour of their session, or as the pattern that stands for buffers' content.

const HALF = UNIT / 2;

/** The first pixel whose centre isn't before a place. */
function firstPixel(place) {
    return Math.ceil((place - HALF) / UNIT);
}

/** The area of whole pixels that an item covers. */
function coveredArea(item) {
    const x = firstPixel(item[ITEM.x0]);
    const y = firstPixel(item[ITEM.y0]);
    return {x, y, width: Math.max(0, firstPixel(item[ITEM.x1]) - x), height: Math.max(0, firstPixel(item[ITEM.y1]) - y)};
}

/** The colour of a fill: `src` darkens it by the opacity, `over` makes it as clear as opacity and alpha say. */
function fillOf(item) {
    const colours = [item[ITEM.red], item[ITEM.green], item[ITEM.blue]];
    return item[ITEM.over] ? {fill: `rgb(${colours})`, "fill-opacity": Math.floor(item[ITEM.alpha] * item[ITEM.opacity] / UNIT) / 255}
        : {fill: `rgb(${colours.map((colour) => Math.floor(colour * item[ITEM.opacity] / UNIT))})`, "fill-opacity": 1};
}

/** Where a point of an item's content stands on the display. */
function mapped(item, px, py) {
    const [u, v] = item[ITEM.swap] ? [py, px] : [px, py];
    return [(item[ITEM.a] * u + item[ITEM.x]) / UNIT, (item[ITEM.b] * v + item[ITEM.y]) / UNIT];
}

const FLIP_COLUMNS = 2;
const FLIP_ROWS = 3;
const IMAGES_MOST = 400;    // more images than these are boxes without labels and without the pattern
const TEXELS_MOST = 2 ** 24;
const FARTHEST = 2 ** 46;   // where places saturate

/** An item is cut into `count` equal parts along an axis of the display: the part in which each pixel lies (flat_render: Pixels). */
function partsOf({entry, start, size, count}, first, length) {
    const ends = [start, start + entry * size].map((place) => limited(-FARTHEST, place, FARTHEST));
    const [low, high] = entry > 0 ? ends : ends.reverse();
    return Array.from({length}, (_, i) => {
        const centre = UNIT * (first + i) + HALF;
        const depth = Math.abs(entry > 0 ? centre - low : high - 1 - centre);
        return Number(BigInt(depth) * BigInt(count) / BigInt(high - low));
    });
}

/** A canvas with the pixels of an image, by the pattern that stands for its buffer's content (flat_render: Colours, Pixels). */
function texelsOf(item, {x, y, width, height}) {
    const swap = item[ITEM.swap] === 1;
    const column = {size: item[ITEM.width], count: item[ITEM.sampleW]};
    const row = {size: item[ITEM.height], count: item[ITEM.sampleH]};
    const across = partsOf({entry: item[ITEM.a], start: item[ITEM.x], ...(swap ? row : column)}, x, width);
    const down = partsOf({entry: item[ITEM.b], start: item[ITEM.y], ...(swap ? column : row)}, y, height);
    const flipped = (part, count, flip) => item[ITEM.flip] === flip ? count - 1 - part : part;
    const reds = (swap ? down : across).map((part) => (64 * (item[ITEM.sampleX] + flipped(part, column.count, FLIP_COLUMNS)) + 16 * item[ITEM.index]) % 256);
    const greens = (swap ? across : down).map((part) => 64 * (item[ITEM.sampleY] + flipped(part, row.count, FLIP_ROWS)) % 256);
    const canvas = make("canvas", {width, height});
    const pen = canvas.getContext("2d");
    const pixels = pen.createImageData(width, height);
    for (let j = 0, at = 0; j < height; j++) {
        for (let i = 0; i < width; i++, at += 4) {
            pixels.data[at] = reds[swap ? j : i];
            pixels.data[at + 1] = greens[swap ? i : j];
            pixels.data[at + 2] = 32 * item[ITEM.buffers] % 256;
            pixels.data[at + 3] = 255;
        }
    }
    pen.putImageData(pixels, 0, 0);
    return canvas;
}

/** Whether a frame has so few images that each is drawn with its label, or as the pattern. */
function hasFewImages(items) {
    return items.filter((item) => item[ITEM.kind] === IMAGE).length <= IMAGES_MOST;
}
