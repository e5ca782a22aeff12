// Loads the page again when it was written again (page/watch.py).

const LOOK_EVERY = 1000;  // milliseconds

/** Looks at the picture beside the page, whose width is the number of the last writing. */
function followWritings(store) {
    if (store.stamp === undefined) {
        return;
    }
    setInterval(() => {
        const picture = new Image();
        picture.onload = () => {
            if (picture.naturalWidth !== store.stamp) {
                location.reload();
            }
        };
        picture.src = `${encodeURIComponent(store.stampFile)}?${Date.now()}`;
    }, LOOK_EVERY);
}
