"use strict";
// Small helpers. Text is put into the page as text alone, never as HTML.

const SVG = "http://www.w3.org/2000/svg";

/** The element of the page with this id. */
function byId(id) {
    return document.getElementById(id);
}

/** Makes an element, such as make("li.name", {title: "t"}, "text", child). A child that is null is left out. */
function make(form, attributes = {}, ...children) {
    const [tag, ...classes] = form.split(".");
    const element = document.createElement(tag);
    element.classList.add(...classes);
    return filled(element, attributes, children);
}

/** Makes an SVG element with these attributes. */
function makeSvg(tag, attributes = {}, ...children) {
    return filled(document.createElementNS(SVG, tag), attributes, children);
}

/** A text with its words in backquotes as code: texts and elements. */
function withCode(text) {
    return text.split("`").map((part, i) => i % 2 ? make("code", {}, part) : part);
}

function filled(element, attributes, children) {
    for (const [name, value] of Object.entries(attributes)) {
        if (name.startsWith("on")) {
            element.addEventListener(name.slice(2), value);
        } else if (value !== null && value !== undefined) {
            element.setAttribute(name, value);
        }
    }
    element.append(...children.filter((child) => child !== null));
    return element;
}

/** The first place in a rising list whose value isn't below the given one. */
function firstAtLeast(list, value) {
    let low = 0;
    let high = list.length;
    while (low < high) {
        const middle = (low + high) >> 1;
        if (list[middle] < value) {
            low = middle + 1;
        } else {
            high = middle;
        }
    }
    return low;
}

function limited(low, value, high) {
    return Math.max(low, Math.min(high, value));
}

/** "1 frame", "3 frames" */
function counted(count, one, many = one + "s") {
    return count.toLocaleString("en") + " " + (count === 1 ? one : many);
}

/** Wraps a function so that it runs once before the next drawing, however often it is called. */
function onceADrawing(draw) {
    let isAsked = false;
    return () => {
        if (!isAsked) {
            isAsked = true;
            requestAnimationFrame(() => {
                isAsked = false;
                draw();
            });
        }
    };
}

const tip = {
    /** Shows some text beside the pointer. */
    show(event, text) {
        const box = byId("tip");
        box.textContent = text;
        box.hidden = false;
        const room = 14;
        const left = limited(4, event.clientX + room, innerWidth - box.offsetWidth - 4);
        const below = event.clientY + room;
        const top = below + box.offsetHeight < innerHeight - 4 ? below : event.clientY - room - box.offsetHeight;
        box.style.left = left + "px";
        box.style.top = Math.max(4, top) + "px";
    },
    hide() {
        byId("tip").hidden = true;
    },
};

// One colour for each actor: the display, sixteen sessions, and the probes.
const DISPLAY_COLOUR = "#7b8794";
const PROBE_COLOUR = "#8a94a0";
const SESSION_COLOURS = ["#3b7dd8", "#d9772b", "#2f9e63", "#c2485b", "#8760c9", "#9a6f3c", "#c55fa5", "#1f9fb0",
    "#8f9a1f", "#5a5fd6", "#c79a12", "#4f8f2f", "#b2543a", "#a33fb5", "#2c7f7a", "#6c7fa8"];

function colourOf(store, actor) {
    const sort = store.actors[actor].sort;
    if (sort === "session") {
        return SESSION_COLOURS[(actor - 1) % SESSION_COLOURS.length];
    }
    return sort === "display" ? DISPLAY_COLOUR : PROBE_COLOUR;
}

function dot(store, actor) {
    return make("span.dot", {style: "background:" + colourOf(store, actor)});
}
