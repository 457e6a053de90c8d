/**
 * Gestures on the drawing: drags, pinches, wheels, keys and taps, using only the browser's pointer events. Nothing
 * moves by itself.
 */
/** A pointer that moves fewer pixels than this taps. */
const STILL = 8;
const STEP = 60;
const KEYS = {
    ArrowLeft: [STEP, 0], ArrowRight: [-STEP, 0], ArrowUp: [0, STEP], ArrowDown: [0, -STEP],
    "+": 1.5, "=": 1.5, "-": 1 / 1.5, "_": 1 / 1.5, "0": "fit", Home: "fit", Enter: "tap", " ": "tap",
};

export class Gestures {
    #canvas;
    #view;
    #told;
    #pointers = new Map();
    #isTap = false;

    /** `told` has `moved` for a changed view, and `tapped` for a place in pixels of the drawing. */
    constructor(canvas, view, told) {
        [this.#canvas, this.#view, this.#told] = [canvas, view, told];
        const on = (name, does) => canvas.addEventListener(name, (event) => does.call(this, event));
        on("pointerdown", this.#down);
        on("pointermove", this.#move);
        on("pointerup", this.#up);
        on("pointercancel", this.#up);
        on("keydown", this.#key);
        canvas.addEventListener("wheel", (event) => this.#wheel(event), { passive: false });
    }

    #at({ clientX, clientY }) {
        const box = this.#canvas.getBoundingClientRect();
        return [clientX - box.left, clientY - box.top];
    }

    #down(event) {
        if (event.button > 0) return;
        this.#canvas.setPointerCapture(event.pointerId);
        const at = this.#at(event);
        this.#pointers.set(event.pointerId, { began: at, at });
        this.#isTap = this.#pointers.size === 1;
    }

    #move(event) {
        const pointer = this.#pointers.get(event.pointerId);
        if (!pointer) return;
        const before = this.#spread();
        const at = this.#at(event);
        if (apart(at, pointer.began) > STILL) this.#isTap = false;
        pointer.at = at;
        if (this.#isTap) return;
        const now = this.#spread();
        this.#view.pan(now.middle[0] - before.middle[0], now.middle[1] - before.middle[1]);
        if (before.wide > 0) this.#view.zoom(now.wide / before.wide, now.middle);
        this.#told.moved();
    }

    /** Returns the middle of all pointers, and the distance of two. */
    #spread() {
        const places = [...this.#pointers.values()].map(({ at }) => at);
        const middle = [0, 1].map((axis) => places.reduce((sum, at) => sum + at[axis], 0) / places.length);
        return { middle, wide: places.length === 2 ? Math.max(1, apart(...places)) : 0 };
    }

    #up(event) {
        const pointer = this.#pointers.get(event.pointerId);
        if (!pointer || !this.#pointers.delete(event.pointerId)) return;
        if (this.#isTap && event.type === "pointerup") this.#told.tapped(pointer.began);
        this.#isTap = false;
    }

    #wheel(event) {
        event.preventDefault();
        const lines = event.deltaMode === WheelEvent.DOM_DELTA_LINE ? 16 : 1;
        this.#view.zoom(Math.exp(-Math.max(-120, Math.min(120, event.deltaY * lines)) / 300), this.#at(event));
        this.#told.moved();
    }

    #key(event) {
        const does = event.ctrlKey || event.metaKey || event.altKey ? undefined : KEYS[event.key];
        if (does === undefined) return;
        event.preventDefault();
        if (does === "tap") return this.#told.tapped(this.#view.centre);
        if (does === "fit") this.#view.fit();
        else if (typeof does === "number") this.#view.zoom(does);
        else this.#view.pan(...does);
        this.#told.moved();
    }
}

function apart(one, two) {
    return Math.hypot(one[0] - two[0], one[1] - two[1]);
}
