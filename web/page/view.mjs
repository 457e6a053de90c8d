/**
 * Which part of a map a drawing shows, and where a place of the map is on it. On a map y grows upwards, and a degree of
 * longitude is shorter than one of latitude by the cosine of the latitude.
 */
const EDGE = 40;
const [LEAST_ZOOM, MOST_ZOOM] = [1 / 32, 512];

export class View {
    #degree;
    #width = 1;
    #height = 1;
    #middle = { x: 0, y: 0 };
    #narrow = 1;
    #scale = 1;
    #fitted = 1;
    #isMoved = false;
    #places = [];

    /** `degree` is how many of a coordinate make a degree, or nothing if the map is a plane. */
    constructor(degree) {
        this.#degree = degree;
    }

    /** Takes the size of the drawing in pixels of the page. Whatever was fitted into it stays fitted. */
    resize(width, height) {
        [this.#width, this.#height] = [width, height];
        if (!this.#isMoved) this.fit(this.#places);
    }

    /** Shows all of some places, or again those shown before. */
    fit(places = this.#places) {
        this.#places = places;
        this.#isMoved = false;
        let [left, right, bottom, top] = [Infinity, -Infinity, Infinity, -Infinity];
        for (const { x, y } of places) {
            [left, right] = [Math.min(left, x), Math.max(right, x)];
            [bottom, top] = [Math.min(bottom, y), Math.max(top, y)];
        }
        if (left > right) return;
        this.#middle = { x: (left + right) / 2, y: (bottom + top) / 2 };
        this.#narrow = this.#degree ? Math.max(0.01, Math.cos((this.#middle.y / this.#degree / 180) * Math.PI)) : 1;
        const [wide, high] = [Math.max(1, this.#width - 2 * EDGE), Math.max(1, this.#height - 2 * EDGE)];
        this.#scale = this.#fitted = Math.min(wide / Math.max(1, (right - left) * this.#narrow), high / Math.max(1, top - bottom));
    }

    /** Returns where a place is, in pixels from the left and from above. */
    at({ x, y }) {
        return [this.#width / 2 + (x - this.#middle.x) * this.#narrow * this.#scale, this.#height / 2 - (y - this.#middle.y) * this.#scale];
    }

    /** Returns the step from coordinates, relative to an origin, to pixels. */
    matrix(origin) {
        const [left, above] = this.at(origin);
        return new DOMMatrix([this.#narrow * this.#scale, 0, 0, -this.#scale, left, above]);
    }

    /** Returns the middle of the drawing, in pixels. */
    get centre() {
        return [this.#width / 2, this.#height / 2];
    }

    /** Moves the view by this many pixels to the right and down. */
    pan(right, down) {
        this.#isMoved = true;
        this.#middle = { x: this.#middle.x - right / (this.#narrow * this.#scale), y: this.#middle.y + down / this.#scale };
    }

    /** Magnifies a place of the drawing this many times. */
    zoom(times, [left, above] = this.centre) {
        const scale = Math.min(this.#fitted * MOST_ZOOM, Math.max(this.#fitted * LEAST_ZOOM, this.#scale * times));
        const [right, down] = [left - this.#width / 2, above - this.#height / 2];
        const by = scale / this.#scale;
        this.#scale = scale;
        this.pan(right - right * by, down - down * by);
    }
}
