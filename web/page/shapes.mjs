/**
 * The bends of roads between their ends, and the one-way streets along which a bicycle is pushed against their
 * direction, from the owner's file of shapes. Nobody signs them, and the page says so. A line is drawn only if both its
 * ends are the reported places and, if places are on earth and lengths metres, it is no longer than the road.
 */
import { metres } from "./earth.mjs";

/** A reader measures by a formula other than the writer's. */
const SLACK = 1.000001;
const MOST_POINTS = 10_000;

export class Shapes {
    #lines = new Map();
    #pushed = new Set();
    #degree;
    #perMetre;
    /** Lines that were looked up, with whether they may be drawn, by the length of their road. */
    #judged = new Map();

    constructor(degree, perMetre) {
        this.#degree = degree;
        this.#perMetre = perMetre;
    }

    /** Takes a file of shapes. */
    read(text) {
        const { shapes, lines, push = [] } = JSON.parse(text);
        if (shapes !== 1) throw new Error("no file of shapes");
        for (const [name, line] of Object.entries(lines)) {
            const isLine = line.length > 1 && line.length <= MOST_POINTS && line.every((point) => point.length === 2 && point.every(Number.isSafeInteger));
            if (isLine) this.#lines.set(name, line.map(([x, y]) => ({ x, y })));
        }
        this.#pushed = new Set(push);
    }

    get isEmpty() {
        return this.#lines.size === 0;
    }

    get hasPushed() {
        return this.#pushed.size > 0;
    }

    /** Tests whether a cyclist may have to push between two nodes, by their ids. */
    isPushed(a, b) {
        return this.#pushed.has(a < b ? `${a} ${b}` : `${b} ${a}`);
    }

    /** Returns the points of a road from one node to another, both with their ids and places. */
    line(from, to, length) {
        const [low, high] = from.id < to.id ? [from, to] : [to, from];
        const name = `${low.id} ${high.id}`;
        const line = this.#lines.get(name);
        if (!line || !isAt(line[0], low) || !isAt(line.at(-1), high) || !this.#fits(name, line, length)) return [from, to];
        return low === from ? line : line.toReversed();
    }

    #fits(name, line, length) {
        if (!this.#degree || !this.#perMetre) return true;
        const key = `${name} ${length}`;
        if (!this.#judged.has(key)) {
            const long = line.slice(1).reduce((sum, point, at) => sum + metres(line[at], point, this.#degree), 0);
            this.#judged.set(key, long * this.#perMetre <= length * SLACK);
        }
        return this.#judged.get(key);
    }
}

function isAt(point, { x, y }) {
    return point.x === x && point.y === y;
}
