/**
 * Dijkstra's algorithm over the leaves of a reply, for the page's lies. It pauses between its pieces. Nobody trusts
 * this file: the proved client searches by itself.
 */

/** Distances with their nodes, the least first. */
class Heap {
    #items = [];

    get isEmpty() {
        return this.#items.length === 0;
    }

    push(item) {
        const items = this.#items;
        let at = items.push(item) - 1;
        for (let above = (at - 1) >> 1; at > 0 && items[above].distance > item.distance; above = (at - 1) >> 1) {
            items[at] = items[above];
            at = above;
        }
        items[at] = item;
    }

    pop() {
        const [items, least] = [this.#items, this.#items[0]];
        const item = items.pop();
        if (items.length > 0) this.#sink(item);
        return least;
    }

    /** Puts an item at the top, and moves it down to its place. */
    #sink(item) {
        const items = this.#items;
        let at = 0;
        for (let below = 1; below < items.length; below = 2 * at + 1) {
            if (below + 1 < items.length && items[below + 1].distance < items[below].distance) below++;
            if (items[below].distance >= item.distance) break;
            items[at] = items[below];
            at = below;
        }
        items[at] = item;
    }
}

export class Graph {
    #arcs;
    #pauses;

    constructor(leaves, pauses) {
        this.#arcs = new Map(leaves.map(({ id, arcs }) => [id, arcs]));
        this.#pauses = pauses;
    }

    /**
     * Yields each node that arcs between leaves reach, by ascending distance, with the node before it; no hop in
     * `barred` is taken.
     */
    async reached(start, barred = []) {
        const [open, best, settled] = [new Heap(), new Map([[start, 0]]), new Map()];
        open.push({ distance: 0, here: start, before: null });
        while (!open.isEmpty) {
            if (this.#pauses.isDue) await this.#pauses.pause();
            const { distance, here, before } = open.pop();
            if (settled.has(here)) continue;
            settled.set(here, { distance, before });
            for (const { to, length } of this.#arcs.get(here) ?? []) {
                const isBarred = !this.#arcs.has(to) || (barred[0] === here && barred[1] === to);
                if (isBarred || distance + length >= (best.get(to) ?? Infinity)) continue;
                best.set(to, distance + length);
                open.push({ distance: distance + length, here: to, before: here });
            }
        }
        return settled;
    }
}
