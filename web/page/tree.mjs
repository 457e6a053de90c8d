/**
 * What is known of a signed tree (docs/SPEC.md, "Trees" and "Covers and folds"), so that the page's lies can use any
 * leaves from honest replies, with a good cover. Nobody trusts this file: the proved client recomputes roots.
 */
import { joined, sha256 } from "./sha256.mjs";

export class Tree {
    #fan;
    /** Returns the number of places of each level, from the leaves up. */
    #counts;
    #digests = new Map();
    #pauses;

    constructor(leaves, fan, pauses) {
        this.#fan = fan;
        this.#pauses = pauses;
        this.#counts = [leaves];
        while (this.#counts.at(-1) > 1) this.#counts.push(Math.ceil(this.#counts.at(-1) / fan));
    }

    /** Learns what the items and the cover of a reply say of the tree. */
    async learn(items, cover) {
        let next = 0;
        for await (const { level, place, isChosen } of this.#spots(items)) {
            if (!isChosen) this.#digests.set(`${level} ${place}`, cover[next++]);
        }
        for (const { index, text } of items) {
            if (this.#pauses.isDue) await this.#pauses.pause();
            this.#digests.set(`0 ${index}`, sha256([0], text));
        }
    }

    /** Returns the cover of some items among those learnt; a tree without items has an empty one. */
    async cover(items) {
        const digests = [];
        for await (const { level, place, isChosen } of this.#spots(items)) {
            if (!isChosen) digests.push(await this.#digest(level, place));
        }
        return digests;
    }

    /**
     * Yields, from the top, each place that recomputing the root from these items visits, and whether an item is at or
     * below it.
     */
    async *#spots(items) {
        if (items.length === 0) return;
        const chosen = await this.#chosen(items);
        const open = [[this.#counts.length - 1, 0]];
        while (open.length > 0) {
            if (this.#pauses.isDue) await this.#pauses.pause();
            const [level, place] = open.pop();
            const isChosen = chosen[level].has(place);
            yield { level, place, isChosen };
            if (isChosen) open.push(...this.#below(level, place).reverse());
        }
    }

    /** Returns, for each level from the leaves up, the places at or below which there is an item. */
    async #chosen(items) {
        const levels = [];
        let places = items.map(({ index }) => index);
        for (const _ of this.#counts) {
            const level = new Set();
            for (const place of places) {
                if (this.#pauses.isDue) await this.#pauses.pause();
                level.add(place);
            }
            levels.push(level);
            places = [...level].map((place) => Math.floor(place / this.#fan));
        }
        return levels;
    }

    #below(level, place) {
        if (level === 0) return [];
        const end = Math.min((place + 1) * this.#fan, this.#counts[level - 1]);
        return Array.from({ length: end - place * this.#fan }, (_, child) => [level - 1, place * this.#fan + child]);
    }

    async #digest(level, place) {
        const known = this.#digests.get(`${level} ${place}`);
        if (known) return known;
        if (this.#pauses.isDue) await this.#pauses.pause();
        const below = [];
        for (const child of this.#below(level, place)) below.push(await this.#digest(...child));
        if (below.length === 0) throw new Error("a leaf that no reply brought");
        const made = sha256([1], joined(...below));
        this.#digests.set(`${level} ${place}`, made);
        return made;
    }
}
