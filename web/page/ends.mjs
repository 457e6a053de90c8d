/**
 * The ends of a query: what a user types or taps, and the nodes that this means. A tapped place is one of the unproved
 * map that a server shows; it is kept, to be reported beside the proved place. Nobody trusts this file.
 */
import { NoAnswer } from "./server.mjs";

const MOST_TEXT = 200;

export class Ends {
    #fields;
    #streets;
    #lengths;
    #tapped = new Map();
    #next = "from";

    /** `fields` are the elements of the form. */
    constructor(fields, streets, lengths) {
        [this.#fields, this.#streets, this.#lengths] = [fields, streets, lengths];
    }

    get isRoute() {
        return this.#fields.ask.value === "route";
    }

    /** Returns the name of a node for an end: its streets and its id. */
    put(name, id) {
        const names = this.#streets.get(id);
        this.#fields[name].value = names ? `${names} (${id})` : `${id}`;
    }

    /** Uses a tapped node as the next end. Returns whether the query then has all its ends. */
    tap({ id, x, y }) {
        const name = this.isRoute ? this.#next : "from";
        this.put(name, id);
        this.#tapped.set(name, { text: this.#fields[name].value, id, place: { x, y } });
        if (name === "from") this.#fields.to.value = "";
        this.#next = this.isRoute && name === "from" ? "to" : "from";
        return this.#next === "from";
    }

    /** Returns the places tapped for the ends, as they are in the form: a place or nothing for each. */
    get places() {
        return (this.isRoute ? ["from", "to"] : ["from"]).map((name) => this.#tap(name)?.place ?? null);
    }

    #tap(name) {
        const tapped = this.#tapped.get(name);
        return tapped?.text === this.#fields[name].value ? tapped : undefined;
    }

    /** Returns the query in the form, with how each end was given. */
    asked() {
        this.#next = "from";
        const from = this.#end("from", "where to start");
        if (this.isRoute) {
            const to = this.#end("to", "where to go");
            return { ask: "route", from: from.id, end: to.id, by: [from, to] };
        }
        const radius = this.#lengths.read(this.#fields.radius.value);
        if (radius === null) throw new NoAnswer(`say how far, as a number of ${this.#lengths.typed.name || "lengths"}`);
        return { ask: "reach", from: from.id, end: radius, by: [from] };
    }

    /** Returns the node that a field names: as it was tapped, by its id, or by the streets that meet there. */
    #end(name, what) {
        const text = this.#fields[name].value.trim();
        if (!text) throw new NoAnswer(`say ${what}`);
        const tapped = this.#tap(name);
        if (tapped) return { how: "tapped", text, id: tapped.id, place: tapped.place };
        const named = idIn(text);
        if (named !== undefined) return { how: "typed", text, id: named };
        const [id] = this.#streets.nodesAt(text);
        if (id === undefined) throw new NoAnswer(`“${text}” is neither a node's id nor streets of the owner's table that meet`);
        return { how: "typed", text, id };
    }

    /** Returns the start node, as the form has it. */
    get from() {
        this.#next = "from";
        return this.#end("from", "where to start").id;
    }

    /** Returns the same for a link. */
    get fromLink() {
        return idIn(this.#fields.from.value) ?? this.#fields.from.value.trim();
    }

    /** Returns the query as the part of a link after `#`, with only its ends. */
    get link() {
        const said = (name) => idIn(this.#fields[name].value) ?? this.#fields[name].value.trim();
        return `#${new URLSearchParams({ from: said("from"), ...(this.isRoute ? { to: said("to") } : { within: said("radius") }) })}`;
    }

    /** Fills the form from such a part of a link, without a request. Returns whether there was any. */
    fill(link) {
        const said = new URLSearchParams(link.replace(/^#/, ""));
        const text = (name) => (said.get(name) ?? "").slice(0, MOST_TEXT);
        if (!said.has("from")) return false;
        this.#fields.ask.value = said.has("within") ? "reach" : "route";
        this.#fields.from.value = text("from");
        this.#fields[said.has("within") ? "radius" : "to"].value = text(said.has("within") ? "within" : "to");
        this.#tapped.clear();
        this.#next = "from";
        return true;
    }
}

/** Returns the id that a text is, or that it has in brackets at its end. */
function idIn(text) {
    const [, digits] = /^(?:.*\((\d{1,10})\)|(\d{1,10}))$/.exec(text.trim())?.filter((part) => part !== undefined) ?? [];
    return Number(digits) < 2 ** 32 ? Number(digits) : undefined;
}
