/**
 * A list of stations: which of them are nearest to a node, by which way, and what they cover within a limit. Everything
 * comes from replies that the proved client accepted, over one publication; a list of all nodes within a radius omits
 * none that is nearer. Nobody trusts this file for a verdict. Roads have the same length in both directions; there are
 * no one-way streets and no turns.
 */
import { piecesOf } from "./bands.mjs";
import { partsOf } from "./formats.mjs";
import { Pauses } from "./pauses.mjs";
import { NoAnswer } from "./server.mjs";
import { shortName } from "./sha256.mjs";
import { counted, element, part, say, tell } from "./shown.mjs";
import { GREATEST, radiusFrom } from "./radii.mjs";
import { uncoveredOf } from "./uncovered.mjs";
import { waysOf } from "./ways.mjs";

const NEAREST = 3;
const MOST_STATIONS = 100;
const LETTERS = "BCDEFGHIJKLMNOPQRSTUVWXYZ";

export class Stations {
    #fields;
    #ends;
    #lengths;
    #streets;
    #asker;

    constructor({ fields, ends, lengths, streets, asker }) {
        [this.#fields, this.#ends, this.#lengths, this.#streets, this.#asker] = [fields, ends, lengths, streets, asker];
        fields.file.addEventListener("change", ({ target }) => this.#read(target));
    }

    /** Tests whether the form is a query about stations. */
    get isAsked() {
        return ["nearest", "cover"].includes(this.#fields.ask.value);
    }

    /** Uses a tapped node as a station, if taps are for stations. Returns whether they are. */
    tap({ id }) {
        if (!this.isAsked || (this.#fields.ask.value === "nearest" && !this.#fields.taps.checked)) return false;
        const text = this.#fields.stations.value.trimEnd();
        if (!text.split("\n").some((line) => Number.parseInt(line, 10) === id)) {
            this.#fields.stations.value = `${text}${text && "\n"}${id} ${this.#streets.get(id) ?? ""}`.trimEnd();
        }
        return true;
    }

    /** Returns the stations with their names, from the lines of the list. */
    get listed() {
        const found = new Map();
        for (const [at, line] of this.#fields.stations.value.split("\n").entries()) {
            const [, digits, name] = /^\s*(\d{1,10})(?:[\s,]+(.*))?$/.exec(line.replace(/#.*/, "").trimEnd()) ?? [];
            if (digits === undefined && !line.replace(/#.*/, "").trim()) continue;
            const id = Number(digits);
            if (!(id < 2 ** 32)) throw new NoAnswer(`line ${at + 1} of the stations does not begin with a node's id`);
            if (found.has(id)) throw new NoAnswer(`line ${at + 1} of the stations: node ${id} occurs twice`);
            found.set(id, name?.trim() || this.#streets.get(id) || `node ${id}`);
        }
        if (found.size === 0) throw new NoAnswer("name a station, or tap one");
        if (found.size > MOST_STATIONS) throw new NoAnswer(`at most ${MOST_STATIONS} stations are asked about at once`);
        return found;
    }

    /** Returns the query as the part of a link after `#`, with only ids. */
    get link() {
        const ids = [...this.listed.keys()].join(",");
        const first = this.#fields.ask.value === "cover" ? { within: this.#fields.radius.value.trim() } : { from: this.#ends.fromLink };
        return `#${new URLSearchParams({ ...first, stations: ids })}`;
    }

    /** Fills the form from such a part of a link, without a request. Returns whether there was any. */
    fill(link) {
        const said = new URLSearchParams(link.replace(/^#/, ""));
        const ids = said.get("stations") ?? "";
        if (!/^\d{1,10}(,\d{1,10}){0,99}$/.test(ids)) return false;
        this.#fields.ask.value = said.has("within") ? "cover" : "nearest";
        this.#fields[said.has("within") ? "radius" : "from"].value = (said.get("within") ?? said.get("from") ?? "").slice(0, 200);
        this.#fields.stations.value = ids.replaceAll(",", "\n");
        return true;
    }

    async #read(input) {
        if (input.files.length > 0) this.#fields.stations.value = (await input.files[0].text()).slice(0, 20_000).trimEnd();
        input.value = "";
        this.#fields.stations.dispatchEvent(new Event("input", { bubbles: true }));
    }

    // ---- requests

    /** Returns what is proved of the query in the form. `id` names a publication; otherwise it is the newest. */
    async planned(id) {
        const over = new Over(this.#asker, id);
        const stations = this.listed;
        if (this.#fields.ask.value === "nearest") return this.#nearest(over, this.#ends.from, stations);
        const limit = this.#lengths.read(this.#fields.radius.value);
        if (limit === null) throw new NoAnswer(`say how far, as a number of ${this.#lengths.typed.name || "lengths"}`);
        return this.#cover(over, stations, limit);
    }

    async #nearest(over, from, stations) {
        const alone = await over.reach(from, 0n);
        const longest = Math.max(1, ...alone.parts.leaves.flatMap(({ arcs }) => arcs.map(({ length }) => length)));
        let [radius, leaves, one] = [radiusFrom(4 * longest), 0, alone];
        const wanted = Math.min(NEAREST, stations.size);
        let inside = [];
        for (;;) {
            one = await over.reach(from, radius);
            inside = one.found.nodes.filter((node) => stations.has(node.id)).sort(byDistance);
            if (inside.length >= wanted || radius === GREATEST) break;
            // if a greater radius has no more nodes, only the greatest one shows more
            radius = one.found.nodes.length === leaves ? GREATEST : radiusFrom(2 * Number(radius));
            leaves = one.found.nodes.length;
        }
        const ways = [];
        for (const { id, distance } of inside.slice(0, wanted)) {
            const way = await over.ask({ ask: "route", from, end: id });
            if (way.found.kind !== "route" || way.found.length !== distance) throw new NoAnswer(`two accepted replies disagree on station ${id}: keep both for an audit`);
            ways.push({ id, name: stations.get(id), length: distance, route: way.found.nodes });
        }
        for (const id of inside.length === 0 ? stations.keys() : []) {
            const way = await over.ask({ ask: "route", from, end: id });
            if (way.found.kind !== "no route") throw new NoAnswer(`two accepted replies disagree on station ${id}: keep both for an audit`);
        }
        return { kind: "nearest", over, from, stations, ways, limit: ways.at(-1)?.length ?? 0n, nodes: one.found.nodes };
    }

    async #cover(over, stations, limit) {
        const costs = new Map();
        const served = new Map();
        for (const id of stations.keys()) {
            const { found, parts } = await over.reach(id, limit);
            const known = new Set(parts.leaves.map((leaf) => leaf.id));
            const leaving = parts.leaves.flatMap(({ arcs }) => arcs.filter(({ to }) => !known.has(to)).map(({ length }) => length));
            // the places at which roads are cut lie between those of their ends
            if (leaving.length > 0) await over.reach(id, limit + BigInt(leaving.reduce((one, other) => Math.max(one, other))));
            for (const { id: node, distance } of found.nodes) {
                if (!(costs.get(node) <= distance)) {
                    costs.set(node, distance);
                    served.set(node, id);
                }
            }
        }
        return { kind: "cover", over, stations, limit, costs, served };
    }

    // ---- showing

    /** Shows a plan in the page, drawn as `result` draws what is proved. */
    async show(plan, result) {
        const { over, kind, limit } = plan;
        const leaves = [...over.leaves.values()];
        const places = new Map(leaves.map((leaf) => [leaf.id, leaf]));
        const nodes = kind === "cover" ? leaves.filter(({ id }) => plan.costs.has(id)).map((leaf) => ({ ...leaf, distance: plan.costs.get(leaf.id) })) : plan.nodes;
        const bounds = limit > 0n ? this.#lengths.bands(limit) : [];
        // the ends of cut roads cost more than any band
        const behind = kind === "cover" ? leaves.filter(({ id }) => !plan.costs.has(id)).map((leaf) => ({ ...leaf, distance: Infinity })) : [];
        const bands = bounds.length > 0 ? await piecesOf([...nodes, ...behind], leaves, bounds, result.shapes, new Pauses()) : [];
        const said = await result.behind.showBeside(over.id, leaves);
        const map = kind === "cover" ? result.behind.map : null;
        const lacking = map ? await uncoveredOf(map, plan.costs, Number(limit), result.shapes, new Pauses()) : [];
        const ends = kind === "nearest" ? [plan.from, ...plan.ways.map(({ id }) => id)] : [...plan.stations.keys()];
        const ways = (plan.ways ?? []).map(({ route }) => route.map(({ id }) => id));
        result.picture.showProved({ parts: { kind: "within", head: over.head, leaves, pairs: [] }, nodes, ends, bands, ways, lacking, places });
        const warnings = said ? [`The server's map is dropped, since it differs from what is proved: ${said}.`] : [];
        if (kind === "cover") {
            warnings.push(map ? "Roads that no station reaches are drawn by the server's map, which nobody proved."
                : "The server's map is not shown, so roads that no station reaches are not drawn.");
        }
        say("accepted", "Proved:", this.#sentence(plan), { warnings });
        this.#list(plan, places, result.shapes);
        this.#legend(plan, bounds, nodes, lacking.length > 0);
        const replies = counted(over.count, "reply").replace("replys", "replies");
        tell({ ...result.ofKey(), "Version": `${over.head.version}`, "Publication": over.id, "Replies": replies, "Octets": counted(over.octets, "octet") });
        part("picture").setAttribute("aria-label", `Map of what was proved: ${this.#sentence(plan)}`);
    }

    #sentence({ kind, over, from, stations, ways, limit, costs }) {
        const map = `in version ${over.head.version} of the owner's map`;
        const named = (id) => this.#streets.get(id) || `node ${id}`;
        if (kind === "cover") {
            const none = over.head.nodes - costs.size;
            return `within ${this.#lengths.said(limit)} of ${counted(stations.size, "station")} are ${counted(costs.size, "node")}, and ${counted(none, "node")} that none reaches, ${map}.`;
        }
        if (ways.length === 0) return `no station is joined to ${named(from)}, ${map}.`;
        const few = ways.length < Math.min(NEAREST, stations.size) ? " No other station is joined to it, or is a node." : "";
        const each = ways.map(({ name, length }) => `${name}, ${this.#lengths.said(length)}`).join("; ");
        return `${counted(ways.length, "station")} nearest to ${named(from)}, of ${stations.size}: ${each}, ${map}.${few}`;
    }

    /** Shows the stations with their costs: the way to each, or the number of nodes for which each is the nearest. */
    #list({ kind, stations, ways, served }, places, shapes) {
        const row = (letter, name, said, more) => {
            const line = element("li", "");
            line.append(element("b", letter, { className: letter === "A" ? "start" : "end" }), element("span", name), element("small", said), ...(more ? [element("small", more)] : []));
            return line;
        };
        const count = (id) => [...served.values()].filter((one) => one === id).length;
        const pushed = (push) => (push > 0 ? ` (push ${this.#lengths.said(push)})` : "");
        const legs = (route) => waysOf(route.map(({ id }) => id), [...places.values()], this.#streets, shapes);
        const wayOf = (route) => legs(route).map(({ name, length, push }) => `${name || "a road without a name"} ${this.#lengths.said(length)}${pushed(push)}`).join(", ");
        const rows = kind === "cover" ? [...stations].map(([id, name], at) => row(`A${LETTERS}`[at] ?? "", name, `nearest of ${counted(count(id), "node")}`))
            : ways.map(({ name, length, route }, at) => row(LETTERS[at] ?? "", name, this.#lengths.exact(length), wayOf(route)));
        part("plan").querySelector("ol").replaceChildren(...rows);
        part("plan").hidden = false;
    }

    #legend({ kind }, bounds, nodes, hasLacking) {
        const isDrawn = { route: kind === "nearest", lack: hasLacking };
        for (const line of document.querySelectorAll("#legend [data-for]")) line.hidden = !isDrawn[line.dataset.for];
        const within = (bound) => nodes.filter(({ distance }) => Number(distance) <= bound).length;
        part("bands").replaceChildren(...bounds.map((bound, at) => element("li", `within ${this.#lengths.said(bound)}: ${counted(within(bound), "node")}`, { className: `band${at + 1}` })));
        part("bands").hidden = bounds.length === 0;
    }
}

/** Sends requests over one publication, and keeps the leaves of accepted replies. */
class Over {
    #asker;
    leaves = new Map();
    head = null;
    count = 0;
    octets = 0;

    constructor(asker, id) {
        [this.#asker, this.id] = [asker, id];
    }

    reach(from, radius) {
        return this.ask({ ask: "reach", from, end: radius });
    }

    async ask(asked) {
        const one = await this.#asker.answered(asked, this.id);
        const parts = await partsOf(one.octets);
        const id = shortName(parts.head.text, parts.head.signature);
        if (this.id !== undefined && id !== this.id) throw new NoAnswer("the server answers over another publication than was asked");
        [this.id, this.head] = [id, parts.head];
        this.count++;
        this.octets += one.octets.length;
        for (const leaf of parts.leaves) this.leaves.set(leaf.id, leaf);
        return { ...one, parts };
    }
}

function byDistance(one, two) {
    return one.distance < two.distance ? -1 : one.distance > two.distance ? 1 : one.id - two.id;
}
