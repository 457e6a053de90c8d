/**
 * Shows an accepted result: the verdict in words, the drawing, the streets, and the files to pass on. Nobody trusts
 * this file for a verdict: it shows what the proved client said.
 */
import { dateSaid } from "./age.mjs";
import { Behind } from "./behind.mjs";
import { piecesOf } from "./bands.mjs";
import { apartSaid, placeSaid } from "./earth.mjs";
import { UNITS } from "./files.mjs";
import { partsOf } from "./formats.mjs";
import { Gestures } from "./gestures.mjs";
import { offer } from "./handed.mjs";
import { Pauses } from "./pauses.mjs";
import { Picture, hasCells } from "./picture.mjs";
import { shortName } from "./sha256.mjs";
import { Shapes } from "./shapes.mjs";
import { counted, element, part, say, tell, warn } from "./shown.mjs";
import { View } from "./view.mjs";
import { waysOf } from "./ways.mjs";

const LETTERS = "AB";
const ELSEWHERE = "The places that you tapped are not those that are proved: compare both ends.";

export class Result {
    #owner;
    #streets;
    #lengths;
    #checker;
    #degree;
    #listed = [];
    /** What was accepted last, as long as it is shown. */
    #shown = null;

    /** `tapped` is called with each node that a user taps. */
    constructor({ owner, streets, lengths, server, checker, tapped }) {
        [this.#owner, this.#streets, this.#lengths, this.#checker] = [owner, streets, lengths, checker];
        this.#degree = UNITS[owner.unit];
        this.shapes = new Shapes(this.#degree, lengths.perMetre);
        const view = new View(this.#degree);
        this.picture = new Picture(part("picture"), view, this.shapes);
        this.behind = new Behind(server, this.picture);
        const tap = (at) => {
            const node = this.picture.nearest(at);
            if (node) tapped(node);
        };
        new Gestures(part("picture"), view, { moved: () => this.picture.soon(), tapped: tap });
        for (const button of document.querySelectorAll("[data-zoom]")) {
            button.addEventListener("click", () => {
                if (button.dataset.zoom) view.zoom(Number(button.dataset.zoom));
                else view.fit();
                this.picture.draw();
            });
        }
        part("proof").addEventListener("change", ({ target }) => this.#showProof(target.checked));
        part("all").addEventListener("toggle", () => this.#list());
    }

    /** Returns a node in words: its streets, or its id if the owner's table has none. */
    named(id) {
        return this.#streets.get(id) || `node ${id}`;
    }

    /** If bends of roads that nobody signs are shown, the legend says so. */
    showShapes(text) {
        this.shapes.read(text);
        part("bends").hidden = this.shapes.isEmpty;
        this.picture.showShapes();
        if (this.#shown) this.#showWays(this.#shown);
    }

    /** Shows an accepted reply. Returns it with its parts. */
    async accepted(one) {
        const { asked, found } = one;
        const accepted = { ...one, parts: await partsOf(one.octets) };
        const { head, leaves } = accepted.parts;
        const bounds = found.kind === "within" ? this.#lengths.bands(asked.end) : [];
        const bands = bounds.length > 0 ? await piecesOf(found.nodes, leaves, bounds, this.shapes, new Pauses()) : [];
        const id = shortName(head.text, head.signature);
        const isHere = this.behind.has(id);
        const coming = this.behind.showBeside(id, leaves);
        const warnings = isHere ? dropped(await coming) : [];
        return { ...accepted, id, bounds, bands, warnings, coming: isHere ? Promise.resolve("") : coming };
    }

    show(accepted) {
        const { asked, found, parts, id, bounds, bands, warnings, coming } = accepted;
        const places = new Map(parts.leaves.map((leaf) => [leaf.id, leaf]));
        const ends = asked.ask === "route" ? [asked.from, asked.end] : [asked.from];
        const nodes = found.nodes ?? ends.map((end) => places.get(end));
        this.picture.showProved({ parts, nodes: found.nodes ?? [], ends, bands });
        const isElsewhere = asked.by.some(({ id, place }) => isApart(place, places.get(id)));
        say("accepted", "Proved:", this.#sentence(accepted), { warnings: warnings.length === 0 && isElsewhere ? [ELSEWHERE] : warnings });
        coming.then((said) => part("verdict").dataset.of === id && dropped(said).forEach(warn));
        part("verdict").dataset.of = id;
        this.#showEnds(accepted, places);
        this.#shown = accepted;
        this.#showWays(accepted);
        this.#showLegend(accepted, bounds);
        this.#listed = found.nodes ?? [];
        part("all").hidden = this.#listed.length === 0;
        this.#list();
        tell({ ...this.ofKey(), ...this.#facts(accepted) });
        offer(accepted, accepted.octets, { nodes, streets: this.#streets, shapes: this.shapes, lengths: this.#lengths, owner: this.#owner, chain: this.#checker.chain });
        part("picture").setAttribute("aria-label", `Map of what was proved: ${this.#sentence(accepted)}`);
    }

    /** Nothing that is not accepted is drawn. */
    nothing(error, isLie) {
        this.picture.showNothing();
        this.#shown = null;
        part("verdict").dataset.of = "";
        part("picture").setAttribute("aria-label", "Map. Nothing is proved.");
        for (const name of ["ends", "ways", "all", "bands"]) part(name).hidden = true;
        const isRefused = error.name === "Refused";
        if (isRefused) say("refused", isLie ? "The lie is refused:" : "Refused:", error.sentence, { line: error.line || error.kind });
        else say("failed", "There is no verdict:", `${error.message}.`);
        tell({ ...this.ofKey(), "Reply": isRefused && error.octets ? octetsSaid(error.octets) : "", "Check": timeSaid(error.took) });
        offer(null, error.octets, { owner: this.#owner, chain: this.#checker.chain });
    }

    ofKey() {
        const key = Uint8Array.from(this.#owner.key.match(/../g), (digits) => parseInt(digits, 16));
        return { "Map": this.#owner.name, "Owner's key": shortName(key), "Chain of keys": this.#checker.links ? counted(this.#checker.links, "link") : "" };
    }

    #sentence({ asked, found }) {
        const map = `in version ${found.version} of the owner's map${this.#owner.name ? ` “${this.#owner.name}”` : ""}`;
        const [from, to] = [this.named(asked.from), this.named(asked.end)];
        if (found.kind === "no route") return `no road leads from ${from} to ${to}, ${map}.`;
        if (found.kind === "within") return `${counted(found.nodes.length, "node")}, and no other, within ${this.#lengths.said(asked.end)} of ${from}, ${map}.`;
        return `a shortest route from ${from} to ${to}, ${this.#lengths.said(found.length)} long, ${map}.`;
    }

    /** Shows both ends, as requested and as proved. */
    #showEnds({ asked }, places) {
        const rows = asked.by.map(({ how, text, id, place }, at) => {
            const leaf = places.get(id);
            const said = place ? `tapped at ${placeSaid(place, this.#degree)}` : `asked for as ${text}`;
            const row = element("li", "", { className: isApart(place, leaf) ? "apart" : how });
            row.append(
                element("b", LETTERS[at], { className: at === 0 ? "start" : "end" }), element("span", this.named(id)), element("small", said),
                element("small", `proved at ${placeSaid(leaf, this.#degree)}`),
                ...(isApart(place, leaf) ? [element("strong", `${apartSaid(place, leaf, this.#degree)} from where you tapped`)] : []),
            );
            return row;
        });
        part("ends").replaceChildren(...rows);
        part("ends").hidden = false;
    }

    /** Shows the streets of a route, in order, and where the owner's file of shapes says that a bicycle is pushed. */
    #showWays({ found, parts }) {
        const ways = found.kind === "route" ? waysOf(found.nodes.map(({ id }) => id), parts.leaves, this.#streets, this.shapes) : [];
        const rows = ways.map(({ name, length, push }) => {
            const row = element("li", "");
            const pushed = push > 0 ? [element("small", `push ${this.#lengths.said(push)}`, { className: "push" })] : [];
            row.append(element("span", name || "a road without a name"), ...pushed, element("small", this.#lengths.said(length)));
            return row;
        });
        part("pushed").hidden = ways.every(({ push }) => push === 0);
        part("ways").querySelector("ol").replaceChildren(...rows);
        part("ways").hidden = rows.length === 0;
    }

    #showLegend({ found, parts }, bounds) {
        const there = { route: found.kind === "route", pairs: parts.pairs.length > 0, cells: hasCells(parts), landmarks: parts.head.method === "LDM" };
        for (const line of document.querySelectorAll("#legend [data-for]")) line.hidden = !there[line.dataset.for];
        const within = (bound) => found.nodes.filter(({ distance }) => Number(distance) <= bound).length;
        const rows = bounds.map((bound, at) => element("li", `within ${this.#lengths.said(bound)}: ${counted(within(bound), "node")}`, { className: `band${at + 1}` }));
        part("bands").replaceChildren(...rows);
        part("bands").hidden = rows.length === 0;
    }

    #showProof(isShown) {
        this.picture.showProof(isShown);
        for (const line of document.querySelectorAll("#legend .proof")) line.classList.toggle("off", !isShown);
    }

    /** Shows all nodes of a verdict, each with its streets and its distance, once a user opens the fold. */
    #list() {
        part("nodes").textContent = part("all").open ? this.#nodesSaid(this.#listed) : "";
    }

    #nodesSaid(nodes) {
        const far = ({ distance }) => (distance === undefined ? "" : `at ${this.#lengths.exact(distance)}`);
        return nodes.map((node) => [node.id, this.#streets.get(node.id), far(node)].filter(Boolean).join(", ")).join("\n");
    }

    /** Shows what is known of an accepted reply besides its verdict. */
    #facts({ parts: { head, leaves, pairs, nodeCover, pairCover }, octets, found, took, id }) {
        const over = { LDM: `${counted(head.second, "landmark")}, `, HYP: `${head.first} by ${head.second} cells, ` }[head.method] ?? "";
        return {
            "Length": found.kind === "route" ? this.#lengths.exact(found.length) : "",
            "Version": `${found.version}`,
            "Signed": dateSaid(found.version),
            "Publication": id,
            "Method": `${head.method}, ${over}${counted(head.nodes, "node")}, leaves ${head.order}`,
            "Proof": `${counted(leaves.length, "node")}, ${counted(pairs.length, "distance")}, ${counted(nodeCover.length + pairCover.length, "digest")}`,
            "Reply": octetsSaid(octets),
            "Check": timeSaid(took),
        };
    }
}

/** Tests whether a tapped place differs from the proved one. */
function isApart(place, leaf) {
    return Boolean(place) && (place.x !== leaf.x || place.y !== leaf.y);
}

function dropped(said) {
    return said ? [`The server's map is dropped, since it differs from what is proved: ${said}. If you tapped it, you may have meant other places: compare both ends.`] : [];
}

function octetsSaid(octets) {
    return counted(octets.length, "octet");
}

function timeSaid(took) {
    return took === undefined ? "" : `${took < 10 ? took.toFixed(1) : Math.round(took)} ms`;
}
