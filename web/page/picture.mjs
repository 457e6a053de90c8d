/**
 * Draws on a canvas: what a server shows, unproved, in grey; what an accepted reply holds in colours; the proof below
 * and the answer last. As soon as something is proved, it determines the view. Nobody trusts this file for a verdict:
 * it shows one.
 */
import { cells, cross, dashes, diamonds, mark, pathOf, points, seen, squares, stroke } from "./paint.mjs";

const TAP = 40;
const FAINT = 0.3;
const COLOURS = ["grey", "route", "leaf", "pair", "cell", "start", "end", "paper", "outline", "lack", "band1", "band2", "band3", "band4", "band5"];
const LETTERS = "ABCDEFGHIJKLMNOPQRSTUVWXYZ";
const NOWHERE = { x: 0, y: 0 };

/** Tests whether cells belong to the proof; on a radius no test looks at them. */
export function hasCells({ head, kind }) {
    return head.method === "HYP" && kind !== "within";
}

export class Picture {
    #canvas;
    #view;
    #shapes;
    #map = null;
    #proved = null;
    #asked = [];
    #isBefore = false;
    #hasProof = true;
    #isDue = false;
    #paths = {};

    constructor(canvas, view, shapes) {
        [this.#canvas, this.#view, this.#shapes] = [canvas, view, shapes];
        new ResizeObserver(() => this.draw()).observe(canvas);
        for (const media of ["(prefers-color-scheme: dark)", "print"]) matchMedia(media).addEventListener("change", () => this.draw());
        for (const event of ["focus", "blur"]) canvas.addEventListener(event, () => this.draw());
    }

    /** Sets the map as a server shows it, or none. */
    showMap(map) {
        this.#map = map;
        this.#paths.map = null;
        if (map && !this.#proved) this.#view.fit(map.nodes);
        this.draw();
    }

    /** The owner's file of shapes is loaded. */
    showShapes() {
        this.#paths = {};
        this.draw();
    }

    /**
     * Sets what was proved: the parts of an accepted reply, the nodes of its verdict, and the requested ends. A radius
     * has `bands`, the pieces of roads in each; stations have `ways`, the nodes of each, and `lacking`, the lines of
     * roads that none reaches on the map that a server shows.
     */
    showProved({ parts, nodes, ends, bands = [], ways = parts.kind === "route" ? [nodes.map(({ id }) => id)] : [], lacking = [] }) {
        const places = new Map(parts.leaves.map((leaf) => [leaf.id, leaf]));
        const answer = nodes.length > 0 ? nodes : parts.leaves;
        this.#proved = { parts, nodes, ends: ends.map((id) => places.get(id)), bands, ways, lacking, places };
        [this.#asked, this.#isBefore, this.#paths] = [[], false, { map: this.#paths.map }];
        this.#view.fit(answer);
        this.draw();
    }

    /** What is drawn as proved belongs to a query other than the current one. */
    showBefore() {
        this.#isBefore = this.#proved !== null;
        this.draw();
    }

    showNothing() {
        [this.#proved, this.#asked, this.#isBefore] = [null, [], false];
        this.draw();
    }

    /** Marks the ends that a user requests: a place or nothing for each. */
    showAsked(ends) {
        this.#asked = ends;
        this.draw();
    }

    /** Tests whether the proof of the answer is drawn below it. */
    showProof(isShown) {
        this.#hasProof = isShown;
        this.draw();
    }

    /** Returns the drawn node nearest to a place of the drawing, or nothing if none is near. */
    nearest([left, above]) {
        let [best, least] = [null, TAP];
        for (const node of [...(this.#proved?.parts.leaves ?? []), ...(this.#map?.nodes ?? [])]) {
            const [x, y] = this.#view.at(node);
            const far = Math.hypot(x - left, y - above);
            if (far < least) [best, least] = [node, far];
        }
        return best;
    }

    /** Draws before the next frame of the screen. */
    soon() {
        if (this.#isDue) return;
        this.#isDue = true;
        requestAnimationFrame(() => {
            this.#isDue = false;
            this.draw();
        });
    }

    draw() {
        const { clientWidth: width, clientHeight: height } = this.#canvas;
        if (width === 0 || height === 0) return;
        this.#view.resize(width, height);
        const pen = this.#penOn(this.#canvas);
        const style = getComputedStyle(this.#canvas);
        const colour = Object.fromEntries(COLOURS.map((name) => [name, style.getPropertyValue(`--${name}`).trim()]));
        const over = this.#isBefore ? this.#penOn(document.createElement("canvas")) : pen;
        if (this.#proved) this.#drawBands(over, colour);
        if (this.#map) this.#drawMap(pen, colour);
        if (this.#proved) this.#drawProved(over, colour);
        if (this.#isBefore) laidOver(pen, over.canvas, width, height);
        this.#drawAsked(pen, colour);
        if (this.#canvas.matches(":focus-visible")) cross(pen, this.#view.centre, colour.route);
    }

    /** Returns a pen on an empty canvas as large as the drawing, in pixels of the page. */
    #penOn(canvas) {
        const dense = Math.max(devicePixelRatio, matchMedia("print").matches ? 2 : 1);
        canvas.width = Math.round(this.#canvas.clientWidth * dense);
        canvas.height = Math.round(this.#canvas.clientHeight * dense);
        const pen = canvas.getContext("2d");
        pen.setTransform(dense, 0, 0, dense, 0, 0);
        pen.lineCap = pen.lineJoin = "round";
        return pen;
    }

    /**
     * Returns a path by its name, making it on first use. What a server shows has a different origin from what is
     * proved.
     */
    #path(name, lines) {
        const origin = name === "map" ? this.#map.nodes[0] ?? NOWHERE : this.#proved.parts.leaves[0];
        this.#paths[name] ??= pathOf(lines(), origin);
        return seen(this.#paths[name], this.#view, origin);
    }

    #drawMap(pen, { grey }) {
        const { nodes, roads } = this.#map;
        const lines = () => {
            const places = new Map(nodes.map((node) => [node.id, node]));
            return roads.filter(({ a, b }) => places.has(a) && places.has(b)).map(({ a, b, length }) => this.#shapes.line(places.get(a), places.get(b), length));
        };
        stroke(pen, this.#path("map", lines), grey, 1.4);
    }

    /** Draws a radius as a filled outline around the roads that are reached, the band of the least cost last. */
    #drawBands(pen, colour) {
        const { bands, nodes } = this.#proved;
        if (bands.length === 0) return;
        const width = this.#bandWidth(nodes.length);
        const paths = bands.map((pieces, band) => this.#path(`band ${band}`, () => pieces));
        for (const path of paths) stroke(pen, path, colour.outline, width + 3);
        paths.toReversed().forEach((path, at) => stroke(pen, path, colour[`band${paths.length - at}`], width));
    }

    /** Returns about the width of a block between streets, if the reached nodes are spread evenly. */
    #bandWidth(count) {
        const [first, ...rest] = this.#proved.nodes.map((node) => this.#view.at(node));
        const box = rest.reduce(([a, b, c, d], [x, y]) => [Math.min(a, x), Math.min(b, y), Math.max(c, x), Math.max(d, y)], [...first, ...first]);
        return Math.min(70, Math.max(12, 0.9 * Math.sqrt(((box[2] - box[0]) * (box[3] - box[1])) / count)));
    }

    #drawProved(pen, colour) {
        const { ways, lacking, ends, places } = this.#proved;
        if (this.#hasProof) this.#drawProof(pen, colour);
        if (lacking.length > 0) stroke(pen, this.#path("lacking", () => lacking), colour.lack, 2.5);
        if (ways.length > 0) {
            const way = this.#path("route", () => ways.flatMap((ids) => ids.slice(1).map((id, hop) => this.#road(ids[hop], id, places))));
            stroke(pen, way, colour.paper, 10);
            stroke(pen, way, colour.route, 6);
            const pushedOf = (ids) => ids.slice(1).flatMap((id, hop) => (this.#shapes.isPushed(ids[hop], id) ? [this.#road(ids[hop], id, places)] : []));
            const pushed = () => ways.flatMap(pushedOf);
            dashes(pen, this.#path("pushed", pushed), colour.paper, 3);
        }
        ends.forEach((end, at) => end && mark(pen, this.#view.at(end), LETTERS[at] ?? "", { colour: at === 0 ? colour.start : colour.end, paper: colour.paper, isProved: true }));
    }

    /** Returns the line of a signed road between two leaves. */
    #road(from, to, places) {
        const length = places.get(from).arcs.find((arc) => arc.to === to)?.length ?? 0;
        return this.#shapes.line(places.get(from), places.get(to), length);
    }

    /** Draws the signed nodes, roads and distances that prove the answer. */
    #drawProof(pen, colour) {
        const { parts: { leaves, pairs }, places } = this.#proved;
        const at = (node) => this.#view.at(node);
        const small = leaves.length > 3_000 ? 1.2 : 2.8;
        const straight = (items) => () => items.filter(([a, b]) => places.has(a) && places.has(b)).map(([a, b]) => [places.get(a), places.get(b)]);
        const roads = () => leaves.flatMap(({ id, arcs }) => arcs.filter(({ to }) => id < to && places.has(to)).map(({ to }) => this.#road(id, to, places)));
        if (hasCells(this.#proved.parts)) cells(pen, leaves, at, colour.cell);
        stroke(pen, this.#path("pairs", straight(pairs.map(({ a, b }) => [a, b]))), colour.pair, pairs.length > 60 ? 0.6 : pairs.length > 8 ? 1.2 : 2);
        stroke(pen, this.#path("roads", roads), colour.leaf, 1.2);
        stroke(pen, this.#path("served", straight(leaves.map(({ id, served }) => [id, served]))), colour.cell, 2.5);
        points(pen, leaves.map(at), colour.leaf, small);
        squares(pen, leaves.filter(({ isBorder }) => isBorder).map(at), colour.leaf, small);
        diamonds(pen, leaves.filter(({ landmark }) => landmark > 0).map(at), colour.cell);
    }

    #drawAsked(pen, colour) {
        this.#asked.forEach((end, at) => end && mark(pen, this.#view.at(end), LETTERS[at] ?? "", { colour: at === 0 ? colour.start : colour.end, paper: colour.paper, isProved: false }));
    }
}

/** Draws the previous result faintly over a drawing. */
function laidOver(pen, drawn, width, height) {
    pen.globalAlpha = FAINT;
    pen.drawImage(drawn, 0, 0, width, height);
    pen.globalAlpha = 1;
}
