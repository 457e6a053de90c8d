/**
 * Replies and publications by docs/SPEC.md, for what is drawn and reported beside a verdict. Nothing here judges, and
 * nobody trusts this file for a verdict: a reply is read only after the proved client has accepted it.
 */
import { Pauses } from "./pauses.mjs";
import { joined } from "./sha256.mjs";

const METHODS = ["", "DIJ", "FULL", "LDM", "HYP"];
const ORDERS = ["by id", "breadth first", "depth first", "along Hilbert's curve", "kd", "shuffled"];
/** The first octets of replies with a route, without one, and on a radius. */
const ROUTE = 0;
const NO_ROUTE = 3;
const RADIUS = [0x52, 0x50, 0x4e, 0x31];
const UNREACHED = 2n ** 64n - 1n;
const [MOST_NODES, MOST_ROADS] = [65_536, 262_144];

/** Octets that are read from the front. */
class Octets {
    constructor(octets) {
        this.octets = octets;
        this.view = new DataView(octets.buffer, octets.byteOffset, octets.byteLength);
        this.at = 0;
    }

    skip(count) {
        this.at += count;
        return this.at - count;
    }

    u8() {
        return this.view.getUint8(this.skip(1));
    }

    u16() {
        return this.view.getUint16(this.skip(2));
    }

    u32() {
        return this.view.getUint32(this.skip(4));
    }

    i32() {
        return this.view.getInt32(this.skip(4));
    }

    u64() {
        return this.view.getBigUint64(this.skip(8));
    }

    take(count) {
        return this.octets.subarray(this.skip(count), this.at);
    }

    /** Reads as many items as the number before them says; none is made before its octets are read. */
    async list(item, pauses) {
        const items = [];
        for (let left = this.u32(); left > 0; left--) {
            if (pauses.isDue) await pauses.pause();
            items.push(item(this));
        }
        return items;
    }
}

/** Reads a header with its signature, and the octets of both. */
function header(it) {
    const began = it.at;
    it.skip(4);
    const [method, order, fan] = [METHODS[it.u8()], ORDERS[it.u8()], it.u8()];
    it.skip(1);
    const [version, nodes] = [it.u64(), it.u32()];
    it.skip(32);
    const pairs = it.u32();
    it.skip(32);
    const [first, second] = [Number(it.u64()), Number(it.u64())];
    const text = it.octets.subarray(began, it.at);
    const signature = it.take(it.u16());
    return { method, order, fan, version, nodes, pairs, first, second, text, signature, octets: it.octets.subarray(began, it.at) };
}

/**
 * Reads what follows a leaf's arcs: its cell; or the node whose codes replace its own; or codes, of which it returns the
 * number of the first landmark less than a step away, counted from 1, or 0 if there is none.
 */
function extra(it, { method, second }) {
    if (method === "HYP") return { cell: it.u32(), isBorder: it.u8() === 1 };
    if (method !== "LDM") return {};
    if (it.u8() === 1) return { served: it.u32() };
    const codes = Array.from({ length: second }, () => it.u16());
    return { landmark: codes.indexOf(0) + 1 };
}

function leaf(it, head) {
    const index = it.u32();
    const text = it.take(it.u16());
    const inner = new Octets(text);
    inner.skip(1);
    const [id, x, y] = [inner.u32(), inner.i32(), inner.i32()];
    const arcs = [];
    for (let left = inner.u16(); left > 0; left--) arcs.push({ to: inner.u32(), at: inner.at, length: inner.u32() });
    return { index, text, id, x, y, arcs, ...extra(inner, head) };
}

function pair(it) {
    const index = it.u32();
    const text = it.take(17);
    const inner = new Octets(text);
    inner.skip(1);
    const [a, b, distance] = [inner.u32(), inner.u32(), inner.u64()];
    return { index, text, a, b, distance: distance === UNREACHED ? null : distance };
}

const digest = (it) => it.take(32);

/** Reads everything before a reply's leaves. */
function frontOf(it) {
    const isNear = RADIUS.every((octet, place) => it.octets[place] === octet);
    const first = isNear ? it.skip(4) : it.u8();
    return { isNear, first, head: header(it) };
}

/** Returns the number of leaves that a reply on a radius declares. */
export function leavesIn(octets) {
    const it = new Octets(octets);
    frontOf(it);
    return it.u32();
}

/** Returns the parts of an accepted reply. */
export async function partsOf(octets, pauses = new Pauses()) {
    const it = new Octets(octets);
    const { isNear, first, head } = frontOf(it);
    const kind = isNear ? "within" : first === ROUTE ? "route" : "no route";
    const route = kind === "route" ? await it.list(() => it.u32(), pauses) : [];
    const leaves = await it.list(() => leaf(it, head), pauses);
    if (isNear) return { kind, head, route, leaves, pairs: [], nodeCover: await it.list(digest, pauses), pairCover: [] };
    const pairs = await it.list(pair, pauses);
    return { kind, head, route, leaves, pairs, nodeCover: await it.list(digest, pauses), pairCover: await it.list(digest, pauses) };
}

export function u32(...numbers) {
    const octets = new Uint8Array(4 * numbers.length);
    numbers.forEach((number, place) => new DataView(octets.buffer).setUint32(4 * place, number));
    return octets;
}

/** Returns the octets of a reply with these parts. */
export async function octetsOf({ kind, head, route, leaves, pairs, nodeCover, pairCover }, pauses = new Pauses()) {
    const items = await joinedItems(leaves, 6, ({ index, text }) => [u32(index), u32(text.length).subarray(2), text], pauses);
    const begin = kind === "within" ? RADIUS : [kind === "route" ? ROUTE : NO_ROUTE];
    const front = [begin, head.octets, ...(kind === "route" ? [u32(route.length, ...route)] : []), u32(leaves.length), items];
    const cover = [u32(nodeCover.length), await joinedItems(nodeCover, 0, (one) => [one], pauses)];
    if (kind === "within") return joined(...front, ...cover);
    const distances = await joinedItems(pairs, 4, ({ index, text }) => [u32(index), text], pauses);
    return joined(...front, u32(pairs.length), distances, ...cover, u32(pairCover.length), await joinedItems(pairCover, 0, (one) => [one], pauses));
}

/** Returns the octets of many items, each with this many before its text. */
async function joinedItems(items, more, partsOfItem, pauses) {
    const whole = new Uint8Array(items.reduce((sum, item) => sum + more + (item.text ?? item).length, 0));
    let at = 0;
    for (const item of items) {
        if (pauses.isDue) await pauses.pause();
        for (const part of partsOfItem(item)) {
            whole.set(part, at);
            at += part.length;
        }
    }
    return whole;
}

/** Returns the header, the nodes and the roads of a publication. Checks only that there are not too many to draw. */
export async function mapOf(octets, pauses = new Pauses()) {
    const it = new Octets(octets);
    it.skip(4);
    const head = header(it);
    it.skip(4 * 8);
    const nodes = await it.list(() => ({ id: it.u32(), x: it.i32(), y: it.i32() }), pauses);
    const roads = await it.list(() => ({ a: it.u32(), b: it.u32(), length: it.u32() }), pauses);
    if (nodes.length > MOST_NODES || roads.length > MOST_ROADS) throw new RangeError("more than a map has");
    return { head, nodes, roads };
}
