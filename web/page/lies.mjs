/**
 * What a server could send in place of an accepted reply. The page makes these lies itself from honest replies, to show
 * that the client refuses them. Nobody trusts this file.
 */
import { leavesIn, octetsOf, partsOf } from "./formats.mjs";
import { Pauses } from "./pauses.mjs";
import { Graph } from "./shortest.mjs";
import { Tree } from "./tree.mjs";

/** Over more leaves the page searches for no way, in one reply or in two that it joins. */
const MOST_LEAVES = 4_096;

/** Returns octets with a number changed at a place, by a method of DataView. */
function edited(octets, at, size, change) {
    const lie = octets.slice();
    const view = new DataView(lie.buffer);
    view[`set${size}`](at, change(view[`get${size}`](at)));
    return lie;
}

/** Returns where the version is in a reply's header. */
function versionAt({ kind }) {
    return (kind === "within" ? 4 : 1) + 8;
}

/**
 * Returns a longer way than the route over these leaves: the shortest that misses a hop, or else there and back at
 * first.
 */
async function detour({ route }, leaves) {
    const [goal, graph] = [route.at(-1), new Graph(leaves, new Pauses())];
    const least = (await graph.reached(route[0])).get(goal).distance;
    let best = null;
    for (let hop = 0; hop + 1 < route.length; hop++) {
        const ways = await graph.reached(route[0], route.slice(hop, hop + 2));
        const far = ways.get(goal)?.distance ?? 0;
        if (far > least && far < (best?.far ?? 2 * least)) best = { far, ways };
    }
    if (!best) {
        const beside = leaves.find(({ id }) => id === route[0]).arcs.find(({ to, length }) => length > 0 && leaves.some(({ id }) => id === to));
        return beside ? [route[0], beside.to, ...route] : null;
    }
    const way = [goal];
    while (way[0] !== route[0]) way.unshift(best.ways.get(way[0]).before);
    return way;
}

/**
 * Returns the parts with other leaves and pairs, from the parts themselves or from more replies, and good covers of
 * them.
 */
async function withItems(parts, { leaves = parts.leaves, pairs = parts.pairs, more = [] }) {
    const [{ head }, pauses] = [parts, new Pauses()];
    const [nodes, distances] = [new Tree(head.nodes, head.fan, pauses), new Tree(Math.max(1, head.pairs), head.fan, pauses)];
    for (const reply of [parts, ...more]) await nodes.learn(reply.leaves, reply.nodeCover);
    await distances.learn(parts.pairs, parts.pairCover);
    return { ...parts, leaves, pairs, nodeCover: await nodes.cover(leaves), pairCover: await distances.cover(pairs) };
}

/** Returns a leaf that the proof needs: beside the route if the method requires it, else on it. */
async function needed({ kind, head, route, leaves }, { from, end }) {
    const find = (wanted) => leaves.find(({ id }) => id === wanted);
    if (kind === "no route") return find(end);
    if (leaves.length > MOST_LEAVES) return find(from);
    const near = [...(await new Graph(leaves, new Pauses()).reached(from)).keys()];
    if (kind === "within") return find(near.at(-1));
    const beside = near.find((id) => !route.includes(id));
    if (head.method === "DIJ" && beside !== undefined && near.indexOf(beside) < near.indexOf(end)) return find(beside);
    return find(route.length > 2 ? route[1] : from);
}

/**
 * The lies by name: what the server does, and the octets that it then sends for a query, or null if its honest reply
 * leaves no room for it. `server` and `id` request more honest replies over the same publication, `older` one over an
 * older map.
 */
export const LIES = {
    unknown: ["say that there is no such node", ({ parts }) => (parts.kind === "within" ? null : Uint8Array.of(1))],
    cut: ["lose the last octet", ({ octets }) => octets.slice(0, -1)],
    old: ["answer from an older map", async ({ octets, parts, older }) => (await older()) ?? edited(octets, versionAt(parts), "BigUint64", (version) => version - 1n)],
    new: ["claim a newer map", ({ octets, parts }) => edited(octets, versionAt(parts), "BigUint64", (version) => version + 1n)],
    road: ["make a road shorter", ({ parts }) => {
        const leaf = parts.leaves.find(({ arcs }) => arcs.some(({ length }) => length > 0));
        if (!leaf) return null;
        const text = edited(leaf.text, leaf.arcs.find(({ length }) => length > 0).at, "Uint32", (length) => length - 1);
        return octetsOf({ ...parts, leaves: parts.leaves.map((one) => (one === leaf ? { ...one, text } : one)) });
    }],
    hop: ["lead where no road is", async ({ parts, asked }) => {
        if (parts.kind === "within" || asked.from === asked.end) return null;
        const joins = (a, b) => parts.leaves.find(({ id }) => id === a)?.arcs.some(({ to }) => to === b);
        const at = parts.route.findIndex((id, place) => place > 0 && place + 1 < parts.route.length && !joins(parts.route[place - 1], parts.route[place + 1]));
        if (parts.kind === "route" && at < 0) return null;
        return octetsOf({ ...parts, kind: "route", route: at < 0 ? [asked.from, asked.end] : parts.route.toSpliced(at, 1) });
    }],
    hide: ["hide a crossing", async ({ parts, asked }) => {
        const leaf = await needed(parts, asked);
        return octetsOf(await withItems(parts, { leaves: parts.leaves.filter((one) => one !== leaf) }));
    }],
    pair: ["hide a signed distance", async ({ parts }) => (parts.pairs.length === 0 ? null : octetsOf(await withItems(parts, { pairs: parts.pairs.slice(1) })))],
    round: ["lead the long way round", async ({ parts, asked, found, server, id }) => {
        if (parts.kind !== "route" || parts.route.length < 2 || parts.leaves.length > MOST_LEAVES) return null;
        const octets = await server.reply({ ask: "reach", from: asked.from, end: 2n * found.length }, { id });
        if (leavesIn(octets) > MOST_LEAVES) return null;
        const [more, own] = [await partsOf(octets), new Set(parts.leaves.map(({ index }) => index))];
        const leaves = [...parts.leaves, ...more.leaves.filter(({ index }) => !own.has(index))].sort((a, b) => a.index - b.index);
        const way = leaves.length > MOST_LEAVES ? null : await detour(parts, leaves);
        return way && octetsOf({ ...(await withItems(parts, { leaves, more: [more] })), route: way });
    }],
    none: ["say that no road leads there", ({ parts }) => (parts.kind === "route" ? octetsOf({ ...parts, kind: "no route" }) : null)],
};
