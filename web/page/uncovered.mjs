/**
 * What no station covers on the unproved map that a server shows: its roads without the pieces within a limit of proved
 * costs. Nobody trusts this file for a verdict.
 */
import { pieceOf } from "./bands.mjs";

/**
 * Returns the pieces of a map's roads that cost more than a limit, each a list of places. `costs` are those of nodes
 * within it.
 */
export async function uncoveredOf(map, costs, limit, shapes, pauses) {
    const places = new Map(map.nodes.map((node) => [node.id, node]));
    const found = [];
    for (const { a, b, length } of map.roads) {
        if (pauses.isDue) await pauses.pause();
        if (!places.has(a) || !places.has(b)) continue;
        const [here, there] = [a, b].map((node) => (costs.has(node) ? limit - Number(costs.get(node)) : 0));
        if (here + there >= length && (costs.has(a) || costs.has(b))) continue;
        found.push(pieceOf(shapes.line(places.get(a), places.get(b), length), length > 0 ? here / length : 0, length > 0 ? 1 - there / length : 1));
    }
    return found;
}
