/**
 * Compares the unproved map that a server shows with the leaves of an accepted reply. Users tap places on that map; if
 * it differs from a leaf, it may have misled a choice, so it is no longer shown.
 */

/** Returns how the first differing leaf differs, in words, or nothing if every leaf has the map's place and roads. */
export async function differenceOf(leaves, map, pauses) {
    const shown = new Map();
    for (const { id } of leaves) {
        if (pauses.isDue) await pauses.pause();
        shown.set(id, { place: null, roads: new Map() });
    }
    for (const node of map.nodes) {
        if (pauses.isDue) await pauses.pause();
        const known = shown.get(node.id);
        if (known) known.place = node;
    }
    for (const { a, b, length } of map.roads) {
        if (pauses.isDue) await pauses.pause();
        addRoad(shown.get(a)?.roads, b, length);
        addRoad(shown.get(b)?.roads, a, length);
    }
    for (const leaf of leaves) {
        if (pauses.isDue) await pauses.pause();
        const said = differs(leaf, shown.get(leaf.id));
        if (said) return said;
    }
    return "";
}

/** Of parallel roads only the least length counts. */
function addRoad(roads, to, length) {
    if (roads && !(roads.get(to) <= length)) roads.set(to, length);
}

function differs({ id, x, y, arcs }, { place, roads }) {
    if (!place) return `it has no node ${id}`;
    if (place.x !== x || place.y !== y) return `it has node ${id} at another place`;
    const other = arcs.find(({ to, length }) => roads.get(to) !== length);
    if (other) return `it has another road between the nodes ${id} and ${other.to}, or no road`;
    return arcs.length === roads.size ? "" : `it has more roads at node ${id}`;
}
