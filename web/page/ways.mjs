/**
 * The streets of a proved route, in order. Each piece's length is that of the accepted leaves' arcs; the names come
 * from the owner's table, which nobody signs. Nobody trusts this file for a verdict.
 */

/**
 * Returns the pieces of a route: the street, or nothing if the table has none, with its length and its nodes, and the
 * length along which a bicycle may have to be pushed.
 */
export function waysOf(route, leaves, streets, shapes) {
    const arcs = new Map(leaves.map((leaf) => [leaf.id, leaf.arcs]));
    const namesOf = (id) => (streets.get(id) ?? "").split(";").map((name) => name.trim()).filter(Boolean);
    const ways = [];
    for (let hop = 0; hop + 1 < route.length; hop++) {
        const [here, there] = [route[hop], route[hop + 1]];
        const length = arcs.get(here)?.find(({ to }) => to === there)?.length ?? 0;
        const push = shapes.isPushed(here, there) ? length : 0;
        const names = namesOf(here).filter((name) => namesOf(there).includes(name));
        const last = ways.at(-1);
        const both = last?.names.filter((name) => names.includes(name)) ?? [];
        const goesOn = last && (both.length > 0 || (last.names.length === 0 && names.length === 0));
        if (goesOn) Object.assign(last, { names: both, length: last.length + length, push: last.push + push, nodes: [...last.nodes, there] });
        else ways.push({ names, length, push, nodes: [here, there] });
    }
    return ways.map(({ names, ...rest }) => ({ name: names[0] ?? "", ...rest }));
}
