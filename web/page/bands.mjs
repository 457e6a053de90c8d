/**
 * A radius as bands of equal cost: the pieces of proved roads that cost more than one bound and at most another, by the
 * signed lengths from both ends of each road. Nobody trusts this file for a verdict.
 */

/** Returns the pieces of roads in each band, each a list of places. `ends` are the bands' greatest costs, ascending. */
export async function piecesOf(nodes, leaves, ends, shapes, pauses) {
    const [costs, places, bands] = [new Map(), new Map(), ends.map(() => [])];
    for (const { id, distance } of nodes) {
        if (pauses.isDue) await pauses.pause();
        costs.set(id, Number(distance));
    }
    for (const leaf of leaves) {
        if (pauses.isDue) await pauses.pause();
        places.set(leaf.id, leaf);
    }
    for (const leaf of leaves) {
        if (pauses.isDue) await pauses.pause();
        for (const { to, length } of leaf.arcs) {
            if (leaf.id >= to || !costs.has(leaf.id) || !costs.has(to)) continue;
            addRoad(bands, ends, shapes.line(leaf, places.get(to), length), { from: costs.get(leaf.id), to: costs.get(to), length });
        }
    }
    return bands;
}

/** A road's cost increases from both of its ends, up to where the two meet. */
function addRoad(bands, ends, line, { from, to, length }) {
    const meets = length > 0 ? Math.min(1, Math.max(0, (length + to - from) / (2 * length))) : 1;
    for (let band = 0; band < ends.length; band++) {
        const [least, most] = [band === 0 ? -1 : ends[band - 1], ends[band]];
        if (Math.min(from, to) > most) continue;
        if (from + meets * length <= least) break;
        const [begins, stops] = shareOf(from, meets, length, least, most);
        if (stops > begins) bands[band].push(pieceOf(line, begins, stops));
        const [first, last] = shareOf(to, 1 - meets, length, least, most);
        if (last > first) bands[band].push(pieceOf(line, 1 - last, 1 - first));
    }
}

/**
 * Returns the share of a road, from one of its ends up to another share, that costs more than `least` and at most
 * `most`.
 */
function shareOf(cost, end, length, least, most) {
    const at = (bound) => (length > 0 ? Math.min(end, Math.max(0, (bound - cost) / length)) : bound >= cost ? end : 0);
    return [least < 0 ? 0 : at(least), at(most)];
}

/** Returns the part of a line between two shares of it. */
export function pieceOf(line, begins, stops) {
    if (begins === 0 && stops === 1) return line;
    if (line.length === 2) return [between(...line, begins), between(...line, stops)];
    const longs = line.slice(1).map((point, at) => Math.hypot(point.x - line[at].x, point.y - line[at].y));
    const whole = longs.reduce((sum, one) => sum + one, 0);
    const found = [];
    let far = 0;
    longs.forEach((long, at) => {
        const [low, high] = [Math.max(begins * whole, far), Math.min(stops * whole, far + long)];
        if (high > low) {
            if (found.length === 0) found.push(between(line[at], line[at + 1], (low - far) / long));
            found.push(between(line[at], line[at + 1], (high - far) / long));
        }
        far += long;
    });
    return found;
}

function between(one, two, share) {
    return { x: one.x + (two.x - one.x) * share, y: one.y + (two.y - one.y) * share };
}
