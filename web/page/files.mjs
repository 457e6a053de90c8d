/**
 * Accepted results as GeoJSON (RFC 7946) and GPX 1.1, with the words of tools/geojson.py. Nobody trusts this file: it
 * writes down what the proved client accepted.
 */

/** The unit of a coordinate in the owner's map: how many make a degree, or none on a plane. */
export const UNITS = { "1e-7": 10_000_000, "1e-6": 1_000_000, plane: null };
const OSM = "© OpenStreetMap contributors, ODbL";
const OSM_PAGE = "https://www.openstreetmap.org/copyright";

/** Returns the JSON of a value, with 64-bit numbers written with all digits. */
function json(value) {
    if (typeof value === "bigint") return `${value}`;
    if (Array.isArray(value)) return `[${value.map(json).join(", ")}]`;
    if (typeof value !== "object") return JSON.stringify(value);
    const fields = Object.entries(value).filter(([, one]) => one !== undefined);
    return `{${fields.map(([name, one]) => `${JSON.stringify(name)}: ${json(one)}`).join(", ")}}`;
}

function escaped(text) {
    return `${text}`.replace(/[&<>"]/g, (sign) => ({ "&": "&amp;", "<": "&lt;", ">": "&gt;", '"': "&quot;" })[sign]);
}

/** Tests whether there are longitudes and latitudes for all nodes. */
export function hasPlaces(nodes, unit) {
    const degree = UNITS[unit];
    return Boolean(degree) && nodes.every(({ x, y }) => Math.abs(x) <= 180 * degree && Math.abs(y) <= 90 * degree);
}

/** Returns what was proved, without the places. */
function told({ asked, found }, lengths) {
    const end = asked.ask === "route" ? { to: asked.end } : { radius: asked.end };
    const proved = { route: "a route", "no route": "no route", within: "a radius" }[found.kind];
    const said = { from: asked.from, ...end, proved, version: found.version };
    if (found.kind !== "route") return said;
    return { ...said, length: found.length, ...lengths.field(found.length), nodes: found.nodes.map(({ id }) => id) };
}

/** Returns the properties of one node; the names of streets are not signed. */
function ofNode({ id, distance }, streets, lengths) {
    return { node: id, distance, ...(distance === undefined ? {} : lengths.field(distance)), streets: streets.get(id) || undefined };
}

/**
 * Returns the pieces of a route along which a bicycle may have to be pushed, by the owner's file of shapes, if there is
 * one.
 */
function pushedOf({ found }, shapes) {
    if (found.kind !== "route" || !shapes.hasPushed) return undefined;
    const ids = found.nodes.map(({ id }) => id);
    return ids.slice(1).map((id, hop) => [ids[hop], id]).filter(([a, b]) => shapes.isPushed(a, b));
}

/** Returns a line for a route of two or more nodes, else a point for each node. `nodes` are those to draw. */
export function geojsonOf(accepted, { nodes, streets, shapes, lengths, unit, attribution }) {
    const degree = UNITS[unit];
    const feature = (type, coordinates, properties) => json({ type: "Feature", properties, geometry: { type, coordinates } });
    const [said, places] = [{ ...told(accepted, lengths), push: pushedOf(accepted, shapes) }, nodes.map(({ x, y }) => [x / degree, y / degree])];
    const isLine = accepted.found.kind === "route" && nodes.length > 1;
    const features = isLine ? [feature("LineString", places, said)] : nodes.map((node, at) => feature("Point", places[at], { ...said, ...ofNode(node, streets, lengths) }));
    const head = attribution ? `"attribution": ${json(attribution)}, ` : "";
    return `{"type": "FeatureCollection", ${head}"features": [\n${features.join(",\n")}\n]}\n`;
}

/** Returns a route, or a waypoint for each node. */
export function gpxOf(accepted, { nodes, streets, lengths, unit, attribution }) {
    const degree = UNITS[unit];
    const words = (fields) => Object.entries(fields).filter(([, value]) => value !== undefined).map(([name, value]) => `${name} ${value}`).join(" ");
    const { nodes: _, ...rest } = told(accepted, lengths);
    const said = escaped(words(rest));
    const isRoute = accepted.found.kind === "route";
    const tag = isRoute ? "rtept" : "wpt";
    const points = nodes.map((node) => {
        const place = `lat="${(node.y / degree).toFixed(7)}" lon="${(node.x / degree).toFixed(7)}"`;
        return `<${tag} ${place}><name>${node.id}</name><desc>${escaped(words(ofNode(node, streets, lengths)))}</desc></${tag}>`;
    }).join("\n");
    const licence = attribution === OSM ? `<license>${OSM_PAGE}</license>` : "";
    const copyright = attribution ? `<copyright author="${escaped(attribution)}">${licence}</copyright>` : "";
    const inner = isRoute ? `<rte><desc>${said}</desc>\n${points}\n</rte>` : points;
    const head = `<?xml version="1.0" encoding="UTF-8"?>\n<gpx xmlns="http://www.topografix.com/GPX/1/1" version="1.1" creator="Gogbetiku's page">`;
    return `${head}\n<metadata><desc>${said}</desc>${copyright}</metadata>\n${inner}\n</gpx>\n`;
}
