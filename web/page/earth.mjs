/**
 * Places in words, and metres between them on the WGS 84 ellipsoid. Proved lengths are those of the signed roads. What
 * is measured here only compares places and drawn lines, and nobody trusts it for a verdict.
 */
const EQUATOR = 6_378_137;
const SQUARED_ECCENTRICITY = 0.00669437999014;

/** Returns the metres between two nearby places, by the ellipsoid's two radii at their middle latitude. */
export function metres(one, two, degree) {
    const radians = (number) => (number / degree / 180) * Math.PI;
    const middle = radians((one.y + two.y) / 2);
    const square = 1 - SQUARED_ECCENTRICITY * Math.sin(middle) ** 2;
    const north = (radians(two.y - one.y) * EQUATOR * (1 - SQUARED_ECCENTRICITY)) / square ** 1.5;
    const east = (radians(two.x - one.x) * EQUATOR * Math.cos(middle)) / square ** 0.5;
    return Math.hypot(north, east);
}

/** Returns a place in degrees, or in a plane's coordinates if `degree` is nothing. */
export function placeSaid({ x, y }, degree) {
    if (!degree) return `${x}, ${y}`;
    const said = (number, [more, less]) => `${Math.abs(number / degree).toFixed(5)}° ${number < 0 ? less : more}`;
    return `${said(y, "NS")}, ${said(x, "EW")}`;
}

/** Returns how far apart two places are, in words. */
export function apartSaid(one, two, degree) {
    if (!degree) return `${Math.round(Math.hypot(two.x - one.x, two.y - one.y)).toLocaleString("en")} of the map's coordinates`;
    const far = metres(one, two, degree);
    return far < 1_000 ? `${far.toFixed(far < 10 ? 1 : 0)} m` : `${(far / 1_000).toFixed(1)} km`;
}
