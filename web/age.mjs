/**
 * The greatest age of a map, by a clock, if the owner's versions are dates: the seconds since 1970-01-01 UTC at which
 * the owner signed. It does what `gog_least_of_age` and `gog_refuse_ahead` of bindings/gogbetiku.c do, and is tested
 * against them, not proved. All numbers are BigInts, in seconds.
 */

/**
 * Versions from this number, the first second of 2020, to `LAST_DATE` may be dates. Versions that are counts are below
 * 2^30.
 */
export const FIRST_DATE = 1_577_836_800n;
export const LAST_DATE = 2n ** 34n - 1n;
/** No clock is before this second, the first of 2026: these sources are younger. */
export const FIRST_CLOCK = 1_767_225_600n;
/** The problem type with which a gateway says that it has no map as new as requested. */
export const NO_MAP = "urn:problem-type:gogbetiku:no-map-so-new";
const [MINUTE, DAY] = [60n, 86_400n];
const UNITS = [[DAY, "day"], [3_600n, "hour"], [MINUTE, "minute"], [1n, "second"]];

const greatest = (...numbers) => numbers.reduce((one, two) => (one > two ? one : two));

/** Returns the clock of this machine. */
export function clock() {
    return BigInt(Math.max(0, Math.floor(Date.now() / 1000)));
}

export function isWrongClock(now) {
    return now < FIRST_CLOCK || now > LAST_DATE;
}

/**
 * Returns the least version to check with, `taken`, and the one to request from a gateway, `asked`, whose age is
 * rounded up to the minute, so that requests repeat. No age lowers a floor. The clock must not be wrong.
 */
export function leastOfAge(floor, now, maxAge) {
    const oldest = now > maxAge ? now - maxAge : 0n;
    const rounded = ((oldest + MINUTE - 1n) / MINUTE) * MINUTE;
    return { taken: greatest(floor, FIRST_DATE, oldest), asked: greatest(floor, FIRST_DATE, rounded) };
}

/** Tests whether a version is dated more than a day ahead of the clock. It is then refused, and never kept as a floor. */
export function isAhead(version, now) {
    return version > now + DAY;
}

/** Writes a time in the greatest unit that measures it, such as `2 days`. */
export function timeSaid(seconds) {
    const [unit, name] = UNITS.find(([unit]) => seconds % unit === 0n && (seconds > 0n || unit === 1n));
    return `${seconds / unit} ${name}${seconds === unit ? "" : "s"}`;
}

/** Writes the second of a version that may be a date, such as `2026-12-01 08:00 UTC`; an empty result for a count. */
export function dateSaid(version) {
    return version < FIRST_DATE || version > LAST_DATE ? "" : `${new Date(1000 * Number(version)).toISOString().slice(0, 16).replace("T", " ")} UTC`;
}

export const aheadSaid = (version, now) => `The map is dated ${version}, more than a day ahead of the clock here, which says ${now}: either the date or the clock is wrong.`;
export const wrongClockSaid = (now) => `The clock here says ${now}, which is impossible. Set the clock: until then no map is known to be young enough.`;
export const noneYoungSaid = (maxAge) => `No map younger than ${timeSaid(maxAge)} is here.`;
