/** The radii to request while one grows: four in each doubling, the same for everybody, so that caches are shared. */
export const GREATEST = 2n ** 64n - 1n;
const RADII = [0n, 1n, 2n, 3n, ...Array.from({ length: 62 * 4 }, (_, at) => BigInt(4 + (at % 4)) << BigInt(at >> 2))];

/** Returns the least radius of the series that is not below a number. */
export function radiusFrom(least) {
    return RADII.find((radius) => Number(radius) >= least) ?? GREATEST;
}
