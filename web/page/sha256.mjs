/**
 * SHA-256 of FIPS 180-4, also for pages outside a secure context, in which the browser's own is missing. It names
 * publications and makes the page's lies; no verdict depends on it. Nobody trusts this file: the proved client checks.
 */

/** Returns the first 32 bits of the fractions of the `root`-th roots of the first primes. */
function fractions(count, root) {
    const found = [];
    for (let number = 2; found.length < count; number++) {
        let isPrime = true;
        for (let part = 2; part * part <= number; part++) isPrime &&= number % part !== 0;
        if (isPrime) found.push(((number ** (1 / root)) * 2 ** 32) | 0);
    }
    return found;
}

const BEGIN = fractions(8, 2);
const ROUNDS = fractions(64, 3);

function turned(word, by) {
    return (word >>> by) | (word << (32 - by));
}

/** Returns the state after a block of 16 words. */
function behind(state, block) {
    const words = [...block];
    let [a, b, c, d, e, f, g, h] = state;
    for (let round = 0; round < 64; round++) {
        if (round >= 16) {
            const [low, high] = [words[round - 15], words[round - 2]];
            const less = turned(low, 7) ^ turned(low, 18) ^ (low >>> 3);
            const more = turned(high, 17) ^ turned(high, 19) ^ (high >>> 10);
            words.push((words[round - 16] + less + words[round - 7] + more) | 0);
        }
        const choice = (e & f) ^ (~e & g);
        const first = (h + (turned(e, 6) ^ turned(e, 11) ^ turned(e, 25)) + choice + ROUNDS[round] + words[round]) | 0;
        const second = ((turned(a, 2) ^ turned(a, 13) ^ turned(a, 22)) + ((a & b) ^ (a & c) ^ (b & c))) | 0;
        [a, b, c, d, e, f, g, h] = [(first + second) | 0, a, b, c, (d + first) | 0, e, f, g];
    }
    return [a, b, c, d, e, f, g, h].map((word, place) => (word + state[place]) | 0);
}

/** Returns the 32 octets of the digest of some octets. */
export function sha256(...parts) {
    const length = parts.reduce((sum, part) => sum + part.length, 0);
    const padded = joined(...parts, [0x80], new Uint8Array((119 - (length % 64)) % 64), new Uint8Array(8));
    const view = new DataView(padded.buffer);
    view.setBigUint64(padded.length - 8, BigInt(length) * 8n);
    let state = BEGIN;
    for (let at = 0; at < padded.length; at += 64) {
        state = behind(state, Array.from({ length: 16 }, (_, place) => view.getInt32(at + 4 * place)));
    }
    const digest = new Uint8Array(32);
    state.forEach((word, place) => new DataView(digest.buffer).setInt32(4 * place, word));
    return digest;
}

/** Joins octets. */
export function joined(...parts) {
    const whole = new Uint8Array(parts.reduce((sum, part) => sum + part.length, 0));
    let at = 0;
    for (const part of parts) {
        whole.set(part, at);
        at += part.length;
    }
    return whole;
}

export function hexOf(octets) {
    return Array.from(octets, (octet) => octet.toString(16).padStart(2, "0")).join("");
}

/** Returns the short name of a key or a publication: the front of its SHA-256, in hex. */
export function shortName(...octets) {
    return hexOf(sha256(...octets)).slice(0, 16);
}
