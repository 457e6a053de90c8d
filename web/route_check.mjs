/**
 * The client of authenticated routes as an ES module, over route_check.wasm beside it (web/module makes it): the proved
 * client, in a browser or under Node 18 and up. docs/LIBRARY.md says what its verdicts mean.
 *
 *     await load();
 *     const client = new Client(key, { chain });
 *     try {
 *         const found = client.checkRoute(reply, from, to, least);
 *     } catch (error) {
 *         if (!(error instanceof Refused)) throw error;
 *         console.log(error.kind, error.sentence);
 *     }
 *
 * Ids and coordinates are numbers; lengths, distances and versions have 64 bits and are BigInts. A check blocks until
 * it is done; route_check_worker.mjs runs it in a worker.
 */
import { aheadSaid, clock, isAhead, isWrongClock, leastOfAge, noneYoungSaid, wrongClockSaid } from "./age.mjs";

/** The version of this module. */
export const VERSION = "0.1.0";

const MOST_NODES = 65_536;
const MOST_OCTETS = 75_000_000;
const KEY_OCTETS = 56;
const PAGE = 65_536;
/** The greatest 32-bit and 64-bit numbers, and the greatest size of a 32-bit memory in octets. */
const U32 = 2n ** 32n - 1n;
const U64 = 2n ** 64n - 1n;
const MOST_MEMORY = 2n ** 32n;
/** The sizes in octets of a verdict, of its line, of a route's node and of a node within a radius, as in gogbetiku.h. */
const VERDICT = 184;
const LINE = 56;
const NODE = 12;
const REACHED = 24;
const SENTENCE = 256;

const ACCEPTED = 1;
const NO_ROUTE = 2;
const NONE_WITHIN = 19;
const NO_MEMORY = 16;
const TOO_LONG = 17;
const [AHEAD, WRONG_CLOCK, NONE_YOUNG] = [32, 33, 34];
/** The names of the codes in gogbetiku.h that refuse. */
const KINDS = [
    "Unchecked", , , "NotAnswer", "Malformed", "Stale", "BadChain", "BadSignature", "BadCover", "RepeatedNode", "BadRoute",
    "MissingTuple", "MissingPair", "Shorter", "Disagrees", "PassesTwice", "NoMemory", "TooLong", "MalformedChain",
];

const AGE_KINDS = { [AHEAD]: "Ahead", [WRONG_CLOCK]: "WrongClock", [NONE_YOUNG]: "NoneYoung" };

/** The error for a reply that is not accepted. `kind` is the test that failed, `line` the command line's output. */
export class Refused extends Error {
    constructor(code, first, second, sentence, line = "") {
        super(sentence);
        this.name = "Refused";
        Object.assign(this, { code, kind: KINDS[code] ?? AGE_KINDS[code] ?? "Unknown", first, second, sentence, line });
    }
}

let loaded;

/** Returns the octets at an address: those of a file under Node, which cannot fetch files, or those fetched. */
async function octetsAt(place) {
    if (place.protocol === "file:" && globalThis.process?.versions?.node) {
        const { readFile } = await import("node:fs/promises");
        return readFile(place).catch((cause) => { throw new Error(`${place} cannot be read`, { cause }); });
    }
    const found = await fetch(place).catch((cause) => { throw new Error(`${place} is not answered`, { cause }); });
    if (!found.ok) throw new Error(`${place} is answered with status ${found.status}`);
    return found.arrayBuffer().catch((cause) => { throw new Error(`the octets of ${place} stop midway`, { cause }); });
}

/** Returns the SHA-256 in `integrity` as 64 hex digits; `integrity` is a single "sha256-" with 44 digits in base64. */
function digestOf(integrity) {
    const digits = /^sha256-([A-Za-z0-9+/]{43}=)$/.exec(typeof integrity === "string" ? integrity : "")?.[1];
    if (!digits) throw new TypeError("integrity is one SHA-256, as \"sha256-\" and its 32 octets in base64");
    return hexOf(Uint8Array.from(atob(digits), (octet) => octet.charCodeAt(0)));
}

function hexOf(octets) {
    return Array.from(octets, (octet) => octet.toString(16).padStart(2, "0")).join("");
}

/** Returns the SHA-256 of octets. A page has it only over a secure connection; elsewhere nothing is loaded. */
async function sha256Of(octets) {
    const engine = globalThis.crypto ?? (globalThis.process?.versions?.node && (await import("node:crypto")).webcrypto);
    if (!engine?.subtle) throw new Error("integrity cannot be compared here: a page can hash only over a secure connection");
    return hexOf(new Uint8Array(await engine.subtle.digest("SHA-256", octets)));
}

/**
 * Compiles the module once and returns it: the one beside this file, one at another address, or one of these octets.
 * `integrity`, as "sha256-..", is the expected hash of the octets, wherever they come from, so nobody who stores or
 * serves them is trusted. Throws a TypeError if it is not such a hash, and an Error if the octets have another one.
 */
export async function load(from = new URL("route_check.wasm", import.meta.url), { integrity } = {}) {
    const wanted = integrity === undefined ? undefined : digestOf(integrity);
    const isOctets = from instanceof ArrayBuffer || ArrayBuffer.isView(from);
    // a private copy, so that nobody changes it between hashing and compiling
    const octets = octetsOf("from", isOctets ? from : await octetsAt(new URL(from, import.meta.url))).slice();
    if (wanted !== undefined && (await sha256Of(octets)) !== wanted) {
        throw new Error(`${isOctets ? "the octets of the module" : from} have another SHA-256 than integrity names`);
    }
    loaded = await WebAssembly.compile(octets);
    return loaded;
}

/**
 * Blocks of a module's memory, one after the other, above the memory that the module came with. A freed block stays
 * taken until all are dropped together after the check.
 */
class Blocks {
    constructor(most) {
        this.most = most;
    }

    imports = {
        rattle_alloc: (out, size) => this.#answer(out, this.take(Number(size))),
        rattle_realloc: (out, at, kept, size) => this.#answer(out, this.#again(Number(at), Number(kept), Number(size))),
        rattle_dealloc: () => {},
    };

    /** Places all blocks in this memory, after its present end. */
    over(memory) {
        this.memory = memory;
        this.first = memory.buffer.byteLength;
        this.drop();
    }

    /** Returns the address of a new block, aligned to 16, or 0 if there is no room. */
    take(size, at = this.end) {
        const end = at + Math.ceil(Math.max(size, 1) / 16) * 16;
        if (end - this.first > this.most || !hasGrown(this.memory, end)) return 0;
        this.last = at;
        this.end = end;
        return at;
    }

    /** Returns the address of a resized block: its own if no other block follows it. */
    #again(at, kept, size) {
        if (at === this.last) return this.take(size, at);
        const place = this.take(size);
        if (place) new Uint8Array(this.memory.buffer).copyWithin(place, at, at + Math.min(kept, size));
        return place;
    }

    /** Writes whether there is a block, and its address, which is never null. */
    #answer(out, at) {
        const view = new DataView(this.memory.buffer, Number(out), 16);
        view.setBigUint64(0, at ? 1n : 0n, true);
        view.setBigUint64(8, BigInt(at || 16), true);
    }

    drop() {
        this.end = this.first;
        this.last = 0;
    }
}

/** Tests whether a memory reaches this end, after growing it if it does not. */
function hasGrown(memory, end) {
    const missing = Math.ceil((end - memory.buffer.byteLength) / PAGE);
    if (missing <= 0) return true;
    try {
        memory.grow(missing);
        return true;
    } catch (error) {
        if (error instanceof RangeError) return false;
        throw error;
    }
}

/**
 * Checks replies under a public key of 56 octets or 112 hex digits; `chain` has the octets of a chain file to the
 * owner's later keys. A check that needs more than `memory` octets (0 to 2^32, by default 2^30) is refused as NoMemory,
 * and a reply of more than `mostOctets` (0 to 2^32 - 1, by default 75,000,000) as TooLong before it is copied.
 *
 * With `maxAge`, if the owner's versions are dates, a map that is more than this many seconds old is refused as Stale,
 * and one dated more than a day ahead of the clock as Ahead. `now` of a call is the clock, by default this machine's.
 * `name` is the map's name, which comes from the owner with the key; no reply has one.
 *
 * Each number is a BigInt or a safe integer. Another value is a TypeError, and one out of its range a RangeError; both
 * name the argument. Ids have 32 bits; `least` and `radius` have 64.
 */
export class Client {
    #module;
    #key;
    #chain;
    #blocks;
    #calls;
    #mostOctets;
    #maxAge;

    constructor(key, { chain = new Uint8Array(), memory = 2 ** 30, mostOctets = MOST_OCTETS, module = loaded, maxAge, name = "" } = {}) {
        if (!module) throw new Error("the module is not loaded: await load() first");
        this.#module = module;
        this.#key = keyOf(key);
        this.#chain = octetsOf("chain", chain).slice();
        this.#mostOctets = Number(whole("mostOctets", mostOctets, U32));
        this.#blocks = new Blocks(Number(whole("memory", memory, MOST_MEMORY)));
        this.#maxAge = maxAge === undefined ? undefined : whole("maxAge", maxAge, U64);
        this.name = name;
    }

    /**
     * Returns the version to request from a gateway as `least`, if none below `floor` is accepted. Throws `Refused` if
     * the clock is wrong.
     */
    leastToAsk(floor = 0n, { now = clock() } = {}) {
        return this.#leasts(whole("floor", floor, U64), whole("now", now, U64)).asked;
    }

    /** Returns what a gateway's status 503 on `leastToAsk` means if its problem type is `NO_MAP` of age.mjs. */
    noneYoung() {
        return noneYoung(this.#maxAge);
    }

    #leasts(floor, now) {
        if (this.#maxAge === undefined) return { taken: floor, asked: floor };
        if (isWrongClock(now)) throw new Refused(WRONG_CLOCK, now, 0n, wrongClockSaid(now));
        return leastOfAge(floor, now, this.#maxAge);
    }

    /**
     * Returns what a reply proves: a shortest route, `{ kind: "route", nodes, length, version }`, or that there is
     * none, `{ kind: "no route", version }`. Throws `Refused`, with `simple` also if a route passes a node twice.
     */
    checkRoute(reply, from, to, least, { simple = false, now = clock() } = {}) {
        if (typeof simple !== "boolean") throw new TypeError("simple is true or false");
        const { taken } = this.#leasts(whole("least", least, U64), whole("now", now, U64));
        const words = [id("from", from), id("to", to), taken, simple ? 1 : 0];
        return this.#checked("gog_check_route", reply, words, NODE, { none: NO_ROUTE, now }, (verdict, view) => {
            if (verdict.code === NO_ROUTE) return { kind: "no route", version: verdict.version };
            const nodes = Array.from({ length: verdict.count }, (_, at) => nodeAt(view, at * NODE));
            return { kind: "route", nodes, length: verdict.length, version: verdict.version };
        });
    }

    /**
     * Returns the nodes that a reply proves to be those within a radius: `{ kind: "within", nodes, version }`. Throws
     * `Refused`.
     */
    checkReach(reply, from, radius, least, { now = clock() } = {}) {
        const { taken } = this.#leasts(whole("least", least, U64), whole("now", now, U64));
        const words = [id("from", from), whole("radius", radius, U64), taken];
        return this.#checked("gog_check_reach", reply, words, REACHED, { now }, (verdict, view) => {
            return { kind: "within", nodes: reachedNodes(view, verdict.count), version: verdict.version };
        });
    }

    /**
     * Returns the nearest of the listed nodes that a reply to a range query proves to lie within the radius, at most
     * `count` of them: `{ kind: "nearest", nodes, inside, version }`, by ascending distance and then by ascending id.
     * `inside` is the number of listed nodes within the radius. The ids may be in any order; one that is listed twice
     * counts once. Any other listed id is farther, not joined to the start, or not a node. Throws `Refused`.
     */
    nearest(reply, from, radius, ids, least, { count, now = clock() } = {}) {
        const listed = idsOf(ids);
        const most = Number(count === undefined ? listed.length : whole("count", count, U64));
        const { taken } = this.#leasts(whole("least", least, U64), whole("now", now, U64));
        const words = [id("from", from), whole("radius", radius, U64), taken];
        const options = { none: NONE_WITHIN, listed, most: Math.min(most, MOST_NODES), now };
        return this.#checked("gog_nearest", reply, words, REACHED, options, (verdict, view) => {
            const nodes = reachedNodes(view, Math.min(verdict.count, options.most));
            return { kind: "nearest", nodes, inside: verdict.count, version: verdict.version };
        });
    }

    /** Returns the version of the library in the module. */
    get libraryVersion() {
        return this.#running(() => textAt(this.#blocks.memory, Number(this.#calls.gog_version()), 32));
    }

    /**
     * Returns what `found` makes of an accepted verdict and a buffer for `most` nodes; `none` is the code that accepts
     * without nodes.
     */
    #checked(call, reply, words, size, { none = ACCEPTED, listed, most = MOST_NODES, now }, found) {
        const octets = octetsOf("reply", reply);
        if (octets.length > this.#mostOctets) {
            throw new Refused(TOO_LONG, 0n, 0n, `A reply of more than ${this.#mostOctets} octets is not read.`);
        }
        return this.#running(() => {
            const slices = [this.#key, this.#chain, octets].flatMap((part) => this.#slice(part));
            if (listed) words = [...words, this.#slice(new Uint8Array(listed.buffer))[0], BigInt(listed.length)];
            const items = this.#room(most * size);
            const at = this.#room(VERDICT);
            const code = this.#calls[call](...slices, ...words, BigInt(items), BigInt(most), BigInt(at));
            const verdict = this.#verdictAt(at);
            const isRight = code === verdict.code && this.#calls.gog_accepted(BigInt(at)) === 1 && verdict.count <= MOST_NODES;
            if (!isRight || (code !== ACCEPTED && code !== none)) throw this.#refusal(code, verdict, at);
            const { version } = verdict;
            if (this.#maxAge !== undefined && isAhead(version, BigInt(now))) throw new Refused(AHEAD, version, BigInt(now), aheadSaid(version, now));
            return found(verdict, new DataView(this.#blocks.memory.buffer, items, most * size));
        });
    }

    /**
     * Runs a call, with all blocks free before and after it. A call that trapped may have left its stack anywhere, so
     * the next call gets a new instance.
     */
    #running(call) {
        if (!this.#calls) {
            const instance = new WebAssembly.Instance(this.#module, { env: this.#blocks.imports });
            this.#blocks.over(instance.exports.memory);
            this.#calls = instance.exports;
        }
        try {
            return call();
        } catch (error) {
            if (!(error instanceof Refused)) this.#calls = undefined;
            throw error;
        } finally {
            this.#blocks.drop();
        }
    }

    #room(octets) {
        const at = this.#blocks.take(octets);
        if (!at) throw new Refused(NO_MEMORY, 0n, 0n, "There was not enough memory to check the reply.");
        new Uint8Array(this.#blocks.memory.buffer, at, octets).fill(0);
        return at;
    }

    #slice(octets) {
        const at = this.#room(octets.length);
        new Uint8Array(this.#blocks.memory.buffer).set(octets, at);
        return [BigInt(at), BigInt(octets.length)];
    }

    #verdictAt(at) {
        const said = new DataView(this.#blocks.memory.buffer, at, VERDICT);
        const [count, length, version, first, second] = [8, 16, 24, 32, 40].map((place) => said.getBigUint64(place, true));
        return { code: said.getUint32(0, true), count: Number(count), length, version, first, second };
    }

    #refusal(code, { first, second }, at) {
        const line = textAt(this.#blocks.memory, at + LINE, VERDICT - LINE).trimEnd();
        const room = this.#blocks.take(SENTENCE);
        if (!room) return new Refused(code, first, second, "The reply is refused.", line);
        this.#calls.gog_sentence(code, first, second, BigInt(room), BigInt(SENTENCE));
        return new Refused(code, first, second, textAt(this.#blocks.memory, room, SENTENCE), line);
    }
}

/** Returns the refusal for a gateway that has no map younger than this. */
export function noneYoung(maxAge) {
    if (maxAge === undefined) throw new Error("this client takes maps of any age");
    const seconds = whole("maxAge", maxAge, U64);
    return new Refused(NONE_YOUNG, seconds, 0n, noneYoungSaid(seconds));
}

function nodeAt(view, at) {
    return { id: view.getUint32(at, true), x: view.getInt32(at + 4, true), y: view.getInt32(at + 8, true) };
}

/** Reads this many nodes, each with its distance. */
function reachedNodes(view, count) {
    return Array.from({ length: count }, (_, at) => ({
        ...nodeAt(view, at * REACHED),
        distance: view.getBigUint64(at * REACHED + 16, true),
    }));
}

/** Reads the text at an address, up to a 0. */
function textAt(memory, at, most) {
    const octets = new Uint8Array(memory.buffer, at, most);
    return String.fromCharCode(...octets.subarray(0, octets.indexOf(0)));
}

/** Returns the octets of a buffer or of a view at its present length. */
function octetsOf(name, value) {
    if (value instanceof ArrayBuffer) return new Uint8Array(value, 0, value.byteLength);
    if (ArrayBuffer.isView(value)) return new Uint8Array(value.buffer, value.byteOffset, value.byteLength);
    throw new TypeError(`${name} is an ArrayBuffer or a view of one`);
}

function keyOf(value) {
    if (typeof value === "string" && /^[0-9a-fA-F]{112}\s*$/.test(value)) {
        return Uint8Array.from(value.trim().match(/../g), (digits) => parseInt(digits, 16));
    }
    const octets = typeof value === "string" ? new Uint8Array() : octetsOf("key", value).slice();
    if (octets.length !== KEY_OCTETS) throw new RangeError("key has 56 octets, or 112 hex digits");
    return octets;
}

function id(name, value) {
    return Number(whole(name, value, U32));
}

/** Copies ids. A text is not a list of ids. */
function idsOf(value) {
    if (typeof value !== "object" || typeof value?.[Symbol.iterator] !== "function") throw new TypeError("ids is a list of whole numbers");
    return Uint32Array.from(value, (each) => id("an id of ids", each));
}

/** Returns a whole number from 0 to `most` as a BigInt. */
function whole(name, value, most) {
    if (typeof value !== "bigint" && typeof value !== "number") throw new TypeError(`${name} is a BigInt or a safe integer`);
    if (typeof value === "number" && !Number.isSafeInteger(value)) throw new RangeError(`${name} is ${value}, which is not a safe integer`);
    const number = BigInt(value);
    if (number < 0n || number > most) throw new RangeError(`${name} is ${value}, which is not from 0 to ${most}`);
    return number;
}
