/** The client of authenticated routes, over route_check.wasm. */

export declare const VERSION: string;

/** A node with its coordinates in the owner's map. */
export interface Node {
    id: number;
    x: number;
    y: number;
}

/** A node within a radius, with its distance. */
export interface ReachedNode extends Node {
    distance: bigint;
}

export interface Route {
    kind: "route";
    nodes: Node[];
    length: bigint;
    version: bigint;
}

export interface NoRoute {
    kind: "no route";
    version: bigint;
}

export interface Within {
    kind: "within";
    nodes: ReachedNode[];
    version: bigint;
}

export interface Nearest {
    kind: "nearest";
    /** The nodes, by ascending distance and then by ascending id. */
    nodes: ReachedNode[];
    /** The number of listed nodes within the radius. */
    inside: number;
    version: bigint;
}

export type Octets = ArrayBuffer | ArrayBufferView;
/** A whole number: a BigInt or a safe integer. Another value is a TypeError, and one out of its range a RangeError. */
export type Whole = number | bigint;

/** The error for a reply that is not accepted. */
export declare class Refused extends Error {
    constructor(code: number, first: bigint, second: bigint, sentence: string, line?: string);
    readonly code: number;
    /** The test that failed. */
    readonly kind: string;
    /** The two numbers that it found. */
    readonly first: bigint;
    readonly second: bigint;
    /** The sentence for people. */
    readonly sentence: string;
    /** The command line's output. */
    readonly line: string;
}

/**
 * Compiles the module: the one beside this file, one at another address, or one of these octets. `integrity` is the
 * SHA-256 that the octets must have, wherever they come from, as "sha256-" and base64; otherwise nothing is loaded. Any
 * other form of it is a TypeError.
 */
export declare function load(from?: string | URL | Octets, options?: { integrity?: string }): Promise<WebAssembly.Module>;

export interface ClientOptions {
    /** The octets of a chain file that leads to the owner's later keys. */
    chain?: Octets;
    /** The octets of memory that a check may take: 0 to 2^32, by default 2^30. */
    memory?: Whole;
    /** The octets of the longest reply that is examined: 0 to 2^32 - 1, by default 75,000,000. */
    mostOctets?: Whole;
    module?: WebAssembly.Module;
    /** The greatest age of a map in seconds, if the owner's versions are dates; by default any age. */
    maxAge?: Whole;
    /** The map's name, which comes from the owner with the key. */
    name?: string;
}

/** `now` is the clock in seconds since 1970-01-01 UTC, by default this machine's. */
export interface Clock {
    now?: Whole;
}

/** Returns the refusal for a gateway that has no map younger than this. */
export declare function noneYoung(maxAge?: Whole): Refused;

export declare class Client {
    /** The key has 56 octets, or 112 hex digits. */
    constructor(key: Octets | string, options?: ClientOptions);
    /** Throws `Refused`. Ids have 32 bits, `least` has 64. */
    checkRoute(reply: Octets, from: Whole, to: Whole, least: Whole, options?: { simple?: boolean } & Clock): Route | NoRoute;
    /** Throws `Refused`. */
    checkReach(reply: Octets, from: Whole, radius: Whole, least: Whole, options?: Clock): Within;
    /** The version to request from a gateway as `least`. Throws `Refused` if the clock is wrong. */
    leastToAsk(floor?: Whole, options?: Clock): bigint;
    /** What a gateway's status 503 on it means if its problem type says that no map is as new. */
    noneYoung(): Refused;
    /** Throws `Refused`. Returns at most `count` nodes, by default all. */
    nearest(reply: Octets, from: Whole, radius: Whole, ids: Iterable<Whole>, least: Whole, options?: { count?: Whole } & Clock): Nearest;
    readonly name: string;
    readonly libraryVersion: string;
}
