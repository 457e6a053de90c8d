/**
 * A table of proved lengths, requested from an untrusted gateway. Roads have the same length in both directions; there
 * are no one-way streets and no turns.
 */
import type { Client, NoRoute, ReachedNode, Route, Whole } from "./route_check.js";
import type { WorkerClient } from "./route_check_worker.js";

/** The greatest radius. */
export declare const GREATEST: bigint;
/** The radii to request, the same series for everybody. */
export declare const RADII: readonly bigint[];
export declare const NONE: "none";
export declare const UNKNOWN: "not reached or no node";
export declare const REFUSED: "refused";
/** The note on directions that each table carries. */
export declare const ROADS: string;

/** A length from an accepted reply, or that no walk leads there, or that neither is shown, or that replies were refused. */
export type Cell = bigint | "none" | "not reached or no node" | "refused";

/**
 * The server gave no answer that can be checked. 404 says, without a proof, that an end is not a node; 410 that the
 * publication is gone.
 */
export declare class NoAnswer extends Error {
    readonly status: number;
}

export interface Accepted<Found> {
    found: Found;
    /** The number of nodes in the signed map. */
    nodes: number;
    /** The number of nodes in a reply on a radius. */
    leaves: number;
    /** The number of octets in the reply. */
    size: number;
}

/** One publication of a gateway. Each reply is checked, and must belong to it. */
export declare class Publication {
    /** The newest publication, or that of `id`. A `Refused` of kind NoneYoung says that the newest is too old. */
    static of(
        gateway: string,
        client: Client | WorkerClient | (Client | WorkerClient)[],
        options?: { id?: string; least?: Whole; mostOctets?: number; held?: number },
    ): Promise<Publication>;
    readonly id: string;
    /** What the owner signed, known once a reply was accepted. */
    readonly header: { version: bigint; nodes: number } | null;
    readonly asks: number;
    readonly octets: number;
    reach(from: number, radius: Whole, ids: Uint32Array): Promise<Accepted<ReachedNode[]>>;
    route(from: number, to: number): Promise<Accepted<Route | NoRoute>>;
    publication(): Promise<Uint8Array>;
}

/** Returns the rows of a table, in the order of the sources, `asks` of them at a time. */
export declare function table(
    over: Publication,
    sources: number[],
    targets: number[],
    options?: { asks?: number; known?: (source: number) => Iterable<[number, Cell]>; degree?: number },
): AsyncGenerator<{ source: number; cells: Cell[] }, void, void>;
