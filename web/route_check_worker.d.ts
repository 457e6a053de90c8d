import type { ClientOptions, Clock, Nearest, NoRoute, Octets, Refused, Route, Whole, Within } from "./route_check.js";

/**
 * Checks replies in a worker. A check that takes longer than `seconds` (by default 30; above 0, up to 2,000,000) ends
 * the worker and is an error. Every call after the end fails at once. `place` is the address of the worker's script.
 */
export declare class WorkerClient {
    static start(key: Octets | string, options?: ClientOptions & { seconds?: number; place?: string | URL }): Promise<WorkerClient>;
    /** Rejects with `Refused`. */
    checkRoute(reply: Octets, from: Whole, to: Whole, least: Whole, options?: { simple?: boolean } & Clock): Promise<Route | NoRoute>;
    /** Rejects with `Refused`. */
    checkReach(reply: Octets, from: Whole, radius: Whole, least: Whole, options?: Clock): Promise<Within>;
    /** Rejects with `Refused`. */
    nearest(reply: Octets, from: Whole, radius: Whole, ids: Iterable<Whole>, least: Whole, options?: { count?: Whole } & Clock): Promise<Nearest>;
    leastToAsk(floor?: Whole, options?: Clock): Promise<bigint>;
    noneYoung(): Refused;
    readonly name: string;
    end(): void;
}
