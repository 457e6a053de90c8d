/**
 * The proved client in a worker, made from octets that are fetched by their hashes, so that the host of the files
 * beside the page is not trusted. The server whose replies it checks is not trusted either. Users of the page trust its
 * owner, who publishes page and key.
 */
import { clock } from "./age.mjs";
import { load } from "./route_check.mjs";
import { WorkerClient } from "./route_check_worker.mjs";

const MOST_OCTETS = 64 << 20;

/** Returns the octets of a file in the page's folder with this hash. */
export async function taken({ name, integrity }) {
    let found;
    try {
        found = await fetch(new URL(name, import.meta.url), { integrity });
    } catch {
        throw new Error(`${name} is not there, or is not the file that this page names by its hash`);
    }
    if (!found.ok) throw new Error(`${name} is not there`);
    return found.arrayBuffer();
}

export class Checker {
    #key;
    #chain = new Uint8Array();
    #seconds;
    #parts;
    #maxAge;
    #client;

    /**
     * `worker` and `module` are the names and hashes of two files. The other arguments limit the seconds that a check
     * may take, and the age of a map in seconds, by the clock of this page.
     */
    constructor(key, { worker, module, maxAge, seconds = 30 }) {
        this.#key = key;
        this.#seconds = seconds;
        this.#maxAge = maxAge;
        this.#parts = Promise.all([
            taken(worker).then((octets) => URL.createObjectURL(new Blob([octets], { type: "text/javascript" }))),
            taken(module).then((octets) => load(octets)),
        ]);
        this.#parts.catch(() => {});
    }

    /** Waits until replies can be checked. */
    async ready() {
        const [place, module] = await this.#parts;
        this.#client ??= WorkerClient.start(this.#key, { place, module, chain: this.#chain, seconds: this.#seconds, mostOctets: MOST_OCTETS, maxAge: this.#maxAge });
        const starting = this.#client;
        return starting.catch((error) => {
            if (this.#client === starting) this.#client = undefined;
            throw new Error(`the worker that checks does not start${error.message ? `: ${error.message}` : ""}`);
        });
    }

    /**
     * Returns what a reply proves, and how many milliseconds that took. Throws `Refused`. After any other error, such
     * as a check that takes too long, the next check gets a new worker.
     */
    async check({ ask, from, end }, octets, least) {
        const client = await this.ready();
        const began = performance.now();
        try {
            const now = clock();
            const found = await (ask === "route" ? client.checkRoute(octets, from, end, least, { simple: true, now }) : client.checkReach(octets, from, end, least, { now }));
            return { found, took: performance.now() - began };
        } catch (error) {
            error.took = performance.now() - began;
            if (error.name === "Refused") throw error;
            client.end();
            this.#client = undefined;
            throw error.took < 1000 * this.#seconds ? error : new Error(`the check takes longer than ${this.#seconds} seconds`);
        }
    }

    /** Returns the octets of the chain file in use. */
    get chain() {
        return this.#chain;
    }

    /** Returns the number of its links. Each has a length after 60 octets of its own. */
    get links() {
        let count = 0;
        for (let at = 0; at + 62 <= this.#chain.length; count++) at += 62 + 256 * this.#chain[at + 60] + this.#chain[at + 61];
        return count;
    }

    /** Uses another chain from now on. Returns whether it differs. */
    follow(chain) {
        const isSame = chain.length === this.#chain.length && chain.every((octet, place) => octet === this.#chain[place]);
        if (isSame) return false;
        this.#chain = chain;
        this.#client?.then((client) => client.end(), () => {});
        this.#client = undefined;
        return true;
    }
}
