/**
 * Sends requests, has the proved client check the replies, and retries where that may help: bypassing caches, and with
 * a newly fetched chain of keys. It returns only what the client accepted; the server is not trusted.
 */
const TRIALS = 3;
const CHAIN_FAULTS = ["BadSignature", "BadChain", "MalformedChain"];

export class Asker {
    #server;
    #checker;
    #least;

    constructor(server, checker, least) {
        this.#server = server;
        this.#checker = checker;
        this.#least = least;
    }

    /** Returns an accepted reply. A refused one may come from a cache, so it is requested again, bypassing all caches. */
    async answered(asked, id) {
        let refused = null;
        for (let trial = 0; trial < TRIALS; trial++) {
            const octets = await this.#server.reply(asked, { id, least: this.#least.asked(), pastCaches: trial > 0 }).catch((error) => {
                throw refused ?? this.#told(error);
            });
            if (refused && isSame(refused.octets, octets)) break;
            try {
                return { asked, octets, ...(await this.checked(asked, octets, this.#least.version)) };
            } catch (error) {
                refused = Object.assign(error, { octets });
                if (error.name !== "Refused") break;
            }
        }
        throw refused;
    }

    /** A server without a map as new as requested does not ask to wait. */
    #told(error) {
        const lack = this.#least.lack(error.problem);
        return lack ? Object.assign(error, { message: lack }) : error;
    }

    /**
     * Returns the verdict on a reply. If the owner may have another key, fetches the chain again and checks the reply
     * again.
     */
    async checked(asked, octets, version) {
        try {
            return await this.#checker.check(asked, octets, version);
        } catch (error) {
            if (!CHAIN_FAULTS.includes(error.kind)) throw error;
            return this.#againByChain(asked, octets, version, error);
        }
    }

    /** A chain that does not help is not kept: a server could send any. */
    async #againByChain(asked, octets, version, before) {
        const [chain, known] = [await this.#server.chain().catch(() => null), this.#checker.chain];
        if (!chain || !this.#checker.follow(chain)) throw before;
        try {
            return await this.#checker.check(asked, octets, version);
        } catch (error) {
            if (CHAIN_FAULTS.includes(error.kind)) this.#checker.follow(known);
            throw error.kind === "BadChain" || error.kind === "MalformedChain" ? before : error;
        }
    }
}

function isSame(one, two) {
    return one.length === two.length && one.every((octet, place) => octet === two[place]);
}
