/**
 * Checks replies in a worker of a browser or of Node, so that a page stays responsive. A check that takes longer than
 * `seconds` ends the worker and is an error.
 *
 *     const client = await WorkerClient.start(key, { chain });
 *     const found = await client.checkRoute(reply, from, to, least);
 *     client.end();
 *
 * `place` is the address of the worker's script, by default this module's. A page that loads the script by its hash
 * passes the address of those octets.
 */
import { Client, Refused, load, noneYoung } from "./route_check.mjs";

const THREADS = globalThis.process?.versions?.node ? await import("node:worker_threads") : undefined;

/** Errors of wrong arguments keep their class on the way out of the worker. */
const ERRORS = new Map([RangeError, TypeError].map((error) => [error.name, error]));

export class WorkerClient {
    #worker;
    #seconds;
    #maxAge;
    #asked = new Map();
    #count = 0;
    /** Why the worker takes no more requests. */
    #ended;

    /** `options` are those of `Client`, and `seconds` and `place`. */
    static async start(key, { seconds = 30, place = new URL(import.meta.url), ...options } = {}) {
        if (typeof seconds !== "number") throw new TypeError("seconds is a number");
        if (!(seconds > 0 && seconds <= 2_000_000)) throw new RangeError(`seconds is ${seconds}, which is not above 0 and up to 2000000`);
        const client = new WorkerClient();
        [client.#seconds, client.#maxAge, client.name] = [seconds, options.maxAge, options.name ?? ""];
        client.#worker = THREADS ? new THREADS.Worker(place) : new Worker(place, { type: "module" });
        client.#listen({
            message: (said) => client.#take(said),
            messageerror: () => client.#finish(new Error("the worker's answer cannot be read")),
            error: (error) => client.#finish(new Error(error?.message || "the worker ended by an error")),
            exit: () => client.#finish(new Error("the worker has ended")),
        });
        try {
            await client.#ask("start", [key, options]);
        } catch (error) {
            client.end();
            throw error;
        }
        return client;
    }

    checkRoute(...words) {
        return this.#ask("checkRoute", words);
    }

    checkReach(...words) {
        return this.#ask("checkReach", words);
    }

    nearest(...words) {
        return this.#ask("nearest", words);
    }

    leastToAsk(...words) {
        return this.#ask("leastToAsk", words);
    }

    noneYoung() {
        return noneYoung(this.#maxAge);
    }

    /** Ends the worker. Unanswered requests, and all later ones, are errors. */
    end() {
        this.#finish(new Error("the worker was ended"));
    }

    #listen(events) {
        for (const [name, take] of Object.entries(events)) {
            if (THREADS) this.#worker.on(name, take);
            else this.#worker.addEventListener(name, (event) => take(name === "message" ? event.data : event));
        }
    }

    #ask(call, words) {
        if (this.#ended) return Promise.reject(new Error(this.#ended.message));
        return new Promise((right, wrong) => {
            const number = this.#count++;
            this.#worker.postMessage({ number, call, words });
            const late = () => this.#finish(new Error(`the check takes longer than ${this.#seconds} seconds`));
            this.#asked.set(number, { right, wrong, clock: setTimeout(late, 1000 * this.#seconds) });
        });
    }

    #take({ number, found, refused, failed }) {
        const asked = this.#asked.get(number);
        if (!asked) return;
        this.#asked.delete(number);
        clearTimeout(asked.clock);
        if (refused !== undefined) asked.wrong(new Refused(...refused));
        else if (failed !== undefined) asked.wrong(new (ERRORS.get(failed.name) ?? Error)(failed.message));
        else asked.right(found);
    }

    #finish(error) {
        this.#ended ??= error;
        this.#worker.terminate();
        for (const { wrong, clock } of this.#asked.values()) {
            clearTimeout(clock);
            wrong(error);
        }
        this.#asked.clear();
    }
}

/** Handles a message from the page. */
function answering(post) {
    let client;
    return async ({ number, call, words }) => {
        try {
            if (call === "start") {
                if (!words[1].module) await load();
                client = new Client(...words);
                return post({ number });
            }
            return post({ number, found: client[call](...words) });
        } catch (error) {
            if (!(error instanceof Refused)) return post({ number, failed: { name: `${error?.name}`, message: `${error?.message ?? error}` } });
            return post({ number, refused: [error.code, error.first, error.second, error.sentence, error.line] });
        }
    };
}

if (THREADS && !THREADS.isMainThread) {
    THREADS.parentPort?.on("message", answering((said) => THREADS.parentPort.postMessage(said)));
} else if (typeof WorkerGlobalScope !== "undefined" && self instanceof WorkerGlobalScope) {
    const answer = answering((said) => postMessage(said));
    addEventListener("message", (event) => answer(event.data));
}
