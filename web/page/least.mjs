/**
 * The minimum version accepted under a key: the greatest accepted so far, and never below the owner's minimum. The
 * browser stores it or, if it stores nothing, the page keeps it while it is open. With a greatest age, set by the
 * owner, the clock of this device counts too. Nobody relies on this file to keep a map from being older than one never
 * seen.
 */
import { NO_MAP, clock, isWrongClock, leastOfAge, noneYoungSaid, timeSaid, wrongClockSaid } from "./age.mjs";

export class Least {
    #name;
    #floor;
    #kept;
    #maxAge;

    /** `maxAge` is in seconds, or undefined if a map may have any age. */
    constructor(key, floor, maxAge) {
        this.#name = `gogbetiku: the greatest version accepted under ${key}`;
        this.#floor = this.#kept = floor;
        this.#maxAge = maxAge;
    }

    /** Returns the greatest age in words, or nothing if there is none. */
    get ageSaid() {
        return this.#maxAge === undefined ? "" : timeSaid(this.#maxAge);
    }

    /** Returns the minimum version to request from a server. Throws an error if the clock cannot be right. */
    asked() {
        if (this.#maxAge === undefined) return this.version;
        const now = clock();
        if (isWrongClock(now)) throw new Error(wrongClockSaid(now).replace(/\.$/, ""));
        return leastOfAge(this.version, now, this.#maxAge).asked;
    }

    /** Returns what it means that a server has no map as new as requested, or nothing if it says something else. */
    lack(problem) {
        if (problem !== NO_MAP || this.asked() === 0n) return "";
        const isOld = this.#maxAge !== undefined && this.asked() > this.version;
        const said = isOld ? noneYoungSaid(this.#maxAge) : `No map of version ${this.version} or later is here.`;
        return `${said[0].toLowerCase()}${said.slice(1, -1)}`;
    }

    get version() {
        try {
            const found = localStorage.getItem(this.#name);
            if (/^\d{1,20}$/.test(found) && BigInt(found) > this.#kept) this.#kept = BigInt(found);
        } catch { /* the browser keeps nothing */ }
        return this.#kept;
    }

    accept(version) {
        if (version > this.version) this.#keep(version);
    }

    forget() {
        this.#keep(this.#floor);
    }

    #keep(version) {
        this.#kept = version;
        try {
            localStorage.setItem(this.#name, version);
        } catch { /* the browser keeps nothing */ }
    }
}
