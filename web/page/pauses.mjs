/** Pauses for the page between the pieces of long work, so that it stays responsive. Nobody trusts this file. */
const MOST_MILLISECONDS = 12;
/** The clock is read once in this many steps of a loop. */
const STEPS = 16;

export class Pauses {
    #began = performance.now();
    #asked = 0;

    /** Tests whether work has gone on long enough; each loop has `if (pauses.isDue) await pauses.pause();`. */
    get isDue() {
        return ++this.#asked % STEPS === 0 && performance.now() - this.#began > MOST_MILLISECONDS;
    }

    async pause() {
        await new Promise((goOn) => setTimeout(goOn));
        this.#began = performance.now();
    }
}
