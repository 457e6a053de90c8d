/**
 * The meaning of a length. The owner gives its unit, with the page and the key: a server that gave it could turn
 * decimetres into minutes. Lengths are shown in kilometres or minutes if the unit allows it, else in the owner's word.
 */
const METRES = { millimetres: 1_000, centimetres: 100, decimetres: 10, metres: 1 };
const SECONDS = { milliseconds: 1_000, seconds: 1 };
const MOST_BANDS = 5;
const [MINUTE, HOUR] = [60, 3_600];
/** Widths of bands in seconds, from half a minute to a day. */
const TIMES = [30, MINUTE, 2 * MINUTE, 5 * MINUTE, 10 * MINUTE, 15 * MINUTE, 30 * MINUTE, HOUR, 2 * HOUR, 6 * HOUR, 24 * HOUR];
const big = new Intl.NumberFormat("en");

export class Lengths {
    #word;
    #isTime;
    /** How many of a length make a metre or a second, or nothing. */
    #per;

    constructor(word) {
        this.#word = word;
        this.#isTime = Object.hasOwn(SECONDS, word);
        this.#per = this.#isTime ? SECONDS[word] : Object.hasOwn(METRES, word) ? METRES[word] : null;
    }

    /** Returns how many of a length make a metre, or nothing if it is something else. */
    get perMetre() {
        return this.#isTime ? null : this.#per;
    }

    /** Returns the unit in which a user types a radius, and how many lengths it is. */
    get typed() {
        if (this.#per === null) return { name: this.#word, many: 1n };
        return this.#isTime ? { name: "minutes", many: BigInt(MINUTE * this.#per) } : { name: "kilometres", many: BigInt(1_000 * this.#per) };
    }

    /** Parses a typed radius such as `1.5` into whole lengths, or returns nothing if it is not one. */
    read(text) {
        const [, whole, part = ""] = /^(\d{1,20})(?:\.(\d{1,9}))?$/.exec(text.trim()) ?? [];
        if (whole === undefined) return null;
        const found = (BigInt(whole + part) * this.typed.many) / 10n ** BigInt(part.length);
        return found < 2n ** 64n ? found : null;
    }

    /** Returns a length for people, such as `1.90 km` or `12 min`. */
    said(number) {
        if (this.#per === null) return this.exact(number);
        const many = Number(number) / this.#per;
        return this.#isTime ? timeOf(many) : farOf(many);
    }

    /** Returns a length as a field of a file: kilometres or minutes, or nothing if it is something else. */
    field(number) {
        if (this.#per === null) return {};
        const many = Number(number) / this.#per;
        return this.#isTime ? { minutes: Math.round((many / MINUTE) * 100) / 100 } : { kilometres: many / 1_000 };
    }

    /** Returns a length with all digits. */
    exact(number) {
        return `${big.format(number)}${this.#word ? ` ${this.#word}` : ""}`;
    }

    /** Returns the ends of bands of equal width up to a radius, the last one being the radius itself. */
    bands(radius) {
        const [many, per] = [Number(radius), this.#per ?? 1];
        const width = per * (this.#isTime ? TIMES.find((one) => many / per / one <= MOST_BANDS) ?? many / per : roundWidth(many / per / MOST_BANDS));
        const ends = [];
        for (let end = width; end < many; end += width) ends.push(end);
        return [...ends, many];
    }
}

/** Returns the least of 1, 2, 2.5 and 5 times a power of ten that is not below a number. */
function roundWidth(least) {
    const power = 10 ** Math.floor(Math.log10(Math.max(least, 1)));
    return [1, 2, 2.5, 5, 10].map((times) => times * power).find((width) => width >= least);
}

function farOf(metres) {
    if (metres < 10) return `${Math.round(metres * 10) / 10} m`;
    if (metres < 999.5) return `${Math.round(metres)} m`;
    return metres < 99_995 ? `${(metres / 1_000).toFixed(2)} km` : `${big.format(Math.round(metres / 1_000))} km`;
}

function timeOf(seconds) {
    const whole = Math.round(seconds);
    const minutes = whole < 10 * MINUTE ? Math.floor(whole / MINUTE) : Math.round(whole / MINUTE);
    if (whole < MINUTE) return `${whole} s`;
    if (whole < 10 * MINUTE) return `${minutes} min${whole % MINUTE ? ` ${whole % MINUTE} s` : ""}`;
    return minutes < 60 ? `${minutes} min` : `${big.format(Math.floor(minutes / 60))} h ${minutes % 60} min`;
}
