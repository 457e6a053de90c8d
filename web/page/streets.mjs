/**
 * The owner's table of streets, as tools/osm_roads.py --ids writes it: which streets meet at a node. Names are not
 * signed, and nobody trusts this file: whoever relies on a name compares the places.
 */
const MOST_OFFERS = 30;

export class Streets {
    #names = new Map();

    /** Takes the rows of a table with the columns `node` and `streets`. */
    read(text) {
        const [first, ...rows] = text.trimEnd().split("\n").map((line) => line.split("\t"));
        const [node, streets] = [first.indexOf("node"), first.indexOf("streets")];
        for (const row of rows) if (/^\d+$/.test(row[node] ?? "")) this.#names.set(Number(row[node]), row[streets] ?? "");
    }

    /** Returns the streets of a node, or nothing. */
    get(id) {
        return this.#names.get(id);
    }

    /** Returns the nodes at which all streets of a text meet; `;` separates their names. */
    nodesAt(text) {
        const wanted = parts(text);
        return [...this.#names].filter(([, streets]) => isAt(parts(streets), wanted)).map(([id]) => id);
    }

    /** Returns the completions of a text: streets, and the crossings of one that is written in full. */
    offers(text) {
        const typed = text.trim().toLowerCase();
        const found = new Set();
        for (const streets of this.#names.values()) {
            const names = [...parts(streets).map((name) => this.#spelled(streets, name)), streets];
            for (const name of names) if (typed && name.toLowerCase().includes(typed)) found.add(name);
        }
        return [...found].sort((one, two) => one.length - two.length).slice(0, MOST_OFFERS);
    }

    /** Returns a street as the table spells it. */
    #spelled(streets, name) {
        return streets.split(";").find((one) => one.trim().toLowerCase() === name).trim();
    }
}

function parts(text) {
    return text.split(";").map((name) => name.trim().toLowerCase()).filter(Boolean);
}

function isAt(streets, wanted) {
    return wanted.length > 0 && wanted.every((name) => streets.includes(name));
}
