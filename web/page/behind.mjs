/**
 * The background map, as the server shows it, unproved. It is shown as long as the leaves of the last accepted reply
 * over the same publication agree with it, and dropped as soon as one does not.
 */
import { differenceOf } from "./agree.mjs";
import { mapOf } from "./formats.mjs";
import { Pauses } from "./pauses.mjs";
import { shortName } from "./sha256.mjs";

export class Behind {
    #server;
    #picture;
    #wanted = null;
    #map = null;
    #coming = null;
    #proved = { id: null, leaves: [] };
    #dropped = new Set();

    constructor(server, picture) {
        [this.#server, this.#picture] = [server, picture];
    }

    /** Tests whether a publication's map is present. */
    has(id) {
        return this.#wanted === id && this.#map !== null;
    }

    /** Returns the map that is shown, or none. */
    get map() {
        return this.#map;
    }

    /** Shows the map of a publication if nothing differs. Returns the words for the difference, or none. */
    async show(id) {
        if (this.#wanted !== id) {
            this.#take(id, null);
            this.#coming = this.#dropped.has(id) ? null : this.#fetched(id);
        }
        const map = this.#map ?? (await this.#coming);
        if (this.#wanted !== id || !map) return "";
        const said = this.#proved.id === id ? await differenceOf(this.#proved.leaves, map, new Pauses()) : "";
        if (this.#wanted !== id) return "";
        if (said) [this.#coming] = [null, this.#dropped.add(id)];
        if (said || this.#map !== map) this.#take(id, said ? null : map);
        return said;
    }

    /** Shows the map of a publication beside the leaves of an accepted reply over it. */
    showBeside(id, leaves) {
        this.#proved = { id, leaves };
        return this.show(id);
    }

    #take(id, map) {
        [this.#wanted, this.#map] = [id, map];
        this.#picture.showMap(map);
    }

    /** If a server has no map to show, or shows that of another publication, none is shown. */
    async #fetched(id) {
        try {
            const map = await mapOf(await this.#server.publication(id));
            return shortName(map.head.text, map.head.signature) === id ? map : null;
        } catch {
            return null;
        }
    }
}
