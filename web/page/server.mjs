/**
 * Sends requests to a gateway (web/openapi.json). Every answer must be checked: the gateway is not trusted, and this
 * file is trusted only to make the requests.
 */
const SECONDS = 30;
const MOST_OCTETS = 64 << 20;
const MOST_PUBLICATIONS = 16;
/**
 * The statuses with which a server, by `Retry-After`, asks the page to wait; then it is requested once more, after at
 * most this many seconds.
 */
const WAIT = [429, 503];
const MOST_WAIT = 3;

/** The server gave no answer. `status` is the server's, if it gave one, and `problem` its problem type. */
export class NoAnswer extends Error {
    constructor(sentence, status = 0, problem = "") {
        super(sentence);
        Object.assign(this, { status, problem });
    }
}

export class Server {
    #place;

    constructor(place) {
        this.#place = place.replace(/\/+$/, "");
    }

    /**
     * Returns the octets of a reply. `id` names a publication; otherwise the newest is requested, which must have the
     * minimum version. `pastCaches` bypasses caches.
     */
    reply({ ask, from, end }, { id, least = 0n, pastCaches = false } = {}) {
        const query = `${ask}?from=${from}&${ask === "route" ? "to" : "radius"}=${end}`;
        const newest = `/v1/${query}${least > 0n ? `&least=${least}` : ""}`;
        return this.#fetched(id ? `/v1/p/${id}/${query}` : newest, pastCaches ? "reload" : "default");
    }

    publication(id) {
        return this.#fetched(id ? `/v1/p/${id}/publication` : "/v1/publication", "default");
    }

    /** Returns the owner's chain file, bypassing all caches. */
    chain() {
        return this.#fetched("/v1/chain", "reload");
    }

    /** Returns the publications that the server says it has, newest first, without those not yet announced. */
    async publications() {
        const text = new TextDecoder().decode(await this.#fetched("/v1/info", "no-cache"));
        const known = JSON.parse(text).publications.slice(0, MOST_PUBLICATIONS).filter(({ id, announced }) => /^[0-9a-f]{16}$/.test(id) && announced !== false);
        return known.map(({ id, version, method }) => ({ id, version: BigInt(version), method: `${method}`.slice(0, 8).toUpperCase() }));
    }

    async #fetched(path, cache) {
        let found = await this.#response(path, cache);
        const wait = WAIT.includes(found.status) ? found.headers.get("Retry-After") : null;
        if (/^\d{1,9}$/.test(wait ?? "")) {
            await new Promise((goOn) => setTimeout(goOn, 1000 * Math.min(MOST_WAIT, Number(wait))));
            found = await this.#response(path, cache);
        }
        if (!found.ok) throw await noAnswer(found);
        return bounded(found.body);
    }

    async #response(path, cache) {
        try {
            return await fetch(this.#place + path, { cache, credentials: "omit", referrerPolicy: "no-referrer", signal: AbortSignal.timeout(1000 * SECONDS) });
        } catch {
            throw new NoAnswer("the server does not answer");
        }
    }
}

/** Returns what the server says of a request that it does not answer. */
async function noAnswer(found) {
    const { type, detail } = await bounded(found.body).then((octets) => JSON.parse(new TextDecoder().decode(octets)) ?? {}).catch(() => ({}));
    const words = detail === undefined ? "" : `: “${String(detail).slice(0, 200)}”`;
    const said = WAIT.includes(found.status) ? `the server asks to wait (status ${found.status})` : `the server answers with status ${found.status}${words}`;
    return new NoAnswer(said, found.status, `${type}`);
}

/** Returns all octets of a stream, unless there are too many. */
async function bounded(stream) {
    const pieces = [];
    let length = 0;
    const reader = stream.getReader();
    const next = () => reader.read().catch(() => { throw new NoAnswer("the server's answer stops midway"); });
    for (let piece = await next(); !piece.done; piece = await next()) {
        length += piece.value.length;
        pieces.push(piece.value);
        if (length > MOST_OCTETS) {
            reader.cancel();
            throw new NoAnswer("the server sends too much");
        }
    }
    return new Uint8Array(await new Blob(pieces).arrayBuffer());
}
