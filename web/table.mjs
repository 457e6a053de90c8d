/**
 * A table of proved lengths, from each of some nodes to each of others, requested from an untrusted gateway.
 *
 *     const over = await Publication.of("https://routes.example", client, { least: 1 });
 *     for await (const { source, cells } of table(over, [346, 18], [1, 2, 3])) console.log(source, cells);
 *
 * `client` is a `Client`, a `WorkerClient`, or a list of them, each of which checks one reply at a time.
 *
 * A cell is a length from an accepted reply, as a BigInt; NONE, if an accepted reply says that there is no route, or if
 * the target is in another accepted reply of the publication and not within the greatest radius; UNKNOWN, if neither is
 * shown; or REFUSED, if replies were refused. Roads have the same length in both directions; there are no one-way
 * streets and no turns. gogbetiku/table.py says what is requested, and why. This file is trusted only to make the
 * requests.
 */
export const GREATEST = 2n ** 64n - 1n;
export const [NONE, UNKNOWN, REFUSED] = ["none", "not reached or no node", "refused"];
export const ROADS = "both ways alike; no one-way streets, no turns";
/** The radii to request: four in each doubling. */
export const RADII = [0n, 1n, 2n, 3n, ...Array.from({ length: 62 * 4 }, (_, at) => BigInt(4 + (at % 4)) << BigInt(at >> 2)), GREATEST];
const NUMBERS = RADII.map(Number);

const TRIALS = 3;
const MOST_OCTETS = 75_000_000;
const HELD = 256 << 20;
/** A header's fields, from its first octet on; its length, at which the length of its signature follows; and the signature. */
const [VERSION, NODES, HEADER, SIGNATURE] = [8, 16, 104, 106];
/** The header in a publication, in a range reply and in an answer. */
const [IN_PUBLICATION, IN_RANGE_REPLY, IN_ANSWER] = [4, 4, 1];
/** Seed and parameters, which follow the signature of a publication (docs/SPEC.md, 6). */
const SETTINGS = 32;
/**
 * The statuses with which a server, by `Retry-After`, asks to wait; the greatest number of seconds at a time, and in
 * all.
 */
const WAIT = [429, 503];
const [LONGEST_WAIT, PATIENCE] = [30, 120];
/** The octets reserved for an answer that does not state its length. */
const UNSAID = 4 << 20;
/** The greatest number of octets that are read of a server's reason for no answer. */
const MOST_SAID = 65_536;
/** The kinds of refusal that hold for every reply of a publication, whatever was requested. */
const OF_ALL = ["BadSignature", "BadChain", "MalformedChain", "Stale"];
/** The octets of a reply with one node, and of each further node, before any reply was seen. */
const [LEAST_REPLY, LEAF] = [2_000, 64];
/** The share of the whole map's octets that a reply may take before the whole map is requested. */
const NEARLY = 0.8;
/** How many octets of the publication cost as much as one octet of small replies, each with a signature to verify. */
const FEW = 4;
const MOST_SAMPLES = 2_000;
const IS_NODE = Boolean(globalThis.process?.versions?.node);

/**
 * The server gave no answer that can be checked. `status` is the server's: 404 says, without a proof, that an end is
 * not a node, and 410 that the publication is gone.
 */
export class NoAnswer extends Error {
    constructor(sentence, status = 0) {
        super(sentence);
        this.name = "NoAnswer";
        this.status = status;
    }
}

/** Limits the octets held at once; a single greater answer is held alone. */
class Room {
    #held = 0;
    #waiting = [];

    constructor(most) {
        this.most = most;
    }

    async take(octets) {
        while (this.#held > 0 && this.#held + octets > this.most) await new Promise((goOn) => this.#waiting.push(goOn));
        this.#held += octets;
    }

    give(octets) {
        this.#held -= octets;
        for (const goOn of this.#waiting.splice(0)) goOn();
    }
}

/** One publication of a gateway. */
export class Publication {
    #place;
    #clients;
    #idle = [];
    #room;
    #mostOctets;
    asks = 0;
    octets = 0;
    /** What the owner signed, known once a reply was accepted: `{ version, nodes }`. */
    header = null;

    /**
     * Returns the newest publication of a gateway, or the one with `id`. Throws `Refused` of kind NoneYoung if the client
     * has a greatest age and the newest is too old.
     */
    static async of(gateway, client, { id, ...options } = {}) {
        const over = new Publication(gateway, client, options);
        const known = await over.#info();
        const said = known.find((one) => id === undefined || one.id === id);
        if (!said) throw new NoAnswer(`the server has no publication ${id ?? ""}`.trimEnd());
        const [one] = over.#clients;
        if (id === undefined && BigInt(said.version) < (await one.leastToAsk(0n))) throw one.noneYoung();
        [over.id, over.saidNodes, over.saidOctets] = [said.id, said.nodes, said.octets];
        return over;
    }

    constructor(gateway, client, { least = 0n, mostOctets = MOST_OCTETS, held = HELD } = {}) {
        this.#place = gateway.replace(/\/+$/, "");
        this.#clients = [client].flat();
        this.#room = new Room(held);
        this.#mostOctets = mostOctets;
        this.least = BigInt(least);
        this.#idle = [...this.#clients];
        this.waiting = [];
    }

    /** Requests the nodes within a radius, and returns those of a list. */
    reach(from, radius, ids) {
        return this.#accepted(`reach?from=${from}&radius=${radius}`, (client, octets) => nearest(client, octets, from, radius, ids, this.least));
    }

    /** Requests a shortest route, or that there is none. */
    route(from, to) {
        return this.#accepted(`route?from=${from}&to=${to}`, (client, octets) => client.checkRoute(octets, from, to, this.least));
    }

    /** Requests the publication itself. Nothing of it is checked. */
    publication() {
        return this.#asked(`/v1/p/${this.id}/publication`, false, (octets) => octets);
    }

    async #info() {
        const text = new TextDecoder().decode(await this.#asked("/v1/info", true, (octets) => octets));
        try {
            return JSON.parse(text).publications.filter(({ id, version, nodes, octets }) => /^[0-9a-f]{16}$/.test(id) && /^\d{1,20}$/.test(version) && nodes >= 0 && octets >= 0);
        } catch {
            throw new NoAnswer("the server does not say what it has");
        }
    }

    /** Requests a refused reply again, bypassing all caches. */
    async #accepted(ask, check) {
        let [refused, before] = [null, null];
        for (let trial = 0; trial < TRIALS; trial++) {
            try {
                return await this.#asked(`/v1/p/${this.id}/${ask}`, trial > 0, async (octets) => {
                    if (refused && isSame(before, octets)) throw refused;
                    before = octets.slice();
                    const found = await this.#checked((client) => check(client, octets));
                    return { found, ...(await this.#headerOf(before)), size: before.length };
                });
            } catch (error) {
                if (error === refused || (error instanceof NoAnswer && refused)) break;
                if (error.name !== "Refused") throw error;
                refused = error;
            }
        }
        throw refused;
    }

    /** Runs a check on an idle client. */
    async #checked(check) {
        while (this.#idle.length === 0) await new Promise((goOn) => this.waiting.push(goOn));
        const client = this.#idle.pop();
        try {
            return await check(client);
        } finally {
            this.#idle.push(client);
            this.waiting.shift()?.();
        }
    }

    /**
     * Reads the publication of an accepted reply, which must be this one, and the number of leaves of a reply on a
     * radius.
     */
    async #headerOf(octets) {
        const at = octets[IN_RANGE_REPLY] === 0x52 && octets[0] === 0x52 ? IN_RANGE_REPLY : IN_ANSWER;
        const view = new DataView(octets.buffer, octets.byteOffset, octets.byteLength);
        const size = view.getUint16(at + HEADER);
        const signed = new Uint8Array(HEADER + size);
        signed.set(octets.subarray(at, at + HEADER));
        signed.set(octets.subarray(at + SIGNATURE, at + SIGNATURE + size), HEADER);
        const digest = new Uint8Array(await crypto.subtle.digest("SHA-256", signed)).subarray(0, 8);
        const id = Array.from(digest, (octet) => octet.toString(16).padStart(2, "0")).join("");
        if (id !== this.id) throw Object.assign(new Error(`The reply is from the publication ${id}, but ${this.id} was requested.`), { name: "Refused", kind: "OtherPublication" });
        this.header ??= { version: view.getBigUint64(at + VERSION), nodes: view.getUint32(at + NODES) };
        return { nodes: this.header.nodes, leaves: at === IN_RANGE_REPLY ? view.getUint32(at + SIGNATURE + size) : 0 };
    }

    /** Returns what is made of the octets of an answer, which count as held meanwhile. */
    async #asked(path, isPastCaches, use) {
        const found = await this.#waited(path, isPastCaches);
        if (!found.ok) throw new NoAnswer(await saidBy(found), found.status);
        const said = Number(found.headers.get("Content-Length") ?? 0);
        if (said > this.#mostOctets) {
            await found.body?.cancel();
            throw new NoAnswer(`the answer to ${path} has ${said} octets, but at most ${this.#mostOctets} are allowed`);
        }
        const size = said || UNSAID;
        await this.#room.take(size);
        try {
            const octets = await octetsOf(found, path, this.#mostOctets);
            this.octets += octets.length;
            return await use(octets);
        } finally {
            this.#room.give(size);
        }
    }

    async #waited(path, isPastCaches) {
        for (let waited = 0; ;) {
            const past = IS_NODE ? { headers: { "Cache-Control": "no-cache", "Accept-Encoding": "identity" } } : { cache: "reload" };
            const plain = IS_NODE ? { headers: { "Accept-Encoding": "identity" } } : {};
            const found = await fetch(this.#place + path, { ...(isPastCaches ? past : plain), credentials: "omit" }).catch(() => { throw new NoAnswer("the server does not answer"); });
            this.asks++;
            const said = found.headers.get("Retry-After") ?? "";
            const wait = Math.min(LONGEST_WAIT, Number(said));
            waited += wait;
            if (!WAIT.includes(found.status) || !/^\d{1,9}$/.test(said) || waited > PATIENCE) return found;
            await found.body?.cancel();
            await new Promise((goOn) => setTimeout(goOn, 1000 * wait));
        }
    }
}

/** Returns the nodes of a list among all that a reply proves to lie within the radius, nearest first. */
async function nearest(client, octets, from, radius, ids, least) {
    return (await client.nearest(octets, from, radius, ids, least)).nodes;
}

/** Returns what a server says about a request that it does not answer. */
async function saidBy(found) {
    let detail = "";
    try {
        detail = JSON.parse(new TextDecoder().decode(await octetsOf(found, "", MOST_SAID))).detail ?? "";
    } catch {
        // the status alone is said
    }
    return `the server answers with status ${found.status}${detail ? `: ${String(detail).slice(0, 200)}` : ""}`;
}

/** Reads an answer, which may be longer than its server says, and may not end. */
async function octetsOf(found, path, most) {
    const pieces = [];
    let size = 0;
    try {
        for (const reader = found.body.getReader(); ;) {
            const { done, value } = await reader.read();
            if (done) return joined(pieces, size);
            pieces.push(value);
            size += value.length;
            if (size > most) {
                await reader.cancel();
                break;
            }
        }
    } catch {
        throw new NoAnswer("the server's answer stops midway");
    }
    throw new NoAnswer(`the answer to ${path} has more than the allowed ${most} octets`);
}

function joined(pieces, size) {
    const octets = new Uint8Array(size);
    let at = 0;
    for (const piece of pieces) {
        octets.set(piece, at);
        at += piece.length;
    }
    return octets;
}

function isSame(one, two) {
    return one.length === two.length && one.every((octet, place) => octet === two[place]);
}

/** Returns the least radius of the series that is not below a number. */
function radiusFrom(least) {
    const at = NUMBERS.findIndex((radius) => radius >= least);
    return at < 0 ? RADII.length - 1 : at;
}

/** What was seen of lengths and octets, by which requests are chosen. No cell depends on it. */
class Guess {
    perPlace = 1;
    leaf = LEAF;
    apart = 0;
    reaches = new Map();
    routes = new Map();
    #ratios = [];

    constructor(whole, degree) {
        [this.whole, this.degree] = [whole, degree];
    }

    /**
     * Returns the straight-line distance of two places, in units of the latitude. On a plane, whose numbers are small
     * angles, it is the same.
     */
    straight(here, there) {
        const narrow = Math.max(0.05, Math.cos(((here.y + there.y) / 2 / this.degree) * (Math.PI / 180)));
        return Math.hypot((here.x - there.x) * narrow, here.y - there.y);
    }

    /**
     * Notes a length divided by its straight-line distance. The greater ratios count, and a few samples say little of
     * them.
     */
    ratio(length, straight) {
        if (straight <= 0 || this.#ratios.length >= MOST_SAMPLES) return;
        this.#ratios.push(Number(length) / straight);
        this.#ratios.sort((one, two) => one - two);
        this.perPlace = this.#ratios[Math.floor((9 * this.#ratios.length) / 10)] * (1 + 0.2 / this.#ratios.length);
    }

    reach(at, octets, leaves) {
        if (at > 0 && at < RADII.length - 1) this.reaches.set(at, ((this.reaches.get(at) ?? octets) + octets) / 2);
        if (leaves > 100) this.leaf = (octets - LEAST_REPLY) / leaves;
    }

    route(length, octets) {
        const [lengths, sizes] = this.routes.get(bitsOf(length)) ?? [length, octets];
        this.routes.set(bitsOf(length), [(lengths + length) / 2, (sizes + octets) / 2]);
    }

    /** Returns the octets of a reply with the whole map. */
    get most() {
        return LEAST_REPLY + this.whole * this.leaf;
    }

    /**
     * Estimates the octets of a reply on a radius from the nearest one that was seen; the number of nodes grows with
     * the square of the radius.
     */
    ofReach(at) {
        if (at === 0 || at === RADII.length - 1 || this.reaches.size === 0) return this.most;
        const other = nearestOf(this.reaches.keys(), (one) => Math.abs(Math.log(NUMBERS[one] / NUMBERS[at])));
        return Math.min(this.most, scaled(this.reaches.get(other), NUMBERS[at] / NUMBERS[other], 2));
    }

    /** Estimates the octets of a reply on a route from the nearest one that was seen. If there is none, one is tried. */
    ofRoute(length) {
        if (length === Infinity) return this.apart || LEAST_REPLY;
        if (this.routes.size === 0) return LEAST_REPLY;
        const [other, octets] = this.routes.get(nearestOf(this.routes.keys(), (one) => Math.abs(one - bitsOf(length))));
        return scaled(octets, (length + 1) / (other + 1), 1.5);
    }
}

function bitsOf(length) {
    return Math.ceil(Math.log2(Math.floor(length) + 1));
}

function nearestOf(items, far) {
    let [best, least] = [undefined, Infinity];
    for (const item of items) if (far(item) < least) [best, least] = [item, far(item)];
    return best;
}

function scaled(octets, times, power) {
    return LEAST_REPLY + Math.max(octets - LEAST_REPLY, LEAF) * times ** power;
}

/** Which nodes are joined, and which parts are apart, by accepted replies. It says what to request, and gives no cell. */
class Parts {
    #above = new Map();
    #apart = new Set();

    top(node) {
        while ((this.#above.get(node) ?? node) !== node) node = this.#above.get(node);
        return node;
    }

    join(a, b) {
        [a, b] = [this.top(a), this.top(b)];
        if (a !== b) this.#above.set(Math.max(a, b), Math.min(a, b));
    }

    part(a, b) {
        this.#apart.add(`${this.top(a)} ${this.top(b)}`);
    }

    areApart(a, b) {
        return this.#apart.has(`${this.top(a)} ${this.top(b)}`) || this.#apart.has(`${this.top(b)} ${this.top(a)}`);
    }
}

/** What the rows of a table share. */
class Shared {
    places = new Map();
    /** The ids in accepted replies, and those that the server says are not nodes. */
    stands = new Set();
    absent = new Set();
    parts = new Parts();
    isStopped = false;

    constructor(over, sources, targets, degree) {
        [this.over, this.targets] = [over, targets];
        this.ids = Uint32Array.from(new Set([...sources, ...targets])).sort();
        this.guess = new Guess(over.saidNodes, degree);
    }

    // ---- asks

    /** Returns the listed ids within a radius, each with its distance, and the number of all nodes within it. */
    async reached(source, at) {
        const { found, nodes, leaves, size } = await this.over.reach(source, RADII[at], this.ids);
        this.guess.whole = nodes;
        this.guess.reach(at, size, leaves);
        this.stands.add(source);
        for (const node of found) {
            this.stands.add(node.id);
            this.parts.join(source, node.id);
            this.places.set(node.id, node);
        }
        const here = this.places.get(source);
        for (const node of here ? found.slice(-8) : []) this.guess.ratio(node.distance, this.guess.straight(here, node));
        return [new Map(found.map(({ id, distance }) => [id, distance])), leaves];
    }

    /** Returns the cell from a reply on a route. */
    async routed(source, target) {
        let answer;
        try {
            answer = await this.over.route(source, target);
        } catch (error) {
            if (error.status === 404) return UNKNOWN;
            return this.#refused(error);
        }
        const { found, nodes, size } = answer;
        this.guess.whole = nodes;
        this.stands.add(source).add(target);
        if (found.kind === "no route") {
            this.guess.apart = ((this.guess.apart || size) + size) / 2;
            this.parts.part(source, target);
            return NONE;
        }
        this.parts.join(source, target);
        const [first, last] = [found.nodes[0], found.nodes.at(-1)];
        this.places.set(source, first).set(target, last);
        this.guess.route(Number(found.length), size);
        this.guess.ratio(found.length, this.guess.straight(first, last));
        return found.length;
    }

    /**
     * Returns a cell for a refusal, unless every reply would be refused for the same reason. Then it is an error of the
     * table, like any other error.
     */
    #refused(error) {
        if (error.name !== "Refused" || (!this.over.header && OF_ALL.includes(error.kind))) throw error;
        return REFUSED;
    }

    /** Tests whether a target is in an accepted reply; if not, requests one on a radius of 0 around it. */
    async isNode(target) {
        if (!this.stands.has(target) && !this.absent.has(target)) {
            await this.reached(target, 0).catch((error) => {
                if (error.status !== 404) throw error;
                this.absent.add(target);
            });
        }
        return this.stands.has(target);
    }

    /** Learns where the nodes are: from the publication, or from a reply for each node if that takes far fewer octets. */
    async learn(asks) {
        if (this.over.saidOctets > 0 && this.ids.length * FEW * LEAST_REPLY > this.over.saidOctets) this.#read(await this.over.publication());
        const left = [...this.ids].filter((node) => !this.places.has(node));
        await Promise.all(Array.from({ length: asks }, async () => {
            for (let node = left.pop(); node !== undefined; node = left.pop()) await this.isNode(node).catch((error) => this.#refused(error));
        }));
    }

    /** Reads places from a publication. They are not proved, and only guide what is requested. */
    #read(octets) {
        const view = new DataView(octets.buffer, octets.byteOffset, octets.byteLength);
        if (octets.length < IN_PUBLICATION + SIGNATURE) return;
        const at = IN_PUBLICATION + SIGNATURE + view.getUint16(IN_PUBLICATION + HEADER) + SETTINGS;
        if (octets.length < at + 4) return;
        const wanted = new Set(this.ids);
        const end = Math.min(at + 4 + 12 * view.getUint32(at), octets.length - 11);
        for (let row = at + 4; row < end; row += 12) {
            if (wanted.has(view.getUint32(row))) this.places.set(view.getUint32(row), { x: view.getInt32(row + 4), y: view.getInt32(row + 8) });
        }
    }

    // ---- a row

    async row(source, known) {
        const cells = new Map(known);
        let [inner, leaves] = [0, 0];
        for (let left = this.#left(source, cells); left.length > 0 && !this.isStopped; left = this.#left(source, cells)) {
            const [at, byRoute] = this.#choice(source, left, inner);
            if (byRoute !== undefined) {
                cells.set(byRoute, await this.routed(source, byRoute));
                continue;
            }
            const [found, count] = await this.#byRadius(source, at, left);
            for (const [target, cell] of found) cells.set(target, cell);
            // if a greater radius has no more nodes, only the greatest one shows more
            [inner, leaves] = [count === leaves ? Number(GREATEST) : NUMBERS[at], count];
        }
        return { source, cells: this.targets.map((target) => cells.get(target)) };
    }

    /** Returns the targets for which a request is left. An id that the server says is not a node is not requested again. */
    #left(source, cells) {
        const isAbsent = (node) => this.absent.has(node) && !this.stands.has(node);
        const left = this.targets.filter((target) => !cells.has(target));
        for (const target of left) if (isAbsent(source) || isAbsent(target)) cells.set(target, UNKNOWN);
        return left.filter((target) => !cells.has(target));
    }

    async #byRadius(source, at, left) {
        try {
            return await this.#ofRadius(source, at, left);
        } catch (error) {
            if (error.status === 404) {
                this.absent.add(source);
                return [left.map((target) => [target, UNKNOWN]), 0];
            }
            this.#refused(error);
            return [await this.#eachByRoute(source, left), 0];
        }
    }

    /** Returns the cells from a reply on a radius, and the number of nodes within it. */
    async #ofRadius(source, at, left) {
        const [within, count] = await this.reached(source, at);
        const cells = left.filter((target) => within.has(target)).map((target) => [target, within.get(target)]);
        for (const target of at === RADII.length - 1 ? left.filter((one) => !within.has(one)) : []) cells.push([target, await this.#beyond(source, target)]);
        return [cells, count];
    }

    /** Returns the cell of a target that is not within the greatest radius. */
    async #beyond(source, target) {
        try {
            if (!(await this.isNode(target))) return UNKNOWN;
        } catch (error) {
            this.#refused(error);
            return this.routed(source, target);
        }
        this.parts.part(source, target);
        return NONE;
    }

    /**
     * Returns the cells of a source after a reply on a radius was refused. Three refusals in a row count for all later
     * targets.
     */
    async #eachByRoute(source, left) {
        const cells = [];
        for (const target of left) {
            const isLying = cells.length > 2 && cells.slice(-3).every(([, cell]) => cell === REFUSED);
            cells.push([target, isLying ? REFUSED : await this.routed(source, target)]);
        }
        return cells;
    }

    // ---- what is asked next

    /** Returns the straight-line distance of a target, or nothing if its place is unknown. */
    #far(source, target) {
        const [here, there] = [this.places.get(source), this.places.get(target)];
        return here && there ? this.guess.straight(here, there) : 0;
    }

    /**
     * Chooses a radius of the series, or a target for a request on a route: whichever is expected to take the fewest
     * octets for all targets left.
     */
    #choice(source, left, inner) {
        const { guess } = this;
        const far = new Map(left.map((target) => [target, this.#far(source, target)]));
        // one reply on a route, and one on a radius about as large, show what others take
        if (guess.routes.size === 0 && guess.apart === 0) return [0, nearestOf(left, (target) => far.get(target) || Number.MAX_VALUE)];
        if (guess.reaches.size === 0 && guess.routes.size > 0) return [radiusFrom(Math.max(2, ...[...guess.routes.values()].map(([length]) => length)))];
        const lengthOf = (target) => {
            const length = Math.max(far.get(target) * guess.perPlace, inner * 1.4, 1);
            return length > Number(GREATEST) || this.parts.areApart(source, target) ? Infinity : length;
        };
        const order = left.map((target) => ({ target, length: lengthOf(target) })).sort((one, two) => (one.length < two.length ? -1 : one.length > two.length ? 1 : 0));
        const byRoute = order.map(({ length }) => guess.ofRoute(length));
        let behind = byRoute.reduce((sum, one) => sum + one, 0);
        let [best, chosen] = [behind, null];
        const costs = new Map();
        order.forEach(({ length }, place) => {
            behind -= byRoute[place];
            const at = radiusFrom(length);
            if (!costs.has(at)) costs.set(at, guess.ofReach(at));
            if (costs.get(at) + behind < best) [best, chosen] = [costs.get(at) + behind, costs.get(at) < NEARLY * guess.most ? at : RADII.length - 1];
        });
        return chosen === null ? [0, order[0].target] : [chosen];
    }
}

/**
 * Returns the rows of a table over one publication, in the order of the sources, `asks` of them at a time. `known`
 * gives the cells of a source that need no request, as pairs. `degree` is the number of coordinate units in a degree;
 * it is used only to estimate lengths.
 */
export async function* table(over, sources, targets, { asks = 8, known = () => [], degree = 10_000_000 } = {}) {
    for (const [name, ids] of Object.entries({ sources, targets })) {
        const wrong = ids.find((node) => !Number.isInteger(node) || node < 0 || node >= 2 ** 32);
        if (wrong !== undefined) throw new RangeError(`${name}: ${wrong} is not the id of a node`);
        if (new Set(ids).size !== ids.length) throw new RangeError(`${name}: node ${ids.find((node, at) => ids.indexOf(node) !== at)} occurs twice`);
    }
    const shared = new Shared(over, sources, targets, degree);
    const held = sources.map((source) => new Map(known(source)));
    const wanted = sources.map((_, place) => place).filter((place) => targets.some((target) => !held[place].has(target)));
    const rows = new Map();
    if (wanted.length > 0) {
        await shared.learn(asks);
        // the first row shows what replies take; then several rows are requested at once
        rows.set(wanted[0], await shared.row(sources[wanted[0]], held[wanted[0]]));
    }
    const left = wanted.slice(1);
    const ends = new Map(left.map((place) => [place, Promise.withResolvers?.() ?? resolvers()]));
    for (const { promise } of ends.values()) promise.catch(() => {});
    const working = Array.from({ length: asks }, async () => {
        for (let place = left.shift(); place !== undefined && !shared.isStopped; place = left.shift()) {
            await shared.row(sources[place], held[place]).then(ends.get(place).resolve, ends.get(place).reject);
        }
    });
    try {
        for (const [place, source] of sources.entries()) {
            if (rows.has(place)) yield rows.get(place);
            else if (ends.has(place)) yield await ends.get(place).promise;
            else yield { source, cells: targets.map((target) => held[place].get(target)) };
        }
    } finally {
        shared.isStopped = true;
        await Promise.allSettled(working);
    }
}

function resolvers() {
    const made = {};
    made.promise = new Promise((resolve, reject) => Object.assign(made, { resolve, reject }));
    return made;
}
