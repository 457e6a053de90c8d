/**
 * Compares the module with the library, case by case: node play_cases.mjs FOLDER [--long]
 *
 * FOLDER has the package and the cases as web/play.py wrote them. Nobody trusts this file.
 */
import { Client, Refused, load } from "./route_check.mjs";

function asked(client, one, [reply, from, end, least]) {
    if (one.ask === "nearest") return client.nearest(reply, from, end, one.ids, least, one.count === null ? {} : { count: one.count });
    return one.ask === "reach" ? client.checkReach(reply, from, end, least) : client.checkRoute(reply, from, end, least, { simple: one.simple });
}

/** Returns the module's result for a case, in the words of cases.json. */
function said(client, one, reply) {
    const words = [reply, one.from, one.ask === "route" ? one.end : BigInt(one.end), BigInt(one.least)];
    try {
        const found = asked(client, one, words);
        const nodes = found.nodes?.map(({ id, x, y, distance }) => [id, x, y, `${distance ?? ""}`]);
        const code = found.kind === "no route" ? 2 : found.inside === 0 ? 19 : 1;
        return { code, version: `${found.version}`, nodes, length: `${found.length ?? ""}`, inside: found.inside };
    } catch (error) {
        if (!(error instanceof Refused)) throw error;
        const { code, kind, first, second, line, sentence } = error;
        return { code, kind, first: `${first}`, second: `${second}`, line, sentence };
    }
}

/** Tests whether the result has everything that a case gives; the vectors give a line with its end, and no coordinates. */
function agrees(told, seen) {
    return Object.entries(told).every(([name, value]) => {
        if (name !== "line") return JSON.stringify(seen[name]) === JSON.stringify(value);
        return told.code < 3 || seen.line === value.trimEnd();
    });
}

/** Returns the cases that differ, and the number of cases for each code. */
export function compare({ cases }, octets) {
    const clients = new Map();
    const differ = [];
    const codes = {};
    for (const one of cases) {
        const name = `${one.key} ${one.chain}`;
        if (!clients.has(name)) clients.set(name, new Client(one.key, { chain: digits(one.chain) }));
        const seen = said(clients.get(name), one, octets.subarray(one.at, one.at + one.octets));
        codes[seen.code] = (codes[seen.code] ?? 0) + 1;
        if (!agrees(one.said, seen)) differ.push({ told: one.said, seen });
    }
    return { differ, codes };
}

export function digits(text) {
    return Uint8Array.from(text.match(/../g) ?? [], (two) => parseInt(two, 16));
}

/** Returns how a check is refused, or what it accepts. */
function kindOf(check) {
    try {
        return check().kind;
    } catch (error) {
        if (!(error instanceof Refused)) throw error;
        return error.kind;
    }
}

/** Flips every `stride`-th bit of a reply, one at a time; the reply is then never accepted. */
function bits({ key, bits: replies }, stride) {
    const differ = [];
    for (const { from, to, reply } of replies) {
        const client = new Client(key);
        const octets = digits(reply);
        for (let bit = 0; bit < 8 * octets.length; bit += stride) {
            octets[bit >> 3] ^= 1 << (bit & 7);
            const kind = kindOf(() => client.checkRoute(octets, from, to, 0));
            if (kind === "route" || kind === "no route") differ.push({ bit, kind });
            octets[bit >> 3] ^= 1 << (bit & 7);
        }
    }
    return differ;
}

/** Under each memory limit a check is refused as NoMemory or accepts, and from some limit on it accepts. */
function limits({ key, bits: replies }, step) {
    const differ = [];
    for (const { from, to, reply } of replies) {
        const kinds = [];
        for (let memory = 0; memory < 2 ** 21; memory += step) {
            kinds.push(kindOf(() => new Client(key, { memory }).checkRoute(digits(reply), from, to, 0)));
            if (kinds.at(-1) === "route") break;
        }
        const isRight = kinds.at(-1) === "route" && kinds.slice(0, -1).every((kind) => kind === "NoMemory");
        if (!isRight) differ.push({ kinds: [...new Set(kinds)] });
    }
    return differ;
}

/** Checks beyond the cases: lengths, wrong arguments, and a check after one that ran out of memory. */
function edges({ key, bits: [{ from, to, reply }] }) {
    const octets = digits(reply);
    const client = new Client(key, { mostOctets: octets.length });
    const short = new Client(key, { memory: 2 ** 20 + 2 ** 16 });
    const seen = {
        "as long as may be": kindOf(() => client.checkRoute(octets, from, to, 0)),
        "longer": kindOf(() => client.checkRoute(new Uint8Array(octets.length + 1), from, to, 0)),
        "again": kindOf(() => client.checkRoute(octets, from, to, 0)),
        "no memory for the reply": kindOf(() => short.checkRoute(new Uint8Array(2 ** 21), from, to, 0)),
        "behind it": kindOf(() => short.checkRoute(octets, from, to, 0)),
        "a buffer": kindOf(() => client.checkRoute(octets.buffer, from, to, 0n)),
        "a view": kindOf(() => client.checkRoute(new DataView(octets.buffer), from, to, 0n)),
    };
    const wanted = ["route", "TooLong", "route", "NoMemory", "route", "route", "route"];
    const differ = Object.entries(seen).filter(([, kind], at) => kind !== wanted[at]);
    const wrong = [() => client.checkRoute(octets, -1, to, 0), () => client.checkRoute(octets, from, 2 ** 32, 0), () => client.checkRoute(octets, from, to),
        () => client.checkRoute(octets, from, to, 1n << 64n), () => client.checkRoute("text", from, to, 0), () => new Client("00"), () => new Client(new Uint8Array(55))];
    for (const [at, call] of wrong.entries()) {
        try {
            differ.push([`wrong words ${at}`, call()]);
        } catch (error) {
            if (error instanceof Refused) differ.push([`wrong words ${at}`, error.kind]);
        }
    }
    return differ;
}

/** Runs eight workers at once, each with its own checks. */
async function workers({ key, bits: replies }) {
    const { WorkerClient } = await import("./route_check_worker.mjs");
    const clients = await Promise.all(Array.from({ length: 8 }, () => WorkerClient.start(key)));
    const kinds = await Promise.all(clients.flatMap((client) => replies.map(async ({ from, to, reply }) => {
        const route = await client.checkRoute(digits(reply), from, to, 0);
        const other = await client.checkRoute(digits(reply), from, to, 99).catch((error) => error);
        return `${route.kind} ${route.nodes[0].id} ${other instanceof Refused && other.kind}`;
    })));
    clients.forEach((client) => client.end());
    return kinds.filter((kind) => kind !== "route 1 Stale");
}

if (globalThis.process?.argv[1] === new URL(import.meta.url).pathname) {
    const { readFile } = await import("node:fs/promises");
    const [folder, long] = process.argv.slice(2);
    await load();
    const given = JSON.parse(await readFile(`${folder}/cases.json`, "utf8"));
    const { differ, codes } = compare(given, await readFile(`${folder}/cases.bin`));
    const parts = { cases: differ, bits: bits(given, long ? 1 : 16), limits: limits(given, long ? 16 : 4096), edges: edges(given), workers: await workers(given) };
    for (const [part, found] of Object.entries(parts)) for (const one of found.slice(0, 5)) console.log(part, JSON.stringify(one));
    console.log(`node: ${given.cases.length} cases, codes ${JSON.stringify(codes)}`);
    process.exitCode = Object.values(parts).some((found) => found.length > 0) ? 1 : 0;
}
