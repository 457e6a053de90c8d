/**
 * Tests what a caller may pass to the module: node play_calls.mjs FOLDER
 *
 * FOLDER has the package, and cases.json as web/play.py wrote it. Covers right, wrong and malformed hashes of a file,
 * of fetched octets and of octets; numbers of each kind; a worker that is ended, fails without a text, or gets too many
 * requests; and servers of the module and of the page's replies that stop midway. Exits with status 1 if anything
 * differs. Nobody trusts this file.
 */
import { createHash } from "node:crypto";
import { readFile } from "node:fs/promises";
import { createServer } from "node:http";
import { Client, Refused, load, noneYoung } from "./route_check.mjs";
import { WorkerClient } from "./route_check_worker.mjs";
import { Server } from "./server.mjs";

const folder = process.argv[2];
const { key, bits: [{ from, to, reply }] } = JSON.parse(await readFile(`${folder}/cases.json`, "utf8"));
const octets = Uint8Array.from(reply.match(/../g), (two) => parseInt(two, 16));
const wasm = await readFile(`${folder}/route_check.wasm`);
const hash = (of) => `sha256-${createHash("sha256").update(of).digest("base64")}`;
const right = hash(wasm);
const wrong = hash("another module");
const differ = [];

function same(what, seen, wanted) {
    if (seen !== wanted) differ.push(`${what}: ${seen}, and not ${wanted}`);
}

/** Returns the class of a call's error, and whether its text has a word; or what the call returns. */
async function ended(call, word = "") {
    try {
        const found = await call();
        return `gives ${found?.kind ?? typeof found}`;
    } catch (error) {
        if (error instanceof Refused) return `Refused ${error.kind}`;
        return `${error.constructor.name}${error.message.includes(word) ? "" : `, without "${word}": ${error.message}`}`;
    }
}

/** Serves the module, or a part of it before the connection is cut, or 404. */
function serving(request, response) {
    if (request.url === "/none") return response.writeHead(404).end();
    response.writeHead(200, { "content-type": "application/wasm", "content-length": wasm.length });
    if (request.url === "/whole") return response.end(wasm);
    response.write(wasm.subarray(0, 1000), () => setTimeout(() => response.socket.destroy(), 20));
}

async function hashes(origin) {
    const file = new URL(`file://${folder}/route_check.wasm`);
    for (const [what, place] of [["the default place", undefined], ["a file", file], ["octets", wasm], ["what is fetched", `${origin}/whole`]]) {
        same(`${what}, with its hash`, await ended(() => load(place, { integrity: right })), "gives object");
        same(`${what}, with another hash`, await ended(() => load(place, { integrity: wrong }), "SHA-256"), "Error");
        for (const integrity of ["", "sha256-", "sha256-…", "sha1-2jmj7l5rSw0yVb/vlWAYkK/YBwk=", right.toUpperCase(), `${right} ${wrong}`, right.slice(0, -1), ` ${right}`, null, 7, [right]]) {
            same(`${what}, with ${JSON.stringify(integrity)}`, await ended(() => load(place, { integrity }), "integrity"), "TypeError");
        }
    }
    same("a body that stops midway", await ended(() => load(`${origin}/part`), "stop midway"), "Error");
    same("a reply that stops midway", await ended(() => new Server(`${origin}/part?`).chain(), "the server's answer stops midway"), "NoAnswer");
    same("a place that is not there", await ended(() => load(`${origin}/none`), "404"), "Error");
    same("a file that is not there", await ended(() => load(new URL(`file://${folder}/none.wasm`)), "cannot be read"), "Error");
    same("nobody at the place", await ended(() => load("http://127.0.0.1:1/"), "is not answered"), "Error");
}

async function numbers() {
    const client = new Client(key);
    const kinds = ["", "7", [], [7], false, true, null, {}, () => 7, Symbol.iterator, new Date(), { valueOf: () => 7 }];
    const ranges = [NaN, Infinity, -Infinity, 0.5, -1, -1n, 2 ** 53, 2 ** 53 + 2, 2n ** 64n, -(2n ** 64n)];
    const calls = {
        least: (value) => client.checkRoute(octets, from, to, value),
        from: (value) => client.checkRoute(octets, value, to, 0),
        to: (value) => client.checkRoute(octets, from, value, 0),
        radius: (value) => client.checkReach(octets, from, value, 0),
        ids: (value) => client.nearest(octets, from, 9, [from, value], 0),
        count: (value) => client.nearest(octets, from, 9, [from], 0, { count: value }),
        memory: (value) => new Client(key, { memory: value }),
        mostOctets: (value) => new Client(key, { mostOctets: value }),
        maxAge: (value) => new Client(key, { maxAge: value }),
        floor: (value) => new Client(key, { maxAge: 9 }).leastToAsk(value),
        now: (value) => client.checkRoute(octets, from, to, 0, { now: value }),
    };
    const sentence = (value) => ended(() => { throw noneYoung(value); }, "maxAge");
    for (const value of kinds) same(`the sentence on an age of ${String(value)}`, await sentence(value), "TypeError");
    for (const value of ranges) same(`the sentence on an age of ${value}`, await sentence(value), "RangeError");
    same("the sentence on an age of 60", await sentence(60), "Refused NoneYoung");
    for (const [name, call] of Object.entries(calls)) {
        for (const value of kinds) same(`${name} of ${String(value)}`, await ended(() => call(value), name), "TypeError");
        for (const value of ranges) same(`${name} of ${value}`, await ended(() => call(value), name), "RangeError");
    }
    for (const name of ["from", "to", "ids", "mostOctets"]) same(`${name} of 2^32`, await ended(() => calls[name](2 ** 32), name), "RangeError");
    same("memory of 2^32 + 1", await ended(() => calls.memory(2 ** 32 + 1), "memory"), "RangeError");
    same("least that is left out", await ended(() => calls.least(undefined), "least"), "TypeError");
    for (const value of [0, -0, 1n, 3]) same(`least of ${value}`, await ended(() => calls.least(value)), "gives route");
    same("least of 2^53 - 1", await ended(() => calls.least(2 ** 53 - 1)), "Refused Stale");
    same("least of 2^64 - 1", await ended(() => calls.least(2n ** 64n - 1n)), "Refused Stale");
    same("ids that are BigInts", await ended(() => client.checkRoute(octets, BigInt(from), BigInt(to), 0n)), "gives route");
    same("mostOctets that is a BigInt", await ended(() => new Client(key, { mostOctets: 9n }).checkRoute(octets, from, to, 0)), "Refused TooLong");
    for (const simple of ["false", 0, null]) same(`simple of ${simple}`, await ended(() => client.checkRoute(octets, from, to, 0, { simple }), "simple"), "TypeError");
    for (const chain of [null, "00", 5]) same(`a chain of ${chain}`, await ended(() => new Client(key, { chain }), "chain"), "TypeError");
    for (const value of [null, 5, undefined, "12", {}, () => 7]) same(`ids of ${value}`, await ended(() => client.nearest(octets, from, 9, value, 0), "ids"), "TypeError");
    for (const value of [[], [from, from], new Set([1n]), new Uint32Array(9)]) same("ids", await ended(() => client.nearest(octets, from, 9, value, 0)), "Refused Malformed");
    for (const value of [null, 5, undefined, [1]]) {
        same(`a reply of ${value}`, await ended(() => client.checkRoute(value, from, to, 0), "reply"), "TypeError");
        same(`a key of ${value}`, await ended(() => new Client(value), "key"), "TypeError");
    }
}

/** The worker's script with a client whose check fails without a text, or never ends. */
async function altered(check) {
    const text = (name) => readFile(`${folder}/${name}`, "utf8");
    const client = (await text("route_check.mjs")).replace("checkRoute(reply, from, to, least, { simple = false, now = clock() } = {}) {", `$& ${check}`);
    const whole = (await text("age.mjs")) + client + (await text("route_check_worker.mjs"));
    return new URL(`data:text/javascript,${encodeURIComponent(whole.replace(/^import \{[^}]*\} from "\.\/(age|route_check)\.mjs";\n/gm, ""))}`);
}

/** Returns how many seconds a call takes, and how it ends. */
async function timed(call, word) {
    const began = performance.now();
    const how = await ended(call, word);
    return [how, (performance.now() - began) / 1000];
}

async function workers() {
    const client = await WorkerClient.start(key);
    const check = (it, ...least) => () => it.checkRoute(octets, from, to, ...(least.length ? least : [0]));
    same("a worker", await ended(check(client)), "gives route");
    same("a worker, of the nearest", await ended(() => client.nearest(octets, from, 9, [from], 0, { count: 1 })), "Refused Malformed");
    same("a worker, of wrong ids", await ended(() => client.nearest(octets, from, 9, [-1], 0), "ids"), "RangeError");
    same("a worker, with a wrong kind", await ended(check(client, ""), "least"), "TypeError");
    same("a worker, with a wrong number", await ended(check(client, NaN), "least"), "RangeError");
    same("a worker, behind them", await ended(check(client)), "gives route");
    const [how, took] = await timed(() => client.checkRoute(octets, from, to, () => 0), "");
    same("a value that cannot be posted", [how !== "gives undefined" && !how.startsWith("gives"), took < 2].join(), "true,true");
    same("a worker, behind that", await ended(check(client)), "gives route");
    client.end();
    const [after, long] = await timed(check(client), "ended");
    same("a call behind the end", [after, long < 2].join(), "Error,true");
    client.end();

    const module = await load();
    for (const thrown of ["new Error('')", "''", "undefined", "null", "Object.create(null, { message: { value: '' } })"]) {
        const failing = await WorkerClient.start(key, { module, place: await altered(`throw ${thrown};`) });
        same(`a worker that throws ${thrown}`, await ended(check(failing)), "Error");
        failing.end();
    }
    const endless = await WorkerClient.start(key, { module, seconds: 4, place: await altered("for (;;);") });
    const [late, waited] = await timed(check(endless), "longer than 4 seconds");
    same("a check that takes too long", [late, waited < 15].join(), "Error,true");
    same("a call behind it", (await timed(check(endless), "longer"))[1] < 0.5, true);
    const dying = await WorkerClient.start(key, { module, place: await altered("process.exit(0);") });
    const [dead, soon] = await timed(check(dying), "ended");
    same("a worker that dies", [dead, soon < 5].join(), "Error,true");
    for (const seconds of ["5", null]) same(`seconds of ${seconds}`, await ended(() => WorkerClient.start(key, { seconds }), "seconds"), "TypeError");
    for (const seconds of [0, -1, NaN, Infinity, 2 ** 31]) same(`seconds of ${seconds}`, await ended(() => WorkerClient.start(key, { seconds }), "seconds"), "RangeError");
    same("a worker with no key", await ended(() => WorkerClient.start("00"), "key"), "RangeError");
    same("a worker with no place", (await ended(() => WorkerClient.start(key, { place: new URL(`file://${folder}/none.mjs`) }))).startsWith("gives"), false);
}

const server = createServer(serving);
await new Promise((done) => server.listen(0, "127.0.0.1", done));
await hashes(`http://127.0.0.1:${server.address().port}`);
await load();
await numbers();
await workers();
server.close();
for (const one of differ.slice(0, 20)) console.log(one);
console.log(`calls: ${differ.length} differ`);
process.exitCode = differ.length ? 1 : 0;
