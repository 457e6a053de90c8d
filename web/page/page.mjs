/**
 * The owner's page. It sends requests to an untrusted server, has the proved client check the replies, and shows what
 * was proved. Its users trust the owner, who publishes page and key, and nobody else.
 */
import { Asker } from "./asker.mjs";
import { Checker, taken } from "./checker.mjs";
import { Ends } from "./ends.mjs";
import { Least } from "./least.mjs";
import { Lengths } from "./lengths.mjs";
import { NoAnswer, Server } from "./server.mjs";
import { hint, part, say, sayBefore } from "./shown.mjs";
import { Streets } from "./streets.mjs";

const FIRST = "Tap where to start, or name both ends.";
const owner = JSON.parse(part("owner").textContent);
const [form, lying] = [part("question"), part("lie").elements];
const question = form.elements;
const server = new Server(owner.gateway);
owner.maxAge = owner.maxAge ? BigInt(owner.maxAge) : undefined;
const checker = new Checker(owner.key, owner);
const least = new Least(owner.key, BigInt(owner.least), owner.maxAge);
const asker = new Asker(server, checker, least);
const [streets, lengths] = [new Streets(), new Lengths(owner.lengths)];
const ends = new Ends(question, streets, lengths);

/** What was accepted last: the query, the reply with its parts, and the verdict. */
let accepted = null;
let publications = [];
/** The module of stations, once it is loaded. */
let stations = null;
/** The user's last request; results of earlier ones are no longer shown. */
let turn = 0;

/** What shows a verdict is fetched after what makes requests. */
const showing = checker.ready().catch(() => {}).then(() => import("./result.mjs")).then(
    ({ Result }) => new Result({ owner, streets, lengths, server, checker, tapped }),
    () => {
        throw new Error("a part of this page is not there, or is not the file that this page names by its hash");
    },
);

// ---- showing

function showLeast() {
    part("least").textContent = least.version;
}

/** What is shown as proved belongs to a query other than the one now in the form. */
async function changed() {
    if (sayBefore()) (await showing).picture.showBefore();
}

async function showAccepted(one, mine) {
    const result = await showing;
    least.accept(one.found.version);
    showLeast();
    const whole = await result.accepted(one);
    if (mine !== turn) return;
    accepted = whole;
    result.show(whole);
    part("lie").hidden = false;
    if (publications.length > 0 && publications[0].version < one.found.version) showPublications().catch(() => {});
}

/** Only accepted replies are lied about. */
async function showNothing(error, isLie) {
    part("lie").hidden = !isLie;
    try {
        (await showing).nothing(error, isLie);
    } catch (lack) {
        say("failed", "There is no verdict:", `${lack.message}.`);
    }
}

async function showPlan(plan) {
    least.accept(plan.over.head.version);
    showLeast();
    await stations.show(plan, await showing);
}

/** Runs the user's request and shows how it ends, unless the user has made another. Returns the verdict's state. */
async function doing(words, work, isLie = false, show = showAccepted) {
    const [mine, verdict] = [++turn, part("verdict")];
    part("plan").hidden = true;
    verdict.setAttribute("aria-busy", "true");
    if (!isLie) await changed();
    if (!["accepted", "before"].includes(verdict.dataset.state)) say("waiting", "", words);
    hint(words);
    try {
        const one = await work();
        if (mine === turn) await show(one, mine);
    } catch (error) {
        if (mine === turn) await showNothing(error, isLie);
    }
    if (mine !== turn) return "left";
    hint("");
    verdict.setAttribute("aria-busy", "false");
    return verdict.dataset.state;
}

// ---- queries

function asking() {
    return doing("The server is asked, and its reply is checked.", async () => {
        const asked = ends.asked();
        history.replaceState(null, "", ends.link);
        return asker.answered(asked, question.map.value || undefined);
    });
}

/** Several queries in one: nothing else is shown beside their answer. */
function planning() {
    return doing("The server is asked, and its replies are checked.", async () => {
        history.replaceState(null, "", stations.link);
        const plan = await stations.planned(question.map.value || undefined);
        for (const name of ["ends", "ways", "all", "handed", "lie"]) part(name).hidden = true;
        return plan;
    }, false, showPlan);
}

form.addEventListener("submit", (event) => {
    event.preventDefault();
    if (stations?.isAsked) planning();
    else asking();
});

/** Shows the fields of the query. */
function showFields() {
    for (const label of form.querySelectorAll("[data-for]")) {
        label.hidden = !label.dataset.for.split(" ").includes(question.ask.value);
        for (const field of label.querySelectorAll("input, textarea")) field.disabled = label.hidden;
    }
}

form.addEventListener("change", ({ target }) => {
    showFields();
    if (target.name) changed();
});

form.addEventListener("input", ({ target }) => {
    changed();
    if (target.list) part("offers").replaceChildren(...streets.offers(target.value).map((text) => new Option(text, text)));
});

/** A tap chooses a node of the map that the server shows; the verdict names both ends as they are proved. */
async function tapped(node) {
    if (stations?.tap(node)) return hint(`${(await showing).named(node.id)} is a station. Tap another one, or ask.`);
    const [isWhole, result] = [ends.tap(node), await showing];
    await changed();
    result.picture.showAsked(ends.places);
    if (isWhole) form.requestSubmit();
    else hint(`From ${result.named(node.id)}. Now tap the place to go to.`);
}

part("forget").addEventListener("click", () => {
    least.forget();
    showLeast();
    hint(`Maps from version ${least.version} on are accepted again.`);
});

for (const name of ["print", "print-plan"]) part(name).addEventListener("click", () => print());

addEventListener("beforeprint", async () => {
    const { sheet } = await import("./handed.mjs");
    sheet();
});

addEventListener("hashchange", () => {
    fillByLink();
});

/** Fills the form from the part of the address after `#`, without a request. */
function fillByLink() {
    const isFilled = ends.fill(location.hash);
    if (stations?.fill(location.hash) || isFilled) showFields();
}

// ---- lies

/** Returns a reply over an older publication than the accepted one, if the server has one. */
async function older({ asked, found }) {
    publications = await server.publications().catch(() => publications);
    const old = publications.find(({ version }) => version < found.version);
    return old ? server.reply(asked, { id: old.id }).catch(() => null) : null;
}

async function lied(one, name) {
    const { LIES } = await import("./lies.mjs");
    const octets = await LIES[name][1]({ ...one, server, older: () => older(one) });
    if (!octets) throw new NoAnswer("this reply gives no room for that lie, or is too large for this page to look for one: try another lie");
    try {
        return { ...one, octets, ...(await asker.checked(one.asked, octets, one.found.version)) };
    } catch (error) {
        throw Object.assign(error, { octets });
    }
}

function lieing() {
    return doing("The server lies, and its reply is checked.", () => lied(accepted, lying.lie.value), true);
}

part("lie").addEventListener("submit", (event) => {
    event.preventDefault();
    lieing();
});

// ---- the start

/** Loads what the server says that it has: the maps to choose from, and the newest one as the background. */
async function showPublications() {
    publications = await server.publications();
    const { map } = question;
    const chosen = map.value;
    map.replaceChildren(map.options[0], ...publications.map(({ id, version, method }) => new Option(`version ${version}, ${method}`, id)));
    map.value = publications.some(({ id }) => id === chosen) ? chosen : "";
    if (!accepted && publications.length > 0) await (await showing).behind.show(publications[0].id);
}

/**
 * Loads what the page can do without: the lies, the owner's tables, what the server has with its map, and the owner's
 * walk.
 */
const behind = [
    async () => {
        const { Stations } = await import("./stations.mjs");
        stations = new Stations({ fields: question, ends, lengths, streets, asker });
        if (stations.fill(location.hash)) showFields();
    },
    async () => {
        const { LIES } = await import("./lies.mjs");
        lying.lie.replaceChildren(...Object.entries(LIES).map(([name, [words]]) => new Option(words, name)));
    },
    showStreets,
    async () => owner.shapes && (await showing).showShapes(new TextDecoder().decode(await taken(owner.shapes))),
    showPublications,
    showWalk,
];

/** If a table does not load, or is another one, the nodes have no names. */
async function showStreets() {
    if (owner.streets) streets.read(new TextDecoder().decode(await taken(owner.streets)));
}

async function showWalk() {
    if (!owner.walk) return;
    const { walk } = await import("./walk.mjs");
    await showStreets().catch(() => {});
    walk(owner.walk, { question, lying, ends, streets, asking, lieing, showFields, publications: () => publications });
}

async function begin() {
    part("insecure").hidden = isSecureContext;
    part("key").textContent = owner.key;
    part("attribution").textContent = owner.attribution;
    part("named").textContent = owner.name;
    part("named").hidden = !owner.name;
    part("age").textContent = least.ageSaid;
    part("aged").hidden = !least.ageSaid;
    part("lengths").textContent = lengths.typed.name ? `, in ${lengths.typed.name}` : "";
    ends.fill(location.hash);
    showLeast();
    showFields();
    say("waiting", "", "The client is loading.");
    const mine = turn;
    try {
        await checker.ready();
        performance.mark("ready");
        if (mine === turn) say("waiting", "", "Nothing is asked yet. Tap two places of the map, or name them.");
        hint(FIRST);
        await showing;
    } catch (error) {
        return showNothing(error, false);
    }
    return Promise.allSettled(behind.map((fetched) => fetched()));
}

begin();
