/**
 * A walk of two minutes through the purpose of the page, if the owner gives its places: a proved route, no route, a lie
 * that is refused, and an older map that is refused. Each step does what a user could do by hand. Nobody trusts this
 * file.
 */
import { element, part } from "./shown.mjs";

/** Title, what to see, the button, the state that the verdict should have, and what that means. */
const STEPS = [
    {
        title: "A route, proved", does: "Ask for the way home", wanted: "accepted",
        text: ({ from, to }) => `Ask for the shortest way from ${from} to ${to}. The server that answers is not trusted.`,
        after: "Your browser checked the answer with the map owner's key. The orange dots are signed crossings: they rule out every shorter way.",
    },
    {
        title: "No route, proved", does: "Ask for the way to the island", wanted: "accepted",
        text: ({ from, island }) => `No road and no ferry leads from ${from} to ${island}. A server has to prove that too.`,
        after: "The reply has all signed crossings of the island, and none of their roads leads off it.",
    },
    {
        title: "A lie, refused", does: "Let the server lie", wanted: "refused",
        text: () => "Ask for the first way again, and let the server lead you the long way round.",
        after: "The long way follows signed roads. It is refused, since the signed crossings show a shorter way.",
    },
    {
        title: "An older map, refused", does: "Let it use last summer's map", wanted: "refused",
        text: () => "In winter the pass is closed, and the owner signed a new map. Let the server answer from the one before.",
        after: "Its signature is good, and its route was the shortest in summer. Your browser knows a newer map, and accepts no older one.",
    },
];

export function walk(places, page) {
    const names = Object.fromEntries(Object.entries(places).map(([name, id]) => [name, page.streets.get(id) ?? `node ${id}`]));
    const doers = [() => ask(page, places, "to"), () => ask(page, places, "island"), () => lie(page, places), () => ask(page, places, "to", page.publications().at(-1)?.id)];
    const rows = STEPS.map((step, at) => rowOf(step, names, async (button) => {
        const isDone = (await doers[at]()) === step.wanted;
        rows[at].querySelector(".after").textContent = isDone ? step.after : "That went differently than this tour says.";
        rows[at].dataset.state = isDone ? "done" : "otherwise";
        button.textContent = "Again";
        button.setAttribute("aria-label", `${step.does}, again`);
        rows.forEach((row) => row.removeAttribute("aria-current"));
        rows[at + 1]?.setAttribute("aria-current", "step");
    }));
    part("steps").replaceChildren(...rows);
    rows[0].setAttribute("aria-current", "step");
    part("walk").hidden = false;
}

function rowOf({ title, text, does }, names, go) {
    const row = element("li", "");
    const button = element("button", does, { type: "button" });
    button.addEventListener("click", async () => {
        button.disabled = true;
        await go(button);
        button.disabled = false;
    });
    row.append(element("h3", title), element("p", text(names)), button, element("p", "", { className: "after" }));
    return row;
}

/** Requests the route from the walk's start, over a publication or the newest one. */
function ask({ question, ends, asking, showFields }, places, to, map = "") {
    question.ask.value = "route";
    showFields();
    ends.put("from", places.from);
    ends.put("to", places[to]);
    question.map.value = map;
    return asking();
}

async function lie(page, places) {
    const state = await ask(page, places, "to");
    if (state !== "accepted") return state;
    page.lying.lie.value = "round";
    return page.lieing();
}
