/** Writes text into the page. Nobody trusts this file for a verdict: it says what the proved client said. */
export const part = (id) => document.getElementById(id);
const big = new Intl.NumberFormat("en");

export function element(name, text, more = {}) {
    return Object.assign(document.createElement(name), { textContent: text, ...more });
}

/** Returns a number of things, such as `1 node` or `2 nodes`. */
export function counted(count, thing) {
    return `${big.format(count)} ${thing}${count === 1 ? "" : "s"}`;
}

/** Writes into the live region: the words of a verdict first, a line of code below, and warnings. */
export function say(state, first, text, { line = "", warnings = [] } = {}) {
    const verdict = part("verdict");
    verdict.dataset.state = state;
    const front = first ? [element("strong", first), " "] : [];
    verdict.replaceChildren(...front, text, ...warnings.map((words) => element("em", words)), ...(line ? [element("code", line)] : []));
}

/** Adds a warning to the text. */
export function warn(words) {
    part("verdict").append(element("em", words));
}

/** Marks an accepted verdict as belonging to a query other than the one now in the form. Returns whether there was one. */
export function sayBefore() {
    const verdict = part("verdict");
    if (verdict.dataset.state !== "accepted") return false;
    verdict.dataset.state = "before";
    verdict.prepend(element("b", "Of another question:"), " ");
    return true;
}

/** Writes what to do next, over the map, or nothing if there is nothing to do. */
export function hint(words) {
    part("hint").textContent = words;
    part("hint").hidden = !words;
}

export function tell(rows) {
    part("facts").replaceChildren(...Object.entries(rows).filter(([, value]) => value).flatMap(([name, value]) => [element("dt", name), element("dd", value)]));
}
