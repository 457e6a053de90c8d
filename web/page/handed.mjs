/**
 * Results to pass on: the answer as GeoJSON and GPX, the reply with the command that checks it again, the owner's key,
 * and a sheet to print. Nobody trusts this file: whoever gets the reply checks it.
 */
import { geojsonOf, gpxOf, hasPlaces } from "./files.mjs";
import { element, part } from "./shown.mjs";

const REPLY = "checked.reply";
let given = [];

/** Makes a link to a file that the page makes on demand. */
function link(text, name, type, content) {
    const made = element("a", text, { href: "#", download: name });
    made.addEventListener("click", () => {
        made.href = URL.createObjectURL(new Blob([content()], { type }));
        given.push(made.href);
    }, { once: true });
    return made;
}

/** Returns the command that checks a saved reply again, with the saved key and chain. */
function commandOf({ asked, found }, chain) {
    const command = asked.ask === "route" ? "check" : "check-reach";
    return `road_proof ${command} owner.key ${REPLY} ${asked.from} ${asked.end} ${found.version}${chain.length > 0 ? " owner.chain" : ""}`;
}

/** Offers files to save: what was accepted, if it has places on earth, and the octets of the reply. */
export function offer(accepted, octets, { nodes, streets, shapes, lengths, owner, chain }) {
    given.forEach((address) => URL.revokeObjectURL(address));
    given = [];
    const about = { nodes, streets, shapes, lengths, unit: owner.unit, attribution: owner.attribution };
    const links = accepted && hasPlaces(nodes, owner.unit) ? [
        link("GeoJSON", "proved.geojson", "application/geo+json", () => geojsonOf(accepted, about)),
        link("GPX", "proved.gpx", "application/gpx+xml", () => gpxOf(accepted, about)),
    ] : [];
    if (octets) links.push(link("the reply's octets", REPLY, "application/octet-stream", () => octets));
    if (octets) links.push(link("the owner's key", "owner.key", "text/plain", () => owner.key));
    if (octets && chain.length > 0) links.push(link("the chain of keys", "owner.chain", "application/octet-stream", () => chain));
    part("downloads").replaceChildren(...(links.length > 0 ? ["Save: ", ...links] : []));
    part("again").textContent = accepted ? commandOf(accepted, chain) : "";
    part("checks").hidden = !accepted;
    part("print").hidden = !accepted;
    part("handed").hidden = links.length === 0;
}

/** The printed sheet says when it was printed. */
export function sheet() {
    part("printed").textContent = `Printed ${new Date().toISOString().slice(0, 16).replace("T", " ")} UTC`;
}
