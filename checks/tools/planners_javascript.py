"""Plays tables in JavaScript for checks/tools/planners.py.

Every cell must be networkx's. It also plays wrong lists, and gateways that lie, are withdrawn, send too much or never
end an answer. No client trusts this file.
"""
from __future__ import annotations

import json
import pathlib
import re
import shutil
import subprocess
from typing import Any

TOP = pathlib.Path(__file__).resolve().parents[2]
MODULE = TOP / "crates/route_check_c/out/route_check.wasm"
HEAD = f"""
import {{ readFile }} from "node:fs/promises";
import {{ Client, load }} from "{TOP}/web/route_check.mjs";
import {{ GREATEST, NoAnswer, Publication, RADII, table }} from "{TOP}/web/table.mjs";
import {{ radiusFrom }} from "{TOP}/web/page/radii.mjs";
await load(await readFile("{MODULE}"));
const clients = (key) => [new Client(key), new Client(key)];
const rowsOf = async (over, sources, targets) => {{
    const rows = [];
    for await (const {{ source, cells }} of table(over, sources, targets)) rows.push([source, cells.map(String)]);
    return rows;
}};
"""


def ended(it: Any, script: str) -> Any:
    """The output of a script."""
    from planners import same

    key = it.owner.path("owner.key").read_text().strip()
    done = subprocess.run(
        ["node", "--input-type=module", "-e", HEAD + f'const key = "{key}";\n' + script],
        capture_output=True,
        text=True,
        check=False,
        timeout=300,
    )
    same("JavaScript", done.stderr, "")
    return json.loads(done.stdout or "{}")


def lacks() -> bool:
    if shutil.which("node") and MODULE.exists():
        return False
    print("skipped: the table in JavaScript, since this machine has no node, or web/module has not made its module")
    return True


def play_javascript(it: Any, town: Any, gateways: dict[str, Any]) -> None:
    """The same table in JavaScript."""
    from planners import ISLAND, NOBODY, same

    if lacks():
        return
    sources, targets = [*range(5, 491, 41), ISLAND, NOBODY], [*range(3, 491, 12), ISLAND, NOBODY]
    seen = ended(
        it,
        f"""
const rows = [];
for (const gateway of {json.dumps([gateway.address for gateway in gateways.values()])}) {{
    const over = await Publication.of(gateway, clients(key), {{ least: 1 }});
    rows.push(...(await rowsOf(over, {sources}, {targets})));
}}
const steps = RADII.every((radius, at) => at < 4 || radiusFrom(Number(RADII[at - 1]) + 0.5) === radius || Number(radius) > 2 ** 50);
console.log(JSON.stringify({{ rows, steps, radii: RADII.map(String), greatest: `${{GREATEST}}` }}));
""",
    )
    wanted = [[source, [town.cell(source, target) for target in targets]] for _ in gateways for source in sources]
    rows = seen.get("rows", [])
    same("JavaScript: rows", [row for row, one in zip(rows, wanted) if row != one], [])
    same("JavaScript: all are there", len(rows), len(wanted))
    from gogbetiku.table import RADII

    same(
        "one series of radii for all", (seen.get("radii"), seen.get("steps")), ([str(radius) for radius in RADII], True)
    )


def play_wrong_javascript(it: Any, town: Any, gateway: Any, another: Any) -> None:
    """Wrong lists are refused before anything is asked. A lie costs its own cell alone, and a false publication none.
    Other answers are errors."""
    from front import Front, turned_about
    from planners import changed, endless, holds, of_another, same

    if lacks():
        return
    sources, targets = list(range(10, 260, 10)), list(range(301, 341))
    lie = (sources[7], targets[11])
    front, other, false, short = [Front(gateway.address) for _ in range(4)]
    other.wrong = of_another(another)
    false.wrong = (
        lambda path, _headers, status, more, octets: (status, more, turned_about(octets))
        if path.endswith("/publication")
        else None
    )
    short.wrong = (
        lambda path, _headers, status, more, octets: (status, more, octets[:200])
        if path.endswith("/publication")
        else None
    )

    def wrong(path: str, _headers: Any, status: int, more: Any, octets: bytes) -> Any:
        if path.startswith("/gone/") and "from=" in path:
            return 410, [("Content-Type", "application/problem+json")], b'{"detail": "This publication is gone."}'
        found = re.search(r"/(route|reach)\?from=(\d+)&(?:to|radius)=(\d+)$", path)
        if not found or int(found[2]) != lie[0] or found[3] == "0" or status != 200:
            return None
        is_of_cell = int(found[3]) == lie[1] if found[1] == "route" else int(found[3]) >= town.lengths(lie[0])[lie[1]]
        return (status, more, changed(octets)) if is_of_cell else None

    front.wrong = wrong
    with endless(front) as origin:
        seen = ended(
            it,
            f"""
const over = await Publication.of("{front.origin}", clients(key), {{ least: 1 }});
const told = {{ rows: await rowsOf(over, {sources}, {targets}) }};
const fails = async (over, sources, targets) => rowsOf(over, sources, targets).then(() => "none", (error) => `${{error.name}} ${{error.status ?? ""}} ${{error.message}}`);
told.twice = await fails(over, [18, 18], [3]);
told.wide = await fails(over, [18], [3, 2 ** 32]);
told.other = await fails(await Publication.of("{front.origin}", new Client("0000000500000004" + "11".repeat(48))), [18], [3]);
told.much = await fails(await Publication.of("{front.origin}", new Client(key), {{ mostOctets: 1500 }}), [18], [3]);
told.endless = await fails(await Publication.of("{origin}", new Client(key), {{ mostOctets: 100_000 }}), [18], [3]);
told.unknown = await Publication.of("{front.origin}", new Client(key), {{ id: "0123456789abcdef" }}).catch((error) => error.message);
told.others = await rowsOf(await Publication.of("{other.origin}", new Client(key)), [5, 46], [87]);
told.turned = await rowsOf(await Publication.of("{false.origin}", clients(key)), {sources[:5]}, {targets});
told.short = await rowsOf(await Publication.of("{short.origin}", clients(key)), {sources[:5]}, {targets});
const gone = await Publication.of("{front.origin}", new Client(key));
globalThis.fetch = ((fetched) => (place, options) => fetched(place.includes("from=") ? place.replace("/v1/", "/gone/v1/") : place, options))(fetch);
told.gone = await fails(gone, [18], [3]);
console.log(JSON.stringify(told));
""",
        )
    for one in (front, other, false, short):
        one.shutdown()
    same("JavaScript, replies of another publication", seen.get("others"), [[5, ["refused"]], [46, ["refused"]]])
    wanted = [[source, [town.cell(source, target) for target in targets]] for source in sources[:5]]
    same("JavaScript, a publication with false places", seen.get("turned") == wanted, True)
    same("JavaScript, a publication that stops", seen.get("short") == wanted, True)
    cells = {(source, target): cell for source, row in seen.get("rows", []) for target, cell in zip(targets, row)}
    same("JavaScript, a gateway that lies: cells", len(cells), 1000)
    same(
        "JavaScript, a gateway that lies",
        {pair: cell for pair, cell in cells.items() if cell != town.cell(*pair)},
        {lie: "refused"},
    )
    for name, told in (
        ("twice", "RangeError  sources: node 18 occurs twice"),
        ("wide", "RangeError  targets: 4294967296 is not the id of a node"),
        ("other", "Refused "),
        ("much", "octets, but at most 1500 are allowed"),
        ("endless", "has more than the allowed 100000 octets"),
        ("unknown", "the server has no publication 0123456789abcdef"),
        ("gone", "NoAnswer 410 the server answers with status 410: This publication is gone."),
    ):
        holds(f"JavaScript: {name}", told in seen.get(name, ""), seen.get(name))
