#!/usr/bin/python3
"""Validates the vectors with their JSON Schemas: checks/schemas.py

Each file of vectors/ must be valid under the schema that it names, and each schema must be a valid schema. It needs
Debian's python3-jsonschema, which only /usr/bin/python3 finds. Nothing here is proved, and no client trusts it. Ends
with status 1 if a file is invalid.
"""
import json
import pathlib
import sys

import jsonschema

VECTORS = pathlib.Path(__file__).resolve().parent.parent / "vectors"


def main() -> int:
    wrong, cases = 0, 0
    for path in sorted(VECTORS.glob("*.json")):
        if path.name.endswith(".schema.json"):
            jsonschema.Draft7Validator.check_schema(json.loads(path.read_text()))
            continue
        file = json.loads(path.read_text())
        schema = json.loads((VECTORS / file["schema"]).read_text())
        for fault in jsonschema.Draft7Validator(schema).iter_errors(file):
            wrong += 1
            print(f"{path.name}: {'/'.join(map(str, fault.absolute_path))}: {fault.message[:100]}")
        cases += len(file["cases"]) if "cases" in file else file["numberOfTests"]
    print(f"schemas: {wrong} places differ" if wrong else f"schemas: {cases} cases are of their schemas' form")
    return 1 if wrong else 0


if __name__ == "__main__":
    sys.exit(main())
