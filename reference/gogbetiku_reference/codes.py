"""Verdicts in the numbers of the client library.

docs/LIBRARY.md, "The calls". Part of the reference: tested, not proved, and trusted by no client.
"""
from .faults import Refused

ACCEPTED, APART = 1, 2
TESTS = {
    "NotAnswer": 3,
    "Malformed": 4,
    "Stale": 5,
    "BadChain": 6,
    "BadSignature": 7,
    "BadCover": 8,
    "RepeatedNode": 9,
    "BadRoute": 10,
    "MissingTuple": 11,
    "MissingPair": 12,
    "Shorter": 13,
    "Disagrees": 14,
    "MalformedChain": 18,
}
SEALS = {"BadKey": 1, "BadForm": 2, "NoMatch": 3}
COVERS = {"Place": 1, "Short": 2, "Long": 3, "Differs": 4}
CAUSES = SEALS | COVERS


def code_of(refused: Refused) -> tuple[int, int, int]:
    """The code of a refusal, and its two numbers."""
    fields = [field if isinstance(field, int) else CAUSES[field] for field in refused.fields]
    if refused.name == "BadCover" and len(fields) == 1:
        fields.insert(0, 1)
    first, second = (fields + [0, 0])[:2]
    return TESTS[refused.name], first, second
