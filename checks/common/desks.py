"""Reads the file `owner.desk` and signed headers, written from docs/SPEC.md alone."""
import hashlib
from pathlib import Path

from common import layout
from common.runs import LONGEST, Ended, outcome, written

# the sizes of an area: its block, a slot, the gate and the length before a slot's text; and of a signature by an `h5`
# key
BLOCK, SLOT, SLOTS, TEXT, SIGNATURE = layout.BLOCK, layout.SLOT, 32, layout.TEXT, 1292
AREA = BLOCK + SLOT * SLOTS
# the parts of a publication: its header, the length of its signature, and the signature, which begins with the one-time
# key's number
SIGNED_AT = layout.IN_PUBLICATION + layout.SIGNATURE
HEADER = slice(layout.IN_PUBLICATION, layout.IN_PUBLICATION + layout.HEADER)
KEY_NUMBER, SIGNED = slice(SIGNED_AT, SIGNED_AT + 4), SIGNED_AT + SIGNATURE
# the file of a secret of zeros
ZEROS = "0" * 96


def slot_at(slot: int, area: int = 0) -> int:
    """The offset of a slot in an area."""
    return AREA * area + BLOCK + SLOT * slot


def texts_of(image: bytes, slots: int = SLOTS, area: int = 0) -> dict[int, bytes]:
    """The texts of the spent slots among an area's first slots, by slot."""
    found: dict[int, bytes] = {}
    for slot in range(slots):
        at = slot_at(slot, area)
        if at < len(image) and image[at]:
            found[slot] = image[at + TEXT : at + TEXT + image[at + layout.LENGTH]]
    return found


def key_number(publication: bytes) -> int:
    """The number of the one-time key that signed a publication."""
    return int.from_bytes(publication[KEY_NUMBER], "big")


def id_of(publication: bytes) -> str:
    """A publication's id, in the form of a gateway's URLs."""
    signature = publication[SIGNED_AT : layout.behind(publication, layout.IN_PUBLICATION)]
    return hashlib.sha256(publication[HEADER] + signature).hexdigest()[:16]


class Desk:
    """The program in an owner's folder, whose files are `secret.hex`, `owner.key` and `owner.desk`."""

    def __init__(self, program: str | Path, folder: str | Path = ".", seconds: float = LONGEST) -> None:
        self.program, self.folder, self.seconds = program, Path(folder), seconds

    def run(self, words: str, given: bytes = b"") -> Ended:
        """Runs a command. Returns its status and output."""
        return outcome([self.program, *words.split()], self.folder, given, self.seconds)

    def done(self, words: str, name: str | None = None) -> bytes:
        """Runs a command. Returns its output, and saves it under a name if one is given. The script ends if the status
        is not 0."""
        told = written([self.program, *words.split()], self.folder, seconds=self.seconds)
        if name is not None:
            (self.folder / name).write_bytes(told)
        return told

    def make_key(self, kind: str = "h5", secret: str = ZEROS) -> bytes:
        """Makes a secret, and its key as `owner.key`."""
        (self.folder / "secret.hex").write_text(secret, encoding="ascii")
        return self.done(f"key secret.hex {kind}", "owner.key")

    def image(self) -> bytes:
        """The octets of the desk."""
        return (self.folder / "owner.desk").read_bytes()
