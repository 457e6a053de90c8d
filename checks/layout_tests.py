#!/usr/bin/env python3
"""Tests checks/layout.py, which must report each planted fault and nothing else: checks/layout_tests.py

The numbers here are written by hand from docs/SPEC.md. Nobody trusts this script.
"""
import sys
import unittest
from pathlib import Path

sys.path.insert(0, str(Path(__file__).resolve().parent))

import layout  # noqa: E402

SPEC = (layout.TOP / "docs/SPEC.md").read_text(encoding="utf-8")
LAYOUT, FIELDS = layout.layout_of(SPEC)[0], layout.fields_of(SPEC)
GIVEN = {
    **{"METHOD": 4, "ORDER": 5, "FAN": 6, "ZERO": 7, "VERSION": 8, "NODES": 16, "NODE_ROOT": 20, "PAIRS": 52},
    **{"PAIR_ROOT": 56, "FIRST": 88, "SECOND": 96, "HEADER": 104, "SIGNATURE": 106, "SETTINGS": 32},
    **{"IN_PUBLICATION": 4, "IN_RANGE_REPLY": 4, "IN_ANSWER": 1},
    **{
        "KIND": 1,
        "NAME": 5,
        "SEED": 21,
        "SPARE": 53,
        "BLOCK": 64,
        "SLOT": 128,
        "LENGTH": 1,
        "TEXT": 2,
        "MOST_TEXT": 126,
    },
}
# texts of SPEC, and their replacements
CHANGED = [
    ("A header has 104 octets", "A header has 105 octets"),
    ("| 16 | 4 | count of nodes |", "| 17 | 4 | count of nodes |"),
    ("| 56 | 32 | root of the pair tree |", "| 56 | 31 | root of the pair tree |"),
    ("| 96 | 8 | second number |", "| 96 | 9 | second number |"),
    ("| 4, 5, 6 | 1 | method, order, fan-out |", "| 4, 5, 6 | 1 | order, method, fan-out |"),
    ("| header, at offset 4 |", "| header, at offset 5 |"),
    ("at 108 and 110 |", "at 109 and 110 |"),
    ("at 108 and 110 |", "at 108 and 112 |"),
    ("| header, at offset 4 |", "| header, behind four octets |"),
    ("- header, at offset 1, length", "- header, at offset 2, length"),
    ("(`RPN1`), header, at offset 4, length", "(`RPN1`), header, at offset 3, length"),
    ("seed u64, three parameters u64", "seed u64, two parameters u64"),
    ("- 1: LMS type u32", "- 2: LMS type u32"),
    ("- 5, 21: `I`, `SEED`", "- 5, 20: `I`, `SEED`"),
    ("- 53 to 63: zero", "- 54 to 63: zero"),
    ("- 53 to 63: zero", "- 53 to 62: zero"),
    ("- 64 + 128 q: slot q", "- 64 + 130 q: slot q"),
    ("text of up to 126 octets", "text of up to 125 octets"),
    ("first min(length, 126) octets", "first min(length, 127) octets"),
    ("has octets 106 to 127 that", "has octets 105 to 127 that"),
    ("so 4,160 or 131,136 octets", "so 4,161 or 131,136 octets"),
]
READ = (
    'fn read_header(c) {\n    c.name(b"RPF1")?;\n    c.u8_in(1, 4)?; c.u8_in(0, 5)?; c.u8_in(2, 32)?;\n    c.name(&[0])?;\n'
    "    c.take_u64()?; c.u32_in(1, 9)?; c.take_digest()?; c.u32_in(0, 9)?; read_pair_root(c)?;\n"
    "    c.u64_in(0, 9)?; c.u64_in(0, 9)?;\n    Ok(Header {\n"
)
WRITE = "write_array(&mut text, 0, m);\nwrite_u8(&mut text, 4, 1);\n"


def told(spec: str) -> list[str]:
    """The reports about a SPEC."""
    found, faults = layout.layout_of(spec)
    return faults or list(layout.disagreements(spec, found))


class OfSpec(unittest.TestCase):
    def test_the_numbers(self) -> None:
        self.assertEqual(told(SPEC), [])
        self.assertEqual({name: LAYOUT[name] for name in layout.CONSTANTS}, GIVEN)
        self.assertEqual(layout.telling(LAYOUT), {104, 105, 106, 107, 108, 110, 126})

    def test_each_change_is_told(self) -> None:
        for old, new in CHANGED:
            self.assertEqual(SPEC.count(old), 1, old)
            self.assertTrue(told(SPEC.replace(old, new)), new)


class OfConstants(unittest.TestCase):
    def faults(self, name: str, text: str, has_all: bool = False) -> list[str]:
        return list(layout.faults_of_home(name, text, LAYOUT, has_all))

    def test_homes(self) -> None:
        self.assertEqual(self.faults("a.py", "VERSION, HEADER = 8, 104\nSLOT = 128\nOTHER = 7\n"), [])
        self.assertEqual(self.faults("a.py", "VERSION, HEADER = 9, 104\n"), ["a.py: VERSION is 9, and SPEC says 8"])
        self.assertEqual(self.faults("a.py", "OTHER = 7\n"), ["a.py: it has no constant of the layout"])
        self.assertEqual(len(self.faults("a.py", "HEADER = 104\n", has_all=True)), len(GIVEN) - 1)
        self.assertEqual(self.faults("a.mjs", "const [NODES, HEADER] = [16, 104];\nconst SETTINGS = 32;\n"), [])
        self.assertEqual(len(self.faults("a.mjs", "const [NODES, HEADER] = [16, 105];\nconst SETTINGS = 33;\n")), 2)
        self.assertEqual(self.faults("a.rs", "const HEADER: usize = 104;\n"), [])
        self.assertEqual(len(self.faults("a.rs", "const HEADER: usize = 103;\n")), 1)


class OfSequences(unittest.TestCase):
    def faults(self, text: str) -> list[str]:
        sequence = layout.SEQUENCES[0]._replace(begins="fn read_header(")
        return list(layout.faults_of_sequence(sequence, text, FIELDS))

    def test_readers(self) -> None:
        self.assertEqual(self.faults(READ), [])
        self.assertEqual(
            len(self.faults(READ.replace("c.take_u64()?; c.u32_in(1, 9)?;", "c.u32_in(1, 9)?; c.take_u64()?;"))), 1
        )
        self.assertEqual(len(self.faults(READ.replace("c.name(&[0])?;", ""))), 1)
        self.assertEqual(len(self.faults("nothing of it")), 1)

    def test_writers(self) -> None:
        self.assertEqual(list(layout.faults_of_written("a.rt", WRITE, [0, 4])), [])
        self.assertEqual(len(list(layout.faults_of_written("a.rt", WRITE, [0, 4, 5]))), 1)
        self.assertEqual(len(list(layout.faults_of_written("a.rt", WRITE.replace("4", "6"), [0, 4]))), 1)

    def test_the_reference(self) -> None:
        self.assertEqual(list(layout.faults_of_reference(FIELDS)), [])
        moved = [one._replace(at=one.at + 1) if one.name == "NODES" else one for one in FIELDS]
        self.assertEqual(len(list(layout.faults_of_reference(moved))), 1)


class OfSources(unittest.TestCase):
    def bare(self, name: str, text: str) -> list[str]:
        return list(layout.bare_in(name, text, LAYOUT, FIELDS))

    def test_python(self) -> None:
        self.assertEqual(self.bare("a.py", '"""104 octets"""\n# 110\nHEADER = 104\na = "126"\nb = 1040\n'), [])
        self.assertEqual(self.bare("a.py", "HEADER_OCTETS = 104\n"), ["104"])
        self.assertEqual(self.bare("a.py", "a = b[110:c]\n"), ["110"])
        self.assertEqual(self.bare("tool", "#!/usr/bin/env python3\na = min(b, 126)\n"), ["126"])
        self.assertEqual(self.bare("tool", "#!/bin/sh\nhead -c 110\n"), [])
        for at in ("8:16", "9:17", "12:20", "20:52", "24:56", "56:88", "0:104", "5:53", "1:53"):
            self.assertIn(f"[{at}]", self.bare("a.py", f"a = b[{at}]\n"))
        self.assertEqual(self.bare("a.py", "a = b[8:17] + b[7:16] + b[8:]\n"), [])

    def test_other_languages(self) -> None:
        self.assertEqual(
            self.bare("a.mjs", "// 104\n/* 110 */\nconst HEADER = 104;\nconst a = 1.104 + x104 + 0x6e;\n"), []
        )
        self.assertEqual(self.bare("a.mjs", "const at = 110 + view.getUint16(108);\n"), ["110", "108"])
        self.assertEqual(self.bare("a.rt", "let q = '\"'; &octets[4..108]; [0; 104]\n"), ["108", "104"])
        self.assertEqual(self.bare("a.antt", "-- 104\nlength text ≤ 104\n"), ["104"])
        for name in ("a.c", "a.h", "a.go", "a.rs", "a.java"):
            self.assertEqual(self.bare(name, "at(126); // 104\n"), ["126"])

    def test_meanings(self) -> None:
        given = {"crates/proof_octets/src/a.rt": "[0; 104]; 110; 107\n", "new.py": "a = b[110:c]\n"}
        faults = list(layout.faults_of_numbers(given, LAYOUT, FIELDS))
        self.assertIn("proof_octets: 107 stands bare, 1 times", faults)
        self.assertIn("new.py: 110 stands bare, 1 times", faults)
        self.assertIn("signed_out: no 110 stands there (IN_PUBLICATION + SIGNATURE)", faults)
        self.assertFalse([one for one in faults if one.startswith("proof_octets: no ")])

    def test_areas(self) -> None:
        given = {"crates/desk_areas/src/a.rt": "base + 64 + 128 * q; base + 5; base + 4; // base + 9\n"}
        self.assertEqual(list(layout.faults_of_bases(given, LAYOUT)), [])
        given = {"crates/desk_areas/src/a.rt": "base + 63 + 128 * q; base + 64 + 127 * q\n"}
        self.assertEqual(len(list(layout.faults_of_bases(given, LAYOUT))), 2)


if __name__ == "__main__":
    unittest.main()
