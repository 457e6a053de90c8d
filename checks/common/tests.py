#!/usr/bin/env python3
"""Tests the shared code of checks/, and the rules for JavaScript: checks/common/tests.py

The desks and publications here are written from docs/SPEC.md. sh and cat stand in for programs.
"""
import contextlib
import importlib.machinery
import importlib.util
import io
import os
import sys
import tempfile
import unittest
from pathlib import Path
from typing import Any

CHECKS = Path(__file__).resolve().parents[1]
sys.path.insert(0, str(CHECKS))

import trusted  # noqa: E402
from common import desks, maps, runs, served  # noqa: E402
from common.looks import Looks, StrictLooks  # noqa: E402


def style() -> Any:
    """checks/style as a module."""
    loader = importlib.machinery.SourceFileLoader("style", str(CHECKS / "style"))
    spec = importlib.util.spec_from_loader("style", loader)
    assert spec
    made = importlib.util.module_from_spec(spec)
    sys.dont_write_bytecode = True
    loader.exec_module(made)
    return made


class OfLooks(unittest.TestCase):
    def test_what_is_kept(self) -> None:
        looks = Looks(3)
        looks.same("one", 1, 1)
        looks.same("two", "abcdef", "abcxyz")
        looks.holds("three", [], "seen")
        looks.says("four", (0, b"", "said so"), 1, "said", "not")
        self.assertEqual(looks.played, 6)
        self.assertEqual(looks.faults[0], "two: abc, and not abc")
        self.assertEqual(looks.faults[1], "three (see): Fal, and not Tru")
        self.assertEqual(len(looks.faults), 4)
        told = io.StringIO()
        with contextlib.redirect_stdout(told):
            self.assertEqual(looks.told("looks"), 1)
        self.assertTrue(told.getvalue().endswith("\nlooks: 2 as wanted, 4 not\n"))

    def test_representations(self) -> None:
        looks = Looks()
        looks.same("octets", b"\0", b"")
        self.assertEqual(looks.faults, ["octets: b'\\x00', and not b''"])

    def test_the_first_ends_all(self) -> None:
        looks = StrictLooks()
        looks.same("one", 1, 1)
        with self.assertRaisesRegex(SystemExit, "two: 1, and not 2"):
            looks.same("two", 1, 2)
        self.assertEqual(looks.played, 2)


class OfRuns(unittest.TestCase):
    def test_how_one_ends(self) -> None:
        self.assertEqual(
            runs.outcome(["sh", "-c", "cat; echo said >&2; exit 3"], given=b"told"), (3, b"told", "said\n")
        )
        self.assertEqual(runs.written(["sh", "-c", "echo $0; exit 4", 7], status=4), b"7\n")
        with self.assertRaisesRegex(SystemExit, "false: status 1"):
            runs.written(["false"])

    def test_processor_seconds(self) -> None:
        with tempfile.TemporaryDirectory() as folder:
            Path(folder, "in").write_bytes(b"octets")
            self.assertLess(runs.processor_seconds(["/bin/cat"], "in", "out", folder=folder), 5)
            self.assertEqual(Path(folder, "out").read_bytes(), b"octets")
            with self.assertRaisesRegex(SystemExit, "status 3"):
                runs.processor_seconds(["/bin/sh", "-c", "exit 3"])

    def test_the_least_in_turn(self) -> None:
        given = {"one": iter([5.0, 4.0, 3.0, 2.0]), "other": iter([1.0, 2.0, 3.0, 0.5])}
        order: list[str] = []

        def run(name: str) -> float:
            order.append(name)
            return next(given[name])

        one, other = (lambda: run("one")), (lambda: run("other"))
        least = runs.least_in_turn({"one": one, "other": other}, lambda found: found["one"] <= 3, rounds=5, turns=2)
        self.assertEqual(least, {"one": 2.0, "other": 0.5})
        self.assertEqual(order, ["one", "other"] * 4)
        self.assertEqual(runs.least_in_turn({"never": lambda: 9.0}, lambda _: False, rounds=2), {"never": 9.0})

    def test_the_median_of_ratios(self) -> None:
        first, second = iter([2.0, 9.0, 3.0]), iter([1.0, 1.0, 1.0])
        self.assertEqual(runs.median_ratio(lambda: next(first), lambda: next(second), 3), 3.0)


class OfDesks(unittest.TestCase):
    def test_places(self) -> None:
        # an area has a block of 64 octets and 32 slots of 128
        self.assertEqual((desks.AREA, desks.slot_at(0), desks.slot_at(31), desks.slot_at(2, 1)), (4160, 64, 4032, 4480))

    def test_texts(self) -> None:
        image = bytearray(2 * 4160)
        image[64:69] = b"\1\3abc"
        image[4160 + 64 + 128 : 4160 + 64 + 128 + 4] = b"\1\2de"
        image[64 + 256 : 64 + 260] = b"\0\2fg"
        self.assertEqual(desks.texts_of(bytes(image)), {0: b"abc"})
        self.assertEqual(desks.texts_of(bytes(image), area=1), {1: b"de"})
        self.assertEqual(desks.texts_of(bytes(image), 1, area=1), {})
        self.assertEqual(desks.texts_of(b"short"), {})

    def test_publications(self) -> None:
        publication = b"RPP1" + bytes(range(104)) + b"\0\4" + b"\0\0\0\7" + b"rest"
        self.assertEqual(desks.key_number(publication), 7)
        self.assertEqual(publication[desks.HEADER], bytes(range(104)))
        # by coreutils' sha256sum over the header and 00000007
        self.assertEqual(desks.id_of(publication), "776716513f921af8")

    def test_a_desk(self) -> None:
        with tempfile.TemporaryDirectory() as folder:
            desk = desks.Desk("/bin/echo", folder)
            self.assertEqual(desk.make_key(), b"key secret.hex h5\n")
            self.assertEqual(Path(folder, "secret.hex").read_text(), "0" * 96)
            self.assertEqual(Path(folder, "owner.key").read_bytes(), b"key secret.hex h5\n")
            self.assertEqual(desk.run("desk"), (0, b"desk\n", ""))


class OfMaps(unittest.TestCase):
    def test_there_and_back(self) -> None:
        places, roads = maps.read_roads(maps.FIVE)
        self.assertEqual((len(places), places[5], roads[0], len(roads)), (5, (50, 50), (1, 2, 4), 4))
        self.assertEqual(maps.road_file(((node, x, y) for node, (x, y) in places.items()), roads), maps.FIVE)

    def test_least_lengths(self) -> None:
        self.assertEqual(maps.least_lengths([(1, 2, 9), (2, 1, 4)]), {(1, 2): 4, (2, 1): 4})

    def test_generators(self) -> None:
        places, roads = maps.read_roads(maps.made("grid", 3).decode())
        self.assertEqual((len(places), len(roads)), (9, 12))


class OfServed(unittest.TestCase):
    def test_frames(self) -> None:
        self.assertEqual(served.framed(b"", b"ab"), b"\0\0\0\0\0\0\0\2ab")
        self.assertEqual((served.begin(7), served.finish(7), served.install(b"x")), (b"\1\7", b"\3\7", b"\4x"))
        self.assertEqual(served.ask(1, 2, 3), b"\2\1\0\0\0\2\0\0\0\3")

    def test_a_server(self) -> None:
        with tempfile.TemporaryDirectory() as folder:
            echo = Path(folder, "echo")
            echo.write_text("#!/bin/sh\nexec cat\n")
            echo.chmod(0o755)
            server = served.Served(echo, "map.pub")
            self.assertEqual(server.told(b"one"), b"one")
            server.send(b"two", b"three")
            self.assertEqual((server.reply(), server.reply()), (b"two", b"three"))
            self.assertGreaterEqual(server.seconds(), 0)
            server.close()
            self.assertEqual(server.child.returncode, 0)


class OfTrusted(unittest.TestCase):
    def test_who_makes_objects(self) -> None:
        names = "names = NotedNames::new(rt);\n"
        for name, text, told in (
            ("desk_guard/src/folder.rt", names, []),
            ("desk_guard/src/folder.rt", names + names, ["makes NotedNames NotedNames, and not NotedNames"]),
            ("desk_guard/src/folder.rt", "", ["makes nothing, and not NotedNames"]),
            ("road_run/src/run.rt", "print(&mut StdSink::<R>::new(rt), more)", ["makes StdSink, and not nothing"]),
            ("road_run/src/run.rt", "rt.map(DeskDisk::new)", ["makes DeskDisk, and not nothing"]),
            ("road_run/src/run.rt", "use desk_disk::DeskDisk as Own;\n", ["DeskDisk as Own"]),
            ("road_run/src/run.rt", "<FileMirror as Mirror>::octets", []),
            ("road_run/src/run.rt", "open_to_append(rt, name)", ["makes open_to_append, and not nothing"]),
        ):
            with self.subTest(text=text):
                self.assertEqual(list(trusted.made(name, text)), told)

    def test_what_reaches_the_system(self) -> None:
        for text, told in (
            ("use std::io::{self, Error};", []),
            ("use std::fs::{self, File};", ["std::fs"]),
            ("file.write_all(octets)?;", [".write_all("]),
            ("impl Read for Own {", ["impl Read for"]),
        ):
            with self.subTest(text=text):
                self.assertEqual(list(trusted.reaches(text)), told)

    def test_statements(self) -> None:
        self.assertEqual(trusted.statements("\n    let at = f(\n        one,\n        two,\n    );\n    g(at);\n"), 2)


class OfStyle(unittest.TestCase):
    """Tests that the rules for JavaScript find their faults, and nothing else."""

    GOOD = (
        "/** A comment's 'words', var == null\n * and more. */\nexport function half(text) {\n    const it = /['\"]\\/==/.exec(text);\n"
        "    if (it === null) return `${text}'s\n  == ${1 == 1}`;\n    return [\n        1,\n        \"it's\"\n    ];\n}\n"
    )

    def faults(self, text: str) -> list[str]:
        return [what for _, what in style().faults_of_module(text)]

    def test_none(self) -> None:
        self.assertEqual(self.faults(self.GOOD), [])

    def test_each(self) -> None:
        for line, what in (
            ("\tlet a = 1;", "a tab"),
            ("let a = 1; ", "spaces at its end"),
            ("  let a = 1;", "an indent that is none of 4 spaces each"),
            ("let a = 'b';", "single quotes"),
            ("var a = 1;", "var"),
            ("let a = b == 1;", "a comparison that is none of === and !=="),
            ("let a = b != 1;", "a comparison that is none of === and !=="),
            ("let a = b()", "no semicolon"),
            (f"let a = \"{'b' * 200}\";", "211 characters"),
        ):
            self.assertIn(what, self.faults(f"{line}\nlet c = 2;\n"), line)
        self.assertEqual(self.faults("let a = 1;"), ["it does not end with one line end"])


if __name__ == "__main__":
    os.chdir("/")
    unittest.main()
