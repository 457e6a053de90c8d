#!/usr/bin/env python3
"""Plays tools/publish, tools/release and tools/monitor.py: checks/owner/tools.py PROGRAM

An owner signs versions 1 to 3. Then the desk from the time after version 1 is restored, as a backup would, and signs
version 9 with a one-time key that has already signed version 2.

`release` releases the first three and destroys the fourth. It refuses a torn log, a false key and an unsigned file, and
does not destroy a file that it cannot judge. After `succeed` it releases the publications of the next key. `monitor.py`
reports that the key is broken, a version that fell, a version with two headers, a slot that is not the owner's, and
unsigned files, also for names with line ends. `publish` refuses false versions, places, keys and desks. It is killed at
each step that changes a file, during the program's output, and while the program continues, and then runs again:
nothing is lost. Nobody trusts this script.
"""
import os
import pathlib
import re
import shutil
import subprocess
import sys
import tempfile
import time

TOP = pathlib.Path(__file__).resolve().parents[2]
sys.path.insert(0, str(TOP / "checks"))

from common import layout  # noqa: E402
from common.desks import SIGNED, SIGNED_AT, slot_at  # noqa: E402
from common.looks import StrictLooks  # noqa: E402
from common.maps import FIVE  # noqa: E402
from common.runs import Ended, outcome  # noqa: E402

TOOLS, STOP_AT = TOP / "tools", TOP / "checks/owner/stop_at.py"
SECRET, NEXT = bytes(range(48)), bytes(range(100, 148))
SECONDS, LAST = 600, 31
LOOKS = StrictLooks()
same, says = LOOKS.same, LOOKS.says


def run(*words: object) -> Ended:
    return outcome(words, seconds=SECONDS)


def write(name: str, text: str) -> None:
    pathlib.Path(name).write_text(text, encoding="ascii")


def octets(name: str) -> bytes:
    return pathlib.Path(name).read_bytes()


def there(*names: str) -> list[str]:
    return [name for name in names if os.path.exists(name)]


def signed(program: str, version: int, name: str) -> None:
    status, publication, said = run(program, "publish", "five.roads", "dij", version, "id", 0, 2, 0, 0, 0)
    same(f"publish of version {version}: {said}", status, 0)
    pathlib.Path(name).write_bytes(publication)


def key(program: str) -> None:
    """A road file, a key and its public key."""
    write("five.roads", FIVE)
    write("secret.hex", SECRET.hex())
    write("next.hex", NEXT.hex())
    status, public, said = run(program, "key", "secret.hex", "h5")
    same(f"key: {said}", status, 0)
    pathlib.Path("owner.key").write_bytes(public)


def prepare(program: str) -> None:
    """Publications from slots 0, 1 and 2, from slot 1 again after a restored desk, from the next key, and from the first again."""
    key(program)
    signed(program, 1, "one.pub.new")
    shutil.copyfile("owner.desk", "backup")
    signed(program, 2, "two.pub.new")
    signed(program, 3, "three.pub.new")
    shutil.copyfile("owner.desk", "good")
    shutil.copyfile("backup", "owner.desk")
    signed(program, 9, "nine.pub.new")
    shutil.copyfile("good", "owner.desk")
    same("succeed", run(program, "succeed", "next.hex", "h5")[0], 0)
    pathlib.Path("owner.chain").write_bytes(run(program, "links")[1])
    signed(program, 10, "ten.pub.new")
    shutil.copyfile("good", "owner.desk")
    signed(program, 11, "eleven.pub.new")


def released(program: str, name: str, *more: str, log: str = "log", key_name: str = "owner.key") -> Ended:
    return run(sys.executable, TOOLS / "release", program, f"{name}.pub.new", log, key_name, *more)


def left(what: str, ended: Ended, name: str, *parts: str) -> None:
    """Tests that a publication was neither released nor destroyed, and the log not changed."""
    says(what, ended, 1, *parts)
    same(
        f"{what}: what is left",
        (there(f"{name}.pub", f"{name}.pub.new"), octets(f"{name}.pub.new")),
        ([f"{name}.pub.new"], octets("copy")),
    )


def of_doubt(program: str) -> None:
    """A file that cannot be judged is left unchanged."""
    shutil.copyfile("two.pub.new", "copy")
    whole = octets("log")
    torn, other = whole[:-60], whole.replace(b" 0 1 ", b" 0 one ")
    for what, log, part in (
        ("a torn last line", torn, "line 1 has no line end"),
        ("no last line end", whole[:-1], "line 1 has no line end"),
        ("a line that is none", whole + b"what?\n" + whole, "line 2 is not of the form"),
        ("an empty line", b"\n" + whole, "line 1 is not of the form"),
        ("a number that is none", other, "line 1 is not of the form"),
        ("no text", b"\xff\xfe\n" + whole, "line 1 is not of the form"),
        ("two lines grown together", torn + whole, "line 1 is not of the form"),
    ):
        pathlib.Path("log").write_bytes(log)
        left(what, released(program, "two"), "two", part)
        same(f"{what}: the log", octets("log"), log)
    pathlib.Path("log").write_bytes(whole)
    write("ffff.key", "ffff\n")
    write("other.key", octets("owner.key").decode()[:48] + "0" * 64)
    for words in ((), (program, "two.pub", "log", "owner.key"), (program, "two.pub.new", "log")):
        says(
            f"release with {len(words)} words",
            run(sys.executable, TOOLS / "release", *words),
            2,
            "where NEW ends with .new",
        )
    left("a key that is none", released(program, "two", key_name="ffff.key"), "two", "it is not a public key")
    left("another key", released(program, "two", key_name="other.key"), "two", "it is not signed under other.key")
    left(
        "no log, where the key has signed before",
        released(program, "two", log="nowhere"),
        "two",
        "there is no such log",
    )
    left("a program that is none", released("no/program", "two"), "two", "there is no such program")
    left("a program that fails", released("/bin/false", "two"), "two", "check ended with status 1")
    changed = bytearray(octets("two.pub.new"))
    changed[600] ^= 1
    pathlib.Path("copy").write_bytes(changed)
    shutil.copyfile("copy", "false.pub.new")
    left("a changed signature", released(program, "false"), "false", "it is not signed under owner.key")
    pathlib.Path("copy").write_bytes(octets("two.pub.new")[:-1])
    shutil.copyfile("copy", "cut.pub.new")
    left("one that is cut off", released(program, "cut"), "cut", "it is not a complete publication")
    same("the log", octets("log"), whole)


def of_release(program: str) -> None:
    same("release of one", released(program, "one"), (0, b"", ""))
    of_doubt(program)
    same("release of two", released(program, "two"), (0, b"", ""))
    same("two are let out", there("one.pub", "one.pub.new", "two.pub", "two.pub.new"), ["one.pub", "two.pub"])
    shutil.copyfile("two.pub", "two.pub.new")
    same("the same publication again", released(program, "two")[0], 0)
    same("release of three", released(program, "three")[0], 0)
    shutil.copyfile("two.pub", "two.pub.new")
    says(
        "an earlier one that was let out, again",
        released(program, "two"),
        0,
        "version 2 is below 3, which was released before",
    )
    shutil.copyfile("nine.pub.new", "nine.copy")
    says(
        "release of nine",
        released(program, "nine"),
        1,
        "one-time key 1 has already signed another header, of version 2",
    )
    same("nine is destroyed", there("nine.pub", "nine.pub.new"), [])
    pathlib.Path("junk.pub.new").write_bytes(b"RPP1")
    shutil.copyfile("junk.pub.new", "copy")
    left("junk", released(program, "junk"), "junk", "it is not a complete publication")


def of_succession(program: str) -> None:
    """A publication of the next key is released along the chain; after it, none of the first key is."""
    shutil.copyfile("ten.pub.new", "copy")
    left("the next key's without a chain", released(program, "ten"), "ten", "After `succeed` name the chain file too")
    same("the next key's along the chain", released(program, "ten", "owner.chain"), (0, b"", ""))
    says(
        "the first key's behind it",
        released(program, "eleven", "owner.chain"),
        1,
        "one-time key 3 is earlier than 0 of a later key",
    )
    same("eleven is destroyed", there("eleven.pub", "eleven.pub.new"), [])
    lines = octets("log").decode("ascii").splitlines()
    same("the log", [line.split(" ")[1:3] for line in lines], [["0", "1"], ["1", "2"], ["2", "3"], ["0", "10"]])
    same(
        "whose keys it has",
        [line.split(" ")[0] for line in lines],
        [octets("owner.key").decode().strip()] * 3 + [octets("owner.chain")[4:60].hex()],
    )


def monitored(program: str, *files: str, desk: int | None = None) -> tuple[int, str]:
    extra = [] if desk is None else ["--desk", desk]
    status, told, said = run(sys.executable, TOOLS / "monitor.py", "book", "owner.key", program, *files, *extra)
    same(f"monitor of {files}", said, "")
    return status, told.decode()


def of_monitor(program: str) -> None:
    status, reply, _ = run(program, "prove", "one.pub", 1, 3)
    same("prove", status, 0)
    pathlib.Path("one.reply").write_bytes(reply)
    shutil.copyfile("two.pub", "t w\no.pub")
    same("what is in order", monitored(program, "one.pub", "one.reply", "t w\no.pub", "three.pub", desk=3), (0, ""))
    same("a slot that the desk has free", "at or above 2" in monitored(program, "three.pub", desk=2)[1], True)
    status, told = monitored(program, "nine.copy")
    same(
        "a broken key",
        (status, "broken: one-time key 1 has signed two headers, in t%20w%0ao.pub and in nine.copy" in told),
        (1, True),
    )
    same("a version that falls", "versions 3 and 9 are of one-time keys 2 and 1" in told, True)
    changed = bytearray(octets("one.pub"))
    changed[30] ^= 1
    pathlib.Path("fal\nse.pub").write_bytes(changed)
    same(
        "an unsigned header",
        monitored(program, "fal\nse.pub"),
        (1, "unsigned: fal%0ase.pub has no header signed by this key\n"),
    )
    book = octets("book")
    for what, broken, number in (
        ("torn", book[:-3], 4),
        ("with a name in two lines", book.replace(b"%0a", b"\n"), 3),
        ("with a word less", book + b"a b c d\n", 5),
    ):
        pathlib.Path("book").write_bytes(broken)
        says(
            f"a book {what}",
            run(sys.executable, TOOLS / "monitor.py", "book", "owner.key", program, "one.pub"),
            2,
            f"book: line {number} ",
        )
        same(f"a book {what}, behind it", octets("book"), broken)


def day(program: str, version: object, out: str = "m.pub", *more: str) -> Ended:
    """One day by `publish`."""
    return run(
        sys.executable, TOOLS / "publish", program, "five.roads", "dij", version, "id", 0, 2, 0, 0, 0, out, *more
    )


def spent() -> int:
    """The number of one-time keys of the desk's first key that have signed maps."""
    return sum(octets("owner.desk")[slot_at(slot)] != 0 for slot in range(LAST))


def version_in(name: str) -> int | None:
    is_there = os.path.exists(name) and os.path.getsize(name) > layout.IN_PUBLICATION + layout.NODES
    return layout.version_of(octets(name), layout.IN_PUBLICATION) if is_there else None


def refused(what: str, ended: Ended, *parts: str) -> None:
    """Tests that a day was refused before anything was signed."""
    before = octets("before")
    says(what, ended, 1, *parts)
    same(f"{what}: desk and place", (octets("owner.desk"), there("m.pub.new"), version_in("m.pub")), (before, [], 7))


def of_days(program: str) -> None:
    """Days that succeed, and cases that are refused before anything is signed."""
    says("a first day", day(program, 7), 0, "m.pub: Version 7 is in its place. One-time keys left: 30.")
    same("what is there", (version_in("m.pub"), there("m.pub.new"), octets("released.log").count(b"\n")), (7, [], 1))
    shutil.copyfile("owner.desk", "before")
    for version, part in (
        (7, "version 7 is not above version 7"),
        (6, "is not above"),
        (7 + 2**32 + 1, "more than 2^32 above version 7"),
        (2**64 - 1, "more than 2^32"),
        (2**64, "is not a number"),
        ("x", "is not a number"),
    ):
        refused(f"version {version}", day(program, version), part)
    for name, part in (
        ("owner.desk", "it exists but is not a publication"),
        ("five.roads", "it exists but is not a publication"),
        (".", "a link or not a regular file"),
    ):
        refused(f"the place {name}", day(program, 8, name), part)
    os.symlink("m.pub", "link.pub")
    refused("a place that is a link", day(program, 8, "link.pub"), "a link or not a regular file")
    write("torn", octets("released.log").decode()[:-1])
    refused("a torn log", day(program, 8, "m.pub", "--log", "torn"), "line 1 has no line end")
    refused("another log", day(program, 8, "m.pub", "--log", "nowhere"), "there is no such log")
    write("ffff.key", "ffff")
    refused("a key that is none", day(program, 8, "m.pub", "--key", "ffff.key"), "it is not a public key")
    write("other.key", octets("owner.key").decode()[:16] + "0" * 96)
    refused("another key", day(program, 8, "m.pub", "--key", "other.key"), "its keys are not those of other.key")
    says("a version anyway", day(program, 7 + 2**32 + 1, "m.pub", "--version-anyway"), 0, "One-time keys left: 29.")
    says(
        "a bad map",
        run(sys.executable, TOOLS / "publish", program, "five.roads", "full", 2**33, "id", 0, 99, 0, 0, 0, "m.pub"),
        2,
    )
    os.mkdir("mirror-1")
    says("a lost mirror", day(program, 2**33), 15, "lost mirror 1", "Version 8589934592 is in its place")
    os.rmdir("mirror-1")
    shutil.copyfile("owner.desk", "later")
    shutil.copyfile("before", "owner.desk")
    says("a desk that was put back", day(program, 2**33 + 1), 1, "The desk has gone back. Nothing was signed")
    same("what it signed", octets("owner.desk"), octets("before"))
    shutil.copyfile("later", "owner.desk")
    same("succeed", run(program, "succeed", "next.hex", "h5")[0], 0)
    says("no chain", day(program, 2**33 + 1), 1, "it signs with its key 2")
    pathlib.Path("owner.chain").write_bytes(run(program, "links")[1])
    says("the next key", day(program, 2**33 + 1), 0, "One-time keys left: 30.")
    same(
        "whose it is",
        octets("released.log").split(b"\n")[-2].startswith(octets("owner.chain")[4:60].hex().encode()),
        True,
    )


class Folder:
    """A copy of a prepared folder."""

    def __init__(self, base: str):
        self.base = base

    def __enter__(self) -> None:
        self.room = tempfile.TemporaryDirectory()
        shutil.copytree(self.base, f"{self.room.name}/desk")
        os.chdir(f"{self.room.name}/desk")

    def __exit__(self, *_: object) -> None:
        os.chdir("/")
        self.room.cleanup()


def stood(what: str) -> None:
    """After a stop, the whole old publication or the whole new one is in its place."""
    same(
        f"{what}: what stands",
        (version_in("m.pub"), len(octets("m.pub"))),
        (version_in("m.pub") if version_in("m.pub") in (7, 8) else 8, len(octets("old.pub"))),
    )


def of_syncs(program: str, base: str) -> None:
    """Each file is stable before the next step relies on it: the publication before the log, the log before the move."""
    if shutil.which("strace") is None:
        print("skipped: what tools/publish syncs, since this machine has no strace")
        return
    with Folder(base):
        calls = "trace=fsync,write,rename,renameat,renameat2"
        says(
            "a traced day",
            run(
                "strace",
                "-f",
                "-y",
                "-o",
                "trace",
                "-e",
                calls,
                sys.executable,
                TOOLS / "publish",
                program,
                "five.roads",
                "dij",
                8,
                "id",
                0,
                2,
                0,
                0,
                0,
                "m.pub",
            ),
            0,
        )
        here = os.path.realpath(".")
        marks = (
            (r"write\(\d+<.*/m\.pub\.new>", "signs"),
            (r"fsync\(\d+<.*/m\.pub\.new>", "syncs it"),
            (r"write\(\d+<.*/released\.log>", "writes the log"),
            (r"fsync\(\d+<.*/released\.log>", "syncs the log"),
            (r"rename.*m\.pub\.new", "moves it"),
            (rf"fsync\(\d+<{here}>", "syncs the folder"),
        )
        seen = [
            what
            for line in pathlib.Path("trace").read_text(errors="replace").splitlines()
            for mark, what in marks
            if re.search(mark, line)
        ]
        last = [
            max(number for number, what in enumerate(seen) if what == mark) if mark in seen else -1 for _, mark in marks
        ]
        same(f"the order of {seen}", (-1 in last, last), (False, sorted(last)))
        same("the name is stable before it signs", "syncs the folder" in seen[: seen.index("signs")], True)


def of_kills(program: str, base: str) -> int:
    """Kills at each step that changes a file. After another run, version 8 is in its place and has used one one-time key."""
    words = [TOOLS / "publish", program, "five.roads", "dij", 8, "id", 0, 2, 0, 0, 0, "m.pub"]
    with Folder(base):
        says("an uninterrupted day", run(sys.executable, STOP_AT, 0, *words), 0)
        steps = list(map(int, octets("steps").split()))
    same("the steps that change a file", len(steps) >= 6, True)
    for number in steps:
        with Folder(base):
            same(f"a kill at step {number}", run(sys.executable, STOP_AT, number, *words)[0], -9)
            stood(f"a kill at step {number}")
            ended = day(program, 8)
            for _ in range(100):
                if "another run is using" not in ended[2]:
                    break
                time.sleep(0.1)
                ended = day(program, 8)
            done = ended[0] == 0 or "version 8 is not above version 8" in ended[2]
            same(
                f"the run behind it, {ended}: what is there",
                (done, version_in("m.pub"), there("m.pub.new"), spent(), octets("released.log").count(b"\n")),
                (True, 8, [], 2, 2),
            )
            says("a day behind it", day(program, 9), 0, "One-time keys left: 28.")
    return len(steps)


def stand_in(text: str, program: str) -> str:
    """A program that runs a script in place of publishing."""
    write("stand-in", f'#!/bin/sh\ncase $1 in publish) {text};; esac\nexec {program} "$@"\n')
    os.chmod("stand-in", 0o755)
    return "./stand-in"


def of_stopped_programs(program: str, base: str) -> None:
    """The program is stopped, alone or with the tool, before it signs or during its output, or continues after the tool stops."""
    for count in (0, 3, SIGNED_AT, 700, SIGNED, SIGNED + 8):
        with Folder(base):
            stopped = stand_in(f'{program} "$@" | head -c {count}; kill -9 $PPID; exit 9', program)
            same(f"a stop behind {count} octets", day(stopped, 8)[0], -9)
            stood(f"a stop behind {count} octets")
            says(
                "the same day again",
                day(program, 8),
                1,
                "One-time key 1 has signed version 8, but the log does not have it.",
                "not above version 8",
            )
            same("what is there", (version_in("m.pub"), there("m.pub.new"), spent()), (7, [], 2))
            says("the next version", day(program, 9), 0, "One-time keys left: 28.")
    with Folder(base):
        same("a stop before it signs", day(stand_in("kill -9 $PPID; exit 9", program), 8)[0], -9)
        says("the same day again", day(program, 8), 0, "It is removed.", "One-time keys left: 29.")
    with Folder(base):
        says(
            "the program alone is stopped",
            day(stand_in(f'{program} "$@"; kill -9 $$', program), 8),
            1,
            "was stopped by signal 9",
        )
        says(
            "the same day again",
            day(program, 8),
            0,
            "which a stopped run had signed with one-time key 1",
            "One-time keys left: 29.",
        )
        same("one one-time key is used", spent(), 2)
    with Folder(base):
        says(
            "the output fails",
            day(stand_in(f'{program} "$@" | head -c 500; exit 6', program), 8),
            6,
            "One-time key 1 has signed version 8",
        )
        same("what is there", (version_in("m.pub"), there("m.pub.new")), (7, []))
    with Folder(base):
        going_on = stand_in(f'kill -9 $PPID; sleep 1; exec {program} "$@"', program)
        with subprocess.Popen(
            [
                sys.executable,
                str(TOOLS / "publish"),
                going_on,
                "five.roads",
                "dij",
                "8",
                "id",
                "0",
                "2",
                "0",
                "0",
                "0",
                "m.pub",
            ],
            stdout=subprocess.DEVNULL,
            stderr=subprocess.DEVNULL,
        ) as running:
            same("a stop beside a program that goes on", running.wait(SECONDS), -9)
        says("a run beside it", day(program, 8), 1, "another run is using it")
        for _ in range(100):
            ended = day(program, 8)
            if "another run" not in ended[2]:
                break
            time.sleep(0.1)
        says("a run behind it", ended, 0, "which a stopped run had signed with one-time key 1")
        same("one one-time key is used", spent(), 2)


def of_left(program: str, base: str) -> None:
    """A file OUT.new that cannot be judged is left unchanged, and nothing is signed."""
    with Folder(base):
        before = octets("owner.desk")
        signed(program, 8, "m.pub.new")
        shutil.copyfile("m.pub.new", "eight")
        for what, found, part in (
            ("another file", b"notes", "it is not a publication signed"),
            ("a changed signature", octets("eight")[:700] + b"!" + octets("eight")[701:], "it is not a publication"),
        ):
            pathlib.Path("m.pub.new").write_bytes(found)
            says(what, day(program, 9), 1, part)
            same(f"{what}: behind it", (octets("m.pub.new"), spent()), (found, 2))
        shutil.copyfile("eight", "m.pub.new")
        pathlib.Path("owner.desk").write_bytes(before)
        says("one that the desk does not hold", day(program, 9), 1, "the desk does not hold its header")
        same("it is left", octets("m.pub.new"), octets("eight"))
        os.remove("m.pub.new")
        signed(program, 9, "other.pub.new")
        shutil.copyfile("eight", "m.pub.new")
        says("one whose slot signed another", day(program, 10), 1, "the desk does not hold its header")


CLOCK = "import runpy, sys, time; now = float(sys.argv[1]); time.time = lambda: now; sys.argv = sys.argv[2:]; sys.path.insert(0, {folder!r}); runpy.run_path(sys.argv[0], run_name='__main__')"


def dated(program: str, now: int, *more: str) -> Ended:
    """Publishes one dated version, at this second."""
    words = ["--dated", program, "five.roads", "dij", "id", 0, 2, 0, 0, 0, "m.pub", *more]
    return run(sys.executable, "-c", CLOCK.format(folder=str(TOOLS)), now, TOOLS / "publish", *words)


def of_dates(program: str, base: str) -> None:
    """Dated versions: clocks at the limits, the same map each day, no return to counted versions, and how long the keys last."""
    first, last, a_day = 1_577_836_800, 2**34 - 1, 86_400
    with Folder(base):
        says("a clock before 2020", dated(program, first - 1), 1, "is not between the years 2020")
        says("a clock behind the last second", dated(program, last + 1), 1, "is not between the years 2020")
        says("the first second, behind counts", dated(program, first), 0, f"Version {first} is in its place")
        says("the same second", dated(program, first), 1, f"is not above version {first}")
        says("a second before", dated(program, first - 1, "--version-anyway"), 1, "is not between the years 2020")
        says("400 days later and a second", dated(program, first + 400 * a_day + 1), 1, "more than 400 days above")
        says(
            "the next day",
            dated(program, first + a_day),
            0,
            "One-time keys left: 28. At the pace of the last 2 signings they last 28 days. Make the next key in time",
        )
        says("a count", day(program, 8), 1, "a key that has signed a date signs no counts")
        says(
            "a count anyway",
            day(program, 8, "m.pub", "--version-anyway"),
            1,
            "a key that has signed a date signs no counts",
        )
        says("400 days later", dated(program, first + 401 * a_day), 0, f"Version {first + 401 * a_day} is in its place")
        says("a clock that went back, anyway", dated(program, first + 2 * a_day, "--version-anyway"), 0)
        says("the last second, anyway", dated(program, last, "--version-anyway"), 0)
    for days, wanted in ((7, "they last 126 days.\n"), (5, "they last 90 days. Make the next key in time")):
        with Folder(base):
            # two versions an hour apart come first: the pace is that of the last ten
            ended = [
                dated(program, at)
                for at in (first, first + 3_600, *(first + days * a_day * number for number in range(1, 11)))
            ]
            says(
                f"{days} days between the last ten",
                ended[-1],
                0,
                f"One-time keys left: 18. At the pace of the last 10 signings {wanted}",
            )
    for version in (2**30, first - 1, last + 1):
        with Folder(base):
            says(f"a desk with version {version}", day(program, version, "m.pub", "--version-anyway"), 0)
            says("a date behind it", dated(program, first + a_day, "--version-anyway"), 1, "neither a count nor a date")


def main() -> None:
    program = os.path.abspath(sys.argv[1])
    os.umask(0o077)
    with tempfile.TemporaryDirectory() as room:
        for name in ("logs", "days"):
            os.mkdir(f"{room}/{name}")
        os.chdir(f"{room}/logs")
        prepare(program)
        of_release(program)
        of_succession(program)
        of_monitor(program)
        os.chdir(f"{room}/days")
        key(program)
        shutil.copytree(".", f"{room}/base")
        of_days(program)
        os.chdir(f"{room}/base")
        says("a first day", day(program, 7), 0)
        shutil.copyfile("m.pub", "old.pub")
        of_syncs(program, f"{room}/base")
        kills = of_kills(program, f"{room}/base")
        of_stopped_programs(program, f"{room}/base")
        of_left(program, f"{room}/base")
        of_dates(program, f"{room}/base")
        os.chdir("/")
    print(
        f"tools/publish, tools/release and tools/monitor.py: {LOOKS.played} looks, each as wanted; kills at {kills} steps"
    )


if __name__ == "__main__":
    main()
