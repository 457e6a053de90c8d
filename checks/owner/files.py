#!/usr/bin/env python3
"""Plays the commands over an owner's files in good and bad states: checks/owner/files.py PROGRAM [--long]

The cases: help and version; a bad number, `-` and a pipe; a desk that is a link, has two names, is open to others or is
locked by another process; a lost or false owner.key; standard output that is a file in use; mirrors that are a FIFO, a
folder, or a link to nothing, to the desk, to a full device or to a file, and all eight at once; weak secrets; versions
that do not rise; and gates of spent one-time keys that a flipped bit has closed, after which no slot may sign two
texts.

If the machine has strace, further cases are played. A refused check opens each file once. A link that replaces the desk
or a mirror between inspection and opening is not followed. Each file is opened, locked and synced as required. A call
that the system refuses is reported as what it is: an opening, or a sync of the folder, the desk or a mirror. With
--long each bit of the block and of the slots' fronts is flipped. Nobody trusts this script.
"""
import fcntl
import os
import pathlib
import pty
import re
import shutil
import stat
import subprocess
import sys
import tempfile
import time

sys.path.insert(0, str(pathlib.Path(__file__).resolve().parents[1]))

from common import layout  # noqa: E402
from common.desks import BLOCK, SLOT, Desk, key_number, texts_of  # noqa: E402
from common.looks import StrictLooks  # noqa: E402
from common.maps import FIVE  # noqa: E402
from common.runs import Ended, outcome  # noqa: E402

SECONDS = 120
PLAIN, EARLY, AREA = "dij {} id 0 2 0 0 0", 31, 4160
LOOKS = StrictLooks()
same, says = LOOKS.same, LOOKS.says


class Owner(Desk):
    """The program in the working folder."""

    def publish(self, version: int, roads: str = "five.roads") -> Ended:
        return self.run(f"publish {roads} {PLAIN.format(version)}")


def write(name: str, text: str) -> None:
    pathlib.Path(name).write_text(text, encoding="ascii")


def desk() -> bytes:
    return pathlib.Path("owner.desk").read_bytes()


def of_help(owner: Owner) -> None:
    os.mkfifo("mirror-1")
    for words in ("help", "--help", "-h"):
        status, told, said = owner.run(words)
        same(words, (status, said, told.startswith(b"road_proof "), b"\n  publish ROADS" in told), (0, "", True, True))
    same("--version", owner.run("--version")[1].count(b"\n"), 1)
    for words in ("help", "help publish", "--version", "-V"):
        piped = f'{{ sleep 0.2; exec "{owner.program}" {words}; }} | true; echo "${{PIPESTATUS[0]}}"'
        ran = subprocess.run(["bash", "-c", piped], capture_output=True, text=True, check=False)
        same(f"{words} whose reader went away", (ran.stdout, ran.stderr), ("0\n", ""))
    for words in ("help serve", "serve --help", "serve -h"):
        same(words, owner.run(words)[:2], owner.run("help serve")[:2])
    says("help rout", owner.run("help rout"), 2, "rout: There is no such command.")
    says("no words", owner.run(""), 2, "commands:")
    same("route beside a FIFO", owner.run("route five.roads 1 3")[:2], (0, b"9: 1 2 3\n"))
    os.remove("mirror-1")


def of_reading(owner: Owner) -> None:
    write("bad.roads", "roads 1\nnode 1 47.37 8.54\n")
    says(
        "a bad number",
        owner.run("route bad.roads 1 1"),
        3,
        "Line 2: 47.37 is not a whole number from -2147483648 to 2147483647.",
    )
    write("bad.gr", "p sp 2 2\na 1 2 -4\n")
    says(
        "a bad length",
        owner.run("dimacs bad.gr five.roads"),
        3,
        "bad.gr: Line 2: -4 is not a whole number from 0 to 4294967295.",
    )
    says("-", owner.run("route - 1 3"), 3, "/dev/stdin")
    same("/dev/stdin", owner.run("route /dev/stdin 1 3", FIVE.encode())[:2], (0, b"9: 1 2 3\n"))


def of_secrets(owner: Owner) -> None:
    for digits in ("00" * 48, "01" * 48, "0123456789abcdef" * 6):
        write("weak.hex", digits)
        says("a weak secret", owner.run("key weak.hex h5"), 0, "weak.hex: It has fewer than 16 different octets")
        os.remove("owner.desk")
    write("secret.hex", bytes(range(48)).hex())
    os.chmod("secret.hex", 0o644)
    status, public, said = owner.run("key secret.hex h5")
    same("an open secret", (status, said.count("\n"), "secret.hex: Others may read or write it." in said), (0, 1, True))
    pathlib.Path("owner.key").write_bytes(public)
    same("the desk's mode", stat.S_IMODE(os.stat("owner.desk").st_mode), 0o600)


def of_signing(owner: Owner) -> None:
    says("a first publish", owner.publish(3), 0, "One-time key 0 has signed, and 30 are left. Now: 5 nodes, version 3.")
    write("two.roads", "roads 1\nnode 1 0 0\nnode 2 1 1\nroad 1 2 0\n")
    says(
        "another map",
        owner.publish(4, "two.roads"),
        0,
        "Before: 5 nodes, version 3; now: 2 nodes, version 4.",
        "Roads of length 0: 1.",
    )
    says(
        "a version again",
        owner.publish(4),
        0,
        "The desk has already signed version 4, and one-time key 2 has now signed version 4",
    )
    says("a version far above", owner.publish(4 + 2**32 + 1), 0, "more than 4294967296 above the last version, 4.")
    says("desk", owner.run("desk"), 0, "The short name of its key is ")


def of_replies(owner: Owner, folder: str) -> None:
    pathlib.Path("one.pub").write_bytes(owner.publish(2**33)[1])
    reply = owner.run("prove one.pub 1 3")[1]
    pathlib.Path("one.reply").write_bytes(reply)
    changed = reply[:-5] + bytes([reply[-5] ^ 1]) + reply[-4:]
    by_pipe = owner.run("check owner.key /dev/stdin 1 3 1", changed)
    same("a refusal over a pipe", by_pipe[:2], (1, b"refused BadCover 1 Differs\n"))
    same(
        "what is said of it",
        ("is empty" in by_pipe[2], "does not show that its roads are the signed ones" in by_pipe[2]),
        (False, True),
    )
    none = owner.run("prove one.pub 1 5")[1]
    says(
        "none", owner.run("check owner.key /dev/stdin 1 5 1", none), 0, "version 8589934592 of the owner's map shows it"
    )
    write("other.key", "00000005" + owner.run("desk")[1].decode()[8:110] + "00")
    says("another key", owner.run("check other.key one.reply 1 3 1"), 1, "The short name of this public key is ")
    if shutil.which("strace") is None:
        print("skipped: how often a file is opened, since this machine has no strace")
        return
    pathlib.Path("changed.reply").write_bytes(changed)
    words = [
        "strace",
        "-f",
        "-e",
        "trace=open,openat",
        "-o",
        f"{folder}/trace",
        owner.program,
        "check",
        "owner.key",
        "changed.reply",
        "1",
        "3",
        "1",
    ]
    subprocess.run(words, capture_output=True, timeout=SECONDS, check=False)
    trace = pathlib.Path(f"{folder}/trace").read_text(encoding="utf-8")
    for name in ("owner.key", "changed.reply"):
        same(f"how often {name} is opened", trace.count(f'"{name}"'), 1)


def of_desk_file(owner: Owner) -> None:
    before = desk()

    def refused(what: str, part: str, status: int) -> None:
        """A command that writes refuses the desk, and one that only reads it ends with this status and says the same."""
        says(what, owner.publish(2**34), 7, part)
        for words in ("desk", "links"):
            ended = owner.run(words)
            says(f"{what}: {words}", ended, status, part)
            same(f"{what}: how often {words} says it", ended[2].count(part), 1)
            same(f"{what}: whether {words} writes", bool(ended[1]), words == "desk" and not status)
        same(f"{what}: the desk", desk(), before)

    for mode in (0o620, 0o602, 0o666):
        os.chmod("owner.desk", mode)
        refused(f"a desk of mode {mode:o}", "Others may write it. `chmod 600 owner.desk` ends that", 0)
        same("its mode", stat.S_IMODE(os.stat("owner.desk").st_mode), mode)
    os.chmod("owner.desk", 0o600)
    os.link("owner.desk", "second.desk")
    refused("a desk of two names", "It has a second name", 7)
    os.remove("second.desk")
    os.rename("owner.desk", "real.desk")
    os.symlink("real.desk", "owner.desk")
    refused("a link", "It is a link, which is not followed.", 7)
    os.remove("owner.desk")
    os.mkfifo("owner.desk")
    for words in ("desk", "links"):
        says(f"{words} at a FIFO", owner.run(words), 7, "It is not a regular file. Move it away.")
    os.remove("owner.desk")
    if not os.geteuid():
        os.chown("real.desk", 65534, 65534)
        os.rename("real.desk", "owner.desk")
        refused("another user's desk", "It is another user's.", 7)
        os.chown("owner.desk", 0, 0)
        os.rename("owner.desk", "real.desk")
    os.symlink("nowhere", "owner.desk")
    says("a link to nothing", owner.run("key secret.hex h5"), 7, "It is a link")
    same("what it leads to", os.path.exists("nowhere"), False)
    os.remove("owner.desk")
    os.rename("real.desk", "owner.desk")
    if os.geteuid():
        os.chmod(".", 0o300)
        says("a folder that cannot be listed", owner.publish(2**34), 7, "Its folder cannot be listed or synced: ")
        same("the desk beside it", desk(), before)
    os.chmod(".", 0o777)
    says("an open folder", owner.run("desk"), 0, "Others can write to its folder")
    os.chmod(".", 0o700)


def of_open_desk(owner: Owner) -> None:
    """A command that writes to a desk closes it to others; one that only reads it leaves its mode."""
    for mode, words in (
        (0o644, f"publish five.roads {PLAIN.format(2**34)}"),
        (0o640, "key secret.hex h5"),
        (0o604, f"publish five.roads {PLAIN.format(2**34)}"),
    ):
        os.chmod("owner.desk", mode)
        for reading in ("desk", "links"):
            says(reading, owner.run(reading), 0, "owner.desk: Others may read it")
        same("the mode that a reader leaves", stat.S_IMODE(os.stat("owner.desk").st_mode), mode)
        ended = owner.run(words)
        says(
            words,
            ended,
            12 if words.startswith("key") else 0,
            "Others could read it until now, and cannot from now on.",
        )
        same("how often it is said", ended[2].count("Others "), 1)
        same("the mode that a writer leaves", stat.S_IMODE(os.stat("owner.desk").st_mode), 0o600)


def of_streams(owner: Owner) -> None:
    """Standard output or error that is the desk, or a file that the command reads, is refused before anything is written."""
    publish = f"publish five.roads {PLAIN.format(2**35)}"
    for stream, words, name, status in (
        (1, "desk", "owner.desk", 7),
        (2, "desk", "owner.desk", 7),
        (1, "help", "owner.desk", 7),
        (1, publish, "owner.key", 6),
        (1, publish, "five.roads", 6),
        (1, "route five.roads 1 3", "five.roads", 6),
    ):
        was = desk(), pathlib.Path(name).read_bytes()
        ran = subprocess.run(
            ["bash", "-c", f'exec "{owner.program}" {words} {stream}<> {name}'],
            capture_output=True,
            text=True,
            check=False,
        )
        same(
            f"{words} {stream}<> {name}",
            (ran.returncode, "Standard output would overwrite this file" in ran.stderr),
            (status, stream == 1),
        )
        same(f"{words} {stream}<> {name}: the files", (desk(), pathlib.Path(name).read_bytes()), was)


def of_lost_key(owner: Owner) -> None:
    """The messages if owner.key is empty or not a key, and the awaited key after a link."""
    before, public = desk(), pathlib.Path("owner.key").read_bytes()
    says(
        "a key again",
        owner.run("key secret.hex h5"),
        12,
        "`road_proof desk | cut -d' ' -f1 > owner.key` writes it again",
    )
    same("the desk", desk(), before)
    same("the key that desk tells", owner.run("desk")[1].split()[0], public.strip())
    for lost in (b"", b"ffff\n", public[:100]):
        pathlib.Path("owner.key").write_bytes(lost)
        for words, status in ((f"publish five.roads {PLAIN.format(2**36)}", 0), ("links", 0)):
            says(words, owner.run(words), status, "owner.key: It is not a public key")
    pathlib.Path("owner.key").write_bytes(public)
    write("second.hex", bytes(range(100, 148)).hex())
    says("succeed", owner.run("succeed second.hex h5"), 0)
    says("a key again", owner.run("key second.hex h5"), 12, "`road_proof desk` writes only the current key")
    same("a second key's map", owner.publish(7)[0], 0)
    says("desk", owner.run("desk"), 0, f"The last version that it has signed is 7, and the greatest is {2**36}.")
    whole = desk()
    for place, words in (
        (30, "links"),
        (10, f"publish five.roads {PLAIN.format(2**37)}"),
        (AREA + 30, f"publish five.roads {PLAIN.format(2**37)}"),
    ):
        turned = bytearray(whole)
        turned[place] ^= 16
        pathlib.Path("owner.desk").write_bytes(turned)
        same(f"{words.split()[0]} where place {place} was turned", owner.run(words)[:2], (12, b""))
    pathlib.Path("owner.desk").write_bytes(whole)


def swapped(owner: Owner, folder: str, words: str, name: str, target: str) -> Ended:
    """The end of a command during which a link to TARGET replaces a file, after its inspection and before its opening."""
    trace, held = pathlib.Path(f"{folder}/swap"), "open,openat"
    trace.unlink(missing_ok=True)
    how = [
        "strace",
        "-f",
        "-o",
        str(trace),
        "-P",
        name,
        "-e",
        "trace=%file",
        "-e",
        f"inject={held}:delay_enter=3000000:when=1",
    ]
    with subprocess.Popen(
        [*how, owner.program, *words.split()], stdout=subprocess.PIPE, stderr=subprocess.PIPE
    ) as running:
        wanted = time.monotonic() + SECONDS
        while not (trace.exists() and held[:4] in trace.read_text(encoding="utf-8")) and time.monotonic() < wanted:
            time.sleep(0.01)
        os.rename(name, f"{name}.looked")
        os.symlink(target, name)
        told, said = running.communicate(timeout=SECONDS)
    os.remove(name)
    os.rename(f"{name}.looked", name)
    return running.returncode, told, said.decode()


def of_swaps(owner: Owner, folder: str) -> None:
    """A link that replaces the desk or a mirror after its inspection is not followed."""
    if shutil.which("strace") is None:
        print("skipped: a link put under a name that was looked at, since this machine has no strace")
        return
    before = desk()
    shutil.copy("owner.desk", "other.desk")
    ended = swapped(owner, folder, f"publish five.roads {PLAIN.format(2**34)}", "owner.desk", "other.desk")
    says("a desk that became a link", ended, 7, "road_proof: owner.desk: ")
    same("what was written", (ended[1], desk(), pathlib.Path("other.desk").read_bytes()), (b"", before, before))
    for words in ("desk", "links"):
        ended = swapped(owner, folder, words, "owner.desk", "other.desk")
        says(f"{words} at a desk that became a link", ended, 7, "road_proof: owner.desk: It is a link")
        same(f"{words}: what was written", ended[1], b"")
    os.remove("other.desk")
    write("mirror-1", "")
    write("foreign", "")
    ended = swapped(owner, folder, f"publish five.roads {PLAIN.format(2**34)}", "mirror-1", "foreign")
    says(
        "a mirror that became a link",
        ended,
        15,
        "road_proof: mirror-1: Something else put another file under its name just now.",
    )
    same("what was written to it", (os.path.getsize("foreign"), os.path.getsize("mirror-1")), (0, 0))
    os.remove("mirror-1")
    os.remove("foreign")


def of_mirrors(owner: Owner) -> None:
    def lost(what: str, part: str, version: int) -> None:
        says(what, owner.publish(version), 15, f"road_proof: mirror-1: {part}", "lost mirror 1")

    os.mkfifo("mirror-1")
    lost("a FIFO", "It is a FIFO or a socket", 2**34)
    os.remove("mirror-1")
    os.mkdir("mirror-1")
    lost("a folder", "It cannot be opened: ", 2**34 + 1)
    os.rmdir("mirror-1")
    os.symlink("not/mounted", "mirror-1")
    lost("a link to nothing", "It cannot be opened: ", 2**34 + 2)
    os.remove("mirror-1")
    os.symlink("owner.desk", "mirror-1")
    size = len(desk())
    lost("a link to the desk", "It leads to the owner's desk.", 2**34 + 3)
    same("the desk's size", len(desk()), size)
    os.remove("mirror-1")
    write("copy", "")
    os.symlink("copy", "mirror-1")
    os.symlink("/dev/full", "mirror-2")
    ended = owner.publish(2**34 + 4)
    says("a full device", ended, 15, "lost mirror 2")
    same("a mirror that is a link", pathlib.Path("copy").read_bytes(), ended[1])
    os.remove("mirror-2")
    if not os.geteuid():
        os.lchown("mirror-1", 65534, 65534)
        lost("another user's link", "It is a link, and the link or its target belongs to another user.", 2**34 + 5)
        same("what it leads to", pathlib.Path("copy").read_bytes(), ended[1])
    os.remove("mirror-1")


def of_all_mirrors(owner: Owner) -> None:
    """Each of the eight mirrors appends the publication to its content. A ninth file is not a mirror."""
    names = [f"mirror-{label}" for label in range(1, 10)]
    for name in names:
        write(name, "old")
    ended = owner.publish(2**34 + 6)
    says("eight mirrors", ended, 0)
    for name in names[:8]:
        same(name, pathlib.Path(name).read_bytes(), b"old" + ended[1])
    same(names[8], pathlib.Path(names[8]).read_bytes(), b"old")
    for name in names:
        os.remove(name)


def of_locks(owner: Owner) -> None:
    """A desk that another process has locked is neither read nor written."""
    before = desk()
    with open("owner.desk", "rb") as held:
        fcntl.flock(held, fcntl.LOCK_EX)
        for words in (f"publish five.roads {PLAIN.format(2**34 + 7)}", "links", "desk"):
            ended = owner.run(words)
            says(f"{words} at a locked desk", ended, 7, "road_proof: owner.desk: ")
            same(f"{words} at a locked desk: what was written", (ended[1], desk()), (b"", before))
        fcntl.flock(held, fcntl.LOCK_SH)
        ended = owner.publish(2**34 + 7)
        says("publish at a desk that another process reads", ended, 7, "road_proof: owner.desk: ")
        same("what was written", (ended[1], desk()), (b"", before))


def failing(owner: Owner, call: str, error: str, name: str, words: str) -> Ended:
    """The end of a command if the system refuses each call of this kind on a file, for this reason."""
    how = ["strace", "-f", "-o", os.devnull, "-P", name, "-e", f"trace={call}", "-e", f"inject={call}:error={error}"]
    return outcome([*how, owner.program, *words.split()], seconds=SECONDS)


def of_refused_calls(owner: Owner) -> None:
    """A call that the system refuses is reported as what it is."""
    if shutil.which("strace") is None:
        print("skipped: calls that the system refuses, since this machine has no strace")
        return
    for error, status in (("EACCES", 4), ("EIO", 4), ("ENOENT", 3)):
        same(f"{error} at a file", failing(owner, "openat", error, "five.roads", "route five.roads 1 3")[0], status)
    publish, before = f"publish five.roads {PLAIN.format(2**34 + 8)}", desk()
    for name, said in (
        (".", "Its folder cannot be listed or synced: "),
        ("owner.desk", "It cannot be read or written"),
    ):
        ended = failing(owner, "fsync", "EIO", name, publish)
        says(f"a sync of {name} that fails", ended, 7, f"road_proof: owner.desk: {said}")
        same("what was written", ended[1], b"")
    same("the desk behind a folder that was not synced", desk()[:BLOCK], before[:BLOCK])
    write("mirror-1", "")
    for error, status, parts in (
        ("EIO", 15, ("road_proof: mirror-1: It cannot be synced: ", "lost mirror 1")),
        ("EINVAL", 0, ()),
    ):
        pathlib.Path("mirror-1").write_bytes(b"")
        ended = failing(owner, "fsync", error, "mirror-1", publish)
        says(f"a mirror whose sync gives {error}", ended, status, *parts)
        same("what it took", pathlib.Path("mirror-1").read_bytes(), ended[1])
    os.remove("mirror-1")


CALL = re.compile(r"^\d+ +(\w+)\((?:AT_FDCWD[^,]*, \"([^\"]*)\"|\d+<([^>]*)>)(?:, ([^)]*))?\) += (-?\d+)", re.M)


def calls_of(owner: Owner, words: str, names: tuple[str, ...]) -> list[str]:
    """The openings, locks and syncs of these files, with their flags, in a command that ends with status 0. Refused calls
    and immediate repetitions are left out."""
    trace, found = pathlib.Path("trace"), [""]
    how = ["strace", "-f", "-y", "-o", str(trace), "-e", "trace=openat,flock,fsync,fchmod"]
    same(words, outcome([*how, owner.program, *words.split()], seconds=SECONDS)[0], 0)
    for call, opened, held, rest, answer in CALL.findall(trace.read_text(encoding="utf-8")):
        name, way = opened or os.path.relpath(held), re.sub(r"\|O_(?:CLOEXEC|NOCTTY)", "", rest)
        line = f"{call} {name} {way}".strip()
        if name in names and not answer.startswith("-") and line != found[-1]:
            found.append(line)
    trace.unlink()
    return found[1:]


def of_calls(owner: Owner) -> None:
    """The way files are opened, locked, closed to others and synced: none is truncated, and no existing one is created."""
    if shutil.which("strace") is None:
        print("skipped: how files are opened, since this machine has no strace")
        return
    held, folder = ["openat owner.desk O_RDWR", "flock owner.desk LOCK_EX|LOCK_NB"], ["openat . O_RDONLY", "fsync ."]
    names = (".", "owner.desk", "mirror-1")
    write("mirror-1", "")
    os.chmod("owner.desk", 0o640)
    seen = calls_of(owner, f"publish five.roads {PLAIN.format(2**34 + 9)}", names)
    mirror = "openat mirror-1 O_WRONLY|O_APPEND"
    same("how publish opens the mirror", seen.count(mirror), 1)
    seen.remove(mirror)
    wanted = [*held, "fchmod owner.desk 0600", *folder, "fsync owner.desk", "fsync mirror-1"]
    same("the first two calls of publish, and the last two", (seen[:2], seen[-2:]), (wanted[:2], wanted[-2:]))
    same("the calls of publish", sorted(seen), sorted(wanted))
    same("the calls of desk", calls_of(owner, "desk", names)[:4], [*held, *folder])
    os.remove("mirror-1")
    os.rename("owner.desk", "old.desk")
    seen = calls_of(owner, "key secret.hex h5", names)
    same("the calls of key", seen[:2], ["openat owner.desk O_RDWR|O_CREAT|O_EXCL, 0600", held[1]])
    same("its syncs", (seen.count(folder[1]) > 0, seen[-1]), (True, "fsync owner.desk"))
    os.rename("old.desk", "owner.desk")


def at_terminal(owner: Owner, words: str, is_output: bool) -> tuple[int, str]:
    """The status of a command whose standard output or error is a terminal, and the text on the terminal."""
    ours, theirs = pty.openpty()
    told, said = (theirs, subprocess.DEVNULL) if is_output else (subprocess.DEVNULL, theirs)
    done = subprocess.run(
        [owner.program, *words.split()],
        timeout=SECONDS,
        check=False,
        stdin=subprocess.DEVNULL,
        stdout=told,
        stderr=said,
    )
    os.set_blocking(ours, False)
    try:
        shown = os.read(ours, 65536)
    except BlockingIOError:
        shown = b""
    os.close(theirs)
    os.close(ours)
    return done.returncode, shown.decode()


def of_terminals(owner: Owner) -> None:
    before = desk()
    for words in (
        f"publish five.roads {PLAIN.format(2**35)}",
        "prove one.pub 1 3",
        "reach one.pub 1 4",
        "serve one.pub",
        "links",
    ):
        same(f"a terminal as the output of {words}", at_terminal(owner, words, True), (2, ""))
    same("the desk", desk(), before)
    hyp = at_terminal(owner, f"publish five.roads hyp {2**35} id 0 2 3 1 0", False)
    same("long work", (hyp[0], "The distances of all pairs of border nodes are found" in hyp[1]), (0, True))
    same("short work", at_terminal(owner, "route five.roads 1 3", False), (0, ""))


def of_bits(owner: Owner) -> None:
    """Gates of spent slots that a flipped bit has closed: no slot signs two texts."""
    for version in range(1, 6):
        same("a signing", owner.publish(version)[0], 0)
    whole = desk()
    signed = texts_of(whole, EARLY)
    for slot in range(5):
        turned = bytearray(whole)
        turned[BLOCK + SLOT * slot] ^= 1
        pathlib.Path("owner.desk").write_bytes(turned)
        status, publication, said = owner.publish(9)
        if status == 0:
            number = key_number(publication)
            same(
                f"the gate of slot {slot}: the slot that signs is free, where {said!r} is said", number in signed, False
            )
            same("what is said", "counted as free, but has the header of version 5" in said, True)
        else:
            same(f"the gate of slot {slot}: {said!r}", (status, "No run and no crash leaves that" in said), (12, True))
            same("the desk", desk(), bytes(turned))
    strange, other = "No run and no crash leaves that", "Its first key is not that of the file owner.key"
    unsigned = "not signed by the key of the file owner.key"
    for place, part in (
        (53, strange),
        (63, strange),
        (BLOCK + SLOT * 7 + 40, strange),
        (BLOCK + 120, strange),
        (7, other),
        (30, unsigned),
    ):
        turned = bytearray(whole)
        turned[place] ^= 16
        pathlib.Path("owner.desk").write_bytes(turned)
        pathlib.Path("mirror-1").touch(mode=0o600)
        ended = owner.publish(9)
        says(f"place {place}", ended, 12, part)
        same(f"place {place}: what was written", (ended[1], os.path.getsize("mirror-1")), (b"", 0))
        os.remove("mirror-1")
        says(f"place {place}, links", owner.run("links"), 12, strange if part is strange else other)


def of_each_bit(owner: Owner) -> None:
    """By hand: flips each bit of the block and of the front of each slot. No one-time key signs two texts."""
    whole, public = desk(), pathlib.Path("owner.key").read_bytes()
    signed = texts_of(whole, EARLY)
    os.remove("owner.key")
    for place in [*range(BLOCK), *(BLOCK + SLOT * slot + at for slot in range(EARLY + 1) for at in (0, 1, 2, 127))]:
        for bit in range(8):
            turned = bytearray(whole)
            turned[place] ^= 1 << bit
            pathlib.Path("owner.desk").write_bytes(turned)
            status, publication, said = owner.publish(9)
            number = key_number(publication) if publication else EARLY
            same(
                f"bit {bit} of place {place}: status {status}, one-time key {number}: {said!r}",
                number in signed and turned[: layout.SPARE] == whole[: layout.SPARE],
                False,
            )
    pathlib.Path("owner.desk").write_bytes(whole)
    pathlib.Path("owner.key").write_bytes(public)


def main() -> None:
    owner = Owner(os.path.abspath(sys.argv[1]), seconds=SECONDS)
    os.umask(0o077)
    with tempfile.TemporaryDirectory() as folder:
        os.mkdir(f"{folder}/desk")
        os.chdir(f"{folder}/desk")
        write("five.roads", FIVE)
        of_help(owner)
        of_reading(owner)
        of_secrets(owner)
        of_signing(owner)
        of_replies(owner, folder)
        of_desk_file(owner)
        of_open_desk(owner)
        of_swaps(owner, folder)
        of_mirrors(owner)
        of_all_mirrors(owner)
        of_locks(owner)
        of_refused_calls(owner)
        of_calls(owner)
        of_terminals(owner)
        of_streams(owner)
        of_lost_key(owner)
        os.remove("owner.desk")
        same("a new key", owner.run("key secret.hex h5")[0], 0)
        of_bits(owner)
        if sys.argv[2:] == ["--long"]:
            of_each_bit(owner)
        os.chdir("/")
    print(f"an owner's files: {LOOKS.played} looks, each as wanted")


if __name__ == "__main__":
    main()
