#!/usr/bin/env python3
"""Compares the system's calls with what the crate `outside` says: checks/outside/straced.py PROGRAM

Commands that reach files run under strace, also with files that are missing, refused, locked, open to others or full.
The calls of each run must be, one by one and in order, those of the functions of `outside` that the command calls, with
names, flags, modes, offsets and lengths. The wanted lists are written from what these functions and the desk's say.

In each run also these rules hold. The desk is locked before it is read or written. Each write to it is synced before
the next call on anything else. Its folder is synced before the first write to a new desk. No file is cut, and only a
desk is created. A command that only reads writes nothing to the desk. No file is opened that neither an argument nor a
document names, but those with which the C library starts (STARTS). Nobody trusts this script.
"""
import difflib
import fcntl
import itertools
import os
import re
import shutil
import subprocess
import sys
import tempfile
from collections.abc import Sequence
from pathlib import Path

sys.path.insert(0, str(Path(__file__).resolve().parents[1]))

from common import layout  # noqa: E402
from common.desks import AREA, SLOT, SLOTS, slot_at  # noqa: E402
from common.looks import Looks  # noqa: E402
from common.maps import FIVE  # noqa: E402
from common.served import ask, begin, finish, framed  # noqa: E402

SECONDS = 60
DESK, KEY, ROADS, SECRET = "owner.desk", "owner.key", "five.roads", "secret.hex"
MIRRORS = [f"mirror-{label}" for label in range(1, 9)]
PUBLISH = f"publish {ROADS} dij {{}} id 0 2 0 0 0"
# the octets that a read of a file has room for, and those of a line with a key
PIECE, KEY_LINE = 65536, 113
# The files that are opened before `main`, and why. The calls on them up to the first call of `main` are left out, and
# so are all that only ask for memory.
STARTS = {
    "/etc/ld.so.preload": "the loader looks for libraries that are to be loaded first",
    "/etc/ld.so.cache": "the loader finds the C library by this list",
    "libc.so.6": "the C library itself",
}
STREAMS = ("stdin", "stdout", "stderr")
LINE = re.compile(r"^\d+ +(\w+)\((.*)\) += (-?\w+)(?:<.*?>)?(?: (E\w+))?")
HELD, NAMED = re.compile(r"(\d+)<(.*)>$"), re.compile(r'AT_FDCWD[^,]*, "([^"]*)", ?(.*)$')
WORDS = {"flock": "lock", "fsync": "sync", "fchmod": "chmod", "close": "close", "ioctl": "terminal", "lseek": "seek"}
Lines = list[str]


def is_memory(call: str, given: str) -> bool:
    """Whether a call only asks for memory."""
    return call == "mmap" and "MAP_ANONYMOUS" in given


def is_start(call: str, given: str) -> bool:
    """Whether a call is one of those before `main`."""
    return call == "execve" or any(name in given for name in STARTS)


class Trace:
    """The calls of a run as lines: the call, the name of its file, and what else it is given. `stderr` is a message."""

    def __init__(self, folder: Path, text: str) -> None:
        self.folder = folder
        calls = [found for found in map(LINE.match, text.splitlines()) if found and not is_memory(found[1], found[2])]
        own = itertools.dropwhile(lambda found: is_start(found[1], found[2]), calls)
        self.lines = [self.of_call(found[1], found[2], found[3], found[4] or "") for found in own]

    def of_call(self, call: str, given: str, answer: str, error: str) -> str:
        """The line of a call."""
        named = NAMED.match(given)
        if named is not None:
            return f"{self.of_name(call, named[1], named[2])} {error}".strip()
        return f"{self.of_file(call, given.split(', '), answer)} {error}".strip()

    def of_name(self, call: str, name: str, rest: str) -> str:
        """A call that is given a name."""
        words = rest.split(", ")
        if call == "openat":
            return " ".join(["open", name, re.sub(r"\|O_(?:CLOEXEC|NOCTTY)", "", words[0]), *words[1:]])
        if call == "statx":
            return f"{'look_at_link' if 'AT_SYMLINK_NOFOLLOW' in words[0] else 'look'} {name}"
        return f"{call} {name} {rest}"

    def of_file(self, call: str, given: Sequence[str], answer: str) -> str:
        """A call that is given an open file."""
        name = self.name(given[0])
        if call == "write" and name == "stderr":
            return name
        if call in ("read", "write"):
            return f"{call} {name} {answer} of {given[-1]}"
        if call == "statx" and "AT_EMPTY_PATH" in given[2]:
            return f"look_at {name}"
        more = given[1:] if call in ("flock", "fchmod", "lseek") else ()
        return " ".join([WORDS.get(call, call), name, *(word for word in more if word != "SEEK_SET")])

    def name(self, shown: str) -> str:
        """The name of an open file: that of a standard stream, or the path, within the folder if it is there."""
        found = HELD.match(shown)
        if found is None:
            return shown
        if int(found[1]) < len(STREAMS):
            return STREAMS[int(found[1])]
        return os.path.relpath(found[2], self.folder) if Path(found[2]).is_relative_to(self.folder) else found[2]


# ---- the functions of `outside`, under their names, each as the calls that it makes


def look(name: str, fault: str = "") -> Lines:
    return [f"look {name} {fault}".strip()]


def look_at_link(name: str, fault: str = "") -> Lines:
    return [f"look_at_link {name} {fault}".strip()]


def user() -> Lines:
    return look("/proc/self")


def sync_folder() -> Lines:
    return ["open . O_RDONLY", "sync .", "close ."]


def standard_input() -> Lines:
    """The runtime asks whether standard input can go back."""
    return ["seek stdin 0 SEEK_CUR ESPIPE"]


def written(*counts: int) -> Lines:
    """Pieces for standard output, each taken whole."""
    return [f"write stdout {count} of {count}" for count in counts]


def loaded(name: str, count: int) -> Lines:
    """A file that is opened, read to its end and closed."""
    return [f"open {name} O_RDONLY", *(f"read {name} {it} of {PIECE}" for it in (count, 0)), f"close {name}"]


def opened(fault: str = "") -> Lines:
    return [f"open {DESK} O_RDWR {fault}".strip()]


def created() -> Lines:
    return [f"open {DESK} O_RDWR|O_CREAT|O_EXCL 0600"]


def held() -> Lines:
    return [f"lock {DESK} LOCK_EX|LOCK_NB", *sync_folder()]


def open_to_read() -> Lines:
    return [f"open {DESK} O_RDONLY", f"lock {DESK} LOCK_SH|LOCK_NB"]


def look_at_file(name: str = DESK) -> Lines:
    return [f"look_at {name}"]


def length() -> Lines:
    return look_at_file()


def read_at(at: int, count: int) -> Lines:
    return [f"seek {DESK} {at}", f"read {DESK} {count} of {count}"]


def write_at(at: int, count: int) -> Lines:
    """The length is looked at first, since no write leaves a gap."""
    return [*length(), f"seek {DESK} {at}", f"write {DESK} {count} of {count}"]


def synced(name: str = DESK) -> Lines:
    return [f"sync {name}"]


def shut() -> Lines:
    return [f"chmod {DESK} 0600"]


def open_to_append(name: str) -> Lines:
    return [f"open {name} O_WRONLY|O_APPEND", *look_at_file(name)]


def append(name: str, count: int) -> Lines:
    return [f"write {name} {count} of {count}"]


# ---- what calls these functions


def begun(*names: str, desk: str = "", uses: bool = False, missing: str = "") -> Lines:
    """Before a command: whether a stream is the desk, or a file that it reads; the folder of a desk; terminals."""
    lines = [line for stream in (2, 1) for line in [*look(f"/proc/self/fd/{stream}"), *look(DESK, desk)]]
    lines += ["terminal stdout ENOTTY"]
    for name in names:
        lines += look("/proc/self/fd/1") + look(name, "ENOENT" if name == missing else "")
    return lines + (look(".") if uses else []) + ["terminal stderr ENOTTY"]


def inspected(desk: str = "") -> Lines:
    return user() + look_at_link(DESK, desk)


def inspected_open() -> Lines:
    return inspected() + look_at_file()


def opened_desk() -> Lines:
    return inspected() + opened() + held() + inspected_open()


def image() -> Lines:
    """All octets of a desk of one key."""
    return length() + read_at(0, AREA)


def areas(*spent: int) -> Lines:
    """The areas of a desk of one key: its gate, its block, the gate of each slot, and the text of each spent one."""
    lines = synced() + length() + read_at(0, 1) + read_at(0, 53)
    for slot in range(SLOTS):
        lines += read_at(slot_at(slot), 1)
    return lines + [line for slot in spent for line in text_of(slot)]


def text_of(slot: int) -> Lines:
    return read_at(slot_at(slot) + 1, SLOT - 1)


def put(at: int, count: int) -> Lines:
    return write_at(at, count) + synced()


def mirror_looks(*there: str) -> Lines:
    """The mirrors that there are, each inspected and opened. None may be the desk."""
    lines: Lines = []
    for name in MIRRORS:
        if name in there:
            lines += look_at_link(name) + look(name) + look(DESK) + open_to_append(name)
        else:
            lines += look_at_link(name, "ENOENT")
    return lines


def known_key() -> Lines:
    return look(KEY) + loaded(KEY, KEY_LINE)


def signed(slot: int) -> Lines:
    """A header, 104 octets behind its length, and then the gate of its slot."""
    return put(slot_at(slot) + 1, layout.HEADER + 1) + put(slot_at(slot), 1)


def closed(*names: str) -> Lines:
    return [f"close {name}" for name in names]


MESSAGE = ["stderr"]


# ---- rules that hold in each run


def rules_broken(lines: Lines, words: str) -> Lines:
    """What a run does against the rules."""
    allowed = {*words.split(), DESK, KEY, ".", *(MIRRORS if words.startswith("publish") else ())}
    reads = words.split()[0] not in ("key", "publish", "succeed")
    faults = [f"opens {line.split()[1]}" for line in lines if line[:5] == "open " and line.split()[1] not in allowed]
    faults += [line for line in lines if "O_TRUNC" in line or ("O_CREAT" in line and not line.startswith(created()[0]))]
    faults += [line for line in lines if reads and line.split()[:2] in (["write", DESK], ["chmod", DESK])]
    return faults + out_of_order(lines)


class Held:
    """What is known of the desk while the calls of a run go by."""

    def __init__(self) -> None:
        self.locked = self.named = self.stable = True

    def faults(self, line: str) -> Lines:
        """What the next call does too early."""
        call, name, *rest = line.split()
        is_desk, is_write = name == DESK, call == "write" and not line.startswith(f"write {DESK} -1")
        faults = []
        if is_desk and call in ("read", "write", "sync") and not self.locked:
            faults.append(f"{line}: the desk is not locked")
        if is_desk and is_write and not self.named:
            faults.append(f"{line}: the folder of the new desk is not synced")
        if not is_desk and not self.stable:
            faults.append(f"{line}: a write to the desk is not synced")
        if is_desk and call == "open":
            self.locked, self.named = False, not any("O_CREAT" in word for word in rest)
        self.locked |= is_desk and call == "lock" and "EAGAIN" not in rest
        self.named |= line == "sync ."
        self.stable = not is_write and (self.stable or line == synced()[0]) if is_desk else self.stable
        return faults


def out_of_order(lines: Lines) -> Lines:
    """The calls that come too early: before the lock, the sync of the folder, or the sync of a write."""
    held_desk = Held()
    faults = [fault for line in lines if " " in line for fault in held_desk.faults(line)]
    return faults if held_desk.stable else [*faults, "a write to the desk is never synced"]


def of_rules(looks: Looks) -> None:
    """Made-up runs of `publish` and `desk`, each against one rule, and one against none."""
    good = opened() + held() + put(0, 1) + created() + held() + put(0, 1) + written(4) + synced("mirror-1")
    looks.same("a run by the rules", rules_broken(good, "publish"), [])
    for number, line in enumerate(good):
        if line.split()[0] in ("lock", "sync") and "mirror" not in line and number != 3:
            looks.holds(
                f"a run without {line!r} ({number})", rules_broken(good[:number] + good[number + 1 :], "publish")
            )
    for line in ("open other O_RDONLY", f"open {ROADS} O_RDWR|O_TRUNC", f"open {KEY} O_WRONLY|O_CREAT 0666"):
        looks.holds(line, rules_broken([line], "publish five.roads"))
    for line in (*shut(), *write_at(0, 1)[-1:]):
        looks.holds(f"{line!r} of a reader", rules_broken([line], "desk"))


# ---- runs


class Owner:
    """The program in a folder of its own."""

    def __init__(self, program: str, folder: Path, looks: Looks) -> None:
        self.program, self.folder, self.looks = program, folder, looks
        self.trace = folder.parent / "trace"

    def run(
        self, words: str, given: bytes = b"", stdout: str = "", inject: Sequence[str] = ()
    ) -> tuple[int, bytes, Lines]:
        """How a command ends, what it writes, and its calls."""
        how = ["strace", "-f", "-y", "-s", "0", "-e", "signal=none", "-e", "trace=%file,%desc", "-o", str(self.trace)]
        with open(stdout or self.folder.parent / "output", "wb") as output:
            done = subprocess.run(
                [*how, *inject, self.program, *words.split()],
                cwd=self.folder,
                input=given,
                stdout=output,
                stderr=subprocess.DEVNULL,
                timeout=SECONDS,
                check=False,
            )
        told = b"" if stdout else (self.folder.parent / "output").read_bytes()
        return done.returncode, told, Trace(self.folder, self.trace.read_text(encoding="utf-8")).lines

    def same(
        self, words: str, status: int, wanted: Lines, given: bytes = b"", stdout: str = "", inject: Sequence[str] = ()
    ) -> bytes:
        """A command ends with this status and makes these calls. Returns what it writes."""
        ended, told, lines = self.run(words, given, stdout, inject)
        self.looks.same(f"{words}: its status", ended, status)
        differ = [line for line in difflib.unified_diff(wanted, lines, "wanted", "made", lineterm="", n=2)]
        self.looks.same(f"{words}: its calls\n" + "\n".join(differ), lines == wanted, True)
        self.looks.same(f"{words}: what is against a rule", rules_broken(lines, words), [])
        return told

    def refusing(self, words: str, call: str, name: str, error: str) -> list[str]:
        """The words by which strace refuses the first call of this kind on a file in a command, or changes its answer.
        The folder is put back as it was."""
        kept = self.folder.parent / "kept"
        shutil.copytree(self.folder, kept)
        self.run(words)
        lines = self.trace.read_text(encoding="utf-8").splitlines()
        calls = [line for line in lines if re.match(rf"\d+ +{call}\(", line)]
        at = next(place for place, line in enumerate(calls, 1) if name in line)
        shutil.rmtree(self.folder)
        kept.rename(self.folder)
        return ["-e", f"inject={call}:{error}:when={at}"]

    def write(self, name: str, octets: bytes) -> None:
        (self.folder / name).write_bytes(octets)


# ---- the runs


def of_files(owner: Owner) -> None:
    """Standard output, and files that are found, missing and refused, and an output that is full."""
    roads, words = len(FIVE), f"route {ROADS} 1 3"
    found = begun(ROADS, desk="ENOENT") + standard_input()
    owner.same("help", 0, begun(desk="ENOENT")[:4] + written(1024, 1024, 784))
    owner.same(words, 0, found + loaded(ROADS, roads) + written(9))
    missing = begun("no.roads", desk="ENOENT", missing="no.roads") + standard_input()
    owner.same("route no.roads 1 3", 3, missing + ["open no.roads O_RDONLY ENOENT"] + MESSAGE)
    refused = owner.refusing(words, "openat", ROADS, "error=EACCES")
    owner.same(words, 4, found + [f"open {ROADS} O_RDONLY EACCES"] + MESSAGE, inject=refused)
    unread = owner.refusing(words, "read", ROADS, "error=EIO")
    failed = [f"open {ROADS} O_RDONLY", f"read {ROADS} -1 of {PIECE} EIO", *closed(ROADS)]
    owner.same(words, 4, found + failed + MESSAGE, inject=unread)
    full = loaded(ROADS, roads) + ["write stdout -1 of 9 ENOSPC"]
    owner.same(words, 6, found + full + MESSAGE, stdout="/dev/full")


def of_key(owner: Owner) -> bytes:
    """A desk that is made, and one that stands. Returns the line of its key."""
    words = f"key {SECRET} h5"
    start = begun(SECRET, desk="ENOENT", uses=True) + standard_input() + inspected("ENOENT") + opened("ENOENT")
    made = loaded(SECRET, 96) + created() + held() + inspected_open()
    made += put(0, 1) + put(1, AREA - 1) + put(1, 52) + put(0, 1)
    key = owner.same(words, 0, start + made + written(KEY_LINE) + look(SECRET) + closed(DESK))
    start = begun(SECRET, uses=True) + standard_input() + opened_desk() + image() + loaded(SECRET, 96)
    again = synced() + length() + read_at(0, 1) + MESSAGE + image() + MESSAGE
    owner.same(words, 12, start + again + closed(DESK))
    return key


def publishing(*mirrors: str) -> Lines:
    """A publish up to the look at the desk."""
    return begun(ROADS, KEY, uses=True) + mirror_looks(*mirrors) + standard_input() + known_key()


def of_publish(owner: Owner) -> bytes:
    """Maps that are signed: with mirrors, at a desk that was open to others, at a full output. Returns the first."""
    roads = loaded(ROADS, len(FIVE))
    looked = opened_desk() + image() + synced() + image() + roads
    lines = publishing("mirror-1", "mirror-3") + looked + areas() + signed(0)
    out = [line for name in ("stdout", "mirror-1", "mirror-3") for line in append(name, 1550)]
    ends = closed(DESK, "mirror-1", "mirror-3")
    for name in ("mirror-1", "mirror-3"):
        owner.write(name, b"")
    publication = owner.same(
        PUBLISH.format(3), 0, lines + out + synced("mirror-1") + synced("mirror-3") + MESSAGE + ends
    )
    for name in ("mirror-1", "mirror-3"):
        owner.looks.same(name, (owner.folder / name).read_bytes(), publication)
        os.remove(owner.folder / name)
    os.chmod(owner.folder / DESK, 0o640)
    opening = inspected() + opened() + held() + inspected_open() + shut() + inspected_open()
    lines = publishing() + opening + image() + synced() + image() + roads + areas(0) + signed(1)
    owner.same(PUBLISH.format(4), 0, lines + written(1550) + MESSAGE + MESSAGE + closed(DESK))
    lines = publishing() + looked + areas(0, 1) + signed(2) + ["write stdout -1 of 1550 ENOSPC"]
    owner.same(PUBLISH.format(5), 6, lines + MESSAGE + closed(DESK), stdout="/dev/full")
    return publication


def of_mirrors(owner: Owner) -> None:
    """A mirror that takes a piece in two writes, one that is full, and one that cannot be synced."""
    looked = opened_desk() + image() + synced() + image() + loaded(ROADS, len(FIVE))
    lines = publishing("mirror-2") + looked
    owner.write("mirror-2", b"")
    words, name = PUBLISH.format(6), "mirror-2"
    short = owner.refusing(words, "write", name, "retval=50")
    pieces = written(1550) + [f"write {name} 50 of 1550", f"write {name} 1500 of 1500"]
    ends = synced(name) + MESSAGE + closed(DESK, name)
    owner.same(words, 0, lines + areas(0, 1, 2) + signed(3) + pieces + ends, inject=short)
    words = PUBLISH.format(7)
    full = owner.refusing(words, "write", name, "error=ENOSPC")
    pieces = written(1550) + [f"write {name} -1 of 1550 ENOSPC"]
    owner.same(
        words, 15, lines + areas(0, 1, 2, 3) + signed(4) + pieces + MESSAGE * 3 + closed(DESK, name), inject=full
    )
    os.remove(owner.folder / name)


def of_refused_desks(owner: Owner) -> None:
    """Desks that a publish leaves as they are: open to others, locked, gone, and one whose folder cannot be synced."""
    words, desk = PUBLISH.format(8), owner.folder / DESK
    before = desk.read_bytes()
    os.chmod(desk, 0o666)
    owner.same(words, 7, publishing() + inspected() + MESSAGE)
    os.chmod(desk, 0o600)
    with open(desk, "rb") as other:
        fcntl.flock(other, fcntl.LOCK_SH)
        locked = opened() + [f"lock {DESK} LOCK_EX|LOCK_NB EAGAIN"] + closed(DESK) + MESSAGE + sync_folder()
        owner.same(words, 7, publishing() + inspected() + locked)
    unsynced = owner.refusing(words, "fsync", f"{owner.folder}>", "error=EIO")
    folder = held()[:-2] + ["sync . EIO"] + closed(".", DESK) + MESSAGE + sync_folder()
    owner.same(words, 7, publishing() + inspected() + opened() + folder, inject=unsynced)
    owner.looks.same("a desk that was refused", desk.read_bytes() == before, True)


def of_readers(owner: Owner, spent: int) -> None:
    """Commands that only read a desk, also one of which they may not write, or one that others may write."""
    slots = tuple(range(spent))
    start = begun(uses=True) + standard_input()
    told = areas(*slots) + written(119) + MESSAGE + image() + MESSAGE + closed(DESK)
    owner.same("desk", 0, start + opened_desk() + told)
    refused = owner.refusing("desk", "openat", f'"{DESK}"', "error=EACCES")
    reader = inspected() + opened("EACCES") + open_to_read() + inspected_open()
    owner.same("desk", 0, start + reader + told, inject=refused)
    os.chmod(owner.folder / DESK, 0o666)
    owner.same("desk", 0, start + opened_desk() + areas(*slots) + written(119) + MESSAGE + told[-6:])
    os.chmod(owner.folder / DESK, 0o600)
    start = begun(KEY, uses=True) + standard_input() + known_key() + opened_desk()
    owner.same("links", 0, start + image() + synced() + image() + areas(*slots) + closed(DESK))


def of_broken_desks(owner: Owner, spent: int) -> None:
    """Desks with a sync or a write that fails, and the folder is asked for the reason; and a write in two pieces."""
    words, desk = PUBLISH.format(8), owner.folder / DESK
    before, at = desk.read_bytes(), slot_at(spent) + 1
    start = publishing() + opened_desk() + image()
    ends = MESSAGE + sync_folder() + closed(DESK)
    unsynced = owner.refusing(words, "fsync", f"/{DESK}>", "error=EIO")
    owner.same(words, 7, start + [f"sync {DESK} EIO"] + ends, inject=unsynced)
    lines = start + synced() + image() + loaded(ROADS, len(FIVE)) + areas(*range(spent))
    full = owner.refusing(words, "write", f"/{DESK}>", "error=ENOSPC")
    failed = [*length(), f"seek {DESK} {at}", f"write {DESK} -1 of 105 ENOSPC"]
    owner.same(words, 7, lines + failed + ends, inject=full)
    owner.looks.same("a desk that could not be written", desk.read_bytes() == before, True)
    short = owner.refusing(words, "write", f"/{DESK}>", "retval=5")
    pieces = [*failed[:-1], f"write {DESK} 5 of 105", f"write {DESK} 100 of 100", *synced(), *put(at - 1, 1)]
    owner.same(words, 0, lines + pieces + written(1550) + MESSAGE + closed(DESK), inject=short)
    owner.write(DESK, before)


def of_succession(owner: Owner, spent: int) -> None:
    """The next key, whose area follows, and which the last slot of the first key signs."""
    owner.write("second.hex", bytes(range(100, 148)).hex().encode())
    os.chmod(owner.folder / "second.hex", 0o600)
    start = begun("second.hex", KEY, uses=True) + standard_input() + known_key()
    lines = start + opened_desk() + image() + synced() + image() + loaded("second.hex", 96) + areas(*range(spent))
    last = slot_at(SLOTS - 1)
    lines += put(AREA, AREA) + put(AREA + 1, 52) + put(last + 1, 61) + put(last, 1)
    owner.same("succeed second.hex h5", 0, lines + written(KEY_LINE) + look("second.hex") + closed(DESK))


def of_clients(owner: Owner, publication: bytes, spent: int) -> None:
    """The server's commands, the client's and the auditor's."""
    owner.write("one.pub", publication)
    served = begun("one.pub") + standard_input() + loaded("one.pub", len(publication))
    reply = owner.same("prove one.pub 1 3", 0, served + written(1611))
    owner.write("one.reply", reply)
    frames = framed(begin(1), ask(1, 1, 3), finish(1))
    lines: Lines = []
    for asked, answered in ((2, 10), (10, 1613), (2, 2)):
        lines += [f"read stdin {count} of {count}" for count in (4, asked)] + written(4, answered)
    owner.same("serve one.pub", 0, served + lines + ["read stdin 0 of 4"], given=frames)
    files = loaded(KEY, KEY_LINE) + loaded("one.reply", len(reply))
    start = begun("one.reply", KEY) + standard_input()
    owner.same(f"check {KEY} one.reply 1 3 1", 0, start + files + written(18))
    start = begun(KEY, "one.pub", "one.reply", uses=True) + standard_input()
    files = loaded(KEY, KEY_LINE) + loaded("one.pub", len(publication)) + loaded("one.reply", len(reply))
    lines = start + files + opened_desk() + areas(*range(spent))
    owner.same(f"audit {KEY} one.pub one.reply 1 3", 0, lines + text_of(0) + written(6) + closed(DESK))


def main() -> int:
    if shutil.which("strace") is None:
        print("skipped: checks/outside/straced.py, since this machine has no strace")
        return 0
    looks = Looks()
    with tempfile.TemporaryDirectory() as there:
        folder = Path(there).resolve() / "owner"
        folder.mkdir(mode=0o700)
        owner = Owner(str(Path(sys.argv[1]).resolve()), folder, looks)
        owner.write(ROADS, FIVE.encode())
        owner.write(SECRET, bytes(range(48)).hex().encode())
        os.chmod(folder / SECRET, 0o600)
        of_rules(looks)
        of_files(owner)
        owner.write(KEY, of_key(owner))
        publication = of_publish(owner)
        of_mirrors(owner)
        of_refused_desks(owner)
        of_broken_desks(owner, 5)
        of_readers(owner, 5)
        of_clients(owner, publication, 5)
        of_succession(owner, 5)
    return looks.told("checks/outside/straced.py")


if __name__ == "__main__":
    sys.exit(main())
