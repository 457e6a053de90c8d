#!/usr/bin/env python3
"""Tests a release: bindings/play_release.py PROGRAM

It works in a clone with this tree's scripts and with a SUMS of the files built here. It makes a release twice, with the
same octets. It compares the content of the archive and of Debian's packages with lists (dpkg-deb -c); lintian must find
nothing. It unpacks the archive and checks a reply with it. It signs the release and verifies it, also after files were
changed and added. It also tries a script in the program's place, an archive that SUMS refuses, and a tree with changes.
These are packed only with --dirty and a SUMS of another toolchain; then SHA256SUMS says so, and the release is not
signed. A part that needs a missing program is `skipped`. Ends with status 1 if anything differs. Nobody trusts this
file."""

from __future__ import annotations

import hashlib
import os
import pathlib
import shutil
import subprocess
import sys
import tarfile
import tempfile
from collections.abc import Callable

HERE = pathlib.Path(__file__).resolve().parent
TOP = HERE.parent
PROGRAM, ARCHIVE = "crates/road_proof/out/road_proof", "crates/route_check_c/out/libroute_check_c.a"
VERSION = (TOP / "VERSION").read_text().strip()
NAME = f"gogbetiku-{VERSION}-x86_64-linux"
# the files that each part of a release must have
IN_ARCHIVE = [
    "bin/road_proof",
    "lib/libgogbetiku.a",
    "lib/libgogbetiku.so.0",
    "lib/pkgconfig/gogbetiku.pc",
    "include/gogbetiku.h",
    "web/gateway.py",
    "web/gateway.service",
    "web/replicas/gateway@.service",
    "tools/owner@.service",
    "web/page/build",
    "web/page/index.html",
    "share/man/man1/road_proof.1",
    "share/man/man3/gogbetiku.3",
    "share/bash-completion/completions/road_proof",
    "share/zsh/site-functions/_road_proof",
    "bindings/rust/src/lib.rs",
    "bindings/go/gogbetiku.go",
    "bindings/verify_release",
    "SUMS",
    "docs/CLAIMS.md",
    "docs/LIBRARY.md",
    "VERIFY",
]
# the files that a release has where this machine has made the module for JavaScript, or can make wheels
OF_THE_MODULE = ["web/route_check.mjs", "web/route_check_worker.mjs", "web/route_check.wasm", "web/package.json"]
OF_THE_WHEELS = [f"python/gogbetiku-{VERSION}-py3-none-linux_x86_64.whl"]
LIBRARIES = "./usr/lib/x86_64-linux-gnu"
IN_PACKAGES = {
    f"gogbetiku_{VERSION}_amd64.deb": [
        "./usr/bin/road_proof",
        "./usr/share/man/man1/road_proof.1.gz",
        "./lib/systemd/system/gogbetiku-gateway.service",
        "./lib/systemd/system/gogbetiku-owner@.service",
        "./usr/share/gogbetiku/web/gateway.py",
        "./usr/share/bash-completion/completions/road_proof",
        "./usr/share/zsh/vendor-completions/_road_proof",
        "./var/lib/gogbetiku/",
        "./usr/share/doc/gogbetiku/copyright",
        "./usr/share/doc/gogbetiku/SUMS",
    ],
    f"libgogbetiku0_{VERSION}_amd64.deb": [f"{LIBRARIES}/libgogbetiku.so.0", "./usr/share/doc/libgogbetiku0/copyright"],
    f"libgogbetiku-dev_{VERSION}_amd64.deb": [
        "./usr/include/gogbetiku.h",
        f"{LIBRARIES}/libgogbetiku.a",
        f"{LIBRARIES}/libgogbetiku.so",
        f"{LIBRARIES}/pkgconfig/gogbetiku.pc",
        "./usr/share/man/man3/gogbetiku.3.gz",
    ],
    f"python3-gogbetiku_{VERSION}_all.deb": [
        "./usr/lib/python3/dist-packages/gogbetiku/__init__.py",
        "./usr/lib/python3/dist-packages/gogbetiku/age.py",
    ],
}

faults: list[str] = []


def same(what: str, seen: object, wanted: object) -> None:
    if seen != wanted:
        faults.append(f"{what}: {str(seen)[:600]}, and not {str(wanted)[:600]}")


def run(*words: object, **options: object) -> tuple[int, str, str]:
    done = subprocess.run([*map(str, words)], capture_output=True, text=True, check=False, **options)  # type: ignore[call-overload]
    return done.returncode, done.stdout, done.stderr


def lacks(name: str, what: str) -> bool:
    if shutil.which(name) is None:
        print(f"skipped: {what}, since this machine has no {name}")
        return True
    return False


class Tree:
    """A clone with the scripts and the built files of this tree, and a SUMS of its own."""

    def __init__(self, room: pathlib.Path, program: str):
        self.top, self.room = room / "tree", room
        run("git", "clone", "-q", "--shared", TOP, self.top)
        for part in ("bindings", "web", "docs", "tools"):
            shutil.rmtree(self.top / part)
            shutil.copytree(TOP / part, self.top / part, ignore=shutil.ignore_patterns("__pycache__", "out"))
        out = self.top / "crates/route_check_c/out"
        out.mkdir()
        for name in ("libroute_check_c.a", "route_check.wasm", "aarch64"):
            if (TOP / "crates/route_check_c/out" / name).exists():
                (out / name).symlink_to(TOP / "crates/route_check_c/out" / name)
        (self.top / "crates/road_proof/out").mkdir()
        shutil.copy(program, self.top / PROGRAM)

    def sums(self, kit: str, **wrong: str) -> None:
        """Commits a SUMS of a kit with the sums of the built files, or with another sum for one of them."""
        sums = {
            name: wrong.get(pathlib.Path(name).stem, hashlib.sha256((self.top / name).read_bytes()).hexdigest())
            for name in (PROGRAM, ARCHIVE)
        }
        (self.top / "SUMS").write_text(f"# {kit}\n" + "".join(f"{octets}  {name}\n" for name, octets in sums.items()))
        self.commit()

    def commit(self) -> None:
        when = {**os.environ, "GIT_AUTHOR_DATE": "1700000000 +0000", "GIT_COMMITTER_DATE": "1700000000 +0000"}
        for words in (
            ["add", "-A"],
            ["-c", "user.name=a", "-c", "user.email=a@b.c", "commit", "-q", "--allow-empty", "-m", "A tree."],
        ):
            subprocess.run(["git", *words], cwd=self.top, check=True, env=when)

    def release(self, into: str, *words: str, **env: str) -> tuple[int, str, str]:
        """Makes a release under another umask and at another time."""
        plain = {name: text for name, text in os.environ.items() if name not in ("PROGRAM", "DESTDIR")}
        return run(
            "bash",
            "-c",
            f'umask {env.pop("UMASK", "022")}; exec bindings/release "$@"',
            "bash",
            self.room / into,
            *words,
            cwd=self.top,
            env={**plain, **env},
        )

    def refuses(self, what: str, words: list[str], said: list[str], **env: str) -> None:
        status, out, why = self.release("refused", *words, **env)
        same(what, (status, out, why.count("\n"), [word for word in said if word not in why]), (2, "", 1, []))
        same(f"{what}: what is packed", (self.room / "refused").exists(), False)


def refusals(tree: Tree, kit: str) -> None:
    """Tests that files that SUMS refuses or that are in no commit are not packed, except with --dirty and a SUMS of
    another toolchain."""
    script = tree.room / "script"
    script.write_text("#!/bin/sh\necho 9: 1 2 3\n")
    script.chmod(0o755)
    both: list[list[str]] = [[], ["--dirty"]]
    for words in both:
        tree.refuses("a script in the program's place", words, ["SUMS refuses", "script", kit], PROGRAM=str(script))
    tree.refuses("a program that is not there", [], ["none", "./build"], PROGRAM=str(tree.room / "none"))
    planted = tree.top / "planted"
    planted.write_text("octets")
    tree.refuses("a tree with changes", [], ["uncommitted changes"])
    planted.unlink()
    tree.sums(kit, libroute_check_c="0" * 64)
    for words in both:
        tree.refuses("an archive that SUMS refuses", words, ["SUMS refuses", ARCHIVE])
    tree.sums("another-kit", libroute_check_c="0" * 64)
    tree.refuses("an archive of another kit", [], ["SUMS refuses", "another-kit"])


def dirty(tree: Tree, kit: str) -> None:
    """Tests that the output of another toolchain is packed only with --dirty. SHA256SUMS says so, and the release is
    not signed."""
    # the slowest parts do not matter here
    for name in ("route_check.wasm", "aarch64"):
        (tree.top / "crates/route_check_c/out" / name).unlink(missing_ok=True)
    status, said, _ = tree.release("dirty", "--dirty")
    head = (tree.room / "dirty/SHA256SUMS").read_text().split("\n")[1:3]
    same(
        "of another toolchain",
        (status, head),
        (0, ["# another-kit", f"# dirty: SUMS refuses {ARCHIVE}, which {kit} made"]),
    )
    same("what it says of it", f"dirty: SUMS refuses {ARCHIVE}" in said, True)
    status, _, why = run(HERE / "sign_release", tree.room / "dirty", tree.room / "release")
    same("its signature", (status, "dirty" in why, (tree.room / "dirty/SHA256SUMS.sig").exists()), (2, True, False))


def archive(room: pathlib.Path, folder: pathlib.Path, asked: pathlib.Path, kit: str) -> None:
    """Tests that the archive has the required files, all owned by root and with one time, and that its parts check a
    reply."""
    with tarfile.open(folder / f"{NAME}.tar.xz") as tar:
        members = tar.getmembers()
        tar.extractall(room / "opt")
    names = [member.name.removeprefix(f"{NAME}/") for member in members]
    wanted = IN_ARCHIVE + OF_THE_MODULE * (TOP / "crates/route_check_c/out/route_check.wasm").exists()
    wanted += OF_THE_WHEELS * any(folder.glob("*.whl"))
    same("what the archive lacks", [name for name in wanted if name not in names], [])
    same("the kit of its VERIFY", kit in (room / "opt" / NAME / "VERIFY").read_text(), True)
    same("what it has beside one folder", [member.name for member in members if member.name.split("/")[0] != NAME], [])
    same(
        "who owns it, and when",
        {(member.uid, member.gid, member.uname, member.mtime) for member in members},
        {(0, 0, "", 1700000000)},
    )
    same(
        "what anybody may write, or nobody read",
        [member.name for member in members if not member.issym() and (member.mode & 0o022 or not member.mode & 0o044)],
        [],
    )
    same(
        "what the tests leave",
        [name for name in names if "pycache" in name or "/play" in name or name.startswith("play")],
        [],
    )
    at = room / "opt" / NAME
    words = ["owner.key", "m1.reply", "1", "3", "3"]
    same("its program", run(at / "bin/road_proof", "check", *words, cwd=asked), (0, "accepted 9: 1 2 3\n", ""))
    same(
        "its program's octets",
        hashlib.sha256((at / "bin/road_proof").read_bytes()).hexdigest() in (at / "SUMS").read_text(),
        True,
    )
    same(
        "its library",
        run("cc", f"-I{at}/include", HERE / "example.c", at / "lib/libgogbetiku.a", "-o", room / "by_archive"),
        (0, "", ""),
    )
    same("what it says", run(room / "by_archive", *words, cwd=asked)[:2], (0, "accepted 9: 1 2 3\n"))
    same(
        "its gateway",
        run(at / "web/gateway.py", "--help")[0] if run("/usr/bin/python3", "-c", "import h11")[0] == 0 else 0,
        0,
    )
    page = [at / "web/page/build", room / "page", asked / "owner.key", "https://routes.example"]
    if (at / "web/route_check.wasm").exists():
        same("its page", (run(*page)[0], (room / "page/index.html").exists()), (0, True))


def packages(room: pathlib.Path, folder: pathlib.Path) -> None:
    if lacks("dpkg-deb", "Debian's packages"):
        return
    found = sorted(path.name for path in folder.glob("*.deb"))
    same("Debian's packages", found, sorted(IN_PACKAGES))
    for name, wanted in IN_PACKAGES.items():
        status, said, _ = run("dpkg-deb", "-c", folder / name)
        lines = [line.split(None, 5) for line in said.splitlines()]
        names = [line[5].split(" -> ")[0] for line in lines]
        same(f"dpkg-deb -c {name}", (status, [one for one in wanted if one not in names]), (0, []))
        same(f"{name}: who owns it", {line[1] for line in lines}, {"root/root"})
        same(
            f"{name}: no licence is given",
            "No licence is given yet"
            in (
                run("bash", "-c", f"dpkg-deb --fsys-tarfile {folder / name} | tar -xOf - --wildcards '*/copyright'")[1]
            ),
            True,
        )
    units = run(
        "bash",
        "-c",
        f"dpkg-deb --fsys-tarfile {folder}/gogbetiku_{VERSION}_amd64.deb | tar -xOf - --wildcards './lib/systemd/system/*'",
    )[1]
    same(
        "folders of the units that no package has",
        [word for word in ("/opt/", "/srv/", "User=owner") if word in units],
        [],
    )
    if lacks("lintian", "what lintian says of Debian's packages"):
        return
    said = run(
        "lintian",
        "--allow-root",
        "--no-cfg",
        "--fail-on",
        "none",
        "--tag-display-limit",
        "0",
        *(folder / name for name in found),
    )[1]
    same("what lintian finds", said.splitlines(), [])


def signatures(room: pathlib.Path, folder: pathlib.Path) -> None:
    """Tests that a signed release is verified with its key only, and that it fails if a file was changed or added or
    signed for another purpose."""
    if lacks("ssh-keygen", "the signature of a release"):
        return
    for key in ("release", "other"):
        run("ssh-keygen", "-q", "-t", "ed25519", "-N", "", "-C", key, "-f", room / key)
    (room / "secret.hex").write_text("00" * 48)
    status, _, why = run(HERE / "sign_release", folder, room / "secret.hex")
    same("a map's secret", (status, "a map's key signs no release" in why), (2, True))

    def verified(key: str = "release.pub", at: pathlib.Path = folder) -> int:
        status, said, why = run(HERE / "verify_release", at, room / key)
        same(
            "what verifying says",
            (said.startswith("verified: gogbetiku "), why.count("\n")),
            (status == 0, 0 if status == 0 else 1),
        )
        return status

    same("before it is signed", verified(), 1)
    same("signing", run(HERE / "sign_release", folder, room / "release")[0], 0)
    same("signed", verified(), 0)
    same("by another key", verified("other.pub"), 1)
    at = room / "changed"
    for what, change in CHANGES.items():
        shutil.copytree(folder, at)
        change(at, room)
        same(what, verified(at=at), 0 if "missing" in what else 1)
        shutil.rmtree(at)


def turned(path: pathlib.Path) -> None:
    octets = bytearray(path.read_bytes())
    octets[len(octets) // 2] ^= 1
    path.write_bytes(octets)


def resigned(at: pathlib.Path, room: pathlib.Path) -> None:
    """Signs a file with the same key, but not as a release."""
    (at / "SHA256SUMS.sig").unlink()
    run("ssh-keygen", "-q", "-Y", "sign", "-n", "file", "-f", room / "release", at / "SHA256SUMS")


CHANGES: dict[str, Callable[[pathlib.Path, pathlib.Path], object]] = {
    "a turned archive": lambda at, room: turned(at / f"{NAME}.tar.xz"),
    "a turned package": lambda at, room: turned(at / f"libgogbetiku0_{VERSION}_amd64.deb"),
    "a turned sum": lambda at, room: turned(at / "SHA256SUMS"),
    "a line behind the sums": lambda at, room: (at / "SHA256SUMS").write_text(
        (at / "SHA256SUMS").read_text() + "# more\n"
    ),
    "a file more": lambda at, room: (at / "more.deb").write_bytes(b"!<arch>\n"),
    "a hidden file more": lambda at, room: (at / ".more").write_bytes(b"#"),
    "no signature": lambda at, room: (at / "SHA256SUMS.sig").unlink(),
    "another use of the key": resigned,
    "a file that is missing": lambda at, room: (at / f"libgogbetiku0_{VERSION}_amd64.deb").unlink(),
}


def asked_of(program: str, room: pathlib.Path) -> pathlib.Path:
    """A folder with a key and a reply to the query from 1 to 3."""
    asked = room / "asked"
    asked.mkdir()
    shutil.copy(TOP / "crates/road_proof/data/m1.roads", asked)
    (asked / "secret.hex").write_text("00" * 48)
    for name, words in {
        "owner.key": "key secret.hex h5",
        "m1.pub": "publish m1.roads dij 3 id 0 2 0 0 0",
        "m1.reply": "prove m1.pub 1 3",
    }.items():
        done = subprocess.run([program, *words.split()], cwd=asked, capture_output=True, check=True)
        (asked / name).write_bytes(done.stdout)
    return asked


def main(program: str) -> int:
    program = str(pathlib.Path(program).resolve())
    kit = run("rt", "version")[1].strip()
    with tempfile.TemporaryDirectory() as name:
        room = pathlib.Path(name)
        tree = Tree(room, program)
        tree.sums(kit)
        for into, umask in (("one", "022"), ("two", "077")):
            status, said, why = tree.release(into, UMASK=umask)
            same(f"bindings/release {into}", (status, why), (0, ""))
            print("\n".join(line for line in said.splitlines() if line.startswith("skipped")))
        same("made twice", run("diff", "-r", room / "one", room / "two"), (0, "", ""))
        head = (room / "one/SHA256SUMS").read_text().split("\n")[:2]
        commit = run("git", "rev-parse", "HEAD", cwd=tree.top)[1].strip()
        same("the head of SHA256SUMS", head, [f"# gogbetiku {VERSION}, commit {commit}", f"# {kit}"])
        archive(room, room / "one", asked_of(program, room), kit)
        packages(room, room / "one")
        signatures(room, room / "one")
        same("the same but the signature", run("diff", "-r", room / "one", room / "two")[1].count("\n"), 1)
        refusals(tree, kit)
        dirty(tree, kit)
    for fault in faults:
        print(fault)
    print(
        f"release: {len(faults)} differ"
        if faults
        else "release: its files match SUMS, two runs give the same octets, and it verifies"
    )
    return 1 if faults else 0


if __name__ == "__main__":
    if len(sys.argv) != 2:
        print("bindings/play_release.py: name the program: bindings/play_release.py PROGRAM", file=sys.stderr)
        sys.exit(2)
    sys.exit(main(sys.argv[1]))
