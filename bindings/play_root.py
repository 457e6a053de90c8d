#!/usr/bin/env python3
"""Tests Debian's packages in a fresh root, by hand and as root: bindings/play_root.py RELEASE PROGRAM [ROOT]

RELEASE is the output of bindings/release. PROGRAM is the program that makes a reply here. debootstrap makes a root of
Debian 12, or copies the earlier root ROOT. The root gets the dependencies of the packages, and a compiler. Then the
four packages are installed, and each is used: the owner's user makes a key; the program, the Python module and a
compiled example check a reply; the loader and the units find their files. Then the packages are removed and purged: no
file of theirs is left except a desk, and no other file is changed. After another installation and purge without a desk,
only the owner's user is left. Ends with status 1 if anything differs. Nobody trusts this file."""

from __future__ import annotations

import hashlib
import pathlib
import shutil
import subprocess
import sys
import tempfile

HERE = pathlib.Path(__file__).resolve().parent
TOP = HERE.parent
MIRROR = "http://deb.debian.org/debian"
PACKAGES = ["gogbetiku", "libgogbetiku0", "libgogbetiku-dev", "python3-gogbetiku"]
NEEDED = ["adduser", "python3", "python3-h11", "gcc", "libc6-dev", "pkg-config"]
OWNER = "/var/lib/gogbetiku-owner"
# the files that dpkg, the loader and the passwords keep for themselves
KEPT = (
    "var/lib/dpkg",
    "var/lib/apt",
    "var/cache",
    "var/log",
    "proc",
    "sys",
    "dev",
    "tmp",
    "run",
    "etc/passwd",
    "etc/passwd-",
    "etc/group",
    "etc/group-",
    "etc/shadow",
    "etc/shadow-",
    "etc/gshadow",
    "etc/gshadow-",
    "etc/ld.so.cache",
    "release",
    "asked",
    "root",
)
ASK = ["owner.key", "m1.reply", "1", "3", "3"]

faults: list[str] = []


def same(what: str, seen: object, wanted: object) -> None:
    if seen != wanted:
        faults.append(f"{what}: {str(seen)[:600]}, and not {str(wanted)[:600]}")


class Root:
    """A fresh root, with a folder of queries and the packages in it."""

    def __init__(self, at: pathlib.Path, release: pathlib.Path, program: str, made: str | None):
        self.at = at
        words = (
            ["cp", "-a", made, str(at)] if made else ["debootstrap", "--variant=minbase", "bookworm", str(at), MIRROR]
        )
        subprocess.run(words, check=True, stdout=subprocess.DEVNULL)
        shutil.copy("/etc/resolv.conf", at / "etc/resolv.conf")
        (at / "usr/sbin/policy-rc.d").write_text("#!/bin/sh\nexit 101\n")  # this root starts no services
        (at / "usr/sbin/policy-rc.d").chmod(0o755)
        for words in (["update"], ["install", "-y", "--no-install-recommends", *NEEDED]):
            self.inside("apt-get", "-q", *words)
        (at / "release").mkdir()
        for deb in release.glob("*.deb"):
            shutil.copy(deb, at / "release")
        asked = at / "asked"
        asked.mkdir()
        for name in ("example.c", "example.py"):
            shutil.copy(HERE / name, asked)
        shutil.copy(TOP / "crates/road_proof/data/m1.roads", asked)
        (asked / "secret.hex").write_text("00" * 48)
        for name, line in {
            "owner.key": "key secret.hex h5",
            "m1.pub": "publish m1.roads dij 3 id 0 2 0 0 0",
            "m1.reply": "prove m1.pub 1 3",
        }.items():
            done = subprocess.run([program, *line.split()], cwd=asked, capture_output=True, check=True)
            (asked / name).write_bytes(done.stdout)

    def inside(self, *words: str) -> tuple[int, str]:
        """Runs a command in the root, with a /proc that only this command has. Returns its status and its output."""
        done = subprocess.run(
            [
                "unshare",
                "--mount",
                "--propagation",
                "private",
                "sh",
                "-c",
                'mount -t proc proc "$0/proc" && exec chroot "$0" "$@"',
                str(self.at),
                "/usr/bin/env",
                "-i",
                "PATH=/usr/sbin:/usr/bin:/sbin:/bin",
                "DEBIAN_FRONTEND=noninteractive",
                "LC_ALL=C",
                *words,
            ],
            stdout=subprocess.PIPE,
            stderr=subprocess.STDOUT,
            text=True,
            check=False,
        )
        return done.returncode, done.stdout

    def files(self) -> dict[str, tuple[int, str]]:
        """Each file and folder with its mode and its hash, except those that every installation rewrites."""
        found = {}
        for path in self.at.rglob("*"):
            name = str(path.relative_to(self.at))
            if name.startswith(tuple(f"{kept}/" for kept in KEPT)) or name in KEPT:
                continue
            text = (
                str(path.readlink())
                if path.is_symlink()
                else hashlib.sha256(path.read_bytes()).hexdigest()
                if path.is_file()
                else ""
            )
            found[name] = (path.lstat().st_mode, text)
        return found

    def accounts(self) -> set[str]:
        """The names of all users and groups."""
        texts = [(self.at / "etc" / name).read_text() for name in ("passwd", "group", "shadow", "gshadow")]
        return {line.split(":")[0] for text in texts for line in text.splitlines()}

    def install(self) -> None:
        status, said = self.inside("sh", "-c", "dpkg -i /release/*.deb")
        same("dpkg -i", (status, [line for line in said.splitlines() if "warning" in line or "error" in line]), (0, []))
        same("dpkg --verify", self.inside("dpkg", "--verify", *PACKAGES), (0, ""))
        same("dpkg --audit", self.inside("dpkg", "--audit"), (0, ""))


def used(root: Root) -> None:
    """Tests that each package fulfils its purpose."""
    asking = f"cd /asked && {{}} {' '.join(ASK)}"
    accepted, nodes = "accepted 9: 1 2 3\n", "1 0 0\n2 10 0\n3 20 0\n"
    same("the program", root.inside("sh", "-c", asking.format("road_proof check")), (0, accepted))
    same("the loader", "libgogbetiku.so.0" in root.inside("ldconfig", "-p")[1], True)
    same(
        "the library, compiled for",
        root.inside(
            "sh",
            "-c",
            "cd /asked && cc -Wall -Werror example.c $(pkg-config --cflags --libs gogbetiku) -o shared && cc example.c -static $(pkg-config --static --cflags --libs gogbetiku) -o static",
        ),
        (0, ""),
    )
    for name in ("./shared", "./static", "python3 example.py"):
        status, said = root.inside("sh", "-c", asking.format(name))
        same(f"the example, {name}", (status, sorted(said.splitlines())), (0, sorted((accepted + nodes).splitlines())))
    same(
        "the owner's folder",
        root.inside("stat", "-c", "%U %G %a", OWNER, f"{OWNER}/desk"),
        (0, "gogbetiku-owner gogbetiku-owner 700\n" * 2),
    )
    words = f"umask 077; cd {OWNER}/desk && printf {'0' * 96} > zeros.hex && road_proof key zeros.hex h5 > owner.key && rm zeros.hex && stat -c '%U %a' owner.desk"
    status, said = root.inside(
        "setpriv", "--reuid=gogbetiku-owner", "--regid=gogbetiku-owner", "--clear-groups", "sh", "-c", words
    )
    same("the owner's key", (status, said.splitlines()[-1:]), (0, ["gogbetiku-owner 600"]))
    same("the gateway", root.inside("/usr/share/gogbetiku/web/gateway.py", "--help")[0], 0)
    same(
        "the page",
        (
            root.inside(
                "sh", "-c", "cd /asked && /usr/share/gogbetiku/web/page/build page owner.key https://routes.example"
            )[0],
            (root.at / "asked/page/index.html").exists(),
        ),
        (0, True),
    )
    units = sorted((root.at / "lib/systemd/system").glob("gogbetiku-*"))
    programs = {
        line.split("=", 1)[1].split()[0].lstrip("-+!@:")
        for unit in units
        for line in unit.read_text().splitlines()
        if line.startswith("Exec")
    }
    same("units", len(units), 3)
    same(
        "programs of the units that are not there",
        [name for name in sorted(programs) if name.startswith("/usr") and not (root.at / name[1:]).exists()],
        [],
    )


def main(release: str, program: str, made: str | None = None) -> int:
    with tempfile.TemporaryDirectory(prefix="gogbetiku_root.") as name:
        root = Root(
            pathlib.Path(name) / "root", pathlib.Path(release).resolve(), str(pathlib.Path(program).resolve()), made
        )
        before, accounts = root.files(), root.accounts()
        root.install()
        used(root)
        status, said = root.inside("dpkg", "-r", *PACKAGES)
        same("dpkg -r", (status, "warning" in said), (0, False))
        desk = {OWNER[1:], f"{OWNER[1:]}/desk", f"{OWNER[1:]}/desk/owner.desk", f"{OWNER[1:]}/desk/owner.key"}
        behind = root.files()
        same("what is left behind the removal", set(behind) - set(before), desk)
        same("what it changed besides", {name for name in before if behind.get(name) != before[name]}, set())
        status, said = root.inside("dpkg", "-P", *PACKAGES)
        same("dpkg -P beside a desk", (status, f"{OWNER} stays, since a desk may lie there" in said), (0, True))
        same("what is left behind the purge", set(root.files()) - set(before), desk)
        shutil.rmtree(root.at / OWNER[1:])
        root.install()
        same("dpkg -P", root.inside("dpkg", "-P", *PACKAGES)[0], 0)
        behind = root.files()
        same(
            "what is left behind a purge without a desk",
            (set(behind) ^ set(before), [name for name in before if behind.get(name) != before[name]]),
            (set(), []),
        )
        same("users and groups left behind", root.accounts() ^ accounts, {"gogbetiku-owner"})
        same("the loader, behind it", "libgogbetiku" in root.inside("ldconfig", "-p")[1], False)
    for fault in faults:
        print(fault)
    print(
        f"root: {len(faults)} differ"
        if faults
        else "root: the packages are installed, used, removed and purged; only a desk is left"
    )
    return 1 if faults else 0


if __name__ == "__main__":
    if len(sys.argv) not in (3, 4):
        print(
            "bindings/play_root.py: name the release's folder and the program: bindings/play_root.py RELEASE PROGRAM [ROOT]",
            file=sys.stderr,
        )
        sys.exit(2)
    sys.exit(main(*sys.argv[1:]))
