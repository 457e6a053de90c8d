#!/usr/bin/env python3
"""Makes Debian's packages of an unpacked release: bindings/packages.py TREE FOLDER

TREE is the content of gogbetiku-VERSION-x86_64-linux.tar.xz, in the layout of bindings/release. FOLDER gets `gogbetiku`
(program, gateway, page, tools, units, completions), `libgogbetiku0`, `libgogbetiku-dev` and `python3-gogbetiku`.
SOURCE_DATE_EPOCH is the time of all files, so two runs give the same octets. bindings/debian has the copyright and the
maintainers' scripts.
Nobody trusts this file."""

from __future__ import annotations

import email.utils
import gzip
import hashlib
import os
import pathlib
import re
import subprocess
import sys
import tempfile

HERE = pathlib.Path(__file__).resolve().parent
MAINTAINER = "Gogbetiku maintainers <maintainers@users.noreply.gogbetiku.example>"
TRIPLE = "usr/lib/x86_64-linux-gnu"
SHARE = "usr/share/gogbetiku"
# the places of the units' folders and programs in a package
PLACES = {
    "/opt/gogbetiku/web/": f"/{SHARE}/web/",
    "/opt/gogbetiku/bin/": "/usr/bin/",
    "/srv/gogbetiku": "/var/lib/gogbetiku",
    "/srv/owner": "/var/lib/gogbetiku-owner",
    "User=owner": "User=gogbetiku-owner",
}
UNITS = {
    "web/gateway.service": "gogbetiku-gateway.service",
    "web/replicas/gateway@.service": "gogbetiku-gateway@.service",
    "tools/owner@.service": "gogbetiku-owner@.service",
}
DOCUMENTS = ("CLAIMS", "LIBRARY", "COMMANDS", "OPERATING", "BEFORE_YOU_SIGN", "MAPS")


def least_glibc(*files: pathlib.Path) -> str:
    """The newest version of glibc that one of the files needs."""
    said = subprocess.run(
        ["readelf", "-W", "--version-info", *files], capture_output=True, text=True, check=True
    ).stdout
    versions: list[str] = re.findall(r"GLIBC_(\d+(?:\.\d+)+)", said)
    return max(versions, key=lambda version: [*map(int, version.split("."))])


class Package:
    """A package in the making: its files below a root, and the fields of its control file."""

    def __init__(self, room: pathlib.Path, name: str, version: str, time: int, **fields: str):
        self.root, self.name, self.version, self.time = room / name, name, version, time
        self.fields = {
            "Package": name,
            "Version": version,
            "Maintainer": MAINTAINER,
            **{key.replace("_", "-"): text for key, text in fields.items()},
        }
        self.put(HERE / "debian/copyright", f"usr/share/doc/{name}/copyright")
        when = email.utils.formatdate(time, usegmt=False)
        log = f"gogbetiku ({version}) unstable; urgency=medium\n\n  * CHANGELOG.md of the release says what changed.\n\n -- {MAINTAINER}  {when}\n"
        self.write(f"usr/share/doc/{name}/changelog.gz", gzip.compress(log.encode(), mtime=0))

    def write(self, place: str, octets: bytes, mode: int = 0o644) -> None:
        path = self.root / place
        path.parent.mkdir(parents=True, exist_ok=True)
        path.write_bytes(octets)
        path.chmod(mode)

    def put(self, source: pathlib.Path, place: str) -> None:
        """Adds a file with its execute bit. A Python script gets the path of Debian's Python."""
        octets = source.read_bytes().replace(b"#!/usr/bin/env python3\n", b"#!/usr/bin/python3\n", 1)
        self.write(place, octets, 0o755 if os.access(source, os.X_OK) else 0o644)

    def page(self, source: pathlib.Path, place: str) -> None:
        self.write(f"{place}.gz", gzip.compress(source.read_bytes(), mtime=0))

    def tree(self, source: pathlib.Path, place: str) -> None:
        for path in sorted(source.rglob("*")):
            if path.is_file():
                self.put(path, f"{place}/{path.relative_to(source)}")

    def script(self, name: str) -> None:
        self.write(f"DEBIAN/{name}", (HERE / f"debian/{self.name}.{name}").read_bytes(), 0o755)

    def pack(self, folder: pathlib.Path) -> None:
        files = sorted(
            path
            for path in self.root.rglob("*")
            if path.is_file() and "DEBIAN" not in path.parts and not path.is_symlink()
        )
        sums = "".join(
            f"{hashlib.md5(path.read_bytes()).hexdigest()}  {path.relative_to(self.root)}\n" for path in files
        )
        self.write("DEBIAN/md5sums", sums.encode())
        self.fields["Installed-Size"] = str(sum(-(-path.stat().st_size // 1024) for path in files) + 1)
        about = self.fields.pop("Description")
        self.write(
            "DEBIAN/control",
            "".join(f"{key}: {text}\n" for key, text in [*self.fields.items(), ("Description", about)]).encode(),
        )
        for path in [self.root, *self.root.rglob("*")]:
            if path.is_dir():
                path.chmod(0o755)
            os.utime(path, (self.time, self.time), follow_symlinks=False)
        name = f"{self.name}_{self.version}_{self.fields['Architecture']}.deb"
        words = [
            "dpkg-deb",
            "--root-owner-group",
            "--uniform-compression",
            "-Zxz",
            "--threads-max=1",
            "--build",
            str(self.root),
            str(folder / name),
        ]
        subprocess.run(words, check=True, stdout=subprocess.DEVNULL)


def described(first: str, *lines: str) -> str:
    return "\n ".join([first, *lines])


def program(tree: pathlib.Path, it: Package) -> None:
    it.put(tree / "bin/road_proof", "usr/bin/road_proof")
    it.page(tree / "share/man/man1/road_proof.1", "usr/share/man/man1/road_proof.1")
    it.put(tree / "share/bash-completion/completions/road_proof", "usr/share/bash-completion/completions/road_proof")
    it.put(tree / "share/zsh/site-functions/_road_proof", "usr/share/zsh/vendor-completions/_road_proof")
    for folder in ("web", "tools"):
        it.tree(tree / folder, f"{SHARE}/{folder}")
    for source, name in UNITS.items():
        (it.root / SHARE / source).unlink()
        text = (tree / source).read_text().replace("[Unit]\n", "[Unit]\nDocumentation=man:road_proof(1)\n", 1)
        for before, behind in PLACES.items():
            text = text.replace(before, behind)
        it.write(f"lib/systemd/system/{name}", text.encode())
    for name in DOCUMENTS:
        it.put(tree / f"docs/{name}.md", f"usr/share/doc/gogbetiku/{name}.md")
    for name in ("SECURITY.md", "CHANGELOG.md", "SUMS", "VERIFY"):
        it.put(tree / name, f"usr/share/doc/gogbetiku/{name}")
    it.put(HERE / "debian/gogbetiku.overrides", "usr/share/lintian/overrides/gogbetiku")
    (it.root / "var/lib/gogbetiku").mkdir(parents=True)
    for name in ("postinst", "prerm", "postrm"):
        it.script(name)


def library(tree: pathlib.Path, it: Package) -> None:
    it.put(tree / "lib/libgogbetiku.so.0", f"{TRIPLE}/libgogbetiku.so.0")
    it.write("DEBIAN/shlibs", f"libgogbetiku 0 libgogbetiku0 (>= {it.version})\n".encode())
    # the loader's cache is rebuilt after each change
    it.write("DEBIAN/triggers", b"activate-noawait ldconfig\n")


def headers(tree: pathlib.Path, it: Package) -> None:
    it.put(tree / "include/gogbetiku.h", "usr/include/gogbetiku.h")
    it.put(tree / "lib/libgogbetiku.a", f"{TRIPLE}/libgogbetiku.a")
    (it.root / TRIPLE / "libgogbetiku.so").symlink_to("libgogbetiku.so.0")
    text = (tree / "lib/pkgconfig/gogbetiku.pc").read_text()
    text = re.sub(r"^prefix=.*", "prefix=/usr", text, flags=re.M).replace("${prefix}/lib\n", f"/{TRIPLE}\n")
    it.write(f"{TRIPLE}/pkgconfig/gogbetiku.pc", text.encode())
    it.page(tree / "share/man/man3/gogbetiku.3", "usr/share/man/man3/gogbetiku.3")
    for language in ("rust", "go"):
        it.tree(tree / "bindings" / language, f"{SHARE}/{language}")


def python(tree: pathlib.Path, it: Package) -> None:
    for name in [*sorted(file.name for file in (HERE / "python/gogbetiku").glob("*.py")), "py.typed"]:
        it.put(HERE / "python/gogbetiku" / name, f"usr/lib/python3/dist-packages/gogbetiku/{name}")
    about = f"Metadata-Version: 2.1\nName: gogbetiku\nVersion: {it.version}\nSummary: Checks routes against the public key of the map's owner\n"
    it.write(f"usr/lib/python3/dist-packages/gogbetiku-{it.version}.egg-info", about.encode())
    it.script("postinst")
    it.script("prerm")


def main(given: str, into: str) -> int:
    tree, folder = pathlib.Path(given), pathlib.Path(into)
    version, time = (tree / "VERSION").read_text().strip(), int(os.environ["SOURCE_DATE_EPOCH"])
    glibc = {name: f"libc6 (>= {least_glibc(tree / name)})" for name in ("bin/road_proof", "lib/libgogbetiku.so.0")}
    always = {"Priority": "optional", "Homepage": "https://gogbetiku.example/"}
    what = "Shortest routes that a server proves under the key of the map's owner."
    with tempfile.TemporaryDirectory() as name:
        room = pathlib.Path(name)
        it = Package(
            room,
            "gogbetiku",
            version,
            time,
            Architecture="amd64",
            Section="net",
            **always,
            Depends=f"{glibc['bin/road_proof']}, adduser, python3",
            Recommends="python3-h11",
            Description=described(
                "shortest routes that prove themselves",
                what,
                "This package has the program, the gateway, the page and the units.",
            ),
        )
        program(tree, it)
        it.pack(folder)
        it = Package(
            room,
            "libgogbetiku0",
            version,
            time,
            Architecture="amd64",
            Section="libs",
            **always,
            Multi_Arch="same",
            Depends=glibc["lib/libgogbetiku.so.0"],
            Description=described(
                "client of routes that prove themselves", what, "This package has the library that checks a reply."
            ),
        )
        library(tree, it)
        it.pack(folder)
        it = Package(
            room,
            "libgogbetiku-dev",
            version,
            time,
            Architecture="amd64",
            Section="libdevel",
            **always,
            Depends=f"libgogbetiku0 (= {version})",
            Description=described(
                "client of routes that prove themselves, for programs",
                what,
                "This package has header, archive, and the sources for Rust and Go.",
            ),
        )
        headers(tree, it)
        it.pack(folder)
        it = Package(
            room,
            "python3-gogbetiku",
            version,
            time,
            Architecture="all",
            Section="python",
            **always,
            Depends=f"python3 (>= 3.9), libgogbetiku0 (>= {version})",
            Description=described(
                "client of routes that prove themselves, for Python", what, "This package has the module for Python 3."
            ),
        )
        python(tree, it)
        it.pack(folder)
    return 0


if __name__ == "__main__":
    if len(sys.argv) != 3:
        print(
            "bindings/packages.py: name an unpacked release and the folder for the packages: bindings/packages.py TREE FOLDER",
            file=sys.stderr,
        )
        sys.exit(2)
    sys.exit(main(*sys.argv[1:]))
