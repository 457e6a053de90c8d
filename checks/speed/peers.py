"""Builds the programs with which the proved one is compared, in a folder. A program that cannot be built is skipped by
name.

Plain Rust needs rustc. petgraph and RustCrypto's sha2 need cargo and Debian's librust-petgraph-dev and
librust-sha2-dev, from which they are built without a network. networkx needs Debian's python3-networkx. Nobody trusts
this module.
"""
import glob
import os
import re
import shutil
import subprocess

from measure import HERE, note

CRATES = "/usr/share/cargo/registry"
PYTHON = "/usr/bin/python3"
MANIFEST = """[package]
name = "peer"
version = "0.0.0"
edition = "2021"
[[bin]]
name = "peer"
path = "{source}"
[dependencies]
{crate} = "*"
"""
SOURCES = ['source.crates-io.replace-with="debian"', f'source.debian.directory="{CRATES}"']


def said(*words: str) -> str:
    return subprocess.run(words, capture_output=True, check=True, text=True).stdout.strip()


class Peers:
    """The commands by name, their versions, and the skipped programs."""

    def __init__(self, folder: str, none: bool):
        self.folder = folder
        self.commands: dict[str, list[str]] = {}
        self.versions: list[str] = []
        self.skipped: list[str] = []
        if none:
            return
        self.plain("route")
        self.plain("borders")
        self.crate("petgraph", "petgraph", "librust-petgraph-dev")
        self.crate("hashes", "sha2", "librust-sha2-dev")
        self.networkx()

    def skip(self, name: str, why: str) -> None:
        self.skipped.append(f"skipped: {name}, since {why}")
        note(self.skipped[-1])

    def plain(self, name: str) -> None:
        if not shutil.which("rustc"):
            self.skip(f"{name}.rs", "this machine has no rustc")
            return
        subprocess.run(["rustc", "-O", "-o", f"{self.folder}/{name}", f"{HERE}/{name}.rs"], check=True)
        self.commands[name] = [f"{self.folder}/{name}"]
        version = said("rustc", "--version").split(" (")[0]
        if version not in self.versions:
            self.versions.append(version)

    def crate(self, name: str, crate: str, package: str) -> None:
        if not shutil.which("cargo"):
            self.skip(crate, "this machine has no cargo")
            return
        if not glob.glob(f"{CRATES}/{crate}-[0-9]*"):
            self.skip(crate, f"this machine has no {package}")
            return
        folder = f"{self.folder}/{name}-crate"
        os.mkdir(folder)
        with open(f"{folder}/Cargo.toml", "w", encoding="ascii") as file:
            file.write(MANIFEST.format(source=f"{HERE}/{name}.rs", crate=crate))
        configured = [word for source in SOURCES for word in ("--config", source)]
        built = subprocess.run(
            ["cargo", "build", "--quiet", "--release", "--offline", *configured],
            cwd=folder,
            capture_output=True,
            check=False,
            text=True,
        )
        if built.returncode:
            self.skip(crate, f"cargo ends with {built.returncode}: {built.stderr.strip().splitlines()[0]}")
            return
        with open(f"{folder}/Cargo.lock", encoding="ascii") as file:
            version = re.findall(f'name = "{crate}"\nversion = "(.*)"', file.read())
        self.commands[name] = [f"{folder}/target/release/peer"]
        self.versions.append(f"{crate} {version[0]}")

    def networkx(self) -> None:
        try:
            version = said(PYTHON, "-c", "import networkx; print(networkx.__version__)")
        except (OSError, subprocess.CalledProcessError):
            self.skip("networkx", "this machine has no python3-networkx")
            return
        self.commands["networkx"] = [PYTHON, f"{HERE}/by_networkx.py"]
        self.versions.append(f"networkx {version}")
