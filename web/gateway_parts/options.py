"""Reads the arguments of the command. Reports an error in them in one sentence that names the next step."""

import argparse
import contextlib
import os
import pathlib
import re
import resource
import shutil
import subprocess
import sys
from typing import NoReturn

from .children import SESSIONS
from .publications import MOST_CHAIN, MOST_PUBLICATION, Refused, read_file

UNITS = {"": 1, "K": 1 << 10, "M": 1 << 20, "G": 1 << 30}


class Words(argparse.ArgumentParser):
    """A parser that reports an error in one line, with status 2."""

    def error(self, message: str) -> NoReturn:
        wrong(f"{self.prog}: {message}: {self.prog} --help shows its usage")


def wrong(sentence: str) -> NoReturn:
    """Ends the command: its arguments are wrong."""
    sys.stderr.write(sentence.rstrip(".") + ".\n")
    raise SystemExit(2)


def program_of(word: str, who: str) -> str:
    """The program that an argument names, by its path or on the PATH."""
    found = shutil.which(word) or shutil.which(os.path.abspath(word))
    if found is None:
        there = f"{word} is not a program that can be run" if os.path.exists(word) else f"there is no program {word}"
        wrong(f"{who}: {there}: name it by its path, or put its folder into PATH (README.md says how to build it)")
    return os.path.abspath(found)


def needs_h11(python: str, who: str) -> None:
    """Ends a command that starts gateways if their Python lacks the parser of requests."""
    if subprocess.run([python, "-P", "-c", "import h11"], capture_output=True, check=False).returncode:
        wrong(f"{who}: {python} has no h11: apt-get install python3-h11")


def file_of(word: str, what: str, who: str, most: int = MOST_PUBLICATION) -> bytes:
    """The octets of a file that must exist."""
    try:
        return read_file(word, most)
    except FileNotFoundError:
        wrong(f"{who}: {word} is not there: put {what} into its place, or name another file (docs/OPERATING.md)")
    except Refused as error:
        wrong(f"{who}: {error}: put {what} into its place")
    except OSError as error:
        wrong(f"{who}: {word} cannot be read ({error.strerror}): put {what} into its place, or change its permissions")


def octets_of(word: str) -> int:
    """Parses a number of octets such as 2G, 512M or 1000000."""
    found = re.fullmatch(r"([0-9]{1,15})([KMG]?)", word)
    if not found:
        raise argparse.ArgumentTypeError(f"{word} is not a count of octets, such as 2G")
    return int(found[1]) * UNITS[found[2]]


def serves_of(word: str) -> int:
    """Parses the number of children; 0 stands for `auto`."""
    if word == "auto":
        return 0
    if not re.fullmatch("[1-9][0-9]?", word):
        raise argparse.ArgumentTypeError(f"{word} is neither auto nor a count from 1 to 99")
    return int(word)


def place_of(word: str) -> tuple[str, int]:
    """Parses a host and a port."""
    found = re.fullmatch(r"(\[[0-9a-fA-F:.%\w]+\]|[^\[\]:]+):([0-9]{1,5})", word)
    if not found or int(found[2]) > 65_535:
        raise argparse.ArgumentTypeError(f"{word} is not HOST:PORT, such as 127.0.0.1:8080")
    return found[1].strip("[]"), int(found[2])


def stated_memory() -> int:
    """The memory that this machine, or the control group of this process, allows."""
    most = os.sysconf("SC_PHYS_PAGES") * os.sysconf("SC_PAGE_SIZE")
    with contextlib.suppress(OSError, ValueError, IndexError):
        group = pathlib.Path("/proc/self/cgroup").read_text(encoding="ascii").split("::", 1)[1].strip()
        most = min(most, int(pathlib.Path(f"/sys/fs/cgroup{group}/memory.max").read_text(encoding="ascii")))
    return most


class Options(argparse.Namespace):
    """The settings from the command's arguments."""

    program: str
    publication: str
    key: str
    chain: str | None
    listen: tuple[str, int]
    keep: int
    serves: int
    memory: int
    page: str | None
    name: str
    unit: str
    attribution: str
    proxy: list[str]
    asks_per_second: float
    burst: float
    octets_per_second: int
    burst_octets: int
    asks: int
    asks_by_address: int
    connections: int
    connections_by_address: int
    most_waiting: int
    log_requests: bool
    log_asks: bool
    ask_seconds: float
    install_seconds: float
    request_seconds: float
    reply_seconds: float
    idle_seconds: float
    drain_seconds: float
    look_seconds: float
    # computed from the above
    host: str
    port: int
    proxies: frozenset[str]
    key_octets: bytes
    patience = 2.0
    retry = 2
    longest_pause = 30.0


def parser_of(about: str) -> Words:
    parser = Words(prog="gateway", description=about)
    parser.add_argument("program", metavar="PROGRAM", help="road_proof, by its path or on the PATH")
    parser.add_argument(
        "publication",
        metavar="PUB",
        help="the newest publication; a publication at PUB.next is installed before it is announced",
    )
    parser.add_argument("key", metavar="PUBKEY")
    parser.add_argument("chain", metavar="CHAIN", nargs="?")
    parser.add_argument(
        "--listen", type=place_of, default=("127.0.0.1", 8080), metavar="HOST:PORT", help="(127.0.0.1:8080)"
    )
    parser.add_argument(
        "--keep",
        type=int,
        default=3,
        choices=range(1, SESSIONS),
        metavar="COUNT",
        help="the number of served publications (3)",
    )
    parser.add_argument(
        "--serves",
        type=serves_of,
        default=1,
        metavar="COUNT",
        help="the number of serve processes, or auto: as many as processors and memory allow (1)",
    )
    parser.add_argument(
        "--memory",
        type=octets_of,
        default=0,
        metavar="OCTETS",
        help="the memory that auto may use, such as 2G (by default the limit of the machine or the unit)",
    )
    parser.add_argument("--page", metavar="FOLDER", help="serve a page's files too, for trials")
    parser.add_argument("--name", default="", help="the name of this replica, for a cache's entries (X-Replica)")
    parser.add_argument("--unit", default="", help="the unit of coordinates that /v1/info names")
    parser.add_argument("--attribution", default="", help="the map's origin that /v1/info names")
    parser.add_argument(
        "--proxy", action="append", default=[], metavar="ADDRESS", help="a proxy whose X-Forwarded-For is believed"
    )
    parser.add_argument(
        "--asks-per-second",
        type=float,
        default=0,
        metavar="RATE",
        help="requests from each address; 0 sets no limit (0)",
    )
    parser.add_argument(
        "--burst",
        type=float,
        default=100,
        metavar="COUNT",
        help="requests from an address at once, under such a rate (100)",
    )
    parser.add_argument(
        "--octets-per-second",
        type=octets_of,
        default=0,
        metavar="OCTETS",
        help="octets of replies for each address, such as 1M; 0 sets no limit (0)",
    )
    parser.add_argument(
        "--burst-octets",
        type=octets_of,
        default=64 << 20,
        metavar="OCTETS",
        help="octets for an address at once, under such a rate (64M)",
    )
    parser.add_argument(
        "--asks", type=int, default=512, metavar="COUNT", help="the greatest number of requests at a time (512)"
    )
    parser.add_argument(
        "--asks-by-address",
        type=int,
        default=64,
        metavar="COUNT",
        help="the greatest number of requests from one address at a time (64)",
    )
    parser.add_argument(
        "--connections", type=int, default=1000, metavar="COUNT", help="the greatest number of open connections (1000)"
    )
    parser.add_argument(
        "--connections-by-address",
        type=int,
        default=250,
        metavar="COUNT",
        help="the greatest number of open connections from one address (250)",
    )
    parser.add_argument(
        "--most-waiting",
        type=octets_of,
        default=256 << 20,
        metavar="OCTETS",
        help="the greatest number of octets that wait for slow readers (256M)",
    )
    parser.add_argument("--log-requests", action="store_true", help="write a line for each request, without its query")
    parser.add_argument("--log-asks", action="store_true", help="write queries into these lines")
    seconds = {
        "ask": (10, "for an answer of serve"),
        "install": (300, "for a book of serve"),
        "request": (5, "for a request's head to arrive"),
        "reply": (120, "for an answer to be read"),
        "idle": (60, "for a connection without a request"),
        "drain": (2, "between the 503 of ready and the end"),
        "look": (0.25, "between looks at the files"),
    }
    for name, (default, text) in seconds.items():
        parser.add_argument(f"--{name}-seconds", type=float, default=default, metavar="S", help=f"{text} ({default})")
    return parser


def options_of(words: list[str], about: str) -> Options:
    """Reads the arguments and the files that they name. Returns the settings."""
    given = parser_of(about).parse_args(words, Options())
    given.host, given.port = given.listen
    given.program = program_of(given.program, "gateway")
    file_of(given.publication, "a publication", "gateway")
    given.key_octets = file_of(given.key, "the owner's public key", "gateway")
    if given.chain:
        file_of(given.chain, "the owner's chain, or an empty file", "gateway", MOST_CHAIN)
    if given.page and not os.path.isdir(given.page):
        wrong(f"gateway: {given.page} is no folder: web/page/build makes the page's")
    if not re.fullmatch("[!-~]{0,100}", given.name):
        wrong("gateway: --name goes into a header: name the replica with letters and digits, such as replica-0")
    given.memory = given.memory or stated_memory()
    given.proxies = frozenset(given.proxy)
    given.log_requests |= given.log_asks
    given.connections = min(given.connections, open_files() - 64)
    return given


def open_files() -> int:
    """Raises the limit of open files as far as allowed, and returns it."""
    soft, hard = resource.getrlimit(resource.RLIMIT_NOFILE)
    wanted = min(hard, 65_536) if hard != resource.RLIM_INFINITY else 65_536
    if soft < wanted:
        with contextlib.suppress(OSError, ValueError):
            resource.setrlimit(resource.RLIMIT_NOFILE, (wanted, hard))
            soft = wanted
    return max(soft, 128)
