"""Runs programs: returns a run's end and its processor time, and compares several runs."""
import os
import statistics
import subprocess
import sys
from collections.abc import Callable, Mapping, Sequence
from pathlib import Path

# a command's status, standard output and standard error
Ended = tuple[int, bytes, str]
Seconds = Callable[[], float]
# the limit of seconds, after which a run counts as endless
LONGEST = 600


def outcome(
    words: Sequence[object], folder: str | Path | None = None, given: bytes | None = None, seconds: float = LONGEST
) -> Ended:
    """Runs a command, with these octets as its standard input if given. Returns how it ended."""
    done = subprocess.run(
        [str(word) for word in words], cwd=folder, input=given, capture_output=True, check=False, timeout=seconds
    )
    return done.returncode, done.stdout, done.stderr.decode(errors="replace")


def written(
    words: Sequence[object],
    folder: str | Path | None = None,
    status: int = 0,
    given: bytes | None = None,
    seconds: float = LONGEST,
) -> bytes:
    """Runs a command. Returns its output. The script ends if the status is not the wanted one."""
    found, told, said = outcome(words, folder, given, seconds)
    if found != status:
        sys.exit(f"{' '.join(map(str, words))}: status {found}: {said}")
    return told


def processor_seconds(
    words: Sequence[str],
    read: str | None = None,
    output: str = os.devnull,
    silent: bool = False,
    folder: str | Path | None = None,
    wanted: int = 0,
) -> float:
    """The seconds of processor time of a run with these files of its folder as standard input and output. The script
    ends if the status is not the wanted one."""
    child = os.fork()
    if child == 0:
        if folder is not None:
            os.chdir(folder)
        if read is not None:
            os.dup2(os.open(read, os.O_RDONLY), 0)
        os.dup2(os.open(output, os.O_WRONLY | os.O_CREAT | os.O_TRUNC, 0o600), 1)
        if silent:
            os.dup2(os.open(os.devnull, os.O_WRONLY), 2)
        os.execv(words[0], list(words))
    _, status, used = os.wait4(child, 0)
    if os.waitstatus_to_exitcode(status) != wanted:
        sys.exit(f"{' '.join(words)}: status {os.waitstatus_to_exitcode(status)}")
    return float(used.ru_utime + used.ru_stime)


def least_in_turn(
    runs: Mapping[str, Seconds], is_good: Callable[[dict[str, float]], bool], rounds: int = 12, turns: int = 3
) -> dict[str, float]:
    """The least seconds of each of several runs, which take turns in rounds. There are no more rounds once the times
    are good, since other work on the machine can slow the same run for a while."""
    least = dict.fromkeys(runs, float("inf"))
    for _ in range(rounds):
        for _ in range(turns):
            for name, run in runs.items():
                least[name] = min(least[name], run())
        if is_good(least):
            break
    return least


def median_ratio(first: Seconds, second: Seconds, pairs: int) -> float:
    """The ratio of the first time to the second: the median over this many pairs of runs."""
    return statistics.median(first() / second() for _ in range(pairs))
