"""The greatest age of a map, measured by a clock. The library's `gog_least_of_age` computes it; that call is tested and
not proved."""

from __future__ import annotations

import ctypes
import math
import re
from collections.abc import Callable
from dataclasses import dataclass
from typing import Any

SECONDS = {"": 1, "s": 1, "m": 60, "h": 3_600, "d": 86_400}
_GREATEST = 2**64 - 1


def seconds_of(word: str) -> int:
    """The seconds of an age in words such as `2d`, `36h`, `90m`, or a number of seconds."""
    found = re.fullmatch("([0-9]{1,15})([smhd]?)", word, re.ASCII)
    if not found:
        raise ValueError(f"{word!r} is not an age, such as 2d, 36h, 90m or 3600")
    return int(found[1]) * SECONDS[found[2]]


@dataclass(frozen=True)
class Age:
    """The greatest age of a map in seconds, and a clock in seconds since 1970-01-01 UTC."""

    seconds: int
    clock: Callable[[], float]

    def now(self) -> int:
        """The clock within 64 bits. A value outside becomes 0 or the greatest number, which are both wrong clocks."""
        said = self.clock()
        return 0 if math.isnan(said) or said < 0 else int(said) if said < _GREATEST else _GREATEST

    def least(self, calls: Any, floor: int) -> tuple[int, int] | None:
        """The minimum version to check with, and the version to request from a gateway. None if the clock is wrong."""
        least, asked = ctypes.c_uint64(), ctypes.c_uint64()
        is_right = calls.gog_least_of_age(floor, self.now(), self.seconds, ctypes.byref(least), ctypes.byref(asked))
        return (least.value, asked.value) if is_right else None
