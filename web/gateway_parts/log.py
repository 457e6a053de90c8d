"""Writes lines for the operator of the gateway. A line that cannot be written at once is lost; nothing else is lost
with it."""

import contextlib
import logging
import os
import select

LONGEST = 2_000


def plain(text: str) -> str:
    """Any text as one line of printable ASCII."""
    line = (
        text
        if text.isascii() and text.isprintable()
        else text.encode("unicode_escape", "surrogatepass").decode("ascii")
    )
    return line if len(line) <= LONGEST else line[:LONGEST] + ".."


def tell(text: str) -> None:
    """Writes one line. A log that does not respond delays nobody: a full pipe gets no line."""
    with contextlib.suppress(OSError):
        poll = select.poll()
        poll.register(2, select.POLLOUT)
        if any(event & select.POLLOUT for _, event in poll.poll(0)):
            os.write(2, f"gateway: {plain(text)}\n".encode("ascii"))


class Lines(logging.Handler):
    """Writes the log of asyncio in the same form."""

    def emit(self, record: logging.LogRecord) -> None:
        tell(record.getMessage())
