#!/usr/bin/python3
"""Answers over HTTP what guarded `road_proof serve` answer over their pipes.

    gateway.py PROGRAM PUB PUBKEY [CHAIN] [--listen HOST:PORT] [--keep COUNT] [--serves COUNT] ..      (--help has the rest)

    GET /v1/p/ID/route?from=S&to=T         a reply on the route from S to T
    GET /v1/p/ID/reach?from=S&radius=R     a reply on the nodes within R of S
    GET /v1/p/ID/publication               the publication itself
    GET /v1/route .. /v1/reach .. /v1/publication, each with &least=V or without
                                           a redirect to the same over the newest publication
    GET /v1/info /v1/chain /v1/health /v1/ready /metrics

**Nobody trusts this program** or any other server: whoever uses a reply checks it with the owner's public key. ID is
the beginning of the SHA-256 of a publication's header and signature. So a URL names one publication for ever, any cache
may keep its answer, and each replica gives the same octets. `web/openapi.json` describes each path. Its parts are in
`gateway_parts`.

When a file is moved to PUB or CHAIN, the gateway starts new `serve` processes beside the old ones, and the new ones
take over. When a publication is moved to PUB.next, the gateway answers under its ID. When it is moved to PUB, the
gateway announces it. The gateway restarts a `serve` before its frames end, and after any death. One event loop does all
this, and Debian's python3-h11 reads the heads of requests.
"""

import asyncio
import errno
import logging
import os
import signal
import sys
import time

try:
    import h11  # noqa: F401
except ModuleNotFoundError:
    sys.stderr.write(
        f"gateway: {sys.executable} has no h11: apt-get install python3-h11, and call it by /usr/bin/python3.\n"
    )
    sys.exit(2)

from gateway_parts.answers import Answers  # noqa: E402
from gateway_parts.counts import Counts  # noqa: E402
from gateway_parts.keeper import Keeper  # noqa: E402
from gateway_parts.log import Lines, tell  # noqa: E402
from gateway_parts.options import Options, options_of, wrong  # noqa: E402
from gateway_parts.wire import Server  # noqa: E402

END_SECONDS = 10


async def serve(options: Options) -> None:
    """Answers requests until a signal. For a while it still answers the requests that have begun by then."""
    counts = Counts()
    keeper = Keeper(options, counts)
    server = Server(options, Answers(options, keeper, counts), counts)
    where = f"{options.host}:{options.port}"
    try:
        await server.listen()
    except OSError as error:
        why = "is in use" if error.errno == errno.EADDRINUSE else f"cannot be listened on ({error.strerror})"
        wrong(f"gateway: {where} {why}: name another with --listen, or end what listens there")
    stopped = asyncio.Event()
    for number in (signal.SIGTERM, signal.SIGINT):
        asyncio.get_running_loop().add_signal_handler(number, stopped.set)
    at_work = [asyncio.create_task(keeper.run()), asyncio.create_task(server.sweep())]
    tell(f"listening on {where}")
    await stopped.wait()
    keeper.end()
    until = time.monotonic() + END_SECONDS
    await asyncio.sleep(options.drain_seconds)
    server.stop()
    while server.is_busy() and time.monotonic() < until:
        await asyncio.sleep(0.05)
    for task in at_work:
        task.cancel()
    keeper.close()
    await keeper.closed()


def main(words: list[str]) -> int:
    options = options_of(words, (__doc__ or "").splitlines()[0])
    # a thread that has compressed an answer can hand it over at once
    sys.setswitchinterval(0.0005)
    logging.basicConfig(handlers=[Lines()], level=logging.WARNING)
    if sys.version_info < (3, 12):
        asyncio.set_child_watcher(asyncio.PidfdChildWatcher())
    asyncio.run(serve(options))
    return 0


if __name__ == "__main__":
    status = main(sys.argv[1:])
    # a thread that waits for a dead disk does not delay the end
    os._exit(status)
