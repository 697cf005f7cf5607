"""The arguments of `resetd-page`, and its threads."""

from __future__ import annotations

import argparse
import asyncio
import sys
import threading

from resetd_client import BadWords, Port, Unreadable

from .recent import Recent
from .server import BadListener, Server
from .state import State

ABOUT = """Serves a read-only web page that shows the nodes, the links and the resets in progress as they change.

It is a client of resetd-proxy that may `show` and `watch`, and sends no orders. It needs Debian's python3-aiohttp. Put a web proxy with authentication
before it for people on other hosts, or use `ssh -L`.

Exit statuses: 0 stopped; 1 it can't listen, or an address does not belong to resetd-proxy; 2 wrong arguments."""


class Arguments(argparse.Namespace):
    """The arguments."""

    address: str
    listen: str
    host: list[str]
    audit: str


def read_arguments() -> Arguments:
    parser = argparse.ArgumentParser(prog="resetd-page", description=ABOUT, formatter_class=argparse.RawDescriptionHelpFormatter)
    parser.add_argument("--address", required=True, metavar="ADDRESS",
                        help="the address of resetd-proxy, unix:PATH or tls:HOST:PORT; for tls: the PEM files come from RESETD_CERTIFICATE, "
                        "RESETD_KEY and RESETD_AUTHORITY, or from RESETD_TLS")
    parser.add_argument("--listen", default="127.0.0.1:4173", metavar="ADDRESS",
                        help="where to serve the page: unix:PATH (mode 0660), HOST:PORT of the loopback, or systemd for the socket that "
                        "systemd passes (default: %(default)s)")
    parser.add_argument("--host", action="append", default=[], metavar="NAME",
                        help="a host name, besides localhost, under which browsers may open the page; may be repeated")
    parser.add_argument("--audit", default="", metavar="FILE", help="the proxy's audit file, from which the page also shows the last orders")
    return parser.parse_args(namespace=Arguments())


def main() -> int:
    """Serves until it is stopped. Returns the exit status."""
    arguments = read_arguments()
    try:
        port = Port(arguments.address)
        if not port.is_front:
            raise BadWords(f"{arguments.address} is not an address of the proxy (unix:PATH or tls:HOST:PORT)")
        asyncio.run(serve(arguments, port))
    except (BadListener, BadWords, Unreadable, OSError) as fault:
        print(f"resetd-page: {fault}", file=sys.stderr)
        return 1
    except KeyboardInterrupt:
        pass
    return 0


async def serve(arguments: Arguments, port: Port) -> None:
    """Serves, and follows the proxy in another thread. Raises BadListener and OSError."""
    state = State(Recent(arguments.audit) if arguments.audit else None)
    server, loop = Server(state, arguments.host), asyncio.get_running_loop()
    print(f"resetd-page: the page is at {await server.listen(arguments.listen)}", file=sys.stderr, flush=True)
    threading.Thread(target=state.follow, args=(port, lambda: loop.call_soon_threadsafe(server.note_change)), daemon=True).start()
    await asyncio.Event().wait()
