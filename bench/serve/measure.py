"""Measures a coordinator: the arguments are its program, a folder of a real file system, a swift one, and by how much the
logs are shorter than they are named (1)."""

import os
import sys

sys.path.insert(0, os.path.join(os.path.dirname(os.path.abspath(__file__)), "..", "..", "tools"))
import latency  # noqa: E402
import opening  # noqa: E402
from served.clients import Lost  # noqa: E402
from served.server import Server  # noqa: E402


def main() -> None:
    program, scratch, swift, shorter = sys.argv[1:]
    servers = [Server(program, f"{scratch}/lone"), Server(program, f"{scratch}/wide"), Server(program, f"{swift}/ring")]
    try:
        latency.measure(servers[0])
        latency.measure_view(servers[1])
        opening.measure(servers[2], scratch, int(shorter))
    except Lost as lost:
        sys.exit(f"LOST: {lost}")
    finally:
        for server in servers:
            server.end()


main()
