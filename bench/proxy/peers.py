"""What the proxy's rates stand beside: etcd and Redis, as Debian has them, over stores that sync each write."""

from __future__ import annotations

import shutil
import socket
import urllib.error
import urllib.request

from running import Running, await_true


def free_port() -> int:
    with socket.create_server(("127.0.0.1", 0)) as listener:
        return int(listener.getsockname()[1])


class Redis(Running):
    """Redis whose append-only file is synced before each answer, at a Unix socket."""

    kind = "redis"

    def __init__(self, folder: str) -> None:
        self.address = f"{folder}/redis.socket"
        command = ["redis-server", "--port", "0", "--unixsocket", self.address, "--dir", folder, "--save", "", "--appendonly", "yes",
                   "--appendfsync", "always", "--maxclients", "1000"]
        super().__init__(command, f"{folder}/redis.messages")
        await_true("Redis", self._answers)

    def _answers(self) -> bool:
        with socket.socket(socket.AF_UNIX) as connection:
            try:
                connection.connect(self.address)
                connection.sendall(b"PING\r\n")
                return connection.recv(100).startswith(b"+PONG")
            except OSError:
                return False


class Etcd(Running):
    """One etcd, asked over HTTP."""

    kind = "etcd"

    def __init__(self, folder: str) -> None:
        port, peers = free_port(), free_port()
        self.address, self._base = str(port), f"http://127.0.0.1:{port}"
        peer = f"http://127.0.0.1:{peers}"
        command = ["etcd", "--data-dir", f"{folder}/etcd", "--listen-client-urls", self._base, "--advertise-client-urls", self._base,
                   "--listen-peer-urls", peer, "--initial-advertise-peer-urls", peer, "--initial-cluster", f"default={peer}",
                   "--log-level", "error"]
        super().__init__(command, f"{folder}/etcd.messages")
        await_true("etcd", self._answers)

    def _answers(self) -> bool:
        request = urllib.request.Request(f"{self._base}/v3/kv/put", b'{"key":"bm9kZQ==","value":"d29yaw=="}')
        try:
            with urllib.request.urlopen(request, timeout=5) as answer:
                return bool(answer.status == 200)
        except (OSError, urllib.error.URLError):
            return False


def installed() -> list[type[Redis] | type[Etcd]]:
    peers: dict[str, type[Redis] | type[Etcd]] = {"etcd": Etcd, "redis-server": Redis}
    return [peer for program, peer in peers.items() if shutil.which(program)]
