"""What people write on etcd in place of the coordinator: a common epoch that all watch, a key of each member that is ready, and
a barrier. It does not recognise who was in the run before, keeps nothing, and has no links."""

import base64
import contextlib
import http.client
import json
import os
import pathlib
import re
import shutil
import socket
import subprocess
import tempfile
import threading
import time
from collections.abc import Callable
from typing import Any, Self

Json = dict[str, Any]


def coded(text: object) -> str:
    return base64.b64encode(str(text).encode()).decode()


def decoded(text: str) -> str:
    return base64.b64decode(text).decode()


class Etcd:
    """A server over a new folder, and its calls over HTTP."""

    def __init__(self) -> None:
        with contextlib.ExitStack() as free:
            sockets = [free.enter_context(socket.create_server(("127.0.0.1", 0))) for _ in range(2)]
            self.address, peer = (f"127.0.0.1:{each.getsockname()[1]}" for each in sockets)
        self._folder = tempfile.mkdtemp(prefix="resetd-etcd-bench-")
        self._process = subprocess.Popen(
            ["etcd", "--data-dir", f"{self._folder}/data", "--listen-client-urls", f"http://{self.address}", "--advertise-client-urls",
             f"http://{self.address}", "--listen-peer-urls", f"http://{peer}", "--initial-advertise-peer-urls", f"http://{peer}",
             "--initial-cluster", f"default=http://{peer}", "--log-level", "error"], stdout=subprocess.DEVNULL, stderr=subprocess.DEVNULL)
        until = time.monotonic() + 60
        while not self._serves():
            if time.monotonic() > until:
                raise SystemExit("etcd does not serve")
            time.sleep(0.1)

    def _serves(self) -> bool:
        with contextlib.suppress(OSError, http.client.HTTPException):
            connection = http.client.HTTPConnection(self.address, timeout=2)
            connection.request("GET", "/health")
            return b"true" in connection.getresponse().read()
        return False

    def syncs(self) -> int:
        """How often it has synced its log and its store."""
        connection = http.client.HTTPConnection(self.address, timeout=5)
        connection.request("GET", "/metrics")
        text = connection.getresponse().read().decode()
        return sum(int(float(count)) for count in re.findall(r"^etcd_disk_(?:wal_fsync|backend_commit)_duration_seconds_count (\S+)", text, re.MULTILINE))

    def __enter__(self) -> Self:
        return self

    def __exit__(self, *_: object) -> None:
        self._process.kill()
        self._process.wait()
        shutil.rmtree(self._folder)


class Client:
    """One client's calls, over a connection that is kept."""

    def __init__(self, address: str) -> None:
        self._address, self._connection = address, http.client.HTTPConnection(address, timeout=10)

    def call(self, path: str, body: Json) -> Json:
        while True:
            try:
                self._connection.request("POST", f"/v3{path}", json.dumps(body))
                answer: Json = json.loads(self._connection.getresponse().read())
                if "error" not in answer:
                    return answer
            except (OSError, http.client.HTTPException):
                self._connection.close()
            time.sleep(0.2)

    def get(self, key: str) -> tuple[str | None, int]:
        """A key's value, and the revision."""
        answer = self.call("/kv/range", {"key": coded(key)})
        found = answer.get("kvs")
        return decoded(found[0]["value"]) if found else None, int(answer["header"]["revision"])

    def count(self, prefix: str) -> int:
        end = prefix[:-1] + chr(ord(prefix[-1]) + 1)
        return int(self.call("/kv/range", {"key": coded(prefix), "range_end": coded(end), "count_only": True}).get("count", 0))

    def put_if(self, compare: list[Json], key: str, value: object) -> bool:
        answer = self.call("/kv/txn", {"compare": compare, "success": [{"requestPut": {"key": coded(key), "value": coded(value)}}]})
        return bool(answer.get("succeeded", False))

    def watch(self, revision: int) -> None:
        """Waits for a change after a revision, at most half a minute."""
        connection = http.client.HTTPConnection(self._address, timeout=30)
        with contextlib.suppress(OSError, ValueError, http.client.HTTPException):
            connection.request("POST", "/v3/watch", json.dumps(
                {"create_request": {"key": coded("/"), "range_end": coded("0"), "start_revision": revision + 1}}))
            answer = connection.getresponse()
            while line := json.loads(answer.readline() or b"{}"):
                if line["result"].get("events") or line["result"].get("canceled"):
                    break
        connection.close()


class Member:
    """A member by the recipe: it says in which epoch it talks."""

    def __init__(self, address: str, name: int, members: int, talks: Callable[[int, str], None]) -> None:
        self._client, self._name, self._members, self._talks = Client(address), name, members, talks
        self._begun = self._talking = ""

    def reset(self, epoch: str) -> None:
        """One of those that ask at once wins."""
        Client(self._client._address).put_if([{"key": coded("/epoch"), "target": "VALUE", "result": "EQUAL", "value": coded(epoch)}],
                                             "/epoch", int(epoch) + 1)

    def look(self) -> int:
        client = self._client
        epoch, revision = client.get("/epoch")
        if epoch is None:
            client.put_if([{"key": coded("/epoch"), "target": "CREATE", "result": "EQUAL", "createRevision": 0}], "/epoch", 1)
            return self.look()
        if epoch != self._begun:
            self._begun = epoch  # its work is in memory
            client.put_if([{"key": coded("/epoch"), "target": "VALUE", "result": "EQUAL", "value": coded(epoch)}], f"/ready/{epoch}/{self._name}", 1)
        if epoch != self._talking and client.count(f"/ready/{epoch}/") == self._members:
            self._talking = epoch
            self._talks(self._name, epoch)
        return revision

    def follow(self) -> None:
        while True:
            self._client.watch(self.look())


def measure(members: int, rounds: int) -> tuple[list[float], float]:
    """Milliseconds from a reset until all talk, and the syncs of a reset."""
    changed, talking = threading.Condition(), dict[int, str]()

    def note(name: int, epoch: str) -> None:
        with changed:
            talking[name] = epoch
            changed.notify_all()

    def all_talk(epoch: int) -> None:
        with changed:
            if not changed.wait_for(lambda: len(talking) == members and set(talking.values()) == {str(epoch)}, 60):
                raise SystemExit(f"the recipe's members do not talk: {talking}")
    took = []
    with Etcd() as etcd:
        group = [Member(etcd.address, name, members, note) for name in range(members)]
        for each in group:
            threading.Thread(target=each.follow, daemon=True).start()
        all_talk(1)
        time.sleep(0.5)
        before = etcd.syncs()
        for turn in range(1, rounds + 1):
            began = time.monotonic()
            group[turn % members].reset(str(turn))
            all_talk(turn + 1)
            took.append((time.monotonic() - began) * 1e3)
            time.sleep(0.3)
        return took, (etcd.syncs() - before) / rounds


if __name__ == "__main__":
    took, syncs = measure(int(os.environ.get("MEMBERS", "8")), 10)
    print(sorted(took), syncs, pathlib.Path("/proc/loadavg").read_text())
    os._exit(0)
