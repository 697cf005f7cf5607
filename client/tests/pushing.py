"""Does what a proxy does for its clients, before a coordinator in memory: over a socket of this host or TLS, and with pushed
views."""

from __future__ import annotations

import contextlib
import json
import os
import socket
import ssl
import subprocess
import threading
from typing import Any

from fake import Fake
from wire import SOMEBODY

SUBJECTS = {"authority": "CA:TRUE", "proxy": "", "client": "", "foreign": "CA:TRUE", "stranger": ""}  # and their types


class Pushing:
    """Serves each connection in a thread. `names` are the names in the certificates that clients have shown."""

    def __init__(self, fake: Fake, listener: socket.socket, context: ssl.SSLContext | None = None) -> None:
        self.fake, self._listener, self._context = fake, listener, context
        self.names: list[str] = []
        self.connections = 0
        self.answer = ""  # lines that answer a watch, in place of views
        self.to_order = ""  # the same for the next order without a number: "lose" ends the connection after it is carried out
        self.ordered: list[dict[str, Any]] = []  # the orders without a number that arrived
        self.ends = False  # each connection, from its beginning
        self._watchers: list[socket.socket] = []
        self._open: list[socket.socket] = []
        self._changes = threading.Condition()
        threading.Thread(target=self._serve, daemon=True).start()

    def push(self) -> None:
        """Pushes the present view to all watching connections."""
        with self._changes:
            for each in self._watchers:
                with contextlib.suppress(OSError):
                    each.sendall(self._view())

    def wait_for_watchers(self, count: int) -> bool:
        """Waits until this many connections watch."""
        with self._changes:
            return self._changes.wait_for(lambda: len(self._watchers) >= count, 60)

    def drop(self) -> None:
        """Ends all connections."""
        with self._changes:
            for each in self._open:
                with contextlib.suppress(OSError):
                    each.shutdown(socket.SHUT_RDWR)
            self._watchers, self._open = [], []

    def close(self) -> None:
        with contextlib.suppress(OSError):
            self._listener.shutdown(socket.SHUT_RDWR)
        self._listener.close()
        self.drop()

    def _view(self) -> bytes:
        return self.fake.respond(b'{"op":"show"}\n').encode() + b"\n"

    def _serve(self) -> None:
        while True:
            try:
                connection, _ = self._listener.accept()
            except OSError:
                return
            threading.Thread(target=self._serve_one, args=(connection,), daemon=True).start()

    def _serve_one(self, connection: socket.socket) -> None:
        with contextlib.suppress(OSError):
            if self._context is not None:
                connection = self._context.wrap_socket(connection, server_side=True)
                self.names.append(name_in(connection))
            with self._changes:
                self.connections += 1
                self._open.append(connection)
            if self.ends:
                connection.close()
                return
            with connection, connection.makefile("rb") as lines:
                for line in lines:
                    self._answer(connection, line)

    def _answer(self, connection: socket.socket, line: bytes) -> None:
        request = json.loads(line)
        with self._changes:
            if request["op"] in ("confirm", "reset") and "client" not in request:
                self._order(connection, request)
            elif request != {"op": "watch"}:
                connection.sendall(self.fake.respond(line).encode() + b"\n")
            elif self.answer:
                connection.sendall(self.answer.encode() + b"\n")
            else:
                connection.sendall(self._view())
                self._watchers.append(connection)
                self._changes.notify_all()


    def _order(self, connection: socket.socket, request: dict[str, Any]) -> None:
        """Numbers an order, carries it out, pushes the view that it leads to, and answers. A reset that names another epoch
        than its node's is refused."""
        self.ordered.append(request)
        seen = request.get("epoch") if request["op"] == "reset" else None
        row = self.fake.nodes.get(request["node"])
        if seen is not None and row and row[1] != seen:
            text = '{"name":"BadEpoch","refused":15}'
        else:
            order = {name: value for name, value in request.items() if request["op"] != "reset" or name != "epoch"}
            text = self.fake.respond(json.dumps({"client": SOMEBODY, "number": self.fake.last(SOMEBODY) + 1, **order}).encode() + b"\n")
        to_order, self.to_order = self.to_order, ""
        if to_order == "lose":
            connection.shutdown(socket.SHUT_RDWR)
            return
        for each in self._watchers:
            with contextlib.suppress(OSError):
                each.sendall(self._view())
        connection.sendall((to_order or text).encode() + b"\n")


def name_in(connection: ssl.SSLSocket) -> str:
    """Returns the common name in the certificate that a client has shown."""
    subject = (connection.getpeercert() or {}).get("subject", ())
    return next((str(value) for row in subject for key, value in row if key == "commonName"), "")  # type: ignore[misc]


def make_certificates(folder: str) -> None:
    """Makes NAME.pem and NAME.key for an authority, a proxy and a client that it has signed, and for a foreign authority with a
    stranger that it has signed."""
    signers = {"proxy": "authority", "client": "authority", "stranger": "foreign"}
    for name, what in SUBJECTS.items():
        signed_by = signers.get(name)
        ran("openssl", "req", "-x509", "-newkey", "ec", "-pkeyopt", "ec_paramgen_curve:prime256v1", "-nodes", "-days", "2",
            "-keyout", f"{folder}/{name}.key", "-out", f"{folder}/{name}.pem", "-subj", f"/CN={name}",
            "-addext", f"basicConstraints=critical,{what or 'CA:FALSE'}",
            *(["-addext", "subjectAltName=IP:127.0.0.1"] if name == "proxy" else []),
            *(["-CA", f"{folder}/{signed_by}.pem", "-CAkey", f"{folder}/{signed_by}.key"] if signed_by else []))


def ran(*command: str) -> None:
    done = subprocess.run(command, capture_output=True, encoding="utf-8", check=False)
    if done.returncode:
        raise RuntimeError(f"{command}: {done.stderr}")


def of_unix(fake: Fake, path: str) -> Pushing:
    listener = socket.socket(socket.AF_UNIX)
    listener.bind(path)
    listener.listen(16)
    return Pushing(fake, listener)


def context_of(folder: str, name: str = "proxy") -> ssl.SSLContext:
    """Returns the TLS context of a proxy that shows this certificate, and requires one signed by the authority."""
    context = ssl.SSLContext(ssl.PROTOCOL_TLS_SERVER)
    context.minimum_version = ssl.TLSVersion.TLSv1_3
    context.load_cert_chain(os.path.join(folder, f"{name}.pem"), os.path.join(folder, f"{name}.key"))
    context.load_verify_locations(os.path.join(folder, "authority.pem"))
    context.verify_mode = ssl.CERT_REQUIRED
    return context


def of_tls(fake: Fake, folder: str, name: str = "proxy") -> tuple[Pushing, str]:
    """Starts a proxy that shows this certificate. Returns the proxy and its address."""
    listener = socket.create_server(("127.0.0.1", 0))
    return Pushing(fake, listener, context_of(folder, name)), f"tls:127.0.0.1:{listener.getsockname()[1]}"
