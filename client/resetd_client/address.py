"""The addresses of a coordinator, or of the proxy before it, and the connections to them.

| Written | Means |
|---|---|
| `HOST:PORT` | the server's port |
| `unix:PATH` | a socket of the proxy on this host; PATH is absolute |
| `tls:HOST:PORT` | the proxy on any host: TLS 1.3, with a certificate at each end |
"""

from __future__ import annotations

import os
import pwd
import socket
import ssl
import stat
import tomllib
from collections.abc import Mapping
from dataclasses import dataclass, replace
from typing import Protocol

from .answers import Away
from .errors import BadWords, Unreadable, Untrusted

CONNECT_SECONDS = 5.0  # at most, until a connection is made
SERVER = "127.0.0.1:4170"
PROXY_SOCKETS = "/run/resetd-proxy"  # the folder of the proxy's sockets, each named after its principal
OLD_SOCKET = "/run/resetd-front/socket"  # another socket of `order`, removed in the next release
CREDENTIALS: Mapping[str, str] = {
    "certificate": "this client's certificate", "key": "the private key of this client's certificate",
    "authority": "the certificate of the authority that signs the hosts' certificates"}


class Address(Protocol):
    """One address. Its string form is the text that was parsed."""

    is_front: bool  # whether it is one of the proxy, which also reports changes

    def connect(self, seconds: float) -> socket.socket:
        """Opens a connection on which each answer may take this many seconds. Raises Away and Untrusted."""

    def refusal(self) -> Untrusted | None:
        """Returns the reason why the other end closes each connection without an answer, if the reason is this client's certificate."""


@dataclass(frozen=True)
class Tcp:
    """`HOST:PORT`."""

    host: str
    port: int
    is_front = False

    def __str__(self) -> str:
        return f"{self.host}:{self.port}"

    def connect(self, seconds: float) -> socket.socket:
        try:
            return connected_to(self.host, self.port, seconds)
        except OSError as fault:
            raise away(self, fault) from fault

    def refusal(self) -> Untrusted | None:
        return None


@dataclass(frozen=True)
class Unix:
    """`unix:PATH`."""

    path: str
    is_front = True

    def __str__(self) -> str:
        return f"unix:{self.path}"

    def connect(self, seconds: float) -> socket.socket:
        connection = socket.socket(socket.AF_UNIX, socket.SOCK_STREAM)
        try:
            connection.settimeout(min(seconds, CONNECT_SECONDS))
            connection.connect(self.path)
            connection.settimeout(seconds)
        except OSError as fault:
            connection.close()
            raise away(self, fault) from fault
        return connection

    def refusal(self) -> Untrusted | None:
        return None


@dataclass(frozen=True)
class Tls:
    """`tls:HOST:PORT`."""

    host: str
    port: int
    credentials: Credentials
    is_front = True

    def __str__(self) -> str:
        return f"tls:{self.host}:{self.port}"

    def connect(self, seconds: float) -> ssl.SSLSocket:
        context = self.credentials.context()
        try:
            plain = connected_to(self.host, self.port, seconds)
        except OSError as fault:
            raise away(self, fault) from fault
        try:
            return context.wrap_socket(plain, server_hostname=self.host)
        except OSError as fault:
            plain.close()
            raise untrusted(self, fault) or away(self, fault) from fault

    def refusal(self) -> Untrusted | None:
        """In TLS 1.3 the other end checks the client's certificate after the client considers the handshake complete, and data that
        the client sends after that may hide the alert. So this connection sends nothing. One that accepts a certificate
        sends a ticket; if it ends the connection without a ticket and without an alert, it has not accepted the certificate."""
        try:
            with self.connect(CONNECT_SECONDS) as connection:
                try:
                    connection.recv(1)
                except ConnectionError:
                    pass
                is_taken = connection.session is not None and connection.session.has_ticket
        except Untrusted as refused:
            return refused
        except OSError as fault:
            return untrusted(self, fault)
        except Away:
            return None
        return None if is_taken else Untrusted(f"{self} ended the handshake because it does not accept this client's certificate")


@dataclass(frozen=True)
class Credentials:
    """The credentials of a TLS client, as paths of PEM files: its certificate, its key, and the certificate of the authority that
    signs those of the hosts."""

    certificate: str = ""
    key: str = ""
    authority: str = ""

    @staticmethod
    def found(environment: Mapping[str, str] = os.environ) -> Credentials:
        """Returns the files named by RESETD_CERTIFICATE, RESETD_KEY and RESETD_AUTHORITY; if one of these is not set, the file
        named by `certificate`, `key` or `authority` in the TOML file RESETD_TLS. Raises Unreadable."""
        path = environment.get("RESETD_TLS", "")
        in_file = read_credentials(path) if path else {}
        return Credentials(**{
            name: environment.get(f"RESETD_{name.upper()}", "") or in_file.get(name, "") for name in CREDENTIALS})

    def over(self, **given: str | None) -> Credentials:
        """Returns a copy with the given values replaced."""
        return replace(self, **{name: path for name, path in given.items() if path})

    def context(self) -> ssl.SSLContext:
        """Returns the TLS context. Raises Untrusted if a file is missing or invalid."""
        missing = [name for name in CREDENTIALS if not getattr(self, name)]
        if missing:
            raise Untrusted(f"a tls: address needs PEM files, and these are not set: {', '.join(missing)}. Set RESETD_CERTIFICATE, "
                            "RESETD_KEY and RESETD_AUTHORITY")
        context = ssl.SSLContext(ssl.PROTOCOL_TLS_CLIENT)  # it checks the certificate, and the host's name in it
        context.minimum_version = ssl.TLSVersion.TLSv1_3
        paths = self.authority
        try:
            context.load_verify_locations(self.authority)
            paths = f"{self.certificate}, {self.key}"
            context.load_cert_chain(self.certificate, self.key, password=refuse_password)
        except (OSError, ValueError) as fault:  # ssl.SSLError is an OSError
            raise Untrusted(f"{paths}: {getattr(fault, 'strerror', None) or fault}") from fault
        return context


def refuse_password() -> str:
    """Raises ValueError. Without this, a key with a password would make OpenSSL ask for it at the terminal."""
    raise ValueError("the private key has a password: use a key without a password")


def read_credentials(path: str) -> dict[str, str]:
    """Reads a credentials file. Paths in it are relative to its folder. Raises Unreadable."""
    try:
        with open(path, "rb") as file:
            found = tomllib.load(file)
    except OSError as fault:
        raise Unreadable(path, f": {fault.strerror}") from fault
    except ValueError as fault:
        raise Unreadable(path, f" as TOML: {fault}") from fault
    for name, value in found.items():
        if name not in CREDENTIALS:
            raise Unreadable(path, f": the key {name} is unknown; the only keys are {', '.join(CREDENTIALS)}")
        if not isinstance(value, str):
            raise Unreadable(path, f": the value of {name} must be a string, the path of a PEM file")
    return {name: os.path.join(os.path.dirname(path), value) for name, value in found.items()}


def addresses_of(text: str, credentials: Credentials | None = None) -> tuple[Address, ...]:
    """Parses a comma-separated list of addresses. `credentials` defaults to those named in the environment. Raises BadWords for
    an invalid address, and Unreadable for a credentials file that can't be read."""
    return tuple(address_of(each, credentials) for each in text.split(","))


def address_of(text: str, credentials: Credentials | None = None) -> Address:
    """Parses one address. Raises BadWords for an invalid address, and Unreadable for a credentials file that can't be read."""
    text = text.strip()
    kind, colon, rest = text.partition(":")
    if kind == "unix" and not rest.isdigit():
        if not rest.startswith("/") or len(os.fsencode(rest)) > 107:
            raise BadWords(f"{text!r} is not an address: unix: must be followed by an absolute path of at most 107 bytes")
        return Unix(rest)
    if kind == "tls" and ":" in rest:
        host, port = host_and_port(rest)
        return Tls(host, port, Credentials.found() if credentials is None else credentials)
    return Tcp(*host_and_port(text))


def host_and_port(text: str) -> tuple[str, int]:
    """Parses `HOST:PORT`. Raises BadWords."""
    host, colon, port = text.rpartition(":")
    if not host or not port.isascii() or not port.isdigit() or len(port) > 5 or not 0 < int(port) < 65536:
        raise BadWords(f"{text!r} is not an address: use HOST:PORT, unix:PATH or tls:HOST:PORT")
    return host, int(port)


def default_address() -> str:
    """Returns the first socket of these that this process may open: the proxy's socket of this user, of the group that may order
    (`order`), of the group that may look (`look`), and its old path. If there is none, returns the server's port."""
    paths = [*(os.path.join(PROXY_SOCKETS, name) for name in (own_name(), "order", "look") if name), OLD_SOCKET]
    return next((f"unix:{path}" for path in paths if may_open(path)), SERVER)


def own_name() -> str:
    """Returns the name of the user that this process acts as, or nothing if it has none."""
    try:
        return pwd.getpwuid(os.geteuid()).pw_name
    except KeyError:
        return ""


def may_open(path: str) -> bool:
    """Whether a socket is there that this process has the rights to connect to."""
    try:
        return stat.S_ISSOCK(os.stat(path).st_mode) and os.access(path, os.R_OK | os.W_OK, effective_ids=True)
    except OSError:
        return False


def connected_to(host: str, port: int, seconds: float) -> socket.socket:
    """Opens a TCP connection."""
    connection = socket.create_connection((host, port), timeout=min(seconds, CONNECT_SECONDS))
    connection.settimeout(seconds)
    connection.setsockopt(socket.IPPROTO_TCP, socket.TCP_NODELAY, 1)
    return connection


def away(address: Address, fault: OSError) -> Away:
    return Away(f"{address}: {fault.strerror or fault}")


def untrusted(address: Address, fault: OSError) -> Untrusted | None:
    """Returns the certificate error of a failed TLS connection, or None if the failure has another cause."""
    if isinstance(fault, ssl.SSLCertVerificationError):
        return Untrusted(f"{address}: this client does not accept the server's certificate: {fault.verify_message}")
    reason = getattr(fault, "reason", None) if isinstance(fault, ssl.SSLError) else None
    parts = set(reason.split("_")) if reason else set()
    if reason and "ALERT" in parts and parts & {"CERTIFICATE", "CA", "DENIED", "DECRYPT"}:
        return Untrusted(f"{address} does not accept this client's certificate ({reason.lower().replace('_', ' ')})")
    return None
