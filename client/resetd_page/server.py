"""The page over HTTP, by Debian's python3-aiohttp."""

from __future__ import annotations

import asyncio
import ipaddress
import json
import os
import socket
from collections.abc import Collection
from typing import Any

from aiohttp import web

from . import CONTENT_POLICY, EACH_SECONDS, POLL_SECONDS, PAGE
from .state import State

FIRST_DESCRIPTOR = 3  # of those that systemd passes
LOOPBACK = ("localhost", "127.0.0.1", "::1")


class BadListener(ValueError):
    """An address at which the page may not listen."""


class Server:
    """Serves the page to browsers whose Host header names it: a page of another site, whose name was made to lead here, is refused."""

    def __init__(self, state: State, hosts: Collection[str]) -> None:
        """`hosts` are names of the page beside those of the loopback."""
        self._state, self._hosts = state, {*LOOPBACK, *hosts}
        self._changed: set[asyncio.Event] = set()
        with open(PAGE, "rb") as file:
            self._text = file.read()

    def note_change(self) -> None:
        """Updates all pages. Call it in the event loop."""
        for event in self._changed:
            event.set()

    async def listen(self, address: str) -> str:
        """Listens at unix:PATH (mode 0660), HOST:PORT of the loopback, or `systemd`, the socket that it passed. Returns where the
        page is. Raises OSError and BadListener."""
        application = web.Application(middlewares=[self._check_host])
        application.add_routes([web.get("/", self._page), web.get("/events", self._events)])
        runner = web.AppRunner(application, access_log=None)
        await runner.setup()
        listener = listening(address)
        await web.SockSite(runner, listener, shutdown_timeout=1.0).start()
        return address if listener.family == socket.AF_UNIX else "http://{}:{}".format(*listener.getsockname()[:2])

    @web.middleware
    async def _check_host(self, request: web.Request, handler: Any) -> web.StreamResponse:
        if name_of(request.headers.get("Host", "")) not in self._hosts:
            raise web.HTTPMisdirectedRequest(text="the page is not served under this host name: the option --host adds names\n")
        response: web.StreamResponse = await handler(request)
        return response

    async def _page(self, request: web.Request) -> web.Response:
        return web.Response(body=self._text, content_type="text/html", charset="utf-8",
                            headers={"Content-Security-Policy": CONTENT_POLICY, "Cache-Control": "no-store"})

    async def _events(self, request: web.Request) -> web.StreamResponse:
        """Streams the content of the page at each change, and every two seconds."""
        response = web.StreamResponse(headers={"Content-Type": "text/event-stream", "Cache-Control": "no-store"})
        await response.prepare(request)
        changed = asyncio.Event()
        self._changed.add(changed)
        try:
            while True:
                changed.clear()
                await response.write(b"data: " + json.dumps(self._state.members()).encode() + b"\n\n")
                await asyncio.sleep(EACH_SECONDS)
                await wait_for(changed, POLL_SECONDS)
        except ConnectionError:
            pass  # the browser has left
        finally:
            self._changed.discard(changed)
        return response


async def wait_for(changed: asyncio.Event, seconds: float) -> None:
    try:
        await asyncio.wait_for(changed.wait(), seconds)
    except asyncio.TimeoutError:
        pass


def name_of(host: str) -> str:
    """Returns the name in a Host header, without a port and brackets."""
    if host.startswith("["):
        return host[1:].partition("]")[0]
    return host.partition(":")[0].lower()


def listening(address: str) -> socket.socket:
    """Returns a socket that listens at an address. Raises OSError and BadListener."""
    if address == "systemd":
        if os.environ.get("LISTEN_PID") != str(os.getpid()) or os.environ.get("LISTEN_FDS") != "1":
            raise BadListener("systemd has not passed exactly one socket")
        return socket.socket(fileno=FIRST_DESCRIPTOR)
    if address.startswith("unix:"):
        return unix_listening(address.removeprefix("unix:"))
    host, _, port = address.rpartition(":")
    host = host.strip("[]")
    if not (port.isascii() and port.isdigit() and host in LOOPBACK or is_loopback(host) and port.isdigit()):
        raise BadListener(f"can't listen at {address}: use unix:PATH, systemd, or HOST:PORT of the loopback")
    return socket.create_server((host, int(port)), family=socket.AF_INET6 if ":" in host else socket.AF_INET)


def unix_listening(path: str) -> socket.socket:
    """Listens at a path, in place of a socket that an earlier process has left there."""
    listener = socket.socket(socket.AF_UNIX)
    earlier = os.umask(0o117)
    try:
        if is_left(path):
            os.unlink(path)
        listener.bind(path)
    finally:
        os.umask(earlier)
    listener.listen()
    return listener


def is_left(path: str) -> bool:
    """Whether a socket has this path and nobody listens there."""
    with socket.socket(socket.AF_UNIX) as trial:
        try:
            trial.connect(path)
        except ConnectionRefusedError:
            return True
        except OSError:
            return False
    return False


def is_loopback(host: str) -> bool:
    try:
        return ipaddress.ip_address(host).is_loopback
    except ValueError:
        return False
