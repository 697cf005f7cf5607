"""`resetd-page`: the status page as a client of the proxy that may only look, and in a browser if chromium and its driver are installed."""

from __future__ import annotations

import importlib.util
import json
import os
import shutil
import stat
import subprocess
import sys
import time
import unittest
import urllib.error
import urllib.request
from collections.abc import Callable, Iterator
from typing import Any
from unittest import mock

from case import CLIENT, DEADLINE, HERE, ROOT, Case, Client, unix, until

sys.path.append(f"{ROOT}/tests")
from support import preloaded  # noqa: E402


def python_with(*modules: str) -> str:
    """A Python that has these modules, this one or Debian's; nothing if there is none."""
    if all(importlib.util.find_spec(module) for module in modules):
        return sys.executable
    ran = subprocess.run(["/usr/bin/python3", "-c", f"import {', '.join(modules)}"], capture_output=True, check=False)
    return "/usr/bin/python3" if ran.returncode == 0 else ""


PYTHON = python_with("aiohttp")
PYTHON_OF_BROWSER = python_with("selenium")
AT = "the page is at "


@unittest.skipUnless(PYTHON, "optional: it needs python3-aiohttp")
class Shown(Case):
    """A test with the program."""

    def setUp(self) -> None:
        super().setUp()
        self.errors = f"{self.folder}/page.errors"
        self.page: subprocess.Popen[bytes] | None = None
        self.address = self.show("127.0.0.1:0", "--audit", self.proxy.audit)

    def show(self, listen: str, *arguments: str) -> str:
        """Starts the program in place of the last one, and returns where the page is."""
        self.end()
        with open(self.errors, "wb") as errors:
            self.page = subprocess.Popen(
                [PYTHON, f"{CLIENT}/resetd-page", "--address", f"unix:{self.proxy.path}", "--listen", listen, *arguments],
                stdin=subprocess.DEVNULL, stderr=errors)
        self.addCleanup(self.end)
        return until("a page", lambda: next((line.partition(AT)[2] for line in self.said() if AT in line), ""))

    def end(self) -> None:
        if self.page:
            self.page.kill()
            self.page.wait()
            self.page = None

    def said(self) -> list[str]:
        with open(self.errors, encoding="utf-8") as file:
            return file.read().split("\n")[:-1]


class PageProgram(Shown):
    nodes = 8

    def get(self, path: str, **headers: str) -> Any:
        return urllib.request.urlopen(urllib.request.Request(self.address + path, headers=headers), timeout=DEADLINE)

    def states(self) -> Iterator[dict[str, Any]]:
        """The content of the page's updates, in turn."""
        with self.get("/events") as stream:
            for line in stream:
                if line.startswith(b"data: "):
                    yield json.loads(line[6:])

    def first(self, states: Iterator[dict[str, Any]], holds: Callable[[dict[str, Any]], bool]) -> dict[str, Any]:
        """Returns the first update for which this holds. Updates come every two seconds, so a deadline is met."""
        end = time.monotonic() + DEADLINE
        for state in states:
            if holds(state):
                return state
            self.assertLess(time.monotonic(), end, state)
        raise AssertionError("the updates have ended")

    def test_a_reset_and_a_killed_server(self) -> None:
        states = self.states()
        state = self.first(states, lambda state: bool(state["view"]))
        self.assertEqual([row[0] for row in state["view"]["nodes"]], list(range(1, 9)))
        self.proxy.ask(op="reset", node=1)
        state = self.first(states, lambda state: all(row[4] == 1 for row in state["view"]["nodes"]) and bool(state["recent"]))
        self.assertEqual(state["recent"][0]["line"], {"op": "reset", "node": 1})
        since = state["since"]
        self.proxy.ask(op="confirm", node=1, epoch=1)
        state = self.first(states, lambda state: bool(state["view"]["nodes"][0][5] == 1))
        self.assertNotEqual(state["since"]["1"], since["1"])
        self.assertEqual(state["since"]["2"], since["2"])
        self.proxy.kill()
        self.first(states, lambda state: not state["up"])
        self.proxy.start()
        self.first(states, lambda state: bool(state["up"]))

    def test_another_host_name_is_refused(self) -> None:
        for host in ("evil.example", "127.0.0.1.evil.example", "evil.example:4173", ""):
            with self.subTest(host), self.assertRaises(urllib.error.HTTPError) as raised:
                self.get("/events", Host=host)
            self.assertEqual(raised.exception.code, 421)
            raised.exception.close()
        for host in ("localhost:4173", "127.0.0.1", "[::1]:80"):
            with self.subTest(host), self.get("/", Host=host) as page:
                self.assertEqual(page.status, 200)
        self.address = self.show("127.0.0.1:0", "--host", "status.example")
        with self.get("/", Host="status.example:443") as page:
            self.assertEqual(page.status, 200)

    def test_it_needs_nothing_from_elsewhere(self) -> None:
        with self.get("/") as page:
            text = page.read().decode()
            self.assertIn("default-src 'none'", page.headers["Content-Security-Policy"])
        for word in ("src=", "href=", "@import", "url("):
            self.assertNotIn(word, text)

    def test_nothing_but_looking(self) -> None:
        for path, method, status in (("/", "POST", 405), ("/events", "DELETE", 405), ("/reset", "GET", 404), ("/../server.py", "GET", 404)):
            request = urllib.request.Request(self.address + path, method=method)
            with self.subTest(path=path, method=method), self.assertRaises(urllib.error.HTTPError) as raised:
                urllib.request.urlopen(request, timeout=DEADLINE)
            self.assertEqual(raised.exception.code, status)
            raised.exception.close()

    def test_at_a_socket(self) -> None:
        """The socket is for its user and group. One that a killed page has left is replaced; one that is in use is not."""
        path = f"{self.folder}/page"
        for _ in range(2):
            self.show(f"unix:{path}")
            self.assertEqual(stat.S_IMODE(os.stat(path).st_mode), 0o660)
            with Client(unix(path)) as browser:
                browser.send(b"GET / HTTP/1.0\r\nHost: localhost\r\n\r\n")
                self.assertEqual(browser.line(), b"HTTP/1.0 200 OK\r")
        ran = self.second("--address", f"unix:{self.proxy.path}", "--listen", f"unix:{path}")
        self.assertEqual((ran.returncode, "already in use" in ran.stderr), (1, True))

    def test_wrong_addresses(self) -> None:
        for arguments, message in ((("--address", self.server.address), "not an address of the proxy"),
                                   (("--address", "unix:/nowhere", "--listen", "192.0.2.1:80"), "HOST:PORT of the loopback"),
                                   (("--address", "unix:/nowhere", "--listen", "systemd"), "has not passed exactly one socket")):
            with self.subTest(arguments):
                ran = self.second(*arguments)
                self.assertEqual((ran.returncode, message in ran.stderr), (1, True), ran.stderr)

    def test_without_aiohttp(self) -> None:
        os.mkdir(f"{self.folder}/aiohttp")
        with open(f"{self.folder}/aiohttp/__init__.py", "w", encoding="ascii") as file:
            file.write("raise ModuleNotFoundError(name='aiohttp')\n")
        with mock.patch.dict(os.environ, PYTHONPATH=self.folder):
            ran = self.second("--help")
        self.assertEqual((ran.returncode, ran.stderr), (1, "resetd-page: the Debian package python3-aiohttp is not installed\n"))

    def second(self, *arguments: str) -> subprocess.CompletedProcess[str]:
        return subprocess.run([PYTHON, f"{CLIENT}/resetd-page", *arguments], capture_output=True, text=True, timeout=DEADLINE, check=False)


@unittest.skipUnless(PYTHON_OF_BROWSER and shutil.which("chromium") and shutil.which("chromedriver") and preloaded.has_compiler(),
                     "optional: it needs chromium, its driver, python3-selenium and a C compiler")
class InABrowser(Shown):
    nodes = 64

    def environment_of_server(self) -> dict[str, str]:
        """Each sync takes a tenth of a second longer, so the browser has time to show a reset under way."""
        return preloaded.environment(self.folder, SYNC_MILLIS=100)

    def topology(self) -> str:
        """A ring with chords: 64 nodes and 128 links."""
        links = [(node, node % 64 + 1) for node in range(1, 65)] + [(node, (node + 1) % 64 + 1) for node in range(1, 65)]
        return "".join([*(f"[[node]]\nid = {node}\ngroup = 1\n" for node in range(1, 65)),
                        *(f"[[link]]\na = {a}\nb = {b}\n" for a, b in links)])

    def test_a_reset_goes_over_the_page(self) -> None:
        """Without the proxy it says so. PICTURE names a file for a picture of it."""
        command = [PYTHON_OF_BROWSER, f"{HERE}/browser.py", self.address, self.proxy.path, os.environ.get("PICTURE", "")]
        browser = subprocess.Popen(command, stdin=subprocess.DEVNULL, stdout=subprocess.PIPE, stderr=subprocess.STDOUT, text=True)
        assert browser.stdout
        with browser.stdout as lines:
            said = ""
            for line in lines:
                said += line
                if line == "kill the proxy\n":
                    self.proxy.kill()
                elif line == "start the proxy\n":
                    self.proxy.start()
        self.assertEqual(browser.wait(DEADLINE), 0, said)


if __name__ == "__main__":
    unittest.main()
