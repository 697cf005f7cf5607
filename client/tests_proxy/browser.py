"""Looks at the page in chromium, headless, with a reset under way, in a narrow window, and without the proxy.

usage: browser.py ADDRESS SOCKET PICTURE   (it says on its output when the proxy is to be killed and started)
"""

from __future__ import annotations

import json
import socket
import sys
import time
from typing import Any

from selenium import webdriver
from selenium.webdriver.chrome.options import Options
from selenium.webdriver.chrome.service import Service

DEADLINE = 120.0
STATES = "return [...document.querySelectorAll('#graph g')].map(each => each.dataset.state)"


def until(what: str, holds: Any) -> Any:
    end = time.monotonic() + DEADLINE
    while not (found := holds()):
        if time.monotonic() > end:
            sys.exit(f"{what} did not come")
        time.sleep(0.02)
    return found


def order(path: str, **request: Any) -> None:
    with socket.socket(socket.AF_UNIX) as connection:
        connection.connect(path)
        connection.sendall(json.dumps(request).encode() + b"\n")
        connection.makefile("rb").readline()


def pictured(driver: Any, picture: str) -> bool:
    """Takes a picture once several nodes are in the reset."""
    states = driver.execute_script(STATES)
    return len(states) - states.count("ready") - states.count("confirm") >= 12 and bool(driver.save_screenshot(picture))


def main() -> None:
    address, path, picture = sys.argv[1:]
    options: Any = Options()
    for option in ("--headless=new", "--no-sandbox", "--disable-dev-shm-usage", "--disable-gpu"):
        options.add_argument(option)
    driver: Any = webdriver.Chrome(service=Service("/usr/bin/chromedriver"), options=options)
    try:
        driver.set_window_size(1200, 900)
        driver.get(address + "/")
        until("64 nodes", lambda: len(driver.execute_script(STATES)) == 64)
        lines = driver.execute_script("return document.querySelectorAll('#graph line').length")
        if lines != 128:
            sys.exit(f"{lines} links are drawn")
        order(path, op="reset", node=1)
        until("a reset under way", lambda: "abort" in driver.execute_script(STATES))
        if picture:
            until("a picture", lambda: pictured(driver, picture))
        until("its end", lambda: set(driver.execute_script(STATES)) == {"confirm"})
        order(path, op="confirm", node=1, epoch=1)
        until("a confirmed node", lambda: driver.execute_script(STATES)[0] == "ready")
        driver.set_window_size(400, 900)
        wide = driver.execute_script("return document.documentElement.scrollWidth - window.innerWidth")
        if wide > 0:
            sys.exit(f"a narrow window is {wide} too narrow")
        state = "return document.getElementById('state').textContent"
        print("kill the proxy", flush=True)
        until("that the proxy is away", lambda: "is away" in driver.execute_script(state))
        print("start the proxy", flush=True)
        until("that it is back", lambda: "steps on disk" in driver.execute_script(state))
    finally:
        driver.quit()


main()
