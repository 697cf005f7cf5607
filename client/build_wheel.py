"""Builds the wheel of the library for `pip install`, by the standard library alone, so that no network is needed.

It is the build backend that pyproject.toml names (PEP 517): pip calls `build_wheel`.
"""

from __future__ import annotations

import base64
import glob
import hashlib
import os
import re
import tomllib
import zipfile
from typing import Any

PACKAGE, STATUS_PAGE = "resetd_client", "resetd_page"


def build_wheel(wheel_directory: str, config_settings: Any = None, metadata_directory: Any = None) -> str:
    """Leaves the wheel in a folder, and answers its name."""
    with open("pyproject.toml", "rb") as file:
        project = tomllib.load(file)["project"]
    with open(f"{PACKAGE}/__init__.py", encoding="utf-8") as file:
        match = re.search(r'^__version__ = "(.+?)"', file.read(), re.MULTILINE)
    assert match, "the package has no version"
    info = f"{PACKAGE}-{match[1]}.dist-info"
    files = {path: contents(path) for folder in (PACKAGE, STATUS_PAGE) for path in sorted(glob.glob(f"{folder}/**/*.py", recursive=True))}
    files |= {path: contents(path) for path in (f"{PACKAGE}/py.typed", f"{STATUS_PAGE}/py.typed", f"{STATUS_PAGE}/page.html")}
    files[f"{info}/METADATA"] = lines(
        "Metadata-Version: 2.1", f"Name: {project['name']}", f"Version: {match[1]}", f"Summary: {project['description']}",
        f"Requires-Python: {project['requires-python']}", f"License: {project['license']['text']}")
    files[f"{info}/WHEEL"] = lines("Wheel-Version: 1.0", "Generator: build_wheel", "Root-Is-Purelib: true", "Tag: py3-none-any")
    files[f"{info}/entry_points.txt"] = lines("[console_scripts]", *(f"{name} = {call}" for name, call in project["scripts"].items()))
    files[f"{info}/RECORD"] = lines(*(f"{path},sha256={digest(text)},{len(text)}" for path, text in files.items()), f"{info}/RECORD,,")
    name = f"{PACKAGE}-{match[1]}-py3-none-any.whl"
    with zipfile.ZipFile(os.path.join(wheel_directory, name), "w", zipfile.ZIP_DEFLATED) as wheel:
        for path, text in files.items():
            entry = zipfile.ZipInfo(path, (1980, 1, 1, 0, 0, 0))
            entry.external_attr = 0o100644 << 16
            wheel.writestr(entry, text)
    return name


def contents(path: str) -> bytes:
    with open(path, "rb") as file:
        return file.read()


def lines(*texts: str) -> bytes:
    return "".join(f"{text}\n" for text in texts).encode()


def digest(text: bytes) -> str:
    return base64.urlsafe_b64encode(hashlib.sha256(text).digest()).rstrip(b"=").decode()
