"""The same version is named everywhere."""

from __future__ import annotations

import os
import re
import unittest

from case import ROOT
from resetd_client import __version__


class Versions(unittest.TestCase):
    def test_one_version_stands_everywhere(self) -> None:
        def found(path: str, pattern: str) -> str:
            with open(os.path.join(ROOT, path), encoding="utf-8") as file:
                match = re.search(pattern, file.read(), re.MULTILINE)
            return match[1] if match else "none"
        version = found("CHANGELOG.md", r"^## ([0-9.]+)$")
        for page in ("docs/resetd.8", "docs/resetctl.8"):
            self.assertEqual(found(page, r'^\.TH .* "resetd ([0-9.]+)"'), version)
        self.assertEqual(__version__, version)
