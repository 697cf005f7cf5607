"""The container's script starts the proxy with the arguments and the policy of examples/kubernetes.yaml."""

from __future__ import annotations

import importlib.util
import os
import subprocess
import tempfile
import unittest

from case import RESETD_PROXY, ROOT, needs_proxy


@needs_proxy
@unittest.skipUnless(importlib.util.find_spec("yaml"), "optional: it needs PyYAML: to read the manifest")
class Manifest(unittest.TestCase):
    def setUp(self) -> None:
        import yaml
        temporary = tempfile.TemporaryDirectory()
        self.addCleanup(temporary.cleanup)
        self.folder = temporary.name
        os.symlink(RESETD_PROXY, f"{self.folder}/resetd-proxy")
        with open(f"{ROOT}/examples/kubernetes.yaml", encoding="utf-8") as file:
            kinds = {each["kind"]: each for each in yaml.safe_load_all(file)}
        with open(f"{self.folder}/proxy.toml", "w", encoding="utf-8") as file:
            file.write(kinds["ConfigMap"]["data"]["proxy.toml"])
        containers = kinds["StatefulSet"]["spec"]["template"]["spec"]["containers"]
        [self.arguments] = [each["args"] for each in containers if each["name"] == "proxy"]

    def in_folder(self, text: str) -> str:
        """Replaces the folders of a container by that of this test."""
        for path in ("/etc/resetd", "/run/resetd-proxy"):
            text = text.replace(f"{path}/", f"{self.folder}/")
        return text

    def test_the_proxy_listens(self) -> None:
        with open(f"{ROOT}/tools/container", encoding="utf-8") as file:
            command = ["sh", "-c", self.in_folder(file.read()), "container", *map(self.in_folder, self.arguments)]
        proxy = subprocess.Popen(command, stdin=subprocess.DEVNULL, stdout=subprocess.DEVNULL, stderr=subprocess.PIPE, text=True,
                                 env={**os.environ, "PATH": f"{self.folder}:{os.environ['PATH']}"})
        self.addCleanup(proxy.wait)
        self.addCleanup(proxy.kill)
        assert proxy.stderr
        with proxy.stderr as lines:
            expected = {"listening order\n", "listening certificates\n"}
            for line in lines:
                expected.discard(line)
                if not expected:
                    return
        self.fail(f"it ended before {expected}")


if __name__ == "__main__":
    unittest.main()
