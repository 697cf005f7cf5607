"""The manifest of docs/DEPLOYING.md: Kubernetes and the container accept it. (client/tests_proxy tries its policy, and the dashboard.)"""

from __future__ import annotations

import importlib.util
import json
import os
import re
import shutil
import subprocess
import tomllib
import unittest
from typing import Any

from case import ROOT

MANIFEST = "examples/kubernetes.yaml"


def text_of(name: str) -> str:
    with open(os.path.join(ROOT, name), encoding="utf-8") as file:
        return file.read()


@unittest.skipUnless(importlib.util.find_spec("yaml"), "PyYAML is not installed: the manifest is not read")
class Manifest(unittest.TestCase):
    def setUp(self) -> None:
        import yaml
        self.kinds: dict[str, Any] = {each["kind"]: each for each in yaml.safe_load_all(text_of(MANIFEST))}
        self.pod = self.kinds["StatefulSet"]["spec"]["template"]["spec"]
        self.data = self.kinds["ConfigMap"]["data"]

    def test_it_has_one_server_and_the_service_reaches_haproxy(self) -> None:
        self.assertEqual(set(self.kinds), {"ConfigMap", "Service", "StatefulSet"})
        stateful, service = self.kinds["StatefulSet"], self.kinds["Service"]["spec"]
        self.assertEqual(stateful["spec"]["replicas"], 1)
        self.assertEqual(service["selector"], stateful["spec"]["template"]["metadata"]["labels"])
        ports = {container["name"]: [port["name"] for port in container.get("ports", [])] for container in self.pod["containers"]}
        self.assertEqual(ports, {"server": [], "proxy": [], "haproxy": [each["targetPort"] for each in service["ports"]]})

    def test_the_container_knows_each_command(self) -> None:
        script = text_of("tools/container")
        for container in self.pod["containers"]:
            if container["image"] == "resetd":
                self.assertRegex(script, rf"(?m)^  {container['args'][0]}\)")

    def test_each_folder_is_mounted(self) -> None:
        """Those of the container's script, of the configuration of HAProxy, and of the arguments."""
        volumes = {each["name"] for each in [*self.pod["volumes"], *(
            each["metadata"] for each in self.kinds["StatefulSet"]["spec"]["volumeClaimTemplates"])]}
        for container in self.pod["containers"]:
            mounts = {each["mountPath"]: each["name"] for each in container["volumeMounts"]}
            self.assertLessEqual(set(mounts.values()), volumes)
            text = text_of("tools/container") if container["image"] == "resetd" else self.data["haproxy.cfg"]
            for path in re.findall(r"/(?:var|run|etc)/[\w./-]+", " ".join([text, *container["args"]])):
                self.assertTrue(any(f"{path}/".startswith(f"{mount}/") for mount in mounts), path)

    def test_the_configuration_is_read(self) -> None:
        self.assertEqual(set(self.data), {"proxy.toml", "haproxy.cfg", "ring.toml"})
        ring = tomllib.loads(self.data["ring.toml"])
        nodes = {each["id"] for each in ring["node"]}
        self.assertLessEqual({end for link in ring["link"] for end in link.values()}, nodes)

    def test_the_document_types_the_commands_of_the_manifest(self) -> None:
        """The commands name the secret, its files and the containers as the manifest does."""
        document, containers = text_of("docs/DEPLOYING.md"), {container["name"] for container in self.pod["containers"]}
        typed = re.findall(r"(?m)^kubectl .+$", document)
        made = re.findall(r"(?m)^#   (kubectl .+)$", text_of(MANIFEST))
        self.assertEqual([line.replace("examples/", "") for line in typed[:len(made)]], made)
        self.assertLessEqual(set(re.findall(r" -c ([a-z]+) ", "\n".join(typed))), containers)
        secrets = {each["secret"]["secretName"] for each in self.pod["volumes"] if "secret" in each}
        self.assertEqual({re.findall(r"secret generic (\S+)", line)[0] for line in typed if " secret " in line}, secrets)

    @unittest.skipUnless(shutil.which("kubectl"), "kubectl is not installed: the manifest is not decoded")
    def test_kubernetes_knows_each_field(self) -> None:
        """kubectl decodes the StatefulSet into its type, and drops fields that the type does not have."""
        given = self.kinds["StatefulSet"]
        done = subprocess.run(["kubectl", "set", "image", "--local", "-f", "-", "server=changed", "-o", "json"], input=json.dumps(given),
                              capture_output=True, encoding="utf-8", check=False)
        self.assertEqual(done.returncode, 0, done.stderr)
        self.assertEqual(list(missing(given, json.loads(done.stdout))), [])


def missing(given: Any, kept: Any, path: str = "") -> Any:
    """Returns the fields of one value that are missing in another one."""
    if isinstance(given, dict):
        for name, value in given.items():
            if name not in kept:
                yield f"{path}/{name}"
            else:
                yield from missing(value, kept[name], f"{path}/{name}")
    elif isinstance(given, list):
        for place, (value, other) in enumerate(zip(given, kept, strict=True)):
            yield from missing(value, other, f"{path}/{place}")


if __name__ == "__main__":
    unittest.main()
