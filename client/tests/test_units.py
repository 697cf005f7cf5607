"""The files shipped for operation: units, the rotation of the file of signals, alert rules."""

from __future__ import annotations

import configparser
import os
import re
import shutil
import subprocess
import tempfile
import unittest

from case import ROOT
from resetd_client import View
from resetd_client.address import OLD_SOCKET, PROXY_SOCKETS
from resetd_client.health import metrics
from resetd_client.waiting import AUDIT

EXAMPLES = os.path.join(ROOT, "examples")
# The alerts that the rules should raise for ten minutes of metrics: each alert fires in its own case, and none in the last cases.
CASES: tuple[tuple[str | None, dict[str, str]], ...] = (
    ("ResetdAbsent", {}),
    ("ResetdAbsent", {"resetd_up": "0x10"}),
    ("ResetdStopped", {"resetd_up": "1x10", "resetd_stopped": "1x10"}),
    ("ResetdStoreDiffers", {"resetd_up": "1x10", "resetd_store_differs": "0x8 1x2"}),
    ("ResetdStepsWait", {"resetd_up": "1x10", "resetd_steps_accepted": "9x10", "resetd_steps_settled": "8x10"}),
    ("ResetdWaveStill", {"resetd_up": "1x10", "resetd_steps_accepted": "9x10", "resetd_steps_settled": "9x10",
                         'resetd_node_in_reset{node="3",group="1"}': "1x10", 'resetd_node_epoch{node="3",group="1"}': "4x10",
                         'resetd_node_confirmed{node="3",group="1"}': "4x10"}),
    ("ResetdUnconfirmed", {"resetd_up": "1x10", 'resetd_node_epoch{node="3",group="1"}': "4x10",
                           'resetd_node_confirmed{node="3",group="1"}': "3x10"}),
    ("ResetdMetricsOld", {"resetd_up": "1x10", 'node_textfile_mtime_seconds{file="/var/lib/resetd.prom"}': "0x10"}),
    (None, {"resetd_up": "1x10", "resetd_steps_accepted": "9x10", "resetd_steps_settled": "9x10",
            'resetd_node_in_reset{node="3",group="1"}': "1x10", 'resetd_node_epoch{node="3",group="1"}': "4+1x10"}),
    (None, {"resetd_up": "1x10", "resetd_steps_accepted": "9+2x10", "resetd_steps_settled": "8+2x10",
            'resetd_node_in_reset{node="3",group="1"}': "1x10", 'resetd_node_epoch{node="3",group="1"}': "4x10"}),
    (None, {"resetd_up": "1x10", "resetd_stopped": "0x10", "resetd_store_differs": "0x10", "resetd_steps_accepted": "9+3x10",
            "resetd_steps_settled": "8+3x10", 'resetd_node_in_reset{node="3",group="1"}': "1x10",
            'resetd_node_epoch{node="3",group="1"}': "4+1x10", 'resetd_node_confirmed{node="3",group="1"}': "4+1x10",
            'node_textfile_mtime_seconds{file="/var/lib/resetd.prom"}': "0+60x10"}),
)


def shipped(name: str) -> str:
    with open(os.path.join(EXAMPLES, name), encoding="utf-8") as file:
        return file.read()


class Units(unittest.TestCase):
    def setUp(self) -> None:
        temporary = tempfile.TemporaryDirectory()
        self.addCleanup(temporary.cleanup)
        self.folder = temporary.name

    def unit(self, name: str) -> configparser.ConfigParser:
        """Parses a shipped unit file. If a setting occurs several times, the last one counts."""
        parser = configparser.ConfigParser(strict=False, interpolation=None, comment_prefixes=("#",))
        parser.optionxform = str  # type: ignore[assignment]
        parser.read_string(shipped(name).replace("\\\n", " "))
        return parser

    def test_the_timer_looks_at_the_store_and_the_signals(self) -> None:
        command = self.unit("resetd-health.service")["Service"]["ExecStart"]
        for expected in ("--close-stopped", "--store /var/lib/resetd/store", "--signals /var/log/resetd/signals"):
            self.assertIn(expected, command)

    def test_a_unit_that_failed_is_reported(self) -> None:
        for name in ("resetd.service", "resetd-health.service"):
            self.assertEqual(self.unit(name)["Unit"]["OnFailure"], "resetd-alert@%n.service")
        self.assertTrue(self.unit("resetd-alert@.service")["Service"]["ExecStart"])

    def test_three_units_share_a_network_that_nobody_else_has(self) -> None:
        """Each names the two others: a network is named after the unit that began it."""
        names = {"resetd.service", "resetd-proxy.service", "resetd-health.service"}
        for name in names:
            unit = self.unit(name)
            self.assertEqual(unit["Service"]["PrivateNetwork"], "yes", name)
            self.assertEqual(set(unit["Unit"]["JoinsNamespaceOf"].split()), names - {name})

    def test_members_come_through_the_proxy(self) -> None:
        self.assertIn(f" unix:{PROXY_SOCKETS}/order ", self.unit("resetd-member@.service")["Service"]["ExecStart"])

    def test_the_old_socket_is_one_of_order(self) -> None:
        self.assertEqual(re.findall("^ListenStream=(.*)$", shipped("resetd-proxy-order.socket"), re.MULTILINE), [f"{PROXY_SOCKETS}/order", OLD_SOCKET])

    def test_each_socket_of_the_proxy_is_its_principals(self) -> None:
        """The names are those that the proxy is passed, and only the named can open the sockets."""
        rights = {"resetd-proxy-order.socket": ("order", "root", "resetd", "0660"), "resetd-proxy-look.socket": ("look", "root", "resetd-look", "0660"),
                  "resetd-proxy-certificates.socket": ("certificates", "haproxy", None, "0600"), "resetd-proxy@.socket": ("%i", "%i", None, "0600")}
        for name, (principal, user, group, mode) in rights.items():
            socket = self.unit(name)["Socket"]
            self.assertEqual((socket["FileDescriptorName"], socket["Service"]), (principal, "resetd-proxy.service"), name)
            self.assertEqual((socket["SocketUser"], socket.get("SocketGroup"), socket["SocketMode"]), (user, group, mode), name)
            self.assertIn(f"\nListenStream=/run/resetd-proxy/{principal}\n", shipped(name))
        proxy = self.unit("resetd-proxy.service")["Service"]
        self.assertIn(" --listen-fds ${LISTEN_FDNAMES} ", proxy["ExecStart"])
        self.assertEqual(proxy["Sockets"].split(), ["resetd-proxy-order.socket", "resetd-proxy-look.socket"])

    def test_the_folder_of_signals_is_roots(self) -> None:
        """The manager opens the file as root: the owner of the folder could otherwise redirect it to any other file."""
        for name in ("examples/resetd.service", "docs/OPERATING.md", "docs/TAKEOVER.md", "tools/deb"):
            with open(os.path.join(ROOT, name), encoding="utf-8") as file:
                made = re.findall(r"^.*install -d.*/var/log/resetd.*$", file.read(), re.MULTILINE)
            self.assertTrue(made, name)
            self.assertFalse([line for line in made if "-o resetd" in line], name)

    @unittest.skipUnless(shutil.which("systemd-analyze"), "it needs systemd-analyze: no unit is verified")
    def test_the_units_are_understood(self) -> None:
        names = [name for name in os.listdir(EXAMPLES) if name.endswith((".service", ".timer", ".socket"))]
        self.assertLessEqual({"resetd.service", "resetd-proxy.service", "resetd-proxy@.socket", "resetd-health.timer", "resetd-member@.service"},
                             {*names})
        for name in names:
            with open(os.path.join(self.folder, name), "w", encoding="utf-8") as file:
                file.write(re.sub(r"/usr/local/(?:bin|share)/[\w/-]+", "/bin/true", shipped(name)).replace("man:", "https://example.org/"))
        for name in names:
            path = os.path.join(self.folder, name.replace("@", "@one"))
            done = subprocess.run(["systemd-analyze", "verify", path], capture_output=True, encoding="utf-8", check=False,
                                  env={**os.environ, "SYSTEMD_UNIT_PATH": f"{self.folder}:"})
            wrong = [line for line in done.stderr.splitlines() if self.folder in line or name in line]
            self.assertEqual(wrong, [], name)

    @unittest.skipUnless(shutil.which("logrotate"), "it needs logrotate: nothing is rotated")
    def test_the_file_of_signals_is_rotated(self) -> None:
        """It is truncated in place, because the server keeps it open; the lines are in the previous file."""
        signals = os.path.join(self.folder, "signals")
        with open(os.path.join(self.folder, "conf"), "w", encoding="utf-8") as file:
            file.write(shipped("resetd.logrotate").replace("/var/log/resetd/signals", signals).replace("su resetd resetd\n", "\n"))
        os.chmod(os.path.join(self.folder, "conf"), 0o644)
        with open(signals, "a", encoding="utf-8") as server:
            server.write("signal 1 1\n")
            server.flush()
            inode = os.stat(signals).st_ino
            done = subprocess.run(["logrotate", "--force", "--state", f"{self.folder}/state", f"{self.folder}/conf"],
                                  capture_output=True, encoding="utf-8", check=False)
            self.assertEqual((done.returncode, done.stderr), (0, ""))
            server.write("signal 1 2\n")
        self.assertEqual(os.stat(signals).st_ino, inode)
        with open(signals, encoding="utf-8") as file:
            self.assertEqual(file.read(), "signal 1 2\n")
        with open(f"{signals}.1", encoding="utf-8") as file:
            self.assertEqual(file.read(), "signal 1 1\n")

    @unittest.skipUnless(shutil.which("logrotate"), "it needs logrotate: nothing is rotated")
    def test_the_audit_is_rotated(self) -> None:
        """It is renamed, which the proxy notices by itself."""
        audit = os.path.join(self.folder, "audit")
        with open(os.path.join(self.folder, "conf"), "w", encoding="utf-8") as file:
            file.write(shipped("resetd.logrotate").replace(AUDIT, audit).replace("su resetd resetd\n", "\n"))
        os.chmod(os.path.join(self.folder, "conf"), 0o644)
        with open(audit, "w", encoding="utf-8") as file:
            file.write("{}\n")
        done = subprocess.run(["logrotate", "--force", "--state", f"{self.folder}/state", f"{self.folder}/conf"],
                              capture_output=True, encoding="utf-8", check=False)
        self.assertEqual((done.returncode, done.stderr), (0, ""))
        self.assertEqual((os.path.exists(audit), os.path.exists(f"{audit}.1")), (False, True))


class Table(unittest.TestCase):
    def test_each_row_for_a_person_on_call_has_a_trial(self) -> None:
        done = subprocess.run([os.path.join(ROOT, "tools/test_on_call"), "--table"], capture_output=True, encoding="utf-8", check=False)
        self.assertEqual((done.returncode, done.stderr), (0, ""), done.stdout)


class Alerts(unittest.TestCase):
    def test_each_metric_of_a_rule_is_written(self) -> None:
        view = View.of({"accepted": 9, "settled": 8, "nodes": [[1, 1, "ready", 0, 0, 0]], "links": []})
        written = set(re.findall(r"^# TYPE (\w+)", metrics(view, False, False), re.MULTILINE))
        used = set(re.findall(r"\bresetd_\w+", "\n".join(re.findall(r"expr:.*(?:\n {10}.*)*", shipped("resetd.rules.yml")))))
        self.assertTrue(used)
        self.assertLessEqual(used, written)

    @unittest.skipUnless(shutil.which("promtool"), "it needs promtool: no rule is tried")
    def test_each_rule_fires_in_its_case_alone(self) -> None:
        with tempfile.TemporaryDirectory() as folder:
            shutil.copy(os.path.join(EXAMPLES, "resetd.rules.yml"), folder)
            names = re.findall(r"alert: (\w+)", shipped("resetd.rules.yml"))
            self.assertEqual(set(names), {name for name, _ in CASES if name})
            for number, (fires, series) in enumerate(CASES):
                path = os.path.join(folder, f"case{number}.yml")
                with open(path, "w", encoding="utf-8") as file:
                    file.write(case_of(names, fires, series))
                done = subprocess.run(["promtool", "test", "rules", path], capture_output=True, encoding="utf-8", check=False)
                self.assertEqual(done.returncode, 0, done.stdout + done.stderr)


def case_of(names: list[str], fires: str | None, series: dict[str, str]) -> str:
    """Returns a test for promtool: ten minutes of these series, and the alert that fires in the tenth, if any. Annotations are
    not compared, so the labels of an alert are counted by an expression."""
    rows = "".join(f"      - series: '{name}'\n        values: '{values}'\n" for name, values in series.items()) or (
        "      - series: 'other'\n        values: '1x10'\n")
    fired = "[{labels: '{}', value: 1}]"
    tests = "".join(f"      - expr: count(ALERTS{{alertname=\"{name}\",alertstate=\"firing\"}}) > 0\n        eval_time: 9m\n"
                    f"        exp_samples: {fired if name == fires else '[]'}\n" for name in names)
    return (f"rule_files: [resetd.rules.yml]\nevaluation_interval: 1m\ntests:\n  - interval: 1m\n    input_series:\n{rows}"
            f"    promql_expr_test:\n{tests}")


if __name__ == "__main__":
    unittest.main()
