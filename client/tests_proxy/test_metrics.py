"""The metrics of the proxy: what they count, when they are written, and that dashboards and documents name them."""

from __future__ import annotations

import json
import os
import re
import time
import unittest

from audited import PREFIX, Audited, Piped, metrics_of
from case import DENIED, ROOT, policy, until
from resetd_client import View
from resetd_client.health import metrics

BOUNDS = (.0005, .001, .0025, .005, .01, .025, .05, .1, .25, .5, 1, 2.5, 5, 10, 30)  # seconds


def text_of(name: str) -> str:
    with open(f"{ROOT}/{name}", encoding="utf-8") as file:
        return file.read()


def of_server() -> set[str]:
    """Returns the names of the metrics of the server, which `resetctl metrics` writes."""
    view = View.of({"accepted": 9, "settled": 8, "nodes": [[1, 1, "ready", 0, 0, 0]], "links": []})
    return set(re.findall(r"^# TYPE (\w+)", metrics(view, False, False), re.MULTILINE))


class Metrics(Audited):
    def arguments(self) -> list[str]:
        self.metrics = f"{self.folder}/resetd_proxy.prom"
        return [*super().arguments(), "--metrics", self.metrics]

    def await_series(self, **wanted: float) -> dict[str, float]:
        def found() -> dict[str, float]:
            series = metrics_of(self.metrics)
            return series if all(series.get(f"{PREFIX}_{name}") == count for name, count in wanted.items()) else {}
        return until(f"the series {wanted}", found)

    def test_what_is_counted(self) -> None:
        look, order = self.looking(), self.client()
        for _ in range(3):
            self.assertIn("nodes", look.ask(op="show"))
        self.assertEqual(look.ask(op="reset", node=1), DENIED)
        self.assertEqual(order.ask(op="reset", node=1)["kind"], "started")
        self.assertEqual(order.ask(op="confirm", node=2, epoch=9)["name"], "BadEpoch")
        order.send(b"no request\n")
        order.reply()
        self.assertIn("nodes", look.ask(op="watch"))
        series = self.await_series(watchers=1, open_connections=2, connections_total=2)
        answers = {name: count for name, count in series.items() if name.startswith(f"{PREFIX}_answers_total")}
        self.assertEqual(answers, {f'{PREFIX}_answers_total{{op="{op}",answer="{answer}"}}': count for op, answer, count in (
            ("show", "view", 3), ("reset", "NotAllowed", 1), ("reset", "started", 1), ("confirm", "BadEpoch", 1), ("none", "BadJson", 1))})
        self.assertEqual(series[f"{PREFIX}_server_answers"], 1)
        self.assertGreaterEqual(series[f"{PREFIX}_flights_total"], 3)
        self.assertEqual((series[f"{PREFIX}_resends_total"], series[f"{PREFIX}_audit_lost_total"]), (0, 0))
        self.assert_histogram(series, "show", 3)
        self.assert_histogram(series, "reset", 2)

    def assert_histogram(self, series: dict[str, float], op: str, count: int) -> None:
        name = f"{PREFIX}_answer_seconds"
        within = [series[f'{name}_bucket{{op="{op}",le="{bound}"}}'] for bound in [*map(str, map(float, BOUNDS)), "+Inf"]]
        self.assertEqual(within, sorted(within))
        self.assertEqual((len(within), within[-1], series[f'{name}_count{{op="{op}"}}']), (16, count, count))
        self.assertGreater(series[f'{name}_sum{{op="{op}"}}'], 0)

    def test_it_is_replaced_whole_and_only_if_something_changed(self) -> None:
        """Between two looks at the policy, which come once a second, nothing is written if nothing happened."""
        self.await_series(open_connections=0)
        self.await_broken_policy(1)
        before = os.stat(self.metrics).st_ino
        self.await_broken_policy(2)
        self.assertEqual(os.stat(self.metrics).st_ino, before)
        client = self.client()
        self.await_series(open_connections=1)
        self.assertNotEqual(os.stat(self.metrics).st_ino, before)
        self.assertFalse(os.path.exists(f"{self.metrics}.new"))
        client.close()

    def await_broken_policy(self, count: int) -> None:
        self.write(policy(("alice", [f"frobnicate{count * 'x'}"])))
        until("a report", lambda: self.proxy.said().count("BadValue") == count)

    def test_at_most_once_a_second(self) -> None:
        client, texts, begin = self.client(), set[int](), time.monotonic()
        while len(texts) < 4:
            client.ask(op="show")
            if os.path.exists(self.metrics):
                texts.add(os.stat(self.metrics).st_mtime_ns)
        self.assertGreater(time.monotonic() - begin, 1.9)

    def families(self) -> dict[str, str]:
        """Returns the kinds of the metrics by their names."""
        self.client().ask(op="show")
        self.await_series(connections_total=1)
        with open(self.metrics, encoding="ascii") as file:
            return dict(re.findall(r"^# TYPE (\w+) (\w+)$", file.read(), re.MULTILINE))

    def test_the_dashboard_and_the_rules_name_only_what_is_written(self) -> None:
        written = {*of_server(), *(f"{name}{ending}" for name, kind in self.families().items()
                                   for ending in (("_bucket", "_sum", "_count") if kind == "histogram" else ("",)))}
        dashboard = json.loads(text_of("examples/resetd.grafana.json"))
        self.assertTrue(all(panel["targets"] for panel in dashboard["panels"]))
        queries = [target["expr"] for panel in dashboard["panels"] for target in panel["targets"]]
        queries += re.findall(r"expr:.*(?:\n {10}.*)*", text_of("examples/resetd.rules.yml"))
        used = {name for query in queries for name in re.findall(r"\bresetd_\w+", query)}
        self.assertTrue(used)
        self.assertLessEqual(used, written)

    def test_the_page_lists_each_metric(self) -> None:
        self.assertEqual(set(re.findall(r"`(resetd_\w+)`", text_of("docs/DEPLOYING.md"))), {*of_server(), *self.families()})


class Output(Audited):
    def test_metrics_on_standard_output(self) -> None:
        self.proxy.kill()
        proxy = Piped(self.folder, self.server.address, *self.arguments(), "--metrics", "-")
        self.addCleanup(proxy.kill)
        with proxy.connect() as client:
            self.assertEqual(client.ask(op="reset", node=1)["kind"], "started")
            came = proxy.await_output(f'{PREFIX}_answers_total{{op="reset",answer="started"}} 1\n'.encode())
        self.assertIn(f"# TYPE {PREFIX}_answers_total counter\n".encode(), came)


if __name__ == "__main__":
    unittest.main()
