"""The tables of this bench: as text, in docs/measures.tsv and in docs/MEASURES.md."""

from __future__ import annotations

import functools
import importlib.util
import pathlib
from collections.abc import Mapping, Sequence
from importlib.machinery import SourceFileLoader
from typing import Any

ROOT = pathlib.Path(__file__).resolve().parent.parent.parent
DATA, PAGE = ROOT / "docs" / "measures.tsv", ROOT / "docs" / "MEASURES.md"
Row = tuple[str, str, str]  # what is measured, its goal, and the figures


@functools.cache
def bench_run() -> Any:
    """The module of bench/run, whose name no import can say."""
    loader = SourceFileLoader("bench_run", str(ROOT / "bench" / "run"))
    spec = importlib.util.spec_from_loader("bench_run", loader)
    assert spec
    run = importlib.util.module_from_spec(spec)
    loader.exec_module(run)
    return run


def judged(row: Row) -> Row:
    """A row whose goal says so if it is not met."""
    name, goal, cell = row
    return name, bench_run().goal_of(goal, cell), cell


def table_of(title: str, rows: Sequence[Row]) -> str:
    lines = (f"| {' | '.join(judged(row))} |" for row in rows)
    return "\n".join([f"| {title} | Goal | Measured |", "|---|---|---|", *lines]) + "\n"


def put(title: str, parts: Mapping[str, Sequence[Row]]) -> None:
    """Writes the rows of these parts in the place of those that are there."""
    head = bench_run().machine()
    for part, rows in parts.items():
        put_data(f"{title}: {part}", head, rows)
        put_page(part, f"{head}.\n\n{table_of(f'{title}: {part}', rows)}")


def put_data(title: str, head: str, rows: Sequence[Row]) -> None:
    """The first row of a table has its columns, and when it was measured."""
    kept = [line for line in DATA.read_text(encoding="utf-8").splitlines() if line.split("\t")[0] != title]
    made = ["\t".join([title, *row]) for row in [("", "Goal", f"Measured {head}"), *map(judged, rows)]]
    DATA.write_text("\n".join([*kept, *made]) + "\n", encoding="utf-8")


def put_page(part: str, text: str) -> None:
    """Writes a table between the marks of its part, if the page has them."""
    begin, end = f"<!-- what bench/proxy/figures writes: {part} -->", f"<!-- to here: {part} -->"
    page = PAGE.read_text(encoding="utf-8")
    if begin not in page:
        print(f"docs/MEASURES.md has no place for {part}: {begin}")
        return
    before, rest = page.split(begin)
    PAGE.write_text(f"{before}{begin}\n{text}{end}{rest.split(end)[1]}", encoding="utf-8")
