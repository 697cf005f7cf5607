"""The worked runs of the drill, as the files of tests/drill keep them.

    == lone-reset
    > add 1 1
    done 1

`==` begins a run and gives its name. A line after `> ` is read, as is one after `>| `, which has no line feed; what
stands below is printed for it. Empty lines part the runs.
"""

import glob
import io
import os
import re
from collections.abc import Iterator
from typing import NamedTuple

FOLDER = os.path.join(os.path.dirname(os.path.dirname(os.path.abspath(__file__))), "drill")


class Run(NamedTuple):
    """A worked run: its input and its output."""

    name: str
    given: bytes
    wanted: bytes


def runs_in(text: str) -> Iterator[Run]:
    """Returns the runs in the text of a file."""
    for block in re.split("^== ", text, flags=re.MULTILINE)[1:]:
        name, _, lines = block.partition("\n")
        given = wanted = ""
        for line in io.StringIO(lines, newline="\n"):
            if line.startswith(">| "):
                given += line[3:-1]
            elif line.startswith(">"):
                given += line[1:].removeprefix(" ")
            elif line != "\n":
                wanted += line
        yield Run(name, given.encode(), wanted.encode())


def worked_runs() -> dict[str, Run]:
    """Returns all runs by their names."""
    runs = {}
    for path in sorted(glob.glob(f"{FOLDER}/*.runs")):
        with open(path, encoding="utf-8", newline="\n") as file:
            for run in runs_in(file.read()):
                assert run.name not in runs, f"{path}: a second run {run.name}"
                runs[run.name] = run
    return runs
