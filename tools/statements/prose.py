"""The comments and messages of a file: the text for its readers and users, as opposed to the names of its code."""

from __future__ import annotations

import io
import re
import tokenize
from collections.abc import Iterator

STRING = r'"(?:[^"\\\n]|\\.)*"'
# Comments and strings by file name suffix; for all other files, those of a shell script.
SPANS = {
    r"\.(?:rt|rs|c|h|go)(?:\.txt)?$": re.compile(rf"//[^\n]*|/\*.*?\*/|{STRING}", re.DOTALL),
    r"\.antt(?:\.txt)?$": re.compile(r"(?<!\S)--(?!\S)[^\n]*"),
    r"\.(?:md|txt|tsv|\d)$": re.compile(r".+"),
    "": re.compile(rf"(?<!\S)#[^\n]*|{STRING}|'[^'\n]*'"),
}
PYTHON = re.compile(r"\A#!.*python|\A\"\"\"")


def prose_of(name: str, text: str) -> str:
    """Returns the text with blanks in place of all code, so that every position stays the same."""
    kept = [" " if letter != "\n" else letter for letter in text]
    for begin, end in spans_of(name, text):
        kept[begin:end] = text[begin:end]
    return "".join(kept)


def spans_of(name: str, text: str) -> Iterator[tuple[int, int]]:
    if name.endswith(".py") or PYTHON.match(text):
        yield from python_spans(text)
        return
    spans = next(spans for ending, spans in SPANS.items() if re.search(ending, name))
    yield from (match.span() for match in spans.finditer(text))


def python_spans(text: str) -> Iterator[tuple[int, int]]:
    lines = [0]
    for line in text.splitlines(keepends=True):
        lines.append(lines[-1] + len(line))
    for token in tokenize.generate_tokens(io.StringIO(text).readline):
        if token.type in (tokenize.COMMENT, tokenize.STRING):
            yield lines[token.start[0] - 1] + token.start[1], lines[token.end[0] - 1] + token.end[1]
