"""Mutants as the catalogues keep them: one file a crate, `refusals/CRATE.edits`, in the order of its sources.

A catalogue is made of blocks, with an empty line between two:

    @ src/print.rt

    # settled_count_first
    - what stands there
    + what the mutant has in its place
    % print_view
    ! units drill::lines::one_of_each

`@` names the file of the blocks after it, up to the next `@`; a block that changes several files names each in its
midst. `#` gives the block its name, and ` killed` after that says that no clause refuses it; ` type CODE NAMED` that
it does not compile, with an error of this code that names NAMED: a type refuses it. The lines after `-`
stand once in the file, the lines after `+` take their place; a `-` after a `+` begins the next exchange. In a proof
file (`proofs/..`) the texts are names, and each place of an old one is changed. `%` names a clause that the mutant breaks,
one a line, as a row of docs/PROMISES.md does: `World::judge (value)`, with the crate in front where it is another one, and
without brackets where the clause has no name (`tools/promises --breaks` goes from a row to the mutants). `!` is the
killing test, a test that fails with the mutant in: where it stands (`units` for tests/units, `tests` for those of the folder
tests/, or a crate), its name, and `waits` where it does not end (refusals/run says what that means).

The edits of CI (crates/CRATE/must-fail/NAME.edit) are files of their own, since `rt ci` reads them: a line
`file: PATH`, then pairs of `old: TEXT` and `new: TEXT` with `⏎` for an end of a line, and `test: CRATE TEST`.
"""

import os
from dataclasses import dataclass, field

ROOT = os.path.dirname(os.path.dirname(os.path.abspath(__file__)))


class BadCatalogue(ValueError):
    """A catalogue, or an edit of CI, that does not read."""


@dataclass
class Exchange:
    """One old text of a file, and the text that takes its place."""

    file: str
    old: str
    new: str


@dataclass
class Mutant:
    """One mutant: what it exchanges, what refuses it, and which test sees it."""

    crate: str
    name: str
    exchanges: list[Exchange] = field(default_factory=list)
    clauses: list[str] = field(default_factory=list)
    test: str = ""
    is_killed: bool = False
    # the code of the compiler's error and what it names, if a type refuses it
    error: str = ""

    @property
    def id(self) -> str:
        """What a command line calls it: CRATE/NAME."""
        return f"{self.crate}/{self.name}"


def path_of(crate: str) -> str:
    """The file of a crate's catalogue, whether it is there or not."""
    return os.path.join(ROOT, "refusals", f"{crate}.edits")


def crates() -> list[str]:
    """The crates that have a catalogue, by name."""
    names = sorted(os.listdir(os.path.join(ROOT, "refusals")))
    return [name.removesuffix(".edits") for name in names if name.endswith(".edits")]


def read(crate: str) -> list[Mutant]:
    """The mutants of a crate's catalogue, as they stand there; none where it has no catalogue. Raises BadCatalogue."""
    try:
        with open(path_of(crate), encoding="utf-8") as catalogue:
            return parse(crate, catalogue.read())
    except FileNotFoundError:
        return []


def parse(crate: str, text: str) -> list[Mutant]:
    """The mutants of a catalogue's text. Raises BadCatalogue with the number of the line that does not fit."""
    mutants: list[Mutant] = []
    file, mutant, last = "", None, ""
    for number, line in enumerate(text.split("\n"), 1):
        mark, rest = line[:1], line[2:]
        if mark == "":
            mutant, last = None, ""
            continue
        if mark not in "@#-+%!" or (mark != line and line[1] != " "):
            raise BadCatalogue(f"{crate}.edits:{number}: no mark: {line}")
        if mark == "@":
            file = rest
        elif mark == "#":
            name, _, how = rest.partition(" ")
            mutant = Mutant(crate, name, is_killed=how == "killed", error=how.removeprefix("type ") if how.startswith("type ") else "")
            mutants.append(mutant)
        elif mutant is None or not file:
            raise BadCatalogue(f"{crate}.edits:{number}: it stands outside a block: {line}")
        elif mark == "-" and last == "-":
            mutant.exchanges[-1].old += "\n" + rest
        elif mark == "-":
            mutant.exchanges.append(Exchange(file, rest, ""))
        elif mark == "+" and last == "+":
            mutant.exchanges[-1].new += "\n" + rest
        elif mark == "+" and last == "-":
            mutant.exchanges[-1].new = rest
        elif mark == "%":
            mutant.clauses.append(rest)
        elif mark == "!":
            mutant.test = rest
        else:
            raise BadCatalogue(f"{crate}.edits:{number}: nothing stands before it that it replaces: {line}")
        last = mark
    return mutants


def read_edit(path: str) -> Mutant:
    """The mutant of a file of its own, in the form of CI's edits. Its crate is that of its folder."""
    folder, name = os.path.split(os.path.abspath(path))
    above, last = os.path.split(folder)
    mutant = Mutant(os.path.basename(above) if last == "must-fail" else last, name.removesuffix(".edit"))
    mutant.is_killed = os.path.basename(above) == "killed"
    file = ""
    with open(path, encoding="utf-8") as edit:
        for line in edit.read().split("\n"):
            word, _, text = line.partition(": ")
            word, text = word.rstrip(":"), text.replace("⏎", "\n")
            if word == "file":
                file = text
            elif word == "old":
                mutant.exchanges.append(Exchange(file, text, ""))
            elif word == "new":
                mutant.exchanges[-1].new = text
            elif word == "test":
                mutant.test = text
    return mutant


def of_ci(crate: str) -> list[Mutant]:
    """The mutants of a crate that CI itself tries."""
    folder = os.path.join(ROOT, "crates", crate, "must-fail")
    names = sorted(os.listdir(folder)) if os.path.isdir(folder) else []
    return [read_edit(os.path.join(folder, name)) for name in names if name.endswith(".edit")]


def find(word: str) -> Mutant:
    """The mutant that a command line names: CRATE/NAME of a catalogue, or the file of an edit. Raises BadCatalogue."""
    if word.endswith(".edit"):
        return read_edit(word)
    crate, _, name = word.partition("/")
    for mutant in [*read(crate), *of_ci(crate)]:
        if mutant.name == name:
            return mutant
    raise BadCatalogue(f"{word}: no such mutant")


def text_of(mutants: list[Mutant]) -> str:
    """The text of a catalogue that has these mutants of one crate, in the order of its sources and of their names."""
    lines: list[str] = []
    file = ""
    for mutant in sorted(mutants, key=place):
        first = mutant.exchanges[0].file
        if first != file:
            lines += [f"@ {first}", ""]
            file = first
        how = " killed" if mutant.is_killed else f" type {mutant.error}" if mutant.error else ""
        lines.append(f"# {mutant.name}{how}")
        for exchange in mutant.exchanges:
            if exchange.file != file:
                lines.append(f"@ {exchange.file}")
                file = exchange.file
            lines += mark_lines("-", exchange.old) + mark_lines("+", exchange.new)
        lines += [f"% {clause}" for clause in mutant.clauses]
        lines += [f"! {mutant.test}"] if mutant.test else []
        lines.append("")
    return "\n".join(lines)


def mark_lines(mark: str, text: str) -> list[str]:
    return [f"{mark} {line}".rstrip() if not line else f"{mark} {line}" for line in text.split("\n")]


def place(mutant: Mutant) -> tuple[str, int, str]:
    """Where a mutant stands among the others of its crate: by file, by where its old text stands there, by name."""
    first = mutant.exchanges[0]
    text = source(mutant.crate, first.file)
    at = text.find(first.old)
    return first.file, at if at >= 0 else len(text), mutant.name


def source(crate: str, file: str) -> str:
    """The text of a file of a crate, empty where there is none."""
    try:
        with open(os.path.join(ROOT, "crates", crate, file), encoding="utf-8") as found:
            return found.read()
    except FileNotFoundError:
        return ""


def misfits(mutant: Mutant) -> list[str]:
    """What of a mutant does not fit the sources: an old text that does not stand just once in its file (in a proof file, at all).

    The exchanges are made one after the other, so an old text stands once where those before it are made.
    """
    texts: dict[str, str] = {}
    found = []
    for exchange in mutant.exchanges:
        text = texts.setdefault(exchange.file, source(mutant.crate, exchange.file))
        count = text.count(exchange.old)
        if count != 1 and not (count and exchange.file.startswith("proofs/")):
            found.append(f"{mutant.id}: {exchange.file} has {count} times: {exchange.old}")
        texts[exchange.file] = text.replace(exchange.old, exchange.new)
    return found
