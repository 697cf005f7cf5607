"""The rows of docs/PROMISES.md."""

from __future__ import annotations

from typing import NamedTuple

import collections
import re

from .repository import Repository
from .sources import Function

TABLE = "docs/PROMISES.md"


class Row(NamedTuple):
    """A row: its title, its text, and for each function that it cites the clauses that it names."""

    title: str
    words: str
    cites: dict[tuple[str, str], set[str]]


class Table:
    """The rows of docs/PROMISES.md: the functions that they name, and the names that do not exist."""

    def __init__(self, repository: Repository):
        self.repository = repository
        self.named: set[tuple[str, str]] = set()
        # the definitions and the types that rows name
        self.defined: set[str] = set()
        self.wrong: list[str] = []
        self.rows: list[Row] = []
        self.names = self.all_names()
        self.of_crate: dict[str, list[Function]] = collections.defaultdict(list)
        for function in repository.functions:
            self.of_crate[function.crate].append(function)
        self.labels = {label.split()[-1] for function in repository.functions for label, _ in function.clauses}
        self.labels |= {ghost.name for ghost in repository.ghosts}
        for line in (repository.root / TABLE).read_text().splitlines():
            cells = [cell.strip() for cell in line.strip().strip("|").split("|")]
            if line.startswith("|") and len(cells) == 3 and cells[2] not in ("---", "Contracts"):
                title, words, carried = cells
                if not title or title[0] in "." or title[0].islower() or title in [row.title for row in self.rows]:
                    self.wrong.append(f"{TABLE}: a row has no title: {line[:80]}")
                self.rows.append(Row(title, words, self.read(carried)))

    def all_names(self) -> dict[str, set[str]]:
        """Returns what a row may name of each crate."""
        names: dict[str, set[str]] = collections.defaultdict(set)
        for function in self.repository.functions:
            names[function.crate] |= {function.name, function.owner.split(" ")[0], function.owner.split(" ")[-1]}
            names[function.crate] |= set(function.module.split("::"))
            names[function.crate] |= {label.split()[-1] for label, _ in function.clauses if " " in label}
        for ghost in self.repository.ghosts:
            names[ghost.crate].add(ghost.name)
        for crate, name in self.repository.types:
            names[crate].add(name)
        for (module, name), text in self.repository.definitions.items():
            names[module.split(".")[0]] |= {name, *re.findall(r"^\s+pub (\w+) :", text, re.M)}
        return names

    def read(self, cell: str) -> dict[tuple[str, str], set[str]]:
        """Reads the cell that names what supports a row: crates, functions and other names, with clauses in brackets."""
        crates: list[str] = []
        cites: dict[tuple[str, str], set[str]] = {}
        last, depth, functions = "", 0, list[Function]()
        for match in re.finditer(r"\b(?:coord|tests)_[a-z]+\b(?!`)|`([^`]+)`|[();]", cell):
            name = match.group(1)
            if match.group(0) in "();":
                depth += {"(": 1, ")": -1, ";": 0}[match.group(0)]
                functions = [] if match.group(0) == ";" and depth == 0 else functions
            elif name is None:
                goes_on = last and cell[: match.start()].rstrip().endswith(last + ",")
                crates, last = [*crates, match.group(0)] if goes_on else [match.group(0)], match.group(0)
            elif not re.fullmatch(r"[\w:]+(?:: \w+)?", name):
                functions = functions if depth else []
            elif name not in self.repository.crates:
                found = self.look_up(crates or self.repository.crates, name, cell)
                if not found and (name[0].isupper() or not self.is_clause(name)) and "::" not in name:
                    self.defined.add(name)
                if depth == 0:
                    functions += found
                    cites |= {function.key: cites.get(function.key, set()) for function in found}
                elif functions and not found and name.islower():
                    self.look_for(name, functions, cell)
                for function in functions if depth else []:
                    cites[function.key] |= {name} & {*function.ensured}
        return cites

    def is_clause(self, name: str) -> bool:
        """Returns whether a clause or a ghost member has this name."""
        return name in self.labels

    def look_up(self, crates: list[str], name: str, cell: str) -> list[Function]:
        """Returns the functions with this name. They have to be in these crates or in those below them."""
        if not set(crates) <= set(self.repository.crates):
            return []
        name_parts = re.findall(r"\w\w+", name)
        last = max(map(self.repository.crates.index, crates))
        below = self.repository.crates[: last + 1]
        if not all(any(word in self.names[crate] for crate in below) for word in name_parts):
            where = f"not in {', '.join(crates)} or below"
            self.wrong.append(f"{TABLE}: a row names `{name}`, which is {where}: {cell[:80]}")
        found = [function for crate in self.repository.crates if crate in crates
                 for function in self.of_crate[crate] if self.is_named(function, name_parts)]
        self.named |= {(function.crate, function.path) for function in found}
        return found

    def look_for(self, name: str, functions: list[Function], cell: str) -> None:
        """Returns a clause of these functions with this name, or a field of what their clauses reach."""
        labels = {label.split()[-1] for function in functions for label, _ in function.clauses}
        owners = {function.owner for function in functions if function.owner}
        ghosts = {ghost.name for ghost in self.repository.ghosts if ghost.owner in owners}
        if name not in labels | ghosts and name not in self.fields(functions):
            paths = ", ".join(function.path for function in functions)
            self.wrong.append(f"{TABLE}: a row names `{name}`, which is not a clause of {paths[:80]}: {cell[:80]}")

    def fields(self, functions: list[Function]) -> set[str]:
        """Returns the definitions that the clauses of these functions reach, and their fields."""
        texts = [(text, function.file) for function in functions for _, text in function.clauses]
        reached = self.repository.closure(texts)
        written = [self.repository.definitions[key] for key in reached if key in self.repository.definitions]
        fields = {field for text in written for field in re.findall(r"^\s+pub (\w+) :", text, re.M)}
        return fields | {name for _, name in reached}

    def is_named(self, function: Function, name_parts: list[str]) -> bool:
        if function.name != name_parts[-1] and function.owner.split(" ")[0] != name_parts[-1]:
            return False
        parts = re.findall(r"\w+", function.path)
        is_method = function.name == name_parts[-1] and set(name_parts) <= set(parts)
        return is_method or function.owner.split(" ")[0] == name_parts[-1]

    def names_function(self, function: Function) -> bool:
        return (function.crate, function.path) in self.named
