"""Which mutants break which clause: the lines `%` of the catalogues of refusals/, beside the rows of docs/PROMISES.md.

A line `%` names a clause as a row does: a function, the name of what it ensures in brackets where that has a name, and
before it the crate where it is another one than the catalogue's:

    % World::judge (value)
    % coord_world World::apply (outputs)

The function is named by the end of its path, by as much of it as distinguishes it. A mutant that calls a function without what it
requires names that with the word `requires`:

    % coord_store Store::commit requires (fresh)
"""

from __future__ import annotations

import collections
import pathlib
import re
import sys
from typing import NamedTuple

from .repository import Repository
from .sources import Function
from .table import Row

sys.path.insert(0, str(pathlib.Path(__file__).resolve().parent.parent.parent / "refusals"))
import catalogue  # noqa: E402

# The functions that rows cite and that no mutant breaks, one on each line, with its crate.
NOT_TRIED = "refusals/not-tried.txt"
NAMED = re.compile(r"(?:(coord_[a-z]+|resetd) )?([\w:]+(?: as \w+::\w+)?)( requires)?(?: \((\w+)\))?")
CALL = re.compile(r"(?:\b(\w+)::)?\b(\w+)\s*(?:::<[^>]*>)?\(")
Key = tuple[str, str]


class Clause(NamedTuple):
    """What a function ensures, by name."""

    function: Key
    name: str


class Mutants:
    """The mutants that name the clauses that they break, and the faults in these names."""

    def __init__(self, repository: Repository):
        self.repository = repository
        self.functions = {function.key: function for function in repository.functions}
        self.of_name: dict[Key, list[Function]] = collections.defaultdict(list)
        for function in repository.functions:
            self.of_name[function.crate, function.name].append(function)
        self.crates = set(catalogue.crates())
        self.breaking: dict[Clause, list[str]] = collections.defaultdict(list)
        self.wrong: list[str] = []
        for crate in sorted(self.crates):
            for mutant in [*catalogue.read(crate), *catalogue.of_ci(crate)]:
                for text in mutant.clauses:
                    self.take(mutant, text)

    def take(self, mutant: catalogue.Mutant, text: str) -> None:
        """Records the clauses that a mutant names."""
        match = NAMED.fullmatch(text)
        if match is None:
            self.wrong.append(f"{mutant.id}: not the name of a clause: {text}")
            return
        crate, path, name = match[1] or mutant.crate, match[2], match[4] or ""
        found = [it for it in self.of_name[crate, path.rpartition("::")[2]] if f"::{it.path}".endswith(f"::{path}")]
        if len(found) != 1:
            self.wrong.append(f"{mutant.id}: {crate} has {len(found)} functions with this name, instead of one: {text}")
        elif match[3]:
            if name not in found[0].required:
                self.wrong.append(f"{mutant.id}: {found[0].path} requires no such thing: {text}")
        elif name not in found[0].ensured:
            self.wrong.append(f"{mutant.id}: {found[0].path} ensures no such clause: {text}")
        else:
            self.breaking[Clause(found[0].key, name)].append(mutant.id)

    def of(self, key: Key) -> dict[str, list[str]]:
        """Returns the mutants that break the clauses of a function, by clause."""
        return {name: self.breaking[clause] for name in self.functions[key].ensured
                if (clause := Clause(key, name)) in self.breaking}

    def callees(self, key: Key) -> set[Key]:
        """Returns the functions of its crate on which a function depends: those that it calls, and those that they call, as far
        as their names identify them."""
        found, left = {key}, [key]
        while left:
            function = self.functions[left.pop()]
            for owner, name in set(CALL.findall(function.body)):
                known = self.meant(function, owner, name)
                if known and known.key not in found:
                    found.add(known.key)
                    left.append(known.key)
        return found - {key}

    def meant(self, caller: Function, owner: str, name: str) -> Function | None:
        """Returns the function that a call means: the only one with this name other than the caller; with this type, if the
        call names a type; or the only one in its module."""
        others = [it for it in self.of_name.get((caller.crate, name), []) if it.key != caller.key]
        of_owner = [it for it in others if owner and owner in (it.owner, it.module.rpartition("::")[2])]
        near = [it for it in others if it.module == caller.module]
        return next((few[0] for few in (of_owner, others, near) if len(few) == 1), None)

    def below(self, key: Key) -> dict[Key, dict[str, list[str]]]:
        """Returns the mutants that break the callees of a function, by function and clause."""
        return {it: mutants for it in sorted(self.callees(key)) if (mutants := self.of(it))}

    def is_tried(self, key: Key) -> bool:
        return bool(self.of(key)) or bool(self.below(key))

    def cited(self, rows: list[Row]) -> list[Key]:
        """Returns the functions that rows cite, in crates with a catalogue, that can have a mutant and ensure something."""
        every = dict.fromkeys(key for row in rows for key in row.cites)
        return [key for key in every if key[0] in self.crates and self.functions[key].is_public
                and self.functions[key].ensured and not self.functions[key].is_law]

    def faults(self, rows: list[Row]) -> list[str]:
        """Returns the faults: named clauses that do not exist; cited functions without a mutant; and functions that are listed
        as not tried although they were tried, or are cited by no row."""
        path = self.repository.root / NOT_TRIED
        lines = [line.split(" ", 1) for line in path.read_text().splitlines() if line and not line.startswith("#")]
        listed, cited = {(crate, name) for crate, name in lines}, self.cited(rows)
        findings = [*self.wrong]
        findings += [f"{NOT_TRIED}: {' '.join(key)}: {self.why(key, cited)}" for key in sorted(listed)
                     if key not in cited or self.is_tried(key)]
        return findings + [f"no mutant of refusals/ breaks {' '.join(key)}, which a row cites: write one, or list it in {NOT_TRIED}"
                           for key in cited if key not in listed and not self.is_tried(key)]

    def why(self, key: Key, cited: list[Key]) -> str:
        return "a mutant breaks it now" if key in cited else "no row cites such a function"


def answers(mutants: Mutants, rows: list[Row], word: str) -> list[str]:
    """Returns the lines to print for the rows that have this word, or cite a function with this name: the mutants that break
    their promises."""
    lines: list[str] = []
    for row in rows:
        keys = [key for key in row.cites if key in mutants.cited([row])]
        named = [key for key in keys if f"::{key[1]}".endswith(f"::{word}")]
        if named or word.lower() in row.title.lower():
            lines += [f"{row.title}: {row.words}"]
            for key in named or keys:
                lines += lines_of(mutants, key, row.cites[key])
    return lines


def lines_of(mutants: Mutants, key: Key, clauses: set[str]) -> list[str]:
    """Returns the lines for a function that a row cites: the mutants that break the clauses that the row names."""
    lines = [f"  {' '.join(key)}" + (f" ({', '.join(sorted(clauses))})" if clauses else "")]
    lines += [f"    {name or 'its clause'}: {', '.join(ids)}" for name, ids in mutants.of(key).items() if not clauses or name in clauses]
    lines += [f"    by {other[1]}{f' ({name})' if name else ''}: {', '.join(ids)}"
              for other, found in mutants.below(key).items() for name, ids in found.items()]
    return lines if len(lines) > 1 else [*lines, "    no mutant yet"]
