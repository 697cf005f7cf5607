"""All crates except those of tests, and what their statements reach."""

from __future__ import annotations

import pathlib

from .sources import WORD, Function, Ghost, Source, definitions_of, functions_of, ghosts_of, stated_in, types_of


class Repository:
    """All crates except those of tests: their functions, ghost members, definitions and types."""

    def __init__(self, root: pathlib.Path):
        self.root = root
        lines = (root / "crates.txt").read_text().splitlines()
        names = [line.split(":")[0].split()[0] for line in lines if ":" in line and not line.startswith("#")]
        self.crates = [name for name in names if not name.startswith("tests_")]
        self.functions: list[Function] = []
        self.ghosts: list[Ghost] = []
        # the statements of each file of Rattle, by crate and module
        self.stated: dict[tuple[str, str], str] = {}
        self.specs: dict[str, Source] = {}
        self.definitions: dict[tuple[str, str], str] = {}
        self.types: dict[tuple[str, str], tuple[str, Source]] = {}
        for crate in self.crates:
            self.read(crate)

    def read(self, crate: str) -> None:
        for path in sorted((self.root / "crates" / crate / "src").rglob("*.rt")):
            source = Source(self.root, crate, path)
            self.functions += functions_of(source)
            self.stated[crate, source.module] = stated_in(source)
            self.ghosts += ghosts_of(source)
            self.types.update({(crate, name): (text, source) for name, text in types_of(source).items()})
        for path in sorted((self.root / "crates" / crate / "specs").rglob("*.antt")):
            source = Source(self.root, crate, path)
            self.specs[source.dotted] = source
            self.definitions.update({(source.dotted, name): text for name, text in definitions_of(source).items()})

    def find(self, module: str, name: str) -> tuple[str, str] | None:
        """Returns the place where an imported name is defined."""
        for _ in range(9):
            if ".specs.declared." in module:
                parts = module.split(".")
                names = [name, *reversed(parts[3:])]
                return next(((parts[0], it) for it in names if (parts[0], it) in self.types), None)
            if (module, name) in self.definitions:
                return module, name
            source = self.specs.get(module)
            if source is None or name not in source.passed_on:
                return None
            module, name = source.passed_on[name]
        return None

    def reached_from(self, text: str, source: Source) -> set[tuple[str, str]]:
        """Returns what the names in a text refer to, with the imports of its file."""
        reached: set[tuple[str, str] | None] = set()
        for word in set(WORD.findall(text)):
            first, *rest = word.split(".")
            if first in source.names:
                reached.add(self.find(*source.names[first]))
            elif first in source.modules and rest:
                reached.add(self.find(source.modules[first], rest[0]))
            elif (source.dotted, first) in self.definitions:
                reached.add((source.dotted, first))
        return {it for it in reached if it}

    def closure(self, texts: list[tuple[str, Source]]) -> set[tuple[str, str]]:
        """Returns all definitions and types that these texts reach."""
        reached: set[tuple[str, str]] = set()
        left = [it for text, source in texts for it in self.reached_from(text, source)]
        while left:
            key = left.pop()
            if key in reached:
                continue
            reached.add(key)
            if key in self.definitions:
                left += self.reached_from(self.definitions[key], self.specs[key[0]])
        return reached
