"""A mutant as it is put into a copy of the crates."""

from __future__ import annotations

import os
import re

import catalogue
from places import Place, function_at


class Edit:
    """One mutant: the texts that it exchanges, and the functions in which they stand."""

    def __init__(self, body: catalogue.Mutant) -> None:
        self.mutant, self.crate, self.name, self.id = body, body.crate, body.name, body.id
        every = [(exchange.file, exchange.old, exchange.new) for exchange in body.exchanges]
        self.pairs = [pair for pair in every if not pair[0].startswith("proofs/")]
        self.names_in_proofs = [pair for pair in every if pair[0].startswith("proofs/")]
        # where its killing test stands ("units", "tests" or a crate) and the test itself, empty where it names none
        self.tests, self.test, *how = body.test.split() or ("", "")
        self.waits = how == ["waits"]

    def apply(self, folder: str) -> bool:
        """Writes the edit into a copy of the crate. False where an old text does not stand there once."""
        for file, old, new in self.pairs:
            path = os.path.join(folder, file)
            text = open(path).read()
            if text.count(old) != 1:
                return False
            open(path, "w").write(text.replace(old, new))
        return self.follow(folder)

    def follow(self, folder: str, suffix: str = "") -> bool:
        """Writes its names into the proof files of its function, or of the copy with this suffix. False where an old one is not there."""
        for file, old, new in self.names_in_proofs:
            at, name = os.path.split(file)
            path = os.path.join(folder, at + suffix, name)
            text = open(path).read()
            if old not in text:
                return False
            open(path, "w").write(text.replace(old, new))
        return True

    def place(self, folder: str) -> None:
        """Finds the functions that it changes, by their paths, and reads their bodies."""
        self.functions, self.bodies = list[Place | None](), list[str]()
        for file, old, _ in self.pairs:
            text = open(os.path.join(folder, file)).read()
            at = text.find(old)
            if at >= 0:
                pattern, body = function_at(file, text, at)
                self.functions.append(pattern)
                self.bodies.append(body)
        self.names = {pattern.name for pattern in self.functions if pattern}

    def stands_apart_from(self, other: Edit) -> bool:
        """Whether no function of one calls a function of the other, nor is one of the other's."""
        if None in self.functions or None in other.functions or self.names & other.names:
            return False
        return not call_one_of(self.bodies, other.names) and not call_one_of(other.bodies, self.names)


def call_one_of(bodies: list[str], names: set[str]) -> bool:
    """Whether one of these bodies calls a function of one of these names."""
    return any(re.search(rf"\b{name}\b\s*(::<[^>]*>)?\(", body) for body in bodies for name in names)
