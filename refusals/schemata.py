"""Mutant schemata: many mutants in one build, of which the environment chooses one.

A build takes minutes, and most killing tests run for a second. So in a copy of the crates each function that a mutant
changes becomes a choice: beside it stand a copy of it for each of its mutants and one with the right code, and the
function itself calls the one that the variable MUTANT names by its number, 0 for none. A function in C reads that
variable, since no crate reads any. The copies have no contract, as nothing is proved of such a build.

A mutant that changes anything but the code of functions can't be chosen so.
"""

import os
import re
from collections.abc import Iterable
from dataclasses import dataclass
from typing import NamedTuple

from catalogue import Mutant
from places import HEAD, function_at, is_of_trait

# A line that a clause of a contract begins with.
CLAUSE = re.compile(r"\s+(?:requires|ensures|ghost)\b")
# A parameter that has a name by which it can be passed on.
PARAMETER = re.compile(r"(?:&\s*(?:'\w+\s+)?)?(?:mut )?(self|_?[a-z]\w*)\s*(?::|$)")
NOTHING_CHOSEN = "_right"
MODULE = """//! Which mutant the environment chooses.

unsafe extern "C" {{
    pub safe fn mutant_of_{crate}() -> i32;
}}
"""
# A program that is run without the variable waits: then `tools/trial_build` takes it.
IN_C = """#include <stdlib.h>
#include <unistd.h>

int mutant_of_{crate}(void) {{
    static int chosen = -1;
    if (chosen < 0) chosen = atoi(getenv("MUTANT"));
    return chosen;
}}

static void __attribute__((constructor)) wait_to_be_taken(void) {{
    while (!getenv("MUTANT")) pause();
}}
"""


class Unfit(Exception):
    """A mutant that can't be chosen while the program runs, with the reason."""


@dataclass(frozen=True)
class Function:
    """A function's text, in parts: up to its contract, its contract, and its code from the opening brace on."""

    indent: str
    name: str
    arguments: tuple[str, ...]
    head: str
    contract: str
    code: str

    @classmethod
    def read(cls, text: str) -> "Function":
        """A function as `rt fmt` lays it out. Raises Unfit where a parameter has no name by which it is passed on."""
        lines = text.split("\n")
        indent = text[: len(text) - len(text.lstrip(" "))]
        if f"{indent}{{" in lines:
            brace = lines.index(f"{indent}{{")
            clause = next((at for at, line in enumerate(lines[:brace]) if CLAUSE.match(line)), brace)
            head, contract, code = lines[:clause], lines[clause:brace], lines[brace:]
        else:
            last = next((at for at, line in enumerate(lines) if line.endswith(" {")), None)
            if last is None:
                raise Unfit("it has no code")
            head, contract, code = [*lines[:last], lines[last][:-2]], [], [f"{indent}{{", *lines[last + 1 :]]
        name, arguments = read_head("\n".join(head))
        return cls(indent, name, arguments, "\n".join(head), "\n".join(contract), "\n".join(code))

    def copy(self, suffix: str, code: str) -> str:
        """A function beside this one that has its head and no contract."""
        head = re.sub(r"^ *(?:pub(?:\([a-z]+\))? )?(?:const )?(?:final )?", self.indent, self.head)
        return re.sub(rf"\bfn {self.name}\b", f"fn {self.name}{suffix}", head, count=1) + "\n" + code

    def call(self, suffix: str) -> str:
        """A call of such a copy, which passes on what this function was called with."""
        of = "self." if self.arguments[:1] == ("self",) else "Self::" if self.indent else ""
        return f"{of}{self.name}{suffix}({', '.join(it for it in self.arguments if it != 'self')})"

    def choosing(self, crate: str, numbers: Iterable[int]) -> str:
        """This function, which calls the copy that is chosen."""
        within = f"{self.indent}    "
        lines = [self.head, *[self.contract] * bool(self.contract), f"{self.indent}{{"]
        for number in numbers:
            lines += [f"{within}if crate::mutant::mutant_of_{crate}() == {number} {{",
                      f"{within}    return {self.call(f'_{number}')};", f"{within}}}"]
        return "\n".join([*lines, f"{within}{self.call(NOTHING_CHOSEN)}", f"{self.indent}}}"])


def after_bracket(text: str, at: int) -> int:
    """The place after the bracket that closes the one at `at`."""
    depth = 0
    while True:
        if text[at] in "([{<":
            depth += 1
        elif text[at] in ")]}" or text[at] == ">" and text[at - 1] != "-":
            depth -= 1
        at += 1
        if not depth:
            return at


def split_at_commas(text: str) -> list[str]:
    """The pieces of a text between its commas, but for those within brackets."""
    pieces, depth = [""], 0
    for before, letter in zip(f" {text}", text):
        depth += letter in "([{<"
        depth -= letter in ")]}" or letter == ">" and before != "-"
        if letter == "," and not depth:
            pieces.append("")
        else:
            pieces[-1] += letter
    return [piece.strip() for piece in pieces if piece.strip()]


def read_head(head: str) -> tuple[str, tuple[str, ...]]:
    """The name of a function and those of its parameters. Raises Unfit."""
    named = re.search(r"\bfn (\w+)", head)
    if not named:
        raise Unfit("it is no function")
    at = named.end()
    if head[at] == "<":
        at = after_bracket(head, at)
    parameters = [PARAMETER.match(it) for it in split_at_commas(head[at + 1 : after_bracket(head, at) - 1])]
    if not all(parameters):
        raise Unfit("a parameter has no name")
    return named[1], tuple(parameter[1] for parameter in parameters if parameter)


class Change(NamedTuple):
    """What a mutant makes of a function: its file, its text as it stands there, and the code that takes its place."""

    file: str
    text: str
    code: str


def changes_of(mutant: Mutant, crates: str) -> list[Change]:
    """What a mutant changes of the crates in this folder. Raises Unfit."""
    codes: dict[tuple[str, str], str] = {}
    for file, old, new in ((it.file, it.old, it.new) for it in mutant.exchanges if not it.file.startswith("proofs/")):
        with open(f"{crates}/{mutant.crate}/{file}", encoding="utf-8") as source:
            whole = source.read()
        place, text = function_at(file, whole, whole.find(old))
        if whole.count(old) != 1 or place is None:
            raise Unfit("it changes what is no function")
        code = codes.get((file, text)) or Function.read(text).code
        if code.count(old) != 1:
            raise Unfit("it changes more than the code of a function")
        if place.name == "main" or is_of_trait(whole, text) and not re.match(r"impl\b.* for \w", head_above(whole, text), re.S):
            raise Unfit("no function can stand beside it")
        codes[file, text] = code.replace(old, new)
    return [Change(file, text, code) for (file, text), code in codes.items()]


def head_above(whole: str, text: str) -> str:
    """The head of the block in which a method stands."""
    return list(HEAD.finditer(whole[: whole.find(text)]))[-1][0]


def fits(mutant: Mutant) -> bool:
    """Whether a mutant of the repository can be chosen."""
    try:
        return bool(changes_of(mutant, "crates"))
    except Unfit:
        return False


def plant(folder: str, mutants: list[Mutant]) -> None:
    """Puts mutants into a copy of the crates, each chosen by its number: 1 for the first. Raises Unfit."""
    choices: dict[tuple[str, str, str], dict[int, str]] = {}
    for number, mutant in enumerate(mutants, 1):
        try:
            changes = changes_of(mutant, f"{folder}/crates")
        except Unfit as unfit:
            raise Unfit(f"{mutant.id}: {unfit}") from unfit
        for change in changes:
            choices.setdefault((mutant.crate, change.file, change.text), {})[number] = change.code
    for (crate, file, text), codes in choices.items():
        put(f"{folder}/crates/{crate}/{file}", text, crate, codes)
    for crate in sorted({crate for crate, _, _ in choices}):
        declare(f"{folder}/crates/{crate}", crate)


def put(path: str, text: str, crate: str, codes: dict[int, str]) -> None:
    """Makes a function of a file a choice between these codes and its own."""
    with open(path, encoding="utf-8") as source:
        whole = source.read()
    function = Function.read(text)
    copies = [function.copy(f"_{number}", code) for number, code in codes.items()]
    copies.append(function.copy(NOTHING_CHOSEN, function.code))
    choosing = function.choosing(crate, codes)
    if is_of_trait(whole, text):
        # a trait's methods are its own alone, so the copies are methods of the type
        head = head_above(whole, text)
        generics = head[4 : after_bracket(head, 4)] if head[4] == "<" else ""
        owner = f"impl{generics} {head[4 + len(generics) :].split(' for ', 1)[1]}"
        whole = "\n\n".join([whole.replace(text, choosing).rstrip("\n"), f"{owner}\n" + "\n\n".join(copies) + "\n}\n"])
    else:
        whole = whole.replace(text, "\n\n".join([choosing, *copies]))
    with open(path, "w", encoding="utf-8") as source:
        source.write(whole)


def declare(folder: str, crate: str) -> None:
    """Gives a crate the function that says which mutant is chosen."""
    root = next(path for name in ("lib.rt", "main.rt") if os.path.exists(path := f"{folder}/src/{name}"))
    with open(root, encoding="utf-8") as source:
        text = source.read()
    os.makedirs(f"{folder}/c", exist_ok=True)
    for path, said in {
        root: re.sub(r"^(?=(?:pub )?mod )", "mod mutant;\n", text, count=1, flags=re.M),
        f"{folder}/src/mutant.rt": MODULE.format(crate=crate),
        f"{folder}/c/mutant.c": IN_C.format(crate=crate),
    }.items():
        with open(path, "w", encoding="utf-8") as source:
            source.write(said)
