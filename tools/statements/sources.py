"""The statements in a file of Rattle or of definitions: functions with their clauses, ghost members, types and definitions."""

from __future__ import annotations

import collections
import dataclasses
import hashlib
import pathlib
import re

WORD = re.compile(r"[A-Za-z_][\w']*(?:-[A-Za-z_][\w']*)*(?:\.[A-Za-z_][\w'-]*)*")
USE = re.compile(r"(pub )?\buse (Rattle\.[\w.]+?)(?:\.\{([^}]*)\}| as (\S+?))?;?(?:\s|$)")
FUNCTION = re.compile(r'^( *)(pub |pub\([a-z]+\) )?(?:const )?(?:unsafe )?(?:extern "C" )?fn (\w+)', re.M)
BLOCK = re.compile(r"^(?:pub(?:\([a-z]+\))? )?(?:impl|trait|struct|enum)\b[^;{]*(?:\{|;)", re.M)
DEFINED = re.compile(r"^( *)((?:abbrev |opaque |pub |record |data )*)(\S+)")
CLAUSE = re.compile(r"(requires|ensures)(?:\s+(\w+))?\s*\{")


@dataclasses.dataclass
class Function:
    crate: str
    module: str
    owner: str
    name: str
    is_public: bool
    clauses: list[tuple[str, str]]
    file: Source
    body: str

    @property
    def path(self) -> str:
        return "::".join(word for word in (self.module, self.owner, self.name) if word)

    @property
    def key(self) -> tuple[str, str]:
        return self.crate, self.path

    @property
    def ensured(self) -> list[str]:
        """The names of its `ensures` clauses; empty for a clause without a name."""
        return self._named("ensures")

    @property
    def required(self) -> list[str]:
        """The names of its `requires` clauses; empty for a clause without a name."""
        return self._named("requires")

    def _named(self, kind: str) -> list[str]:
        return [label.partition(" ")[2] for label, _ in self.clauses if label.startswith(kind)]

    @property
    def is_law(self) -> bool:
        """Whether it only states something: it has no body that could be wrong."""
        return self.body.strip("{} \n") == ""


@dataclasses.dataclass
class Ghost:
    crate: str
    module: str
    owner: str
    name: str
    text: str
    file: Source


class Source:
    """A file of Rattle or of definitions, without its comments, and its imports."""

    def __init__(self, root: pathlib.Path, crate: str, path: pathlib.Path):
        self.crate, self.path = crate, path
        comment = "//" if path.suffix == ".rt" else "--"
        lines = path.read_text().split("\n")
        self.text = "\n".join(without_comment(line, comment) for line in lines)
        inner = path.relative_to(root / "crates" / crate).with_suffix("").parts
        self.module = "::".join(it for it in inner[1:] if it not in ("lib", "main"))
        self.dotted = f"{crate}." + ".".join(inner)
        self.names: dict[str, tuple[str, str]] = {}
        self.modules: dict[str, str] = {}
        self.passed_on: dict[str, tuple[str, str]] = {}
        for match in USE.finditer(self.text):
            self.note(match)

    def note(self, use: re.Match[str]) -> None:
        is_public, module, names, alias = use.groups()
        module = module.removeprefix("Rattle.")
        if alias:
            self.modules[alias] = module
        for name in filter(None, (it.strip() for it in (names or "").split(","))):
            origin, _, here = name.partition(" as ")
            self.names[here or origin] = (module, origin)
            if is_public:
                self.passed_on[here or origin] = (module, origin)


def without_comment(line: str, mark: str) -> str:
    """Returns the line without its comment. A mark within quotes begins no comment."""
    at = line.find(mark)
    while at >= 0 and line[:at].count('"') % 2:
        at = line.find(mark, at + 1)
    return line if at < 0 else line[:at].rstrip()


def digest(text: str) -> str:
    return hashlib.sha256(" ".join(text.split()).encode()).hexdigest()[:12]


def closing(text: str, at: int) -> int:
    """Returns the position after the bracket that closes the one at `at`."""
    depth = 0
    for place in range(at, len(text)):
        depth += (text[place] in "([{") - (text[place] in ")]}")
        if depth == 0:
            return place + 1
    return len(text)


def clauses_of(text: str, at: int) -> tuple[list[tuple[str, str]], int]:
    """Returns the clauses of a function whose parameters begin after a position, by kind and name, and the position after them."""
    found: list[tuple[str, str]] = []
    while at < len(text):
        clause = CLAUSE.match(text, at)
        if clause:
            end = closing(text, clause.end() - 1)
            label = " ".join(filter(None, clause.groups()))
            found.append((label, text[clause.end() : end - 1]))
            at = end
        elif text[at] in "{;":
            break
        else:
            at = closing(text, at) if text[at] in "([" else at + 1
    return found, at


def owner_of(head: str) -> str:
    """Returns the name for the methods of an impl or a trait: the type, and after `as` the trait that it implements."""
    head = re.sub(r"\s+", " ", head.split("{")[0].split(";")[0]).strip()
    while re.search(r"<[^<>]*>", head):
        head = re.sub(r"(?<!-)<[^<>]*>", "", head)
    signature = head.removeprefix("pub ").split(" where ")[0]
    kind, _, rest = signature.partition(" ")
    trait, _, owner = rest.rpartition(" for ")
    named = [re.findall(r"\w+", word.split(":")[0] if kind != "impl" else word)[-1:] for word in (owner, trait)]
    return " as ".join(word for words in named for word in words)


def blocks_of(text: str) -> list[tuple[int, int, str, str]]:
    """Returns the impls, traits and types of a file: where each begins and ends, its kind and its name."""
    found = []
    for match in BLOCK.finditer(text):
        head = match.group(0)
        end = closing(text, match.end() - 1) if head.endswith("{") else match.end()
        kind = next(word for word in re.findall(r"\w+", head) if word in ("impl", "trait", "struct", "enum"))
        found.append((match.start(), end, kind, owner_of(head)))
    return found


def functions_of(source: Source) -> list[Function]:
    blocks, found = blocks_of(source.text), []
    for match in FUNCTION.finditer(source.text):
        inside = [block for block in blocks if block[0] < match.start() < block[1]]
        kind, owner = (inside[-1][2], inside[-1][3]) if inside else ("", "")
        if match.group(1) and not inside:
            continue
        is_public = match.group(2) == "pub " or kind == "trait" or " as " in owner
        clauses, at = clauses_of(source.text, match.end())
        body = source.text[at : closing(source.text, at)] if source.text[at : at + 1] == "{" else ""
        found.append(Function(source.crate, source.module, owner, match.group(3), is_public, clauses, source, body))
    return found


def ghosts_of(source: Source) -> list[Ghost]:
    """Returns the ghost members of traits and impls, and ghost fields."""
    found = []
    for start, end, _, owner in blocks_of(source.text):
        body = source.text[start:end]
        for match in re.finditer(r"^ +(?:pub )?ghost (\w+) ?[:=] ?\{", body, re.M):
            stop = closing(body, match.end() - 1)
            default = re.match(r" = \{", body[stop:])
            stop = closing(body, stop + 3) if default else stop
            found.append(Ghost(source.crate, source.module, owner, match.group(1), body[match.start() : stop], source))
    return found


def definitions_of(source: Source) -> dict[str, str]:
    """Returns the definitions in a file of specs/ by name: each has its lines, and the heads of the modules around it."""
    found: dict[str, list[str]] = collections.defaultdict(list)
    heads: list[tuple[int, str]] = []
    name, depth = "", 0
    for line in source.text.split("\n"):
        if not line.strip() or USE.match(line.strip()):
            continue
        indent = len(line) - len(line.lstrip())
        match = DEFINED.match(line)
        assert match
        heads = [it for it in heads if it[0] < indent]
        if line.lstrip().startswith("module "):
            heads.append((indent, line.strip()))
            name = ""
        elif not name or indent <= depth and match.group(3) not in (name, ")", "]", "}"):
            name, depth = match.group(3), indent
            found[name] += [head for _, head in heads]
            found[name].append(line)
        else:
            found[name].append(line)
    return {name: "\n".join(lines) for name, lines in found.items()}


ATTRIBUTE = re.compile(r"^ *#!?\[(?!derive|repr)[^\n]*\]\n", re.M)
PRIVATE_USE = re.compile(r"^ *(?:use|mod) [^;]*;", re.M)
TOKEN = re.compile(r"\w+|\S")


def stated_in(source: Source) -> str:
    """Returns the statements of a file of Rattle: everything except its comments, its imports of code, the bodies of its
    functions, and private functions without a clause. So it includes the visibility, the parameters, the bounds and the
    clauses of a function, the derives and fields of types, ghost members, constants and exports."""
    text, at, kept = source.text, 0, list[str]()
    for match in FUNCTION.finditer(text):
        if match.start() < at:
            continue
        clauses, brace = clauses_of(text, match.end())
        end = closing(text, brace) if text[brace : brace + 1] == "{" else brace
        is_stated = bool(clauses or match.group(2)) or any(
            start < match.start() < stop and (kind == "trait" or " as " in owner) for start, stop, kind, owner in blocks_of(text))
        kept += [text[at : match.start()], text[match.start() : brace] if is_stated else ""]
        at = end
    stated = PRIVATE_USE.sub("", ATTRIBUTE.sub("", "".join([*kept, text[at:]])))
    return " ".join(TOKEN.findall(stated))


def types_of(source: Source) -> dict[str, str]:
    """Returns the types and constants of a file of Rattle by name."""
    found = {}
    for match in re.finditer(r"^(?:pub(?:\([a-z]+\))? )?(struct|enum|trait|type|const) (\w+)", source.text, re.M):
        brace = re.compile(r"[{;]").search(source.text, match.end())
        end = match.end() if brace is None else closing(source.text, brace.start()) if brace.group(0) == "{" else brace.end()
        found[match.group(2)] = source.text[match.start() : end]
    return found
