"""Where a place of a source file stands: its module, its type and its function."""

import re
from typing import NamedTuple

# The head of a block of methods, which may stand on several lines.
HEAD = re.compile(r"^(?:impl|pub trait|trait)\b([^{;]*)\{", re.M)


class Place(NamedTuple):
    """What a place of a source file stands in: the module, the type and the name of a function."""

    module: str
    owner: str
    name: str


def function_at(file: str, text: str, at: int) -> tuple[Place | None, str]:
    """The module, the type and the name of the function round a place of a source file, and its text."""
    heads = list(re.finditer(r"^( *)(?:pub(?:\([a-z]+\))? )?(?:const )?(?:final )?fn (\w+)", text[: at + 1], re.M))
    if not heads:
        return None, ""
    head = heads[-1]
    last = re.search(rf"^{head.group(1)}}}$", text[head.start() :], re.M)
    end = head.start() + last.end() if last else len(text)
    if end < at:
        return None, ""
    owner = ""
    if head.group(1):
        blocks = list(HEAD.finditer(text[: head.start()]))
        if blocks:
            owner = owner_of(" ".join(blocks[-1].group(1).split()))
    module = re.sub(r"^src/|\.rt$|/?(lib|main)\.rt$", "", file).replace("/", "::")
    return Place(module, owner, head.group(2)), text[head.start() : end]


def owner_of(head: str) -> str:
    """What a method goes by in its path, by what follows `impl` or `trait`: its type, and after that its trait."""
    head = head.split("{")[0]
    # one type may have a trait several times, each for another argument
    of_argument = re.match(r"\s*(\w+)<([\w:]+)> for (\w+)\s*$", head)
    if of_argument:
        trait, argument, owner = of_argument.groups()
        return owner + trait + "".join(word[:1].upper() + word[1:] for word in argument.split("::"))
    # a type may have several blocks of methods, each for other arguments that are not the block's own
    methods = re.match(r"\s*(?:<([^>]*)>)?\s*(\w+<[^()]*>)\s*$", head)
    if methods and " for " not in head:
        own = re.findall(r"(\w+)\s*(?::|,|$)", methods.group(1) or "")
        names = [name for name in re.findall(r"\w+", methods.group(2)) if name != "_"]
        if set(names[1:]) - set(own):
            return "+".join(names)
    while re.search(r"<[^<>]*>", head):
        head = re.sub(r"<[^<>]*>", "", head)
    trait, _, name = re.sub(r"\w+::", "", head).rpartition(" for ")
    return first_word(name) + first_word(trait)


def first_word(text: str) -> str:
    return next(iter(re.findall(r"\w+", text)), "")


def is_of_trait(text: str, body: str) -> bool:
    """Whether a function is a method of a trait, or of an impl of one."""
    if not body.startswith(" "):
        return False
    heads = [" ".join(match.group(0).split()) for match in HEAD.finditer(text[: text.find(body)])]
    return bool(heads) and (" for " in heads[-1] or "trait " in heads[-1])


def with_attributes(text: str, body: str) -> str:
    """A function with the attributes that stand above it."""
    lines, attributes = text[: text.find(body)].split("\n"), list[str]()
    for line in reversed(lines[:-1]):
        if not line.strip().startswith("#["):
            break
        attributes.insert(0, line)
    return "\n".join([*attributes, body])
