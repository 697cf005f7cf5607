"""The fence of a start, with which a database or another resource of one group refuses members of earlier runs (docs/QUEUES.md,
"A database behind a fence")."""

from __future__ import annotations

from dataclasses import dataclass

from .errors import BadWords, ResetdError

GENERATIONS = range(1 << 23)
STEPS_BITS = 40  # a store has fewer than 2 to this power of steps


@dataclass(frozen=True)
class Fence:
    """Lets a resource refuse a member that was paused while its group continued. A fence has a count, which is greater for each
    later run; the tag of the run, which all members of the run share; and the nodes of the run. It stays the same as long as
    the start lasts."""

    count: int
    tag: str
    nodes: frozenset[int]

    def passes(self, floor: int, count: int, tag: str) -> bool:
        """Returns whether a resource accepts the fence, if it stores this floor, count and tag (initially 0, 0 and ""). If it
        accepts a fence with a different tag, it sets its floor to its old count; in any case it then stores the greater
        count and this tag."""
        return self.count > count or self.tag == tag and self.count > floor


class StoreWentBack(ResetdError):
    """A resource stores a count that is above that of the coordinator's store: the store was restored, or the member has an
    earlier generation than others. Needs a person: run `resetctl restored`, and then give all members a greater generation."""


def count_of(generation: int, settled: int) -> int:
    """Returns the count of a fence. A later generation has a greater count, however many steps are settled."""
    return (generation << STEPS_BITS) + settled


def generation_of(count: int) -> int:
    """Returns the generation of the member that has a fence with this count."""
    return count >> STEPS_BITS


def check_generation(generation: int) -> None:
    """Raises BadWords for an invalid generation."""
    if generation not in GENERATIONS:
        raise BadWords(f"a generation must be a whole number from 0 to {GENERATIONS[-1]}, not {generation}")


def check_store(count: int, generation: int, settled: int) -> None:
    """Raises StoreWentBack if a resource stores a count that no member of this generation can have after this many settled
    steps."""
    if count <= count_of(generation, settled):
        return
    if generation_of(count) > generation:
        raise StoreWentBack(f"a member with generation {generation_of(count)} has used the resource, but this member has generation {generation}: "
                            "start it with the greater generation")
    raise StoreWentBack(f"a resource has the fence count {count}, but the coordinator's store has settled only {settled} steps: the store went "
                        f"back, or an old coordinator answers. Run `resetctl restored --fence {count}`, which says what to do")
