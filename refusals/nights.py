"""Shares of the crates, for trials that take too long for one night."""

import time

DAY = 24 * 60 * 60  # seconds


def tonight() -> int:
    """The number of this night."""
    return int(time.time() // DAY)


def share_of(sizes: dict[str, int], nights: int, night: int) -> list[str]:
    """The crates of a night. The largest first, each crate goes to the night that has the least, so N nights in a row have
    all crates, and each about as much."""
    shares: list[list[str]] = [[] for _ in range(nights)]
    for crate in sorted(sizes, key=lambda it: -sizes[it]):
        min(shares, key=lambda share: sum(sizes[it] for it in share)).append(crate)
    return shares[night % nights]
