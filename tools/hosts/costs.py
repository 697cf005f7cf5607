"""Measures the cost of an order on the volume, compared with a raw write and sync on it."""

import time
from collections.abc import Iterable

from .clients import Client
from .trial import Trial, report
from .volume import MOUNT

COUNT = 200
RAW = r"""
import os, sys, time
file = os.open(sys.argv[1], os.O_RDWR | os.O_CREAT)
for place in range(int(sys.argv[2])):
    begun = time.monotonic()
    os.pwrite(file, bytes(512), place * 512)
    os.fdatasync(file)
    print(time.monotonic() - begun)
os.remove(sys.argv[1])
"""

LARGE = 65536
# Prints the nanoseconds of the work that a start does before it serves, for a file of some length.
REWRITE = r"""
head -c "$2" /dev/zero > "$1"
for time in $(seq "$3"); do
  begun=$(date +%s%N)
  dd if="$1" of="$1" bs=1M conv=notrunc,fsync status=none
  echo $(($(date +%s%N) - begun))
done
rm "$1"
"""


def half_and_most(seconds: Iterable[float]) -> tuple[float, float]:
    ordered = sorted(seconds)
    return ordered[len(ordered) // 2] * 1000, ordered[len(ordered) * 99 // 100] * 1000


def measure(trial: Trial) -> None:
    """Measures resets of a member without links, each of which is one step, from the coordinator's own host and from another
    one; and pairs of a write of 512 bytes and a sync by a program on the coordinator's host."""
    print(f"What an order costs, {COUNT} of each, one after the other:", flush=True)
    host = trial.present.host
    client = trial.load.clients[0]
    client.order("add", node=60, group=1)
    _, printed = host.run("python3", "-c", RAW, f"{MOUNT}/raw", str(COUNT))
    raw = half_and_most(map(float, printed.split()))
    disk = half_and_most(map(float, host.run("python3", "-c", RAW, "/srv/raw", str(COUNT))[1].split()))
    report(f"a write and a sync on the host's own disk     half {disk[0]:.2f} ms, 99 of 100 {disk[1]:.2f} ms")
    report(f"a write and a sync on the volume              half {raw[0]:.2f} ms, 99 of 100 {raw[1]:.2f} ms")
    _, printed = host.run("sh", "-c", REWRITE, "rewrite", f"{MOUNT}/raw", str(LARGE), str(COUNT // 10))
    half, most = half_and_most(float(line) / 1e9 for line in printed.split())
    report(f"{LARGE} bytes on it written over themselves   half {half:.2f} ms, the longest {most:.2f} ms")
    usual = trial.site.host
    for name, asker in (("the same host", host), ("another host", usual)):
        trial.site.host = asker
        half, most = half_and_most([time_order(client) for _ in range(COUNT)])
        report(f"an order, from {name:31s}half {half:.2f} ms, 99 of 100 {most:.2f} ms; {half / raw[0]:.1f} raw pairs")
    trial.site.host = usual
    client.order("remove", node=60)
    print()


def time_order(client: Client) -> float:
    begun = time.monotonic()
    client.order("reset", node=60)
    return time.monotonic() - begun
