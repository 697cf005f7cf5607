"""Records a run of the program in a machine: the list of writes and flushes that its disk receives."""

import json
import os
import pickle
import shutil
from dataclasses import asdict, dataclass, field

from .disk import Disk, Entry
from .file_systems import DEVICE, MARKER_DEVICE, MARKER_SIZE, make_disk
from .initramfs import LATE_SYNCS, program_path
from .machine import Gone, Machine, Maker, Refused
from .stores import NODES, STEPS_MADE, TOPOLOGY, TOPOLOGY_APART, store_of_version_1

LOAD_SECONDS = 3_000
STILL_MILLISECONDS = 1_500  # so that the file system writes what it wrote late
GROWTH = "growth"  # the scenario without the program
GROWN_BLOCKS = 16


@dataclass
class Run:
    """The parameters of a run. `scenario` is one of SCENARIOS. Without orders no server runs. If the nodes are apart, no order sends packets. With
    `has_late_syncs` a kill often finds unsynced writes. On a disk that was cut, `owed` and `signalled` are what was answered and
    signalled before the cut."""

    scenario: str
    kind: str
    options: str
    seed: int
    orders: int = 300
    kills: int = 0
    noise: bool = True
    is_apart: bool = False
    has_late_syncs: bool = False
    program: int = 0
    mutant: int | None = None
    store: str = "/mnt/store"
    owed: int = 0
    signalled: dict[str, int] = field(default_factory=dict)


class Failed(Exception):
    """A run did not end properly."""


def make_first(machine: Machine, run: Run) -> None:
    """A first run: `resetd init`, in a folder that was created just before and not synced."""
    machine.must("sync")
    machine.must("mark", "start")
    if os.path.dirname(run.store) != "/mnt":
        machine.must("mkdir", os.path.dirname(run.store))
    machine.must("run", 120, program_path(run.program), "init", run.store, "/topology")
    machine.must("mark", f"made|least {NODES if run.is_apart else STEPS_MADE}")


def migrate_first(machine: Machine, run: Run) -> None:
    """A first run: a store of version 1, and `resetd migrate`."""
    machine.put(run.store, store_of_version_1())
    machine.must("sync")
    machine.must("mark", f"made|least {STEPS_MADE}")
    machine.must("mark", "migrating")
    machine.must("run", 120, program_path(run.program), "migrate", run.store)
    machine.must("mark", "migrated")


def grow_first(machine: Machine, run: Run) -> None:
    """A first run: in place of a store, a file that grows to the ends of blocks, and is synced at each of them."""
    machine.put(run.store, b"")
    machine.must("sync")
    machine.must("mark", "growing")
    machine.must("grow", run.store, GROWN_BLOCKS)


def go_on(machine: Machine, run: Run) -> None:
    """A further run on a disk that was cut."""
    machine.must("run", 120, program_path(run.program), "check", run.store)


SCENARIOS = {"first": make_first, "migration": migrate_first, GROWTH: grow_first, "again": go_on}


def carry_out(machine: Machine, run: Run) -> str:
    """Carries out the run, and returns the results of the load. Raises Refused and Gone."""
    if run.mutant is not None:
        machine.must("variable", "MUTANT", run.mutant)
    if run.has_late_syncs:
        machine.must("variable", "LD_PRELOAD", LATE_SYNCS)
    machine.put("/topology", (TOPOLOGY_APART if run.is_apart else TOPOLOGY).encode())
    machine.must("marker", MARKER_DEVICE)
    if machine.must("get", "/sys/block/vda/queue/write_cache").strip() != b"write back":
        raise Refused("the machine does not see the disk's volatile cache")
    for name in ("dirty_writeback_centisecs", "dirty_expire_centisecs"):
        machine.must("set", f"/proc/sys/vm/{name}", "50")
    if run.scenario == "again":
        machine.must("mark", "mounting")
    machine.must("mount", DEVICE, run.kind, run.options)
    SCENARIOS[run.scenario](machine, run)
    load = (run.store, run.orders, run.seed, int(run.noise), run.kills, 1)
    said = machine.must("load", program_path(run.program), *load, seconds=LOAD_SECONDS) if run.orders else b"no orders"
    machine.must("sleep", STILL_MILLISECONDS)
    machine.must("unmount")
    return said.decode()


def with_markers(disk: Disk) -> list[Entry]:
    """Returns the disk's list, in which each write to the last partition is a marker."""
    is_marker = [entry[0] == "write" and entry[1] >= disk.size - MARKER_SIZE for entry in disk.log]
    return [("marker", entry[2].rstrip(b"\0").decode()) if is_one and entry[0] == "write" else entry
            for is_one, entry in zip(is_marker, disk.log)]


def record(make: Maker, folder: str, run: Run) -> str:
    """Carries out a run, and leaves its list in a folder, which in a further run already has the disk. Returns the results of
    the load. Raises Failed."""
    base = f"{folder}/base"
    if run.scenario != "again":
        shutil.rmtree(folder, ignore_errors=True)
        os.makedirs(folder)
        make_disk(base, run.kind)
    disk = Disk(base, is_recording=True)
    try:
        machine = make(disk)
    except Gone as gone:
        raise Failed(f"no machine: {gone}") from gone
    try:
        said = carry_out(machine, run)
    except (Gone, Refused) as fault:
        raise Failed(f"{run}: {fault}") from fault
    finally:
        machine.end()
    disk.is_recording = False
    save(folder, run, with_markers(disk))
    return said


def save(folder: str, run: Run, log: list[Entry]) -> None:
    with open(f"{folder}/log", "wb") as file:
        pickle.dump(log, file)
    with open(f"{folder}/run.json", "w", encoding="utf-8") as text:
        json.dump(asdict(run), text)


def load_run(folder: str) -> tuple[Run, list[Entry]]:
    """Loads a run from its folder."""
    with open(f"{folder}/run.json", encoding="utf-8") as text:
        run = Run(**json.load(text))
    with open(f"{folder}/log", "rb") as file:
        log: list[Entry] = pickle.load(file)
    return run, log
