"""The whole trial of one file system: its runs, their images, and the controls, each of which has to find something."""

import dataclasses
import os
from collections.abc import Callable
from functools import partial
from typing import Any

from .file_systems import FileSystem
from .judging import Judge, Places, Tally
from .again import cut_disk
from .machine import MACHINES, Maker
from .recording import GROWTH, Run, load_run, record

WITHOUT_BARRIER = "barrier_left_out"
MUTANTS = ("body_not_synced", "gate_not_synced", WITHOUT_BARRIER)
TRIES = 4  # seeds with which a control is tried until it finds something
# A run in which many kills find unsynced writes. It is cut as soon as an answer after a kill was read. No packet is in transit
# then, because its step would sync the file before that answer.
KILLS: dict[str, Any] = {"orders": 120, "kills": 20, "noise": False, "is_apart": True, "has_late_syncs": True}
KILLED = Places(("killed",), is_at_markers=True)
GROWING = Places(("growing",))


@dataclasses.dataclass
class Setting:
    """The common settings of the trials of all file systems. `wrong` is a program that has MUTANTS to choose from."""

    work: str
    program: str
    wrong: str | None
    images: int
    orders: int
    seed: int
    machine: str = "user"
    wrong_machine: str = "user"


class Trial:
    """The trial of one file system, in its own folder."""

    def __init__(self, setting: Setting, file_system: FileSystem) -> None:
        self._setting, self._of = setting, file_system
        self._folder = f"{setting.work}/runs/{file_system.name}"
        self.tally, self.controls = Tally(), dict[str, str]()

    def _make(self, machine: str) -> Maker:
        return lambda disk: MACHINES[machine](self._setting.work, disk)

    def _run(self, scenario: str = "first", **values: Any) -> Run:
        """Returns a run of this file system, with these fields changed."""
        run = Run(scenario, self._of.kind, self._of.options, self._setting.seed, self._setting.orders)
        return dataclasses.replace(run, **values)

    def _report(self, text: str) -> None:
        print(f"{self._of.name}: {text}", flush=True)

    def _record(self, name: str, run: Run, machine: str | None = None) -> str:
        """Carries a run out, and returns its folder."""
        said = record(self._make(machine or self._setting.machine), f"{self._folder}/{name}", run)
        self._report(f"{name}: {said}")
        return f"{self._folder}/{name}"

    def _judge(self, folder: str, share: int, seed: int, places: Places = Places()) -> None:
        """Judges images / share images of a run, and adds the outcomes."""
        judge = Judge(self._make(self._setting.machine), folder, self._setting.program)
        tally = judge.judge(self._setting.images // share, self._setting.seed + seed, places)
        where = "near checkpoints" if places.is_near_checkpoints else ", ".join(places.phases) or "anywhere"
        self._report(f"{os.path.basename(folder)}, {where}: {dict(tally.images)} images, refused {dict(tally.refused)}, lost {dict(tally.lost)}, {dict(tally.kinds)}")
        for line in tally.messages:
            self._report(f"  {line}")
        self.tally.add(tally)

    def judge_runs(self) -> None:
        """Judges each run, cut at any moment, near the ends of checkpoints, and while a command creates or migrates a store."""
        seed = self._setting.seed
        last = self._record("server", self._run(kills=3))
        self._judge(last, 2, 1)
        self._judge(last, 8, 2, Places(is_near_checkpoints=True))
        self._judge(last, 8, 3, Places(("start",)))
        self._judge(self._record("kills", self._run(**KILLS)), 16, 4, KILLED)
        migration = self._record("migration", self._run("migration", orders=20))
        self._judge(migration, 8, 5, Places(("migrating", "migrated")))
        self._judge(self._record("folder", self._run(orders=4, noise=False, store="/mnt/folder/store")), 16, 6)
        self._judge(self._record(GROWTH, self._run(GROWTH, orders=0)), 16, 7, GROWING)
        for number in (2, 3):
            again = f"{self._folder}/server{number}"
            cut_disk(last, again, seed + number)
            run, _ = load_run(again)
            last = self._record(f"server{number}", dataclasses.replace(run, orders=self._setting.orders // 2, seed=seed + 10 * number))
            self._judge(last, 8, 6 + number)

    def judge_controls(self) -> None:
        """Judges each control until it finds something, or was tried with all seeds."""
        first = f"{self._folder}/server"
        self._control("a disk that ignores flushes", lambda seed: self._finds(first, seed, has_flushes=False))
        if self._of.no_barrier is None:
            self.controls["no flushes"] = f"not tried: {self._of.kind} has no option to send none"
        else:
            self._control("no flushes", self._without_flushes)
        for name, lossy in self._of.lossy.items():
            self._control(name, partial(self._with_options, name.replace(" ", "-"), lossy))
        for number, name in enumerate(MUTANTS, 1) if self._setting.wrong is not None else ():
            if name in self._of.harmless:
                self.controls[name] = f"not tried: {self._of.harmless[name]}"
            else:
                self._control(name, partial(self._of_mutant, number, self._of.options))
            if options := self._of.harmful_with.get(name):
                self._control(f"{name} with {options}", partial(self._of_mutant, number, options))

    def _control(self, name: str, finds: Callable[[int], str | None]) -> None:
        for each in range(TRIES):
            if found := finds(self._setting.seed + 100 * each):
                self.controls[name] = "caught"
                self._report(f"control {name}: caught: {found}")
                return
        self.controls[name] = "NOT CAUGHT"
        self._report(f"control {name}: NOT CAUGHT")

    def _finds(self, folder: str, seed: int, places: Places = Places(), has_flushes: bool = True) -> str | None:
        """Returns the first fault of a run, or None."""
        judge = Judge(self._make(self._setting.machine), folder, self._setting.program, has_flushes)
        tally = judge.judge(max(50, self._setting.images // 8), seed, places, is_until_fault=True)
        return tally.faults[0] if tally.faults else None

    def _without_flushes(self, seed: int) -> str | None:
        run = self._run(seed=seed, orders=self._setting.orders // 2, options=self._of.no_barrier)
        return self._finds(self._record("no-flushes", run), seed)

    def _with_options(self, name: str, options: str, seed: int) -> str | None:
        """Tries other mount options: for a file that grows, and for the unchanged program in a run in which many kills find unsynced writes."""
        growth = self._record(f"{name}-{GROWTH}", self._run(GROWTH, seed=seed, options=options, orders=0))
        if found := self._finds(growth, seed, GROWING):
            return found
        return self._finds(self._record(name, self._run(seed=seed, options=options, **KILLS)), seed, KILLED)

    def _of_mutant(self, number: int, options: str, seed: int) -> str | None:
        """Tries a mutant. The barrier at a start matters only if a kill has left unsynced bytes."""
        name = MUTANTS[number - 1]
        values, places = (KILLS, KILLED) if name == WITHOUT_BARRIER else ({"orders": 40, "noise": False}, Places())
        folder = self._record(name, self._run(seed=seed, options=options, program=1, mutant=number, **values), self._setting.wrong_machine)
        return self._finds(folder, seed, places)
