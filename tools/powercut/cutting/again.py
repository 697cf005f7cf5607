"""A further run: a disk that was cut is used again, and must still have everything that was answered before the cut."""

import dataclasses
import os
import random
import shutil
import subprocess

from .cuts import Cut, Moment, moments
from .disk import SECTOR, Sectors
from .recording import load_run, save

WAYS = ("prefix", "subset", "stale", "but")
UNIT = 4_096


def put(path: str, sectors: Sectors) -> None:
    with open(path, "r+b") as file:
        for number, data in sectors.items():
            file.seek(SECTOR * number)
            file.write(data)


def cut_disk(folder: str, new: str, seed: int) -> None:
    """Creates a folder with a disk as a cut of the run in `folder` may leave it, in its last three quarters."""
    choice, (run, log) = random.Random(seed), load_run(folder)
    places = [moment.place for moment in moments(log) if moment.answered]
    place = choice.choice(places[len(places) // 4:])
    shutil.rmtree(new, ignore_errors=True)
    os.makedirs(new)
    subprocess.run(["cp", "--sparse=always", f"{folder}/base", f"{new}/base"], check=True)
    moment = Moment()
    for moment in moments(log):
        put(f"{new}/base", moment.newly_durable)
        if moment.place == place:
            break
    put(f"{new}/base", Cut(choice, UNIT).leave(choice.choice(WAYS), moment.volatile))
    signalled = {str(node): epoch for node, epoch in moment.signalled.items()}
    signalled = {node: max(signalled.get(node, 0), run.signalled.get(node, 0)) for node in {**signalled, **run.signalled}}
    again = dataclasses.replace(run, scenario="again", owed=max(run.owed, moment.answered), signalled=signalled)
    save(new, again, [])
