"""Trials of stores that go back and of members that return, with the example services."""

import shutil
from collections.abc import Sequence

from .services import Trial, tag_in, tags_at
from .signal_trials import begin_first


def restore(trial: Trial) -> None:
    """Restores a store that was copied before two resets: one while service 3 was down, and one while all were down, which
    nobody has begun. Every service begins again, and later resets complete as before."""
    trial.services()
    trial.expect_begun("the services began")
    third = trial.helpers[-2:]
    trial.close()
    shutil.copy(trial.server.store, f"{trial.folder}/copy")
    trial.start()
    before = trial.times()
    trial.stop_helpers(*third)
    trial.reset()
    trial.expect_begun("a reset while service 3 is down", before, nodes=(1, 2))
    put_back(trial, before, up=(1, 2))
    shutil.copy(trial.server.store, f"{trial.folder}/copy")
    trial.start()
    before = trial.times()
    trial.stop_helpers()
    trial.reset()
    put_back(trial, before, up=())
    trial.start()
    trial.reset_all("the first reset after a restore", is_killed=True)
    trial.reset_all("the second reset after a restore")


def put_back(trial: Trial, before: dict[int, int], up: Sequence[int]) -> None:
    """By the commands of the page, with services that are up and others that are started after it; then a close."""
    trial.put_back(f"{trial.folder}/copy")
    trial.renew()
    for node in trial.nodes:
        if node not in up:
            trial.service(node)
    trial.expect_begun("the restored store", before)
    trial.close()


def again(trial: Trial) -> None:
    """A member is removed, added again and reset. It begins again, although it had begun that epoch before."""
    begin_first(trial)
    before = trial.times()
    for other in (1, 2):
        trial.order("drop", a=3, b=other)
    trial.order("remove", node=3)
    trial.order("add", node=3, group=1)
    for other in (1, 2):
        trial.order("join", a=3, b=other)
    trial.reset(is_killed=True)
    trial.expect_begun("the reset after node 3 was removed and added again", before)


def plain(trial: Trial) -> None:
    """A member in plain bash runs beside two behind a gateway: they begin together, and get one tag."""
    def up() -> None:
        trial.run("gateway", "1-2", 1, trial.address, f"{trial.folder}/gateway", "--signals",
                  trial.server.signals, "--look", 0.3, name="gateway")
        for node in (1, 2):
            trial.run("member", f"{trial.folder}/gateway/{node}", name=node)
        trial.run("plain_member", 3, *trial.tcp, f"{trial.folder}/3", name=3)

    def goes_on(what: str, before: dict[int, int] | None = None) -> None:
        trial.expect_begun(what, before)
        trial.expect(f"one run {what}", lambda: len(tags := {
            tag_in(f"{trial.folder}/3/run"), *tags_at(f"{trial.folder}/gateway")}) == 1 and tags != {""})
    up()
    goes_on("at first")
    trial.reset_all("a reset")
    trial.close()
    shutil.copy(trial.server.store, f"{trial.folder}/copy")
    trial.start()
    trial.reset_all("a reset with a kill in it", is_killed=True)
    goes_on("after it")
    before = trial.times()
    trial.stop_helpers()
    trial.put_back(f"{trial.folder}/copy")
    up()
    goes_on("after a restore", before)
    before = trial.times()
    for other in (1, 2):
        trial.order("drop", a=3, b=other)
    trial.order("remove", node=3)
    trial.order("add", node=3, group=1)
    trial.order("join", a=3, b=1)
    goes_on("after it was removed and added again", before)
    trial.stop_helpers()
    up()
    goes_on("after an end")
