"""The sixth part of the trial: the last byte of an order reaches only one brick, and is read there."""

import json
import os
import signal
import subprocess
import time

from .clients import Json
from .keeper import STORE, Keeper
from .network import STEP_TIMEOUT, Failed, Host, wait_for
from .trial import Trial, report

LOAD = 2  # seconds of orders after the byte
TRIES = 10

# Takes the place of a coordinator and appends one order as docs/FORMATS.md says, with the file's lock: the body after the closed
# gate, and a sync; then the gate. Before the gate is opened it is written unchanged, so that the volume has noted already that a
# write is in progress, and it waits for a line.
APPEND = r"""
import fcntl, json, os, struct, sys
order = json.loads(sys.argv[2])
file = os.open(sys.argv[1], os.O_RDWR)
fcntl.flock(file, fcntl.LOCK_EX | fcntl.LOCK_NB)
held = os.read(file, 1 << 26)
gate = 17 + held[0] % 2 * int.from_bytes(held[9:17], "big") + 1
while True:
    gate += 4 + int.from_bytes(held[gate:gate + 4], "big")
    if held[gate] == 0:
        break
    gate += 1
body = struct.pack(">QHBBQBB", order["step"], 1, 0, order["client"], order["number"], 4, order["node"])
os.pwrite(file, struct.pack(">I", len(body)) + body + b"\0", gate + 1)
os.fdatasync(file)
os.pwrite(file, b"\0", gate)
print(gate, flush=True)
sys.stdin.readline()
os.pwrite(file, b"\1", gate)
os.fdatasync(file)
"""


def write_half(trial: Trial) -> None:
    keeper = trial.serving()
    print(f"6. The last byte of an order reaches the brick of {keeper.host.name} alone, and the next start reads it "
          "there.", flush=True)
    _, view, _ = trial.wait_quiet()
    client, step = trial.load.clients[0], view["accepted"] + 1
    number = client.answered["number"] + 1 if client.answered else 1
    order = {"op": "reset", "client": client.number, "number": number, "node": 6}
    end_all(trial, keeper)
    trial.volume.set_healing(False)
    held = append_half(trial, keeper.host, {**order, "step": step})
    report(f"step {step} in the three bricks: {' '.join(held)}")
    keeper.go_on()
    client.unanswered = order
    reply = client.order("")
    if reply != {"kind": "started", "step": step}:
        raise Failed(f"the byte was not read: {order} was answered {reply}")
    trial.load.start()
    time.sleep(LOAD)
    trial.load.stop()
    trial.load.finish()
    report(f"{keeper.host.name} has read it, and continues from it: {len(trial.records.steps)} orders are answered now; "
           "then the bricks heal")
    trial.volume.set_healing(True)
    trial.other(keeper).go_on()
    trial.check()


def end_all(trial: Trial, keeper: Keeper) -> None:
    """Ends the standby and then the coordinator, and lets none start. The standby is first, since a start that is under way would
    take over at the close."""
    for each in (trial.other(keeper), keeper):
        each.pause()
        if each is keeper:
            trial.close()
        each.wait_rests()


def append_half(trial: Trial, host: Host, order: Json) -> list[str]:
    """Appends an order whose gate is opened in one brick alone. Returns the gate in each brick. A try fails if the bricks stop too
    late: after a second the volume no longer counts the write as in progress, and after four it has lost the bricks."""
    for _ in range(TRIES):
        held = try_append(trial, host, order)
        if sorted(held) != ["00", "00", "00"]:
            break
        report("(the bricks stopped too late, so the byte reached none of them; once more)")
    if sorted(held) != ["00", "00", "01"]:
        raise Failed(f"the gate in the bricks is {' '.join(held)}")
    return held


def try_append(trial: Trial, host: Host, order: Json) -> list[str]:
    """Stops the other two bricks just before the gate is opened, and restarts them. Returns the gate in each brick."""
    volume, others = trial.volume, [other for other in trial.hosts if other is not host]
    bricks = [other.number_outside(volume.present_brick(other)) for other in others]
    writer = subprocess.Popen(host.inside("python3", "-c", APPEND, STORE, json.dumps(order)), encoding="utf-8",
                              stdin=subprocess.PIPE, stdout=subprocess.PIPE, stderr=subprocess.PIPE)
    assert writer.stdin and writer.stdout and writer.stderr
    line = writer.stdout.readline()
    if not line:
        raise Failed(f"the append ended before the gate: {writer.stderr.read()}")
    gate = int(line)
    volume.freeze_bricks(bricks)
    writer.stdin.write("\n")
    writer.stdin.flush()
    mine = trial.hosts.index(host)
    wait_for("the byte in one brick", lambda: volume.bytes()[mine][gate] == 1 or writer.poll() is not None)
    for brick in bricks:
        os.kill(brick, signal.SIGKILL)
    if writer.wait(STEP_TIMEOUT) == 0:
        raise Failed("the byte reached another brick")
    for other in others:
        volume.start_brick(other)
    for keeper in trial.keepers:
        wait_for(f"{keeper.host.name}: all bricks", lambda: volume.is_connected(keeper.host), 0.2)
    return [f"{held[gate]:02x}" for held in volume.bytes()]
