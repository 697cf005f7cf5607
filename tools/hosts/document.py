"""The commands of docs/TAKEOVER.md, "To set it up", typed on three machines under systemd.

Each block of commands follows a line that says on which hosts they are typed. Packages are not installed again: the three
machines have those of this one. The takeover that the commands prepare is tried after them.
"""

import os
import re
import time

from .clients import Away, Json, Lost, ask
from .network import Failed, Host, make_switch, run, wait_for
from .pulse import Pulse
from .trial import QUICK, report

ROOT = os.path.dirname(os.path.dirname(os.path.dirname(os.path.abspath(__file__))))
SECTION = "## To set it up"
TYPED = re.compile(r"^On (?P<hosts>[^\n:]*):\n\n```\n(?P<commands>.*?)\n```$", re.MULTILINE | re.DOTALL)
ON = {"each of the three hosts": (1, 2, 3), "host1": (1,), "host1 and host2": (1, 2)}
PORT = "127.0.0.1:4170"
GROUPS = "groups"

# A separate machine: this one's files below a layer that keeps the changes, and systemd as its first process.
BOOT = r"""
set -e
hostname "$1"
root="$2/root"
mkdir -p "$root" "$2/layer/upper" "$2/layer/work" "$2/layer/brick"
mount -t overlay -o "lowerdir=/,upperdir=$2/layer/upper,workdir=$2/layer/work" overlay "$root"
for place in dev sys; do mount --rbind "/$place" "$root/$place"; done
mount -t proc proc "$root/proc"
mount -t tmpfs -o mode=755 run "$root/run"
mount -t tmpfs tmp "$root/tmp"
mkdir -p "$root/$5"
mount --bind "$5" "$root/$5"
cat "$2/../names" > "$root/etc/hosts"
if [ ! -e "$root/etc/prepared" ]; then
  touch "$root/etc/prepared"
  rm -rf "$root"/etc/systemd/system/*.wants "$root"/var/lib/glusterd
  : > "$root/etc/fstab"
fi
mkdir -p "$root/srv/brick" "$root/old"
mount --bind "$2/layer/brick" "$root/srv/brick"
ip link set lo up
echo up
read linked
ip address add "$3/24" dev eth0
ip link set eth0 up
echo linked
cd "$root"
pivot_root . old
umount -R /sys/fs/cgroup || true
mount -t cgroup2 none /sys/fs/cgroup
umount -l /old
container=other exec /lib/systemd/systemd --system --unit=multi-user.target > /dev/null 2>&1
"""


class Machine(Host):
    def __init__(self, number: int, folder: str, program: str) -> None:
        super().__init__(number, folder)
        os.makedirs(f"{self.folder}/layer")
        run(["mount", "-t", "tmpfs", "layer", f"{self.folder}/layer"])
        run(["install", "-D", "-m", "755", program, f"{self.folder}/layer/upper/usr/local/bin/resetd"])
        self.group = f"{folder}/{GROUPS}/{os.path.basename(folder)}/{self.name}"

    def boot(self) -> None:
        os.makedirs(self.group, exist_ok=True)
        self.boot_by(BOOT, ROOT, group=self.group)
        try:
            wait_for(f"systemd of {self.name}", self.is_up, 0.5)
        except Failed as late:
            _, jobs = self.run("systemctl", "list-jobs", "--no-pager", is_checked=False)
            raise Failed(f"{late}:\n{jobs}") from late

    def is_up(self) -> bool:
        _, output = self.run("systemctl", "is-system-running", is_checked=False)
        return output.strip() in ("running", "degraded")

    def unit(self, property_: str) -> str:
        """Returns the properties that systemd has for the coordinator's unit."""
        return self.run("systemctl", "show", "--value", "-p", property_, "resetd", is_checked=False)[1].strip()

    def listens(self) -> bool:
        try:
            return "nodes" in ask(self, PORT, {"op": "show"})
        except Away:
            return False


def blocks() -> list[tuple[tuple[int, ...], str]]:
    """Yields the hosts and the commands of each block, in order."""
    with open(f"{ROOT}/docs/TAKEOVER.md", encoding="utf-8") as file:
        section = file.read().split(SECTION + "\n")[1].split("\n## ")[0]
    return [(ON[met["hosts"]], met["commands"]) for met in TYPED.finditer(section)]


def try_commands(program: str, folder: str) -> None:
    """Types the commands, and then loses the host that serves."""
    make_switch(folder)
    os.makedirs(f"{folder}/{GROUPS}")
    run(["mount", "-t", "cgroup2", "groups", f"{folder}/{GROUPS}"])
    machines = [Machine(number, folder, program) for number in (1, 2, 3)]
    for machine in machines:
        machine.boot()
    for numbers, commands in blocks():
        typed = [line for line in commands.splitlines() if not line.startswith("apt-get ")]
        for number in numbers:
            machines[number - 1].run("sh", "-ec", f"cd {ROOT}\n" + "\n".join(typed))
        where = " ".join(machines[number - 1].name for number in numbers)
        print(f"on {where}:\n    " + "\n    ".join(typed), flush=True)
    print()
    lose_one(machines[:2])


def wait_standby(machine: Machine) -> float:
    """Waits until the unit has tried to start, and was refused by the lock."""
    try:
        return wait_for("a refused start", lambda: machine.unit("ExecMainStatus") == "3", 0.5)
    except Failed as late:
        _, output = machine.run("systemctl", "status", "--no-pager", "--lines=5", "resetd", "srv-resetd.mount",
                                "glusterd", is_checked=False)
        raise Failed(f"{late}; on {machine.name}:\n{output}") from late


def check_held_in(machine: Machine) -> None:
    """Checks with the kernel that the process is denied what its unit denies."""
    _, output = machine.run("sh", "-c", "cat /proc/$(systemctl show --value -p MainPID resetd)/status")
    status = dict(line.split(":\t", 1) for line in output.splitlines() if ":\t" in line)
    if (int(status["CapBnd"], 16), status["NoNewPrivs"], status["Seccomp"]) != (0, "1", "2"):
        raise Lost(f"the unit of {machine.name} does not hold its process in: {output}")


def lose_one(machines: list[Machine]) -> None:
    wait_for("a coordinator", lambda: any(machine.listens() for machine in machines))
    first = next(machine for machine in machines if machine.listens())
    second = next(machine for machine in machines if machine is not first)
    check_held_in(first)
    wait_standby(second)
    order: Json = {"op": "reset", "client": 1, "number": 1, "node": 3}
    reply = ask(first, PORT, order)
    report(f"{first.name} serves: {reply}; the unit of {second.name} was refused, status 3")
    pulse = Pulse()
    first.kill()
    killed = time.monotonic()
    wait_for("another coordinator", second.listens)
    took = time.monotonic() - killed
    if ask(second, PORT, order) != reply or pulse.seconds(killed, killed + took) > QUICK:
        raise Lost(f"{second.name} answered {ask(second, PORT, order)} after {took:.1f} s")
    report(f"the whole machine {first.name} was killed; {second.name} answered after {took:.1f} s, and gave the same reply to the same order")
    first.boot()
    wait_standby(first)
    report(f"{first.name} is switched on again, and is a standby now")
    late_mount(first)
    ask(second, PORT, {"op": "close"})
    wait_for("a start after the close", lambda: any(machine.listens() for machine in machines))
    report(f"a close to {second.name}: {next(m for m in machines if m.listens()).name} serves")


def late_mount(machine: Machine) -> None:
    """Tries a standby whose volume is mounted late: nothing is created in its place."""
    machine.run("sh", "-c", "systemctl mask --runtime --now srv-resetd.mount; mountpoint /srv/resetd", is_checked=False)
    before = int(machine.unit("NRestarts"))
    wait_for("tries without a mount", lambda: int(machine.unit("NRestarts")) > before + 2)
    _, there = machine.run("ls", "-A", "/srv/resetd")
    if there:
        raise Lost(f"without the volume {machine.name} made {there}")
    machine.run("systemctl", "unmask", "--runtime", "srv-resetd.mount")
    wait_for("the mount", lambda: machine.run("mountpoint", "-q", "/srv/resetd", is_checked=False)[0] == 0, 0.5)
    wait_standby(machine)
    report(f"without its mount the unit of {machine.name} tried again and made no file; it mounted the volume late")
