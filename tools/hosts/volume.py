"""The replicated volume: created on three hosts, mounted on each, and inspected at its bricks."""

import glob
import hashlib
import os
import signal

from .clients import Lost
from .network import STEP_TIMEOUT, Failed, Host, wait_for

NAME, BRICK, MOUNT = "resetd", "/srv/brick/resetd", "/srv/resetd"
# Without direct I/O a host that served before reads the file's old pages from its own page cache.
DIRECT, FRESH = "direct-io-mode=enable", "attribute-timeout=0,entry-timeout=0"
STRICT_LOCKS = "client.strict-locks"

# docs/TAKEOVER.md gives the reason for each.
OPTIONS = {
    # the volume has the file's lock, and a client that lost it can't continue
    STRICT_LOCKS: "on",
    # a write needs two of three bricks
    "cluster.quorum-type": "auto",
    # no answer before the bricks have the data, no read that a cache answers
    "performance.write-behind": "off",
    "performance.open-behind": "off",
    "performance.quick-read": "off",
    "performance.io-cache": "off",
    "performance.read-ahead": "off",
    "performance.stat-prefetch": "off",
    # how soon a lost host is noticed
    "network.ping-timeout": "4",
    "client.tcp-user-timeout": "4",
    "server.tcp-user-timeout": "4",
    "client.keepalive-time": "2",
    "client.keepalive-interval": "1",
    "client.keepalive-count": "2",
    "server.keepalive-time": "2",
    "server.keepalive-interval": "1",
    "server.keepalive-count": "2",
    # how soon a brick that was away is checked
    "cluster.heal-timeout": "5",
}


class Volume:
    def __init__(self, hosts: list[Host], options: dict[str, str], mount_options: str) -> None:
        self.hosts, self.options, self.mount_options = hosts, dict(options), mount_options

    def gluster(self, host: Host, *arguments: str, is_checked: bool = True) -> tuple[int, str]:
        return host.run("gluster", "--mode=script", *arguments, is_checked=is_checked)

    def make(self) -> None:
        """Creates the volume on hosts that are on: glusterd on each, one pool, the volume with its options, mounted on each."""
        first = self.hosts[0]
        for host in self.hosts:
            self.manage(host)
        for host in self.hosts[1:]:
            self.gluster(first, "peer", "probe", host.name)
        self.wait_peers(first)
        bricks = [f"{host.name}:{BRICK}" for host in self.hosts]
        self.gluster(first, "volume", "create", NAME, "replica", "3", *bricks, "force")
        for option, value in self.options.items():
            if value:
                self.gluster(first, "volume", "set", NAME, option, value)
        self.gluster(first, "volume", "start", NAME)
        for host in self.hosts:
            self.mount(host)

    def manage(self, host: Host) -> None:
        host.run("glusterd")
        wait_for(f"glusterd of {host.name}",
                 lambda: self.gluster(host, "--timeout=5", "pool", "list", is_checked=False)[0] == 0)

    def wait_peers(self, host: Host) -> None:
        wait_for("the hosts of the pool",
                 lambda: self.gluster(host, "pool", "list", is_checked=False)[1].count("Connected") == len(self.hosts))

    def mount(self, host: Host, is_checked: bool = True) -> bool:
        """Mounts the volume. Returns whether it is mounted now."""
        command = ["mount", "-t", "glusterfs", "-o", self.mount_options, f"{host.name}:/{NAME}", MOUNT]
        return host.run(*command, is_checked=is_checked)[0] == 0

    def join(self, host: Host) -> None:
        """Rejoins a host that was switched on again: its glusterd starts its brick, and the volume is mounted."""
        self.manage(host)
        wait_for(f"the brick of {host.name}", lambda: self.brick_process(host) is not None)
        wait_for(f"the volume on {host.name}", lambda: self.mount(host, is_checked=False), 0.5)

    def brick_process(self, host: Host) -> str | None:
        """Returns the number of the brick's process on its host, or None if there is none."""
        _, printed = host.run("sh", "-c", "cat /run/gluster/vols/*/*.pid", is_checked=False)
        number = printed.strip()
        is_there = number.isdigit() and host.run("kill", "-0", number, is_checked=False)[0] == 0
        return number if is_there else None

    def present_brick(self, host: Host) -> str:
        """Like `brick_process`, for a brick that must be running."""
        number = self.brick_process(host)
        if number is None:
            raise Failed(f"{host.name} has no brick")
        return number

    def kill_brick(self, host: Host) -> None:
        host.run("kill", "-9", self.present_brick(host))

    def freeze_bricks(self, bricks: list[int]) -> None:
        """Stops bricks, by their numbers outside their hosts, from processing messages. Their threads stop some time after the
        signal; that is waited for."""
        for number in bricks:
            os.kill(number, signal.SIGSTOP)
        wait_for("the bricks to stop", lambda: all(map(is_frozen, bricks)), 0.001)

    def set_healing(self, is_on: bool) -> None:
        """Sets whether bricks are checked for writes that they owe another one."""
        self.gluster(self.hosts[0], "volume", "set", NAME, "cluster.self-heal-daemon", "on" if is_on else "off")

    def start_brick(self, host: Host) -> None:
        self.gluster(host, "volume", "start", NAME, "force")
        wait_for(f"the brick of {host.name}", lambda: self.brick_process(host) is not None)

    def is_connected(self, host: Host) -> bool:
        """Returns whether the volume's client on a host has all three bricks. After a loss it looks for them every 3 s."""
        _, printed = host.run("sh", "-c", f"cat {MOUNT}/.meta/graphs/active/{NAME}-client-*/private", is_checked=False)
        return printed.count("connected = 1") == len(self.hosts)

    def is_healed(self, host: Host) -> bool:
        """Returns whether all three bricks are running and none owes another one a write."""
        status, printed = self.gluster(host, "volume", "heal", NAME, "info", is_checked=False)
        return status == 0 and printed.count("Number of entries: 0") == len(self.hosts)

    def wait_healed(self, host: Host) -> tuple[bytes, float]:
        """Waits until no brick owes another one a write and all have the same bytes. Returns these bytes, and the seconds that
        it took. The bytes are compared too, because a write of the last second may not be in the bricks' lists yet."""
        try:
            took = wait_for("healing", lambda: self.is_healed(host) and len(set(self.bytes())) == 1, 0.5)
        except Failed as late:
            digests = ", ".join(f"{host.name} {hashlib.sha256(held).hexdigest()[:12]}"
                                for host, held in zip(self.hosts, self.bytes()))
            raise Lost(f"the bricks still differ, or have writes to heal, after {STEP_TIMEOUT} s: {digests}") from late
        return self.bytes()[0], took

    def bytes(self, name: str = "store") -> list[bytes]:
        """Returns the content of a file of the volume in each brick, read from its host's disk."""
        held = []
        for host in self.hosts:
            with open(f"{host.folder}{BRICK}/{name}", "rb") as file:
                held.append(file.read())
        return held


def is_frozen(number: int) -> bool:
    """Returns whether each thread of a process has stopped."""
    states = set[str]()
    for path in glob.glob(f"/proc/{number}/task/*/stat"):
        with open(path, encoding="utf-8") as file:
            states.add(file.read().rsplit(") ", 1)[-1][:1])
    return states == {"T"}
