"""A coordinator or a standby on one host: `serve`, started again and again like by examples/resetd-standby.service."""

import contextlib
import os
import subprocess

from .clients import Lost
from .network import Host, run, wait_for
from .volume import MOUNT

PORT, STORE, TURN, AGAIN = 4170, f"{MOUNT}/store", f"{MOUNT}/turn", 1
REFUSED = "3 resetd: Device"

# Only if the volume is mounted and has the file, because `serve` would create a missing one.
KEEP = r"""
store=$1 folder=$2 again=$3
shift 3
while :; do
  if [ -e "$folder/paused" ]; then
    : > "$folder/rests"
  elif [ -s "$store" ]; then
    "$@" >> "$folder/signals" 2> "$folder/error"
    status=$?
    echo "$status $(cat "$folder/error")" >> "$folder/ended"
    case $status in 1|2) exit;; esac
  fi
  sleep "$again"
done
"""

# The file is rewritten before it is opened to be served, so that the bytes that are read are not on one brick only
# (docs/TAKEOVER.md, "Why the unit rewrites the file"). No other host comes in between: it is not its turn.
TAKE_TURN = ["flock", "--no-fork", "--nonblock", "--conflict-exit-code", "3", TURN]
REWRITE_AND_SERVE = r"""
flock --nonblock "$1" dd if="$1" of="$1" bs=1M conv=notrunc,fsync status=none || exit 3
exec "$0" serve "$1" "$2"
"""


class Keeper:
    """The coordinator or standby. Its output is in files of its host, one list of lines over all its starts."""

    process: subprocess.Popen[bytes]

    def __init__(self, program: str, host: Host, rewrites: bool = True) -> None:
        self.program, self.host = program, host
        self.address = f"{host.address}:{PORT}"
        self.serve = [*TAKE_TURN, "sh", "-c", REWRITE_AND_SERVE, program, STORE, self.address] if rewrites else \
            [program, "serve", STORE, self.address]
        for name in ("signals", "ended", "error"):
            with open(self.path(name), "w", encoding="utf-8"):
                pass

    def path(self, name: str) -> str:
        return f"{self.host.folder}/{name}"

    def lines(self, name: str) -> list[str]:
        with open(self.path(name), encoding="utf-8") as file:
            text = file.read()
        return text[:text.rfind("\n") + 1].splitlines()

    def start(self) -> None:
        command = self.host.inside("sh", "-c", KEEP, "keeper", STORE, self.host.folder, str(AGAIN), *self.serve)
        self.process = subprocess.Popen(command, stdin=subprocess.DEVNULL)

    def pause(self) -> None:
        """Prevents further starts, until `go_on`. One that is under way goes on."""
        with contextlib.suppress(FileNotFoundError):
            os.remove(self.path("rests"))
        with open(self.path("paused"), "w", encoding="utf-8"):
            pass

    def wait_rests(self) -> None:
        """Waits until no start is under way, and none comes."""
        wait_for(f"a pause of {self.host.name}", lambda: os.path.exists(self.path("rests")))

    def go_on(self) -> None:
        os.remove(self.path("paused"))

    def wait_over(self) -> None:
        """Waits for the end of the process after the end of its host."""
        self.process.wait()

    def starts(self) -> int:
        """Returns how many times it came to listen."""
        return sum(line.startswith("listening ") for line in self.lines("signals"))

    def ends(self) -> list[str]:
        """Returns the status and the messages of each end."""
        return [line.strip() for line in self.lines("ended")]

    def gave_up(self) -> str | None:
        """Returns the end after which there is no further start, if there was one: the store was refused."""
        return next((end for end in self.ends() if end.split()[0] in ("1", "2")), None)

    def wait_refused(self) -> int:
        """Waits until a standby has tried to start, and was refused by a lock. Returns its status."""
        before = len(self.ends())
        wait_for(f"a start of the standby on {self.host.name}", lambda: len(self.ends()) > before)
        if self.ends()[-1] not in ("3", REFUSED):
            raise Lost(f"the standby on {self.host.name} ended with {self.ends()[-1]}")
        return 3

    def serve_by_hand(self) -> str:
        """Runs `serve` by hand while another host has the file: the lock of the file refuses it."""
        status, printed = self.command("serve", self.address)
        if f"{status} {printed.strip()}" != REFUSED:
            raise Lost(f"beside another coordinator, serve on {self.host.name} ended with {status}: {printed}")
        return REFUSED

    def command(self, name: str, *arguments: str) -> tuple[int, str]:
        """Runs another command of the program on the volume's file, on this host."""
        return self.host.run(self.program, name, STORE, *arguments, is_checked=False)


def look_into(program: str, held: bytes, folder: str) -> tuple[int, str, list[list[str]]]:
    """Returns the output of `check` and `show` for the bytes of a brick, on a copy."""
    path = os.path.join(folder, "copy")
    with open(path, "wb") as file:
        file.write(held)
    status, printed = run([program, "check", path], is_checked=False)
    _, shown = run([program, "show", path], is_checked=False)
    return status, printed.strip(), [line.split() for line in shown.splitlines() if line.startswith("node ")]
