"""A virtual machine over a disk: QEMU, or Linux as a process."""

import os
import re
import select
import shutil
import signal
import socket
import subprocess
import tempfile
import time
from collections.abc import Callable

from . import nbd
from .disk import Disk

BOOT_SECONDS = 300
QEMU_MEMORY, USER_MEMORY = "384", "256M"
COMMAND_LINE = "console=ttyS0 panic=-1 oops=panic quiet loglevel=4 mitigations=off no_timer_check rdinit=/init"


class Gone(Exception):
    """The machine does not answer. The text is the last output of its console."""


class Refused(Exception):
    """The machine did not do what it was asked to do."""


class Machine:
    """The common part of both machines: an agent at the other end of a socket, which takes an order and answers it."""

    def __init__(self, work: str, disk: Disk) -> None:
        """Boots the machine with the files in WORK, over a disk. Raises Gone and Refused."""
        self.folder = tempfile.mkdtemp(prefix="powercut-")
        self.console = f"{self.folder}/console"
        self._processes = list[subprocess.Popen[bytes]]()
        self._buffer = b""
        try:
            nbd.serve(disk, f"{self.folder}/disk")
            self._socket = self._boot(work)
            self._await_agent()
            self._prepare()
        except BaseException:
            self._end_processes()
            raise

    def _boot(self, work: str) -> socket.socket:
        """Starts the processes. Returns the socket at whose other end the agent will be. Raises Gone."""
        raise NotImplementedError

    def _prepare(self) -> None:
        """Prepares the agent. Raises Gone and Refused."""

    def _start(self, *command: str, files: tuple[int, ...] = (), output: str | None = None) -> None:
        with open(output or os.devnull, "ab") as out:
            self._processes.append(subprocess.Popen(["nice", "-n", "10", *command], stdin=subprocess.DEVNULL, stdout=out, stderr=out,
                                                    pass_fds=files, start_new_session=True, env={**os.environ, "TMPDIR": self.folder}))

    def _await_agent(self) -> None:
        until = time.monotonic() + BOOT_SECONDS
        while self._line(until) != "agent":
            pass

    def ask(self, *fields: object, data: bytes = b"", seconds: float = 300) -> tuple[int, bytes, bytes]:
        """Gives an order. Returns its status, its output, and its error output. Raises Gone."""
        until = time.monotonic() + seconds
        try:
            self._socket.sendall("\t".join(map(str, fields)).encode() + b"\n" + data)
        except OSError as fault:
            raise Gone(f"{fault}: {self.last_output()}") from fault
        head = re.fullmatch(r"R (\d+) (\d+) (\d+)", self._line(until))
        if not head:
            raise Gone(f"no answer: {self.last_output()}")
        status, printed, errors = map(int, head.groups())
        while len(self._buffer) < printed + errors:
            self._fill(until)
        out, self._buffer = self._buffer[:printed + errors], self._buffer[printed + errors:]
        return status, out[:printed], out[printed:]

    def must(self, *fields: object, data: bytes = b"", seconds: float = 300) -> bytes:
        """Gives an order that has to succeed. Returns its output. Raises Gone and Refused."""
        status, printed, errors = self.ask(*fields, data=data, seconds=seconds)
        if status:
            raise Refused(f"{' '.join(map(str, fields[:4]))}: {status} {(printed + errors)[-2000:].decode(errors='replace')}")
        return printed

    def put(self, path: str, data: bytes) -> None:
        self.must("put", path, len(data), data=data)

    def last_output(self) -> str:
        with open(self.console, errors="replace") as file:
            return file.read()[-2000:]

    def end(self) -> None:
        self._end_processes()
        self._socket.close()

    def _end_processes(self) -> None:
        """Kills all started processes by signal 9."""
        for process in self._processes:
            os.killpg(process.pid, signal.SIGKILL) if process.poll() is None else None
            process.wait()
        shutil.rmtree(self.folder, ignore_errors=True)

    def _fill(self, until: float) -> None:
        left = until - time.monotonic()
        if left <= 0 or not select.select([self._socket], [], [], left)[0]:
            raise Gone(f"it is silent: {self.last_output()}")
        more = self._socket.recv(1 << 20)
        if not more:
            raise Gone(f"it has ended: {self.last_output()}")
        self._buffer += more

    def _line(self, until: float) -> str:
        while b"\n" not in self._buffer:
            self._fill(until)
        line, self._buffer = self._buffer.split(b"\n", 1)
        return line.decode(errors="replace").strip("\r")


class Qemu(Machine):
    """QEMU with Debian's kernel, emulated in software unless POWERCUT_ACCEL names another accelerator (kvm)."""

    def _boot(self, work: str) -> socket.socket:
        listener = socket.socket(socket.AF_UNIX)
        listener.bind(f"{self.folder}/control")
        listener.listen(1)
        listener.settimeout(60)
        kernel = next(f"{work}/kernel/boot/{name}" for name in os.listdir(f"{work}/kernel/boot") if name.startswith("vmlinuz"))
        self._start("qemu-system-x86_64", "-accel", os.environ.get("POWERCUT_ACCEL", "tcg,thread=single,tb-size=256"), "-cpu", "max", "-m",
                    QEMU_MEMORY, "-smp", "1", "-display", "none", "-nodefaults", "-no-reboot", "-serial", f"file:{self.console}", "-kernel",
                    kernel, "-initrd", f"{work}/initrd", "-append", COMMAND_LINE, "-chardev", f"socket,id=c,path={self.folder}/control",
                    "-device", "virtio-serial-pci", "-device", "virtserialport,chardev=c,name=c", "-blockdev",
                    f"driver=nbd,node-name=d,server.type=unix,server.path={self.folder}/disk", "-device",
                    "virtio-blk-pci,drive=d,write-cache=on", output=f"{self.folder}/qemu")
        try:
            return listener.accept()[0]
        except TimeoutError as late:
            with open(f"{self.folder}/qemu", encoding="utf-8") as said:
                raise Gone(said.read()) from late


class UserModeLinux(Machine):
    """Linux as a process; qemu-storage-daemon serves its virtio disk. It is about ten times as fast as QEMU in software. It
    can't run a program with AddressSanitizer, because it has fewer addresses."""

    def _boot(self, work: str) -> socket.socket:
        self._start("qemu-storage-daemon", "--blockdev", f"driver=nbd,node-name=d,server.type=unix,server.path={self.folder}/disk", "--export",
                    f"type=vhost-user-blk,id=e,node-name=d,addr.type=unix,addr.path={self.folder}/virtio,writable=on")
        until = time.monotonic() + 60
        while not os.path.exists(f"{self.folder}/virtio"):
            if time.monotonic() > until:
                raise Gone("qemu-storage-daemon serves nothing")
            time.sleep(0.02)
        here, other = socket.socketpair()
        self._start(f"{work}/user/usr/bin/linux.uml", f"mem={USER_MEMORY}", f"initrd={work}/user-initrd",
                    f"virtio_uml.device={self.folder}/virtio:2", "con=null", "con0=fd:0,fd:1", f"ssl0=fd:{other.fileno()},fd:{other.fileno()}",
                    "rdinit=/init", "panic=-1", "quiet", f"uml_dir={self.folder}/", files=(other.fileno(),), output=self.console)
        other.close()
        return here

    def _prepare(self) -> None:
        self.must("set", "/sys/block/vda/cache_type", "write back")


# Makes a machine over a disk.
Maker = Callable[[Disk], Machine]
MACHINES: dict[str, Callable[[str, Disk], Machine]] = {"qemu": Qemu, "user": UserModeLinux}
