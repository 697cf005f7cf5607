"""The files that the machines boot: the agent, the programs under trial, their libraries, and the kernel's modules."""

import os
import re
import subprocess
from typing import NamedTuple

from .packages import get_kernel, get_user_kernel, modules_of

GUEST = os.path.join(os.path.dirname(os.path.dirname(os.path.abspath(__file__))), "guest")
MODULES = ("virtio_pci", "virtio_blk", "virtio_console", "crc32c_generic", "ext4", "xfs", "btrfs", "f2fs")
LATE_SYNCS = "/bin/late_syncs.so"  # where the machine has this library
USER_MODULES = ("virtio_blk", "f2fs")  # the others are in the kernel
FOLDER, PROGRAM, DATA, CONSOLE = 0o40755, 0o100755, 0o100644, 0o20600


class File(NamedTuple):
    """A file of the machine."""

    name: str
    mode: int
    data: bytes = b""
    device: tuple[int, int] = (0, 0)


def cpio(files: list[File]) -> bytes:
    """Returns an archive of the form newc, which the kernel unpacks."""
    out = bytearray()
    for number, file in enumerate([*files, File("TRAILER!!!", 0)], 1):
        name = file.name.encode() + b"\0"
        numbers = (number, file.mode, 0, 0, 1, 0, len(file.data), 0, 0, *file.device, len(name), 0)
        out += b"070701" + b"".join(b"%08X" % each for each in numbers) + name
        out += bytes(-len(out) % 4) + file.data
        out += bytes(-len(out) % 4)
    return bytes(out)


def read(path: str) -> bytes:
    with open(path, "rb") as file:
        return file.read()


def build_agent(work: str) -> bytes:
    sources = [f"{GUEST}/{name}.c" for name in ("agent", "common", "load")]
    subprocess.run(["cc", "-O1", "-static", "-Wall", "-Wextra", "-o", f"{work}/agent", *sources], check=True)
    return read(f"{work}/agent")


def build_late_syncs(work: str) -> bytes:
    """Builds the library that delays syncs."""
    path = f"{work}/late_syncs.so"
    subprocess.run(["cc", "-O1", "-shared", "-fPIC", "-Wall", "-Wextra", "-D_GNU_SOURCE", "-o", path, f"{GUEST}/late_syncs.c"], check=True)
    return read(path)


def program_path(number: int) -> str:
    """Returns the path of the program with this number in the machine."""
    return f"/bin/program{number}"


def files_of_programs(programs: list[str]) -> list[File]:
    """Returns the programs and their libraries, with the folders of these."""
    files, paths = list[File](), set[str]()
    for number, program in enumerate(programs):
        files.append(File(program_path(number)[1:], PROGRAM, read(program)))
        said = subprocess.run(["ldd", program], capture_output=True, text=True, check=False).stdout
        paths.update(re.findall(r"(/\S+) \(0x", said))
    folders = {"/".join(path.split("/")[1:end]) for path in paths for end in range(2, path.count("/") + 1)}
    files = [File(folder, FOLDER) for folder in sorted(folders | {"bin", "dev", "modules.d"})] + files
    return files + [File(path[1:], PROGRAM, read(path)) for path in sorted(paths)]


def files_of_modules(paths: list[str]) -> list[File]:
    files = [File(f"modules.d/{os.path.basename(path)}", DATA, read(path)) for path in paths]
    return [*files, File("modules", DATA, "".join(f"/{file.name}\n" for file in files).encode())]


def build(work: str, programs: list[str]) -> str:
    """Builds in the folder WORK what both machines boot. Returns what was built. Raises Missing."""
    os.makedirs(work, exist_ok=True)
    version, user_version = get_kernel(work), get_user_kernel(work)
    common = [*files_of_programs(programs), File("dev/console", CONSOLE, device=(5, 1)), File("init", PROGRAM, build_agent(work)),
              File(LATE_SYNCS[1:], PROGRAM, build_late_syncs(work))]
    for name, modules in (("initrd", modules_of(f"{work}/kernel", version, MODULES)),
                          ("user-initrd", modules_of(f"{work}/user", user_version, USER_MODULES))):
        with open(f"{work}/{name}", "wb") as out:
            out.write(cpio(common + files_of_modules(modules)))
    return f"kernels {version} and {user_version} (as a process), {len(programs)} programs"
