"""The parts of Debian from which the machines are made."""

import os
import re
import shutil
import subprocess
import tempfile

# The commands that are needed, each with the package that contains it. The script `packages` installs these.
COMMANDS = {
    "qemu-system-x86_64": "qemu-system-x86", "qemu-storage-daemon": "qemu-utils", "cc": "gcc", "modprobe": "kmod", "depmod": "kmod",
    "mkfs.ext4": "e2fsprogs", "e2fsck": "e2fsprogs", "mkfs.xfs": "xfsprogs", "mkfs.btrfs": "btrfs-progs", "mkfs.f2fs": "f2fs-tools",
    "apt-get": "apt", "dpkg": "dpkg",
}
KERNEL, USER_KERNEL = "linux-image-amd64", "user-mode-linux"


class Missing(Exception):
    """A package is missing. The text says which, and how to get it."""


def expect_commands() -> None:
    """Raises Missing unless each command exists."""
    path = f"{os.environ.get('PATH', '')}:/usr/sbin:/sbin"
    os.environ["PATH"] = path
    missing = sorted({package for command, package in COMMANDS.items() if not shutil.which(command, path=path)})
    if missing:
        raise Missing(f"these Debian packages are missing: {' '.join(missing)} (tools/powercut/packages installs them)")


def download(package: str, folder: str) -> None:
    """Unpacks a package into a folder, without installing it. Raises Missing."""
    with tempfile.TemporaryDirectory() as scratch:
        os.chmod(scratch, 0o777)  # apt-get reads the files as a user of its own
        done = subprocess.run(["apt-get", "-q", "download", package], cwd=scratch, capture_output=True, text=True, check=False)
        files = os.listdir(scratch)
        if done.returncode or not files:
            raise Missing(f"apt-get download {package} fails (does it need apt-get update?):\n{done.stderr.strip()}")
        subprocess.run(["dpkg", "-x", f"{scratch}/{files[0]}", folder], check=True)


def kernel_package() -> str:
    """Returns the package of the newest kernel. Raises Missing."""
    text = subprocess.run(["apt-cache", "depends", KERNEL], capture_output=True, text=True, check=False).stdout
    found = re.search(r"Depends: (linux-image-\S+)", text)
    if not found:
        raise Missing(f"apt-cache does not know {KERNEL} (does it need apt-get update?)")
    return found[1]


def get_kernel(work: str) -> str:
    """Puts the kernel into WORK/kernel, and returns its version."""
    folder = f"{work}/kernel"
    if not os.path.exists(folder):
        download(kernel_package(), f"{folder}.new")
        version = os.listdir(f"{folder}.new/lib/modules")[0]
        subprocess.run(["depmod", "-b", f"{folder}.new", version], check=True)
        os.rename(f"{folder}.new", folder)
    return os.listdir(f"{folder}/lib/modules")[0]


def get_user_kernel(work: str) -> str:
    """Puts the kernel that runs as a process into WORK/user, with its modules where modprobe looks for them, and returns its
    version."""
    folder = f"{work}/user"
    if not os.path.exists(folder):
        download(USER_KERNEL, f"{folder}.new")
        os.makedirs(f"{folder}.new/lib", exist_ok=True)
        os.symlink("../usr/lib/uml/modules", f"{folder}.new/lib/modules")
        os.rename(f"{folder}.new", folder)
    return os.listdir(f"{folder}/lib/modules")[0]


def modules_of(folder: str, version: str, names: tuple[str, ...]) -> list[str]:
    """Returns the files of kernel modules and of those that they need, in the order in which they are loaded."""
    found = list[str]()
    for name in names:
        text = subprocess.run(["modprobe", "-d", folder, "-S", version, "--show-depends", name], capture_output=True, text=True, check=True).stdout
        found += [path for path in re.findall(r"insmod (\S+)", text) if path not in found]
    return found
