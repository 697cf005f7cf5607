"""The environment of a store's file: its mount, its file system and its device, and the kernel's messages about the device."""

from __future__ import annotations

import os
import re
import subprocess

LONGEST = 20.0  # seconds for a command


def said(*command: str) -> str:
    """Returns the output of a command, or the reason why there is none."""
    try:
        done = subprocess.run(command, stdin=subprocess.DEVNULL, capture_output=True, encoding="utf-8", errors="replace",
                              timeout=LONGEST, check=False)
    except (OSError, subprocess.TimeoutExpired) as fault:
        return f"{command[0]}: {fault.strerror if isinstance(fault, OSError) else f'the command did not end within {LONGEST:g} s'}\n"
    return done.stdout + done.stderr


def mount_of(path: str) -> str:
    """Returns the row of /proc/self/mountinfo for a file's mount: the longest matching one. Raises OSError."""
    path = os.path.realpath(path)
    with open("/proc/self/mountinfo", encoding="utf-8") as lines:
        rows = [line.rstrip("\n") for line in lines]
    points = [(point.encode().decode("unicode_escape"), row) for row in rows for point in [row.split()[4]]]
    return max((each for each in points if os.path.join(path, "").startswith(os.path.join(each[0], ""))),
               key=lambda each: len(each[0]))[1]


def devices_of(path: str) -> list[str]:
    """Returns the names of a file's device and of the disks under it; none if the file is not on a block device."""
    number = os.stat(path).st_dev
    link = f"/sys/dev/block/{os.major(number)}:{os.minor(number)}"
    if not os.path.exists(link):
        return []
    names = re.findall(r"/block/([^/]+)(?:/([^/]+))?$", os.path.realpath(link))
    found = [name for pair in names for name in reversed(pair) if name]
    below = f"{link}/slaves"
    return found + (sorted(os.listdir(below)) if os.path.isdir(below) else [])


def file_system(path: str) -> str:
    """Describes the mount, the free space and the devices, and whether each device has a volatile write cache."""
    space = os.statvfs(path)
    lines = [mount_of(path), f"{space.f_blocks} blocks of {space.f_frsize} bytes, of which {space.f_bavail} are free; "
             f"{space.f_files} inodes, of which {space.f_favail} are free"]
    for name in devices_of(path):
        cache = f"/sys/block/{name}/queue/write_cache"
        lines.append(f"device {name}")
        if os.path.exists(cache):
            with open(cache, encoding="utf-8") as file:
                lines[-1] += f": {file.read().strip()}"
    return "\n".join(lines) + "\n"


def kernel_lines(path: str) -> str:
    """Returns the kernel's messages about a file's device since the machine started."""
    names = devices_of(path)
    if not names:
        return "the file is not on a block device of this machine\n"
    wanted = re.compile(r"\b(?:" + "|".join(map(re.escape, names)) + r")\b")
    messages = said("journalctl", "--dmesg", "--no-pager", "--quiet", "--output", "short-iso").splitlines()
    if len(messages) < 2:  # there is no journal, or this user may not read it
        messages = said("dmesg", "--time-format", "iso").splitlines()
    lines = "".join(f"{line}\n" for line in messages if wanted.search(line))
    return lines or f"none of the kernel's {len(messages):,} messages is about {', '.join(names)}\n"
