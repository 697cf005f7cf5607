"""The file systems to be tried, and disks that contain one of them."""

import os
import struct
import subprocess
from collections.abc import Mapping
from dataclasses import dataclass, field

MEBIBYTE = 1 << 20
START = MEBIBYTE  # where the file system begins
MARKER_SIZE = MEBIBYTE  # of the partition at the end, to which markers are written
DEVICE, MARKER_DEVICE = "/dev/vda1", "/dev/vda2"
MKFS = {
    "ext4": ["mkfs.ext4", "-F", "-q", "-b", "4096", "-J", "size=4"],
    "xfs": ["mkfs.xfs", "-f", "-q"],
    "btrfs": ["mkfs.btrfs", "-f", "-q"],
    "f2fs": ["mkfs.f2fs", "-f", "-q"],
}
MEBIBYTES = {"ext4": 160, "xfs": 320, "btrfs": 128, "f2fs": 64}  # about the minimum for each; ext4 has a second superblock from 128 on


@dataclass(frozen=True)
class FileSystem:
    """A file system with its mount options. `no_barrier` are the options with which it sends no flush, if it has any. `lossy`
    are those with which it loses answers of a program that syncs properly, by the name of a control. `harmless` are the
    mutants that lose nothing with its options, each with the reason; `harmful_with` those that lose something with other
    options, each with these."""

    name: str
    kind: str
    options: str = ""
    no_barrier: str | None = None
    lossy: Mapping[str, str] = field(default_factory=dict)
    harmless: Mapping[str, str] = field(default_factory=dict)
    harmful_with: Mapping[str, str] = field(default_factory=dict)


ALL = {
    each.name: each for each in (
        FileSystem("ext4", "ext4", no_barrier="barrier=0"),
        FileSystem("ext4-writeback", "ext4", "data=writeback", "data=writeback,barrier=0"),
        FileSystem("ext4-journal", "ext4", "data=journal", "data=journal,barrier=0", harmless={
            "barrier_left_out": "a start syncs the store's folder, which commits the store's bytes too",
            "body_not_synced": "one transaction of the journal has a batch's body and its gate"}),
        FileSystem("xfs", "xfs"),
        FileSystem("btrfs", "btrfs", no_barrier="nobarrier", harmful_with={"body_not_synced": "nodatacow"}, harmless={
            "body_not_synced": "a batch's body and its gate are written to new places, to which one commit of the log refers"}),
        # Without fastboot the first sync after a checkpoint sends its flush before it has waited for the inode's block. Without mode=lfs a
        # file's length that becomes a multiple of 4,096 need not be synced.
        FileSystem("f2fs-lfs", "f2fs", "mode=lfs,fastboot", "mode=lfs,fastboot,nobarrier", lossy={
            "without fastboot": "mode=lfs", "without mode=lfs": "fastboot"}, harmful_with={"body_not_synced": "fastboot"}, harmless={
            "body_not_synced": "a batch's body and its gate are written to new places, to which one checkpoint refers"}),
    )
}


def partition_table(*partitions: tuple[int, int]) -> bytes:
    """Returns a first sector with these partitions: the position and the size of each."""
    table = bytearray(512)
    for number, (at, size) in enumerate(partitions):
        struct.pack_into("<BBBBBBBBII", table, 446 + 16 * number, 0, 0, 2, 0, 0x83, 0, 0, 0, at // 512, size // 512)
    table[510:] = b"\x55\xaa"
    return bytes(table)


def copy_sparse(source: str, target: str, at: int) -> None:
    """Copies a file into another one at an offset, except blocks of zeroes."""
    with open(source, "rb") as read, open(target, "r+b") as written:
        while block := read.read(1 << 16):
            if any(block):
                written.seek(at)
                written.write(block)
            at += len(block)


def make_disk(path: str, kind: str) -> None:
    """Creates a disk with an empty file system and a partition for markers."""
    size, scratch = MEBIBYTES[kind] * MEBIBYTE, f"{path}.new"
    with open(scratch, "wb") as file:
        file.truncate(size)
    subprocess.run([*MKFS[kind], scratch], check=True, stdout=subprocess.DEVNULL)
    with open(path, "wb") as disk:
        disk.truncate(START + size + MARKER_SIZE)
        disk.write(partition_table((START, size), (START + size, MARKER_SIZE)))
    copy_sparse(scratch, path, START)
    os.remove(scratch)
