"""Arguments that the program refuses: one line on standard error, status 2, and no file is touched."""

import os

from support.case import Case
from support.program import faulted, ran

ARGUMENT_LISTS: list[list[str]] = [
    [], ["help"], ["--help"], ["-h"], ["--version"], ["-V"], ["version"], [""], ["fly"], ["Drill"], ["drill", "store"],
    ["drill", "drill"], ["drill", "--"], ["drill", "--help"],
    ["init"], ["init", "store"], ["init", "store", "topology", "more"], ["init", "--", "store", "topology"],
    ["check"], ["check", "store", "more"], ["check", "--help"], ["check", "-f"],
    ["show"], ["show", "store", "more"], ["show", "--version"],
    ["migrate"], ["migrate", "store", "2"], ["serve"], ["serve", "store"], ["serve", "store", "127.0.0.1:0", "more"],
    ["serve", "--store", "store", "127.0.0.1:0"], ["check", "store", "check", "store"],
    ["check", *["store"] * 64], ["serve", "store", "127.0.0.1:0", *["more"] * 1_000],
]
NO_ADDRESSES = [
    "", "127.0.0.1", "127.0.0.1:", ":4170", "4170", "localhost:4170", "127.0.0.1:65536", "127.0.0.1:-1", "127.0.0.1:+1",
    "127.0.0.1:x", "256.0.0.1:4170", "127.0.1:4170", "127.0.0.0.1:4170", "[::1]:4170", " 127.0.0.1:4170",
    "127.0.0.1:4170 ", "127.0.0.1 :4170", "0x7f.0.0.1:4170",
]


class Arguments(Case):
    def test_refused_arguments(self) -> None:
        for arguments in ARGUMENT_LISTS:
            with self.subTest(arguments=arguments):
                self.assertEqual(ran(*arguments, cwd=self.folder), faulted(2, "Usage"))
        self.assertEqual(os.listdir(self.folder), [])

    def test_arguments_that_are_no_utf_8(self) -> None:
        for arguments in ([b"\xff"], [b"check", b"\xff"], [b"serve", b"store", b"127.0.0.1:\xff"]):
            with self.subTest(arguments=arguments):
                self.assertEqual(ran(*arguments, cwd=self.folder), faulted(2, "Usage"))

    def test_no_address(self) -> None:
        for address in NO_ADDRESSES:
            with self.subTest(address=address):
                self.assertEqual(ran("serve", "store", address, cwd=self.folder), faulted(2, "Usage"))
        self.assertEqual(os.listdir(self.folder), [])
