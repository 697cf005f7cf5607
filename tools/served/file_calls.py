"""Kills, and changes by other programs, just before the calls with which a foreign member changes files."""

import os
import shutil
import struct
import subprocess

FOLDER = os.path.dirname(os.path.abspath(__file__))
NEVER = 0


class FileCalls:
    """A program around the member (file_calls.c) that counts the system calls of all its processes, in whatever language they
    are written. Before a call that removes or renames FILE, it renames FILE.next to FILE, if that exists. It is built if
    there is a C compiler for x86-64, and the kernel permits tracing."""

    def __init__(self, folder: str) -> None:
        self._program, self._counts = f"{folder}/file_calls", f"{folder}/file_calls.counts"
        self.die_at(NEVER)
        self.why = self._make()

    def around(self, command: list[str]) -> list[str]:
        """Returns the arguments that start the member."""
        return [self._program, self._counts, *command] if self.can_see else command

    def die_at(self, call: int) -> None:
        """Makes the member die before this call, counted from now on."""
        with open(self._counts, "wb") as file:
            file.write(struct.pack("=QQ", call, 0))

    @property
    def can_see(self) -> bool:
        return not self.why

    def _make(self) -> str:
        """Builds the program. Returns the reason if that is impossible, or an empty text."""
        compiler = shutil.which("cc")
        if compiler is None:
            return "there is no C compiler (apt-get install gcc)"
        command = [compiler, "-O1", "-o", self._program, f"{FOLDER}/file_calls.c"]
        if subprocess.run(command, capture_output=True, check=False).returncode != 0:
            return "cc can't build tools/served/file_calls.c, which is for x86-64 (apt-get install gcc libc6-dev)"
        tried = subprocess.run([self._program, self._counts, "true"], capture_output=True, check=False)
        return "no process may trace another one here" if tried.returncode else ""
