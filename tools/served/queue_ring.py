"""Members of a work queue in a ring, each a process. Their own lines report mixed runs."""

import json
import os
import shutil
import subprocess
import sys

from .ports import held_ports
from .services import ROOT, read

MEMBER = f"{ROOT}/tools/served/queue_member.py"


class QueueRing:
    """This many members, which hand items round. The arguments of each are an address, a file of signals, and the parts of
    the rule that it leaves out."""

    def __init__(self, folder: str, nodes: int, address: str, signals: str, *without: str) -> None:
        self.folder, self.nodes, self.address, self.signals, self.without = folder, range(1, nodes + 1), address, signals, without
        self.ports, self.processes = held_ports(nodes), dict[int, subprocess.Popen[bytes]]()
        os.makedirs(folder)

    def start(self, *nodes: int) -> None:
        for node in nodes or self.nodes:
            arguments = [str(node), self.address, f"{self.folder}/{node}", str(self.ports[node - 1]),
                         str(self.ports[node % len(self.ports)]), self.signals, *self.without]
            with open(f"{self.folder}/{node}.lines", "ab") as lines:
                self.processes[node] = subprocess.Popen([sys.executable, MEMBER, *arguments], stdin=subprocess.DEVNULL,
                                                        stdout=lines, stderr=lines)

    def start_anew(self, node: int) -> None:
        """Does what a service manager does with a member whose work is spoilt: signal 9, and a start without that work."""
        self.processes[node].kill()
        self.processes[node].wait()
        shutil.rmtree(f"{self.folder}/{node}")
        self.start(node)

    def count_handed(self) -> list[int]:
        """Returns the number of items that each member has taken in its present start."""
        return [json.loads(read(f"{self.folder}/{node}/work") or '{"taken": 0}')["taken"] for node in self.nodes]

    def count_lines(self, word: str) -> int:
        """Returns the number of the members' lines that contain a word."""
        return sum(read(f"{self.folder}/{node}.lines").count(f": {word}: ") for node in self.nodes)

    def end(self) -> None:
        for process in self.processes.values():
            process.kill()
            process.wait()
