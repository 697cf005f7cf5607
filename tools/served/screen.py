"""The output of a demo: lines that stay and, in a terminal, a picture below them that is drawn in place."""

import os
import shutil
import sys


class Screen:
    """The picture moves if the output is a terminal and neither NO_COLOR nor CI is set. Otherwise only lines are printed."""

    def __init__(self) -> None:
        self.moves = sys.stdout.isatty() and not os.environ.get("NO_COLOR") and not os.environ.get("CI")
        self.drawn = 0  # lines of the present picture

    def say(self, *lines: str) -> None:
        """Prints lines that stay."""
        self.wipe()
        print(*lines or ("",), sep="\n", flush=True)

    def draw(self, lines: list[str]) -> None:
        """Draws a picture over the previous one. A line that the terminal would wrap can't be drawn over."""
        if self.moves:
            width = shutil.get_terminal_size().columns - 1
            self.wipe()
            print(*(line[:width] for line in lines), sep="\n", flush=True)
            self.drawn = len(lines)

    def wipe(self) -> None:
        if self.drawn:
            print(f"\x1b[{self.drawn}A\x1b[J", end="")
        self.drawn = 0
