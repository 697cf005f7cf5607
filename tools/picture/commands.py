"""Finds which command made which step, by comparing a drill's input with its output."""

import re
from collections import deque

# These lines are printed after an answer's first line, and are not answers themselves.
FOLLOWS = ("receipt", "signal", "data", "node", "link")
# These commands print no line of their own, or any number of lines that follow.
UNANSWERED = ("hold", "version", "resend")
# The commands that each kind of reply may answer; a pending step may be any.
ANSWERED = {
    "done": r"(?:add|join|drop|confirm) \d+ \d+|remove \d+",
    "started": r"reset \d+", "finished": r"reset \d+", "joined": r"reset \d+",
    "taken": r"take \d+ \d+|data(?: \d+){4} \w+(?: \d+)?",
    "cleared": r"clear \d+ \d+|receipt(?: \d+){4}",
}
ANSWERED["pending"] = "|".join(ANSWERED.values())


class OtherRun(Exception):
    """The output does not belong to this input."""


def commands_by_step(asked: list[str], printed: list[str]) -> dict[int, list[str]]:
    """Returns the command of each step, from the lines of a drill's input and of its output."""
    answers = deque(line for line in printed if line.split(" ")[0] not in FOLLOWS)
    commands: dict[int, list[str]] = {}
    for number, line in enumerate(asked, 1):
        fields = line.split(" ")
        if answers and answers[0] == f"bad line {number}":
            answers.popleft()
        elif line == "" or line.startswith("#") or fields[0] in UNANSWERED:
            continue
        elif fields[0] == "flush":
            skip_flight(answers)
        elif answers:
            note(commands, number, fields[3:] if fields[0] == "order" else fields, answers.popleft())
    return commands


def skip_flight(answers: deque[str]) -> None:
    """Skips the replies of a flush, up to the line that ends it: their steps were pending, and are already known."""
    while answers and not answers.popleft().startswith(("settled ", "commit ")):
        pass


def note(commands: dict[int, list[str]], number: int, command: list[str], answer: str) -> None:
    """Records the step that line `number` of the input made, if it made one."""
    kind, _, step = answer.partition(" ")
    if kind not in ANSWERED or not step.isdigit():
        return
    if not re.fullmatch(ANSWERED[kind], " ".join(command)):
        raise OtherRun(f"line {number}, {' '.join(command)!r}, is not what {answer!r} answers")
    commands[int(step)] = command
