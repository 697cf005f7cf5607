"""Draws a wave as text: letters where messages are sent and taken, and a line for each node that shows its mode."""

from .reading import Cell, Column, Wave

# A printed text, and its kind, which determines its colour.
Mark = tuple[str, str]
LETTERS = {"abort": "a", "ack": "k", "ready": "r"}
COLOURS = {"abort": "31", "ack": "33", "ready": "32", "reached": "31", "acknowledged": "33", "signal": "1;32"}
START = "┊"
FILLS = {"": "─", "reached": "━", "acknowledged": "═"}


def draw(wave: Wave, width: int, coloured: bool) -> str:
    """Returns the picture, in blocks of at most `width` characters a line, and the meanings of its marks."""
    if not wave.columns or not wave.nodes:
        return "nothing to draw: no message and no signal\n"
    names = {node: f"node {node}" for node in sorted(wave.nodes)}
    margin = max(map(len, names.values())) + 2
    place = place_width(wave)
    each = max(1, (width - margin) // place)
    lines = []
    for start in range(0, len(wave.columns), each):
        block = wave.columns[start:start + each]
        lines.append("step".ljust(margin) + "".join(heading(column).ljust(place) for column in block).rstrip())
        for node, name in names.items():
            lines.append(name.ljust(margin) + "".join(cell(column, node, place, coloured) for column in block))
        lines.append("")
    return "\n".join(lines + legend(wave, coloured)) + "\n"


def place_width(wave: Wave) -> int:
    """Returns the width of a column: that of its longest entry plus one."""
    entries = [sum(len(text) for text, _ in marks(cell)) for column in wave.columns for cell in column.cells.values()]
    return 1 + max(entries + [len(heading(column)) for column in wave.columns])


def heading(column: Column) -> str:
    return START if column.kind == "start" else str(column.step)


def cell(column: Column, node: int, place: int, coloured: bool) -> str:
    """Returns the action of a node in a column, followed by the line of its mode."""
    entry = marks(column.cells[node]) if node in column.cells else marks_between(column, node)
    mode = column.modes.get(node, "")
    rest = place - sum(len(text) for text, _ in entry)
    return "".join(paint(text, kind, coloured) for text, kind in entry + [(FILLS[mode] * rest, mode)])


def marks(cell: Cell) -> list[Mark]:
    """Returns the marks for the action of a node, each with its kind."""
    found = [("x", "")] if cell.dropped else []
    found += [("!", "abort")] if cell.asked else []
    found += [(LETTERS[cell.taken].upper(), cell.taken)] if cell.taken else []
    found += [(LETTERS[kind], kind) for kind in cell.sent]
    return found + ([(f"●{cell.epoch}", "signal")] if cell.epoch is not None else [])


def marks_between(column: Column, node: int) -> list[Mark]:
    """Returns the line that a taken message draws from its sender's row to its receiver's, or a start through all rows."""
    if column.kind == "start":
        return [(START, "")]
    message = column.taken
    if message is None or not min(message.sender, message.receiver) <= node <= max(message.sender, message.receiver):
        return []
    if node != message.sender:
        return [("│", message.kind)]
    return [("┬" if message.sender < message.receiver else "┴", message.kind)]


def paint(text: str, kind: str, coloured: bool) -> str:
    return f"\x1b[{COLOURS[kind]}m{text}\x1b[0m" if coloured and kind in COLOURS else text


def legend(wave: Wave, coloured: bool) -> list[str]:
    def show(text: str, kind: str) -> str:
        return paint(text, kind, coloured)
    letters = ", ".join(f"{show(letter, kind)} {kind}" for kind, letter in LETTERS.items())
    taken = sum(message.taken for message in wave.messages)
    return [
        f"{letters} goes out; as a capital letter it is taken, from where the line begins",
        f"{show('!', 'abort')} a reset is asked for   {show('●N', 'signal')} signalled, enters epoch N   "
        f"x a link is dropped   {START} the program starts",
        f"{show(FILLS['reached'], 'reached')} reached by a reset   "
        f"{show(FILLS['acknowledged'], 'acknowledged')} has acknowledged it   {FILLS['']} ready",
        f"nodes: {len(wave.nodes)}, signals: {len(wave.signals())}, messages taken: {taken} of {len(wave.messages)}",
    ]
