"""A wave as an SVG picture: a line for each node, an arrow for each message, a green mark for each signal."""

from bisect import bisect_right
from collections.abc import Iterator
from html import escape
from math import hypot

from .reading import Column, Message, Wave

COLOURS = {"abort": "#b3261e", "ack": "#7a5c00", "ready": "#146c2e"}
BARS = {"reached": "#b3261e", "acknowledged": "#e0ab00"}
LEAST_WIDTH = 900
ROW = 46
LEFT = 96

HEAD = """<svg xmlns="http://www.w3.org/2000/svg" viewBox="0 0 {width} {height}" role="img"
 font-family="sans-serif" font-size="13">
<title>A reset's wave: nodes by rows, steps by columns</title>
<defs>
{markers}
</defs>
<rect width="{width}" height="{height}" rx="6" fill="#ffffff"/>"""
MARKER = ('<marker id="{kind}" viewBox="0 0 10 10" refX="9" refY="5" markerWidth="7" markerHeight="7" orient="auto">'
          '<path d="M0 0L10 5L0 10z" fill="{colour}"/></marker>')


class Layout:
    """The places of columns and nodes."""

    def __init__(self, wave: Wave) -> None:
        self.columns = [column.index for column in wave.columns]
        self.rows = {node: row for row, node in enumerate(sorted(wave.nodes))}
        labels = max((len(column.label) for column in wave.columns), default=0)
        # labels rise at 45 degrees, so those of the last column need the same room at the right
        self.top = 34 + round(5.4 * labels)
        right = 40 + round(5.4 * labels)
        widest = max((pill_width(epoch) for _, epoch in wave.signals()), default=0)
        count = max(1, len(self.columns))
        self.gap = max(28, widest + 6, min(180, (LEAST_WIDTH - LEFT - right) / count))
        self.end = LEFT + self.gap * (count - 0.5)
        self.bottom = self.top + ROW * max(1, len(self.rows))
        self.width = round(max(LEAST_WIDTH, self.end + right))
        self.height = self.bottom + 76

    def x(self, column: Column) -> float:
        return LEFT + self.gap * max(0, bisect_right(self.columns, column.index) - 1)

    def y(self, node: int) -> float:
        return self.top + ROW * (self.rows[node] + 0.5)


def draw(wave: Wave) -> str:
    at = Layout(wave)
    markers = "\n".join(MARKER.format(kind=kind, colour=colour) for kind, colour in COLOURS.items())
    parts = [HEAD.format(width=at.width, height=at.height, markers=markers)]
    parts += [heading(column, at) for column in wave.columns]
    parts += [lifeline(node, at) for node in at.rows]
    parts += [bar for node in at.rows for bar in bars(wave, node, at)]
    parts += [arrow(message, at) for message in wave.messages]
    parts += [mark for column in wave.columns for mark in marks(column, at)]
    return "\n".join(parts + legend(at) + ["</svg>"]) + "\n"


def line(x1: float, y1: float, x2: float, y2: float, style: str) -> str:
    return f'<line x1="{x1:.1f}" y1="{y1:.1f}" x2="{x2:.1f}" y2="{y2:.1f}" {style}/>'


def label(x: float, y: float, text: str, style: str = "") -> str:
    return f'<text x="{x:.1f}" y="{y:.1f}" fill="#222"{style}>{escape(text)}</text>'


def heading(column: Column, at: Layout) -> str:
    """Returns the step's number, and its command if it is known; for a start, a line across all nodes."""
    x = at.x(column)
    if column.kind == "start":
        return (label(x, at.top - 6, "start", ' text-anchor="middle" font-size="11"') + "\n"
                + line(x, at.top, x, at.bottom, 'stroke="#8a8a8a" stroke-width="1.3" stroke-dasharray="5 4"'))
    number = label(x, at.top - 6, str(column.step), ' text-anchor="middle" font-size="11"')
    if not column.label:
        return number
    turned = f' font-family="monospace" font-size="12" transform="rotate(-45 {x:.1f} {at.top - 22})"'
    return number + "\n" + label(x, at.top - 22, column.label, turned)


def lifeline(node: int, at: Layout) -> str:
    y = at.y(node)
    return (label(20, y + 4, f"node {node}", ' font-weight="bold"') + "\n"
            + line(LEFT - 14, y, at.end, y, 'stroke="#c8c8c8" stroke-width="4"'))


def bars(wave: Wave, node: int, at: Layout) -> Iterator[str]:
    """Returns the stretches in which a node is in a reset."""
    mode, begin = "", 0.0
    for column in wave.columns:
        now = column.modes.get(node, "")
        if now != mode:
            if mode:
                yield bar(begin, at.x(column), at.y(node), mode)
            mode, begin = now, at.x(column)
    if mode:
        yield bar(begin, at.end, at.y(node), mode)


def bar(begin: float, end: float, y: float, mode: str) -> str:
    return line(begin, y, end, y, f'stroke="{BARS[mode]}" stroke-width="10"')


def arrow(message: Message, at: Layout) -> str:
    """Returns an arrow from the step that sent a message to the step that took it; dashed into the gap if none took it."""
    x1, y1, y2 = at.x(message.sent), at.y(message.sender), at.y(message.receiver)
    x2 = at.x(message.end) if message.end else at.end
    style = f'class="{message.kind}" stroke="{COLOURS[message.kind]}" stroke-width="2"'
    if not message.taken:
        return line(x1, y1, (x1 + x2) / 2, (y1 + y2) / 2, style + ' stroke-dasharray="3 4"')
    length = hypot(x2 - x1, y2 - y1) or 1
    dx, dy = (x2 - x1) / length, (y2 - y1) / length
    return line(x1 + 6 * dx, y1 + 6 * dy, x2 - 8 * dx, y2 - 8 * dy, f'{style} marker-end="url(#{message.kind})"')


def marks(column: Column, at: Layout) -> Iterator[str]:
    """Returns the marks of the nodes that asked for a reset, and of those that were signalled."""
    for node, cell in column.cells.items():
        x, y = at.x(column), at.y(node)
        if cell.asked:
            yield ring(x, y)
        if cell.epoch is not None:
            yield pill(x, y, cell.epoch)


def ring(x: float, y: float) -> str:
    return f'<circle cx="{x:.1f}" cy="{y:.1f}" r="7" fill="#ffffff" stroke="#b3261e" stroke-width="3"/>'


def pill_width(epoch: int | str) -> int:
    return 12 + 7 * len(str(epoch))


def pill(x: float, y: float, epoch: int | str) -> str:
    width = pill_width(epoch)
    return (f'<rect class="signal" x="{x - width / 2:.1f}" y="{y - 9:.1f}" width="{width}" height="18" rx="9" '
            f'fill="{COLOURS["ready"]}"/><text x="{x:.1f}" y="{y + 4:.1f}" text-anchor="middle" font-size="11" '
            f'font-weight="bold" fill="#ffffff">{epoch}</text>')


def legend(at: Layout) -> list[str]:
    """Returns the meanings of the marks, in two rows."""
    upper, lower = at.bottom + 30, at.bottom + 58
    parts = []
    for x, kind, text in ((20, "abort", "Abort: a reset goes out"), (245, "ack", "Ack: all beyond it were reached"),
                          (520, "ready", "Ready: the reset is over")):
        style = f'stroke="{COLOURS[kind]}" stroke-width="2" marker-end="url(#{kind})"'
        parts += [line(x, upper, x + 36, upper, style), label(x + 46, upper + 4, text)]
    parts += [line(740, upper, 776, upper, 'stroke="#222" stroke-width="2" stroke-dasharray="3 4"'),
              label(786, upper + 4, "never taken")]
    for x, mode, text in ((20, "reached", "reached by a reset"), (245, "acknowledged", "has acknowledged it")):
        parts += [bar(x, x + 36, lower, mode), label(x + 46, lower + 4, text)]
    parts += [pill(538, lower, "N"), label(566, lower + 4, "signalled, enters epoch N"),
              ring(758, lower), label(786, lower + 4, "asks for a reset")]
    return parts
