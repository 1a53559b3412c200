"""A ladder as a picture in SVG."""
from __future__ import annotations

import html
from typing import Optional

from pm_tools.ladder import TOP, Arrow, Bar, Ladder, Mark

ROW, HEAD, LANE, SLOT, SLOTS, GAP = 18, 40, 96, 13, 64, 190
COLOURS = ("#1f77b4", "#d2691e", "#2a8c2a", "#8456b0", "#8c564b", "#c2408f", "#5a6b00", "#0f8f9f",
           "#3b4cc0", "#b8860b", "#1b7f5c", "#a0306a", "#4f5d75", "#7a4f01", "#00689d")
GREY, RED, BLACK = "#777777", "#d00000", "#222"
STYLE = ("text{font:11px ui-monospace,Menlo,Consolas,'DejaVu Sans Mono',monospace}"
         ".s{font-size:9px}.n{font-size:10.5px}.h{font-size:10px}"
         ".h,.l{paint-order:stroke;stroke:#fff;stroke-width:3px;stroke-linejoin:round}")


def colour(port: Optional[int]) -> str:
    return COLOURS[port] if port is not None and port < len(COLOURS) else GREY


class Picture:
    """Shapes by layers, and where lanes and rows are."""

    def __init__(self, ladder: Ladder, page: int) -> None:
        self.ladder, self.page = ladder, page
        left = SLOTS + max(40, SLOT * len(ladder.slots)) + 30
        self.lanes = {"driver": left, "host": left + 76, "pm": left + 76 + GAP}
        for place, lane in enumerate(ladder.lanes[3:]):
            self.lanes[lane] = self.lanes["pm"] + GAP + place * LANE
        self.right = max(self.lanes.values()) + 30
        self.texts = {step.number: step.text for step in ladder.steps}
        self.back: list[str] = []
        self.front: list[str] = []

    def x(self, lane: str) -> float:
        return self.lanes.get(lane, self.lanes["pm"])

    def y(self, place: float) -> float:
        """The height of a place; above each page is room for the names of the lanes."""
        row = max(place, TOP)
        return HEAD + row * ROW + int(row // self.page) * 3 * ROW

    def text(self, x: float, y: float, said: str, fill: str = BLACK, more: str = "") -> str:
        return f'<text x="{x:.1f}" y="{y:.1f}" fill="{fill}" {more}>{html.escape(said)}</text>'

    def line(self, x1: float, y1: float, x2: float, y2: float, stroke: str, more: str = "") -> str:
        return f'<line x1="{x1:.1f}" y1="{y1:.1f}" x2="{x2:.1f}" y2="{y2:.1f}" stroke="{stroke}" {more}/>'

    def cross(self, x: float, y: float, size: float, width: float) -> str:
        return "".join(self.line(x - size, y - size * way, x + size, y + size * way, RED, f'stroke-width="{width}"')
                       for way in (1, -1))

    def add(self, step: int, *shapes: str) -> None:
        """The shapes of a step: its line shows where the mouse stays on them."""
        self.front.append(f"<g><title>{html.escape(self.texts.get(step, ''))}</title>{''.join(shapes)}</g>")


def draw_arrow(picture: Picture, arrow: Arrow) -> None:
    """One that was dropped ends in a cross, one that was not taken in this window is dashed."""
    x1, x2, y1, y2 = picture.x(arrow.source), picture.x(arrow.target), picture.y(arrow.begin), picture.y(arrow.end)
    side, stroke = (1 if x2 > x1 else -1), colour(arrow.port)
    dashed = ' stroke-dasharray="4 3"' if arrow.is_cut else ""
    shapes = [picture.line(x1, y1, x2, y2, stroke, f'stroke-width="1.4"{dashed}')]
    if arrow.is_dropped:
        shapes.append(picture.cross(x2, y2, 4, 2))
    elif not arrow.is_cut:
        points = f"{x2},{y2} {x2 - 7 * side},{y2 - 3.5} {x2 - 7 * side},{y2 + 3.5}"
        shapes.append(f'<polygon points="{points}" fill="{stroke}"/>')
    if arrow.label:
        # The name of an arrow from the edge stands where it arrives: there its row is in the window.
        is_begin_seen = arrow.begin > TOP
        x, y = (x1 + 5 * side, y1 - 3) if is_begin_seen else (x2 - 12 * side, y2 - 3)
        anchor = "start" if (side > 0) == is_begin_seen else "end"
        shapes.append(picture.text(x, y, arrow.label, stroke, f'text-anchor="{anchor}" class="h"'))
    picture.add(arrow.steps[-1], *shapes)


def draw_mark(picture: Picture, mark: Mark) -> None:
    x, y, fill = picture.x(mark.lane), picture.y(mark.place), colour(mark.port)
    if mark.kind == "gone":
        shape = picture.cross(x, y, 6, 2.5)
    elif mark.kind == "driver":
        shape = f'<rect x="{x - 4}" y="{y - 4}" width="8" height="8" fill="{fill}"/>'
    elif mark.kind == "fault":
        shape = f'<circle cx="{x}" cy="{y}" r="6" fill="none" stroke="{RED}" stroke-width="2.5"/>'
    else:
        shape = f'<circle cx="{x}" cy="{y}" r="4" fill="{fill}"/>'
    picture.add(mark.step, shape)


def draw_rows(picture: Picture) -> None:
    """The number of each step on the left, and what came of it on the right."""
    for place, row in enumerate(picture.ladder.rows, 1):
        y = picture.y(place)
        picture.back.append(picture.line(40, y, picture.right - 6, y, "#f0f0f0"))
        shapes = [picture.text(6, y + 4, str(row.step), "#999", 'class="s"')]
        if row.note:
            fill = RED if row.is_bad else colour(row.port)
            shapes.append(picture.text(picture.right, y + 4, row.note, fill, 'class="n"'))
        picture.add(row.step, *shapes)


def draw_bar(picture: Picture, bar: Bar) -> None:
    """Light from the submit to the poll, dark while the slot is issued; above it the slot's number."""
    x = SLOTS + picture.ladder.slots.index(bar.slot) * SLOT
    y1, y2 = picture.y(bar.begin), picture.y(bar.end)
    width, fill = (5, 0.9) if bar.is_issued else (10, 0.25)
    picture.back.append(f'<rect x="{x - width / 2}" y="{y1}" width="{width}" height="{max(3, y2 - y1)}" '
                        f'fill="{colour(bar.port)}" fill-opacity="{fill}" rx="2"><title>ticket {bar.ticket}</title></rect>')
    if not bar.is_issued:
        picture.back.append(picture.text(x, y1 - 1, str(bar.slot), colour(bar.port), 'text-anchor="middle" class="s"'))


def draw_heads(picture: Picture) -> None:
    """The names of the lanes above each page, and the lanes."""
    rows = len(picture.ladder.rows)
    for page in range(rows // picture.page + 1):
        first, last = page * picture.page, min(rows + 1, (page + 1) * picture.page)
        y1, y2 = picture.y(first) - 16, picture.y(last - 1) + ROW
        for name, x in picture.lanes.items():
            fill = colour(int(name.split()[1])) if name.startswith("disk") else BLACK
            picture.front.append(picture.text(x, y1 - 6, name, fill, 'text-anchor="middle" font-weight="bold" class="l"'))
            picture.back.append(picture.line(x, y1, x, y2, "#bbb"))
        if picture.ladder.slots:
            picture.front.append(picture.text(SLOTS - SLOT / 2, y1 - 6, "slots", BLACK, 'font-weight="bold" class="l"'))


def svg_of(ladder: Ladder, title: str, page: int) -> str:
    """The picture; the names of the lanes stand anew above each page of rows."""
    picture = Picture(ladder, page)
    draw_rows(picture)
    for bar in sorted(ladder.bars, key=lambda bar: bar.is_issued):
        draw_bar(picture, bar)
    for arrow in ladder.arrows:
        draw_arrow(picture, arrow)
    for mark in ladder.marks:
        draw_mark(picture, mark)
    draw_heads(picture)
    longest = max((len(row.note) for row in ladder.rows), default=0)
    width, height = picture.right + 20 + int(6.6 * longest), int(picture.y(ladder.bottom)) + 2 * ROW
    return "\n".join([
        f'<svg xmlns="http://www.w3.org/2000/svg" width="{width}" height="{height}" viewBox="0 0 {width} {height}">',
        f"<title>{html.escape(title)}</title>", f"<style>{STYLE}</style>",
        f'<rect width="{width}" height="{height}" fill="#fff"/>', *picture.back, *picture.front, "</svg>", ""])
