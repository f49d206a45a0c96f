"""A picture as lines of SVG."""
from __future__ import annotations

from typing import List, Sequence, Tuple
from xml.sax.saxutils import escape

# Fills of the levels 0 to 3, from coarse to fine.
LEVEL_FILLS = ("#ffffff", "#dceaf7", "#a9cbe8", "#6fa3d0")
INK, FAINT, MARK = "#1f2933", "#7a8794", "#c2410c"


class Picture:
    """Shapes on a white ground, in the order in which they are drawn."""

    def __init__(self, wide: float, high: float) -> None:
        self.lines: List[str] = [
            f'<svg xmlns="http://www.w3.org/2000/svg" width="{wide:g}" height="{high:g}" '
            'font-family="DejaVu Sans, Verdana, sans-serif" font-size="14" text-anchor="middle">',
            f'<rect width="{wide:g}" height="{high:g}" fill="#fff"/>',
        ]

    def box(self, x: float, y: float, wide: float, high: float, fill: str = "none", line: str = INK,
            width: float = 1, dashed: bool = False, round_by: float = 0) -> None:
        dashes = ' stroke-dasharray="4 3"' if dashed else ""
        self.lines.append(f'<rect x="{x:g}" y="{y:g}" width="{wide:g}" height="{high:g}" rx="{round_by:g}" '
                          f'fill="{fill}" stroke="{line}" stroke-width="{width:g}"{dashes}/>')

    def fill(self, x: float, y: float, wide: float, high: float, colour: str) -> None:
        self.lines.append(f'<rect x="{x:g}" y="{y:g}" width="{wide:g}" height="{high:g}" fill="{colour}"/>')

    def dot(self, x: float, y: float, radius: float, fill: str = MARK, line: str = "none") -> None:
        self.lines.append(f'<circle cx="{x:g}" cy="{y:g}" r="{radius:g}" fill="{fill}" stroke="{line}" '
                          'stroke-width="1.5"/>')

    def path(self, drawn: str, line: str = INK, width: float = 1, dashed: bool = False) -> None:
        dashes = ' stroke-dasharray="4 3"' if dashed else ""
        self.lines.append(f'<path d="{drawn}" fill="none" stroke="{line}" stroke-width="{width:g}"{dashes}/>')

    def cross(self, x: float, y: float) -> None:
        self.path(f"M{x - 7:g} {y:g}h14M{x:g} {y - 7:g}v14", "#111", 2.2)

    def arrow(self, x0: float, x1: float, y: float) -> None:
        self.path(f"M{x0:g} {y:g}H{x1:g}m-9 -6l9 6l-9 6", INK, 2)

    def text(self, x: float, y: float, words: str, size: float = 14, at: str = "middle", colour: str = INK,
             bold: bool = False, turned: bool = False) -> None:
        weight = ' font-weight="bold"' if bold else ""
        turn = f' transform="rotate(-90 {x:g} {y:g})"' if turned else ""
        self.lines.append(f'<text x="{x:g}" y="{y:g}" font-size="{size:g}" text-anchor="{at}" '
                          f'fill="{colour}"{weight}{turn}>{escape(words)}</text>')

    def words(self, x: float, y: float, rows: Sequence[str], size: float = 14, at: str = "start",
              colour: str = INK) -> None:
        for k, row in enumerate(rows):
            self.text(x, y + k * (size + 5), row, size, at, colour)

    def svg(self) -> str:
        return "\n".join(self.lines) + "\n</svg>\n"


def runs(values: Sequence[bool]) -> List[Tuple[int, int]]:
    """The stretches of True, each from its first place to the place after its last."""
    found: List[Tuple[int, int]] = []
    for k, value in enumerate(values):
        if value and found and found[-1][1] == k:
            found[-1] = (found[-1][0], k + 1)
        elif value:
            found.append((k, k + 1))
    return found
