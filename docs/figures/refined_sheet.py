"""The regions of a sample table, and the coefficients around one point."""
from __future__ import annotations

from pathlib import Path

import calls
import tablefile
import tree as quadtree
from drawing import FAINT, LEVEL_FILLS, Picture, runs
from surface import LEVELS

ROOT = Path(__file__).resolve().parents[2]
TABLE = "kiln-refined-near-top-heat"
CELL, LEFT, TOP = 92, 74, 66
POINT = (6.6, 1.7)
DOTS = tuple(9 - 2 * level for level in LEVELS)


def legend(picture: Picture) -> None:
    x = LEFT
    for level in LEVELS:
        picture.box(x, 16, 30, 24, LEVEL_FILLS[level], FAINT)
        picture.dot(x + 15, 28, DOTS[level])
        picture.text(x + 38, 33, f"level {level}", at="start")
        x += 112
    picture.text(x + 8, 33, "dots: coefficients around", at="start")
    picture.cross(x + 204, 28)


def edge(eighths: int, *levels: int) -> bool:
    return any(eighths % 2 ** (3 - level) == 0 for level in levels)


def refined_sheet() -> str:
    content = tablefile.judge((ROOT / "tables" / f"{TABLE}.table").read_bytes())
    levels = quadtree.level_map(content.tree, content.w, content.h)
    surface = calls.surface_of(content.w, content.h, content.tree)
    wide, high = content.w * CELL, content.h * CELL
    across, up = range(4 * content.w), range(4 * content.h)
    picture = Picture(wide + LEFT + 34, high + TOP + 66)

    def x(u: float) -> float:
        return LEFT + u * CELL

    def y(v: float) -> float:
        return TOP + high - v * CELL

    legend(picture)
    for r in up:
        for level in LEVELS[1:]:
            for low, end in runs([levels[r][q] == level for q in across]):
                picture.fill(x(low / 4), y((r + 1) / 4), (end - low) * CELL / 4, CELL / 4, LEVEL_FILLS[level])
    # A line in eighths of a cell is drawn along the quarter squares beside it that have a cell edge there.
    for k in range(1, 8 * content.w):
        for low, end in runs([edge(k, levels[r][(k - 1) // 2], levels[r][k // 2]) for r in up]):
            picture.path(f"M{x(k / 8):g} {y(low / 4):g}V{y(end / 4):g}", FAINT, 0.7)
    for k in range(1, 8 * content.h):
        for low, end in runs([edge(k, levels[(k - 1) // 2][q], levels[k // 2][q]) for q in across]):
            picture.path(f"M{x(low / 4):g} {y(k / 8):g}H{x(end / 4):g}", FAINT, 0.7)
    picture.box(LEFT, TOP, wide, high)
    u, v = POINT
    for level in LEVELS:
        for i, j in surface.active_functions(level):
            (low_u, low_v), size = (i / 2**level, j / 2**level), 4 / 2**level
            middle_u, middle_v = low_u + size / 2, low_v + size / 2
            around = low_u < u < low_u + size and low_v < v < low_v + size
            if around and 0 <= middle_u <= content.w and 0 <= middle_v <= content.h:
                picture.dot(x(middle_u), y(middle_v), DOTS[level])
    picture.cross(x(u), y(v))
    for k in range(content.w + 1):
        picture.text(x(k), TOP + high + 22, str(k))
    for k in range(content.h + 1):
        picture.text(LEFT - 16, y(k) + 5, str(k))
    picture.text(LEFT + wide / 2, TOP + high + 48, "u: chamber temperature, in cells", bold=True)
    picture.text(28, TOP + high / 2, "v: climb rate, in cells", bold=True, turned=True)
    return picture.svg()
