"""One step of the patch: four by four coefficients subdivided onto the child cell that holds the point."""
from __future__ import annotations

from typing import Tuple

from drawing import FAINT, INK, LEVEL_FILLS, MARK, Picture
from surface import TWO_SCALE_WEIGHTS

CELL, TOP = 84, 110
# The half of the cell along u and along v in which the point lies, and the point itself, in cells.
HALF = (1, 0)
POINT = (0.72, 0.31)
FINE = "#2f6f9f"


def finer(half: int, k: int) -> float:
    """Where entry k of the finer patch stands, in cells from the low corner of the point's cell."""
    return (half + k - 1) / 2


def weight(parent: float, child: float) -> int:
    """The weight over 8 with which a child takes a parent that stands that far from it, both in coarse cells."""
    offset = round(2 * (child - parent)) + 2
    return TWO_SCALE_WEIGHTS[offset] if 0 <= offset < len(TWO_SCALE_WEIGHTS) else 0


def panel(picture: Picture, left: float, fine: bool) -> None:
    """The cells around the point's, with the coefficients of the patch where their functions are greatest."""

    def at(u: float, v: float) -> Tuple[float, float]:
        return left + (u + 1) * CELL, TOP + (2 - v) * CELL

    corner = at(HALF[0] / 2, HALF[1] / 2 + 0.5) if fine else at(0, 1)
    side = CELL / 2 if fine else CELL
    picture.fill(*corner, side, side, LEVEL_FILLS[2] if fine else LEVEL_FILLS[1])
    for k in range(-1, 3):
        picture.path(f"M{at(k, -1)[0]:g} {at(k, -1)[1]:g}V{at(k, 2)[1]:g}", FAINT, 0.8)
        picture.path(f"M{at(-1, k)[0]:g} {at(-1, k)[1]:g}H{at(2, k)[0]:g}", FAINT, 0.8)
    if fine:
        low, high = (at(finer(HALF[0], k), finer(HALF[1], k)) for k in (0, 3))
        for k in range(4):
            x, y = at(finer(HALF[0], k), finer(HALF[1], k))
            picture.path(f"M{x:g} {low[1]:g}V{high[1]:g}M{low[0]:g} {y:g}H{high[0]:g}", FINE, 0.8)
    picture.box(*at(0, 1), CELL, CELL, width=2)
    picture.box(*corner, side, side, line=FINE if fine else INK, width=2.4)
    for k in range(4):
        for l in range(4):
            picture.dot(*at(k - 1, l - 1), 8, "#fff" if fine else MARK, FAINT if fine else "none")
    if fine:
        for k in range(4):
            for l in range(4):
                picture.dot(*at(finer(HALF[0], k), finer(HALF[1], l)), 6, FINE)
    picture.cross(*at(*POINT))


def spread(picture: Picture, left: float, top: float) -> None:
    """One function of a level as five of the next."""
    picture.dot(left + 2 * 60, top, 8)
    for k, share in enumerate(TWO_SCALE_WEIGHTS):
        x = left + k * 60
        picture.path(f"M{left + 120:g} {top + 8:g}L{x:g} {top + 74:g}", FAINT)
        picture.dot(x, top + 80, 6, FINE)
        picture.text(x, top + 106, str(share), bold=True)


def gather(picture: Picture, left: float, top: float) -> None:
    """The four parents along one direction, and what each of the four children takes of them."""
    unit = 116
    for k in range(4):
        child = finer(HALF[0], k)
        for parent in range(-1, 3):
            if weight(parent, child):
                x0, x1 = left + (parent + 1) * unit, left + (child + 1) * unit
                picture.path(f"M{x0:g} {top + 8:g}L{x1:g} {top + 74:g}", FAINT)
    for parent in range(-1, 3):
        picture.dot(left + (parent + 1) * unit, top, 8)
    for k in range(4):
        child = finer(HALF[0], k)
        x = left + (child + 1) * unit
        shares = [weight(parent, child) for parent in range(-1, 3) if weight(parent, child)]
        picture.dot(x, top + 80, 6, FINE)
        picture.text(x, top + 106, " ".join(map(str, shares)), bold=True)


def patch_step() -> str:
    picture = Picture(880, 620)
    left, right = 60, 540
    picture.words(left - 10, 32, ["Level L: the patch is the sixteen", "coefficients around the point's cell."])
    picture.words(right - 10, 32, ["Level L+1: sixteen around the", "point's cell of half the side."])
    panel(picture, left, False)
    panel(picture, right, True)
    picture.arrow(left + 3 * CELL + 60, right - 60, TOP + 1.5 * CELL)
    picture.text((left + 3 * CELL + right) / 2, TOP + 1.5 * CELL - 16, "one step")
    lower = TOP + 3 * CELL + 44
    picture.words(left - 10, lower, ["A function of level L is five of", "level L+1, with these weights over 8:"])
    spread(picture, left + 10, lower + 52)
    picture.words(right - 150, lower, ["So, along u and again along v, a finer coefficient",
                                       "takes two or three coarser ones, over 8:"])
    gather(picture, right - 120, lower + 52)
    picture.text(left - 10, lower + 192, "Where a function of level L+1 lies in the region of that level, its own "
                 "coefficient takes the place of the subdivided one.", 13, "start")
    return picture.svg()
