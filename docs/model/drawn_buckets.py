"""Buckets that are too full, drawn at random, with the cut that the rules in words say; see independent_model.py, which runs this.

Each line is a bucket, as numbers: how many attributes; the most boundaries of a scale and the most cells; the turn; the low and the high corner of the
region; how many boundaries, and each with its attribute; how many keys, and each; and its cut, or 0 for none: 1, attribute, value, and 1 where it is fresh.
"""
from collections import Counter

from independent_model import LARGEST, Box, Grid, Shape
from kept_scripts import Dice

COUNT = 50


def some_scale(dice, width):
    return tuple(sorted({1 + dice.below(width) for _ in range(dice.below(4))}))


def some_side(dice, scale):
    """The bounds of some intervals of a scale that follow each other."""
    ends = sorted((dice.below(len(scale) + 1), dice.below(len(scale) + 1)))
    return ((0,) + scale)[ends[0]], (tuple(b - 1 for b in scale) + (LARGEST,))[ends[1]]


def some_key(dice, box, width):
    return tuple(low + dice.below(min(high - low, width) + 1) for low, high in zip(box.lo, box.hi))


def draw(dice, k):
    """A grid with the scales of a bucket, the bucket's box, and its keys."""
    width = [12, 6, 4, 3][k - 1]
    scales = [some_scale(dice, width) for _ in range(k)]
    sides = [some_side(dice, scale) for scale in scales]
    box = Box(tuple(side[0] for side in sides), tuple(side[1] for side in sides), dice.below(k))
    keys = sorted({some_key(dice, box, width) for _ in range(3 + dice.below(6))})
    longest = max(len(scale) for scale in scales)
    grid = Grid(Shape(k, 2, 8, 1, max(1, longest + dice.below(3)), 1000000))
    grid.scales = scales
    grid.shape = grid.shape._replace(cells=grid.cells() + dice.one_of([0, 1, 2, 4, 8, 1000]))
    return grid, box, keys


def words_of(grid, box, keys, cut):
    boundaries = [number for a, scale in enumerate(grid.scales) for value in scale for number in (a, value)]
    yield from (grid.shape.k, grid.shape.boundaries, grid.shape.cells, box.turn, *box.lo, *box.hi)
    yield from (len(boundaries) // 2, *boundaries, len(keys), *(value for key in keys for value in key))
    yield from (1, cut.attribute, cut.value, int(cut.fresh)) if cut else (0,)


def table():
    dice, lines, kinds = Dice(7), [], Counter()
    for k in range(1, 5):
        while len(lines) < COUNT * k:
            grid, box, keys = draw(dice, k)
            if len(keys) > 2:
                cut = grid.find_cut(box, keys)
                lines.append(" ".join(map(str, words_of(grid, box, keys, cut))))
                kinds["fresh" if cut and cut.fresh else "existing" if cut else "none"] += 1
    assert min(kinds[kind] for kind in ("fresh", "existing", "none")) >= 20, kinds
    return lines


def main():
    print("//! Buckets that are too full and their cuts, as `python3 docs/model/independent_model.py buckets` prints them.\n")
    print("/// A bucket on each line: the numbers that `tests.rt` reads.")
    print('pub const DRAWN: &str = "\\')
    print("\n".join(line + " \\" for line in table()))
    print('";')
