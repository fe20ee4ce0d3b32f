"""The blocks that cover the logic tiles of a chip: up to 8 by 8, overlapping by four tiles.

Logic columns stand in strips between the RAM columns and the rim. In a row or a column of a strip each five tiles that follow one another lie in
one block, so that a span-4 wire, which has names in five tiles, lies in a block with all that it has of a strip.
"""
from collections import namedtuple
from itertools import groupby

from icestorm import column_kind
from tool import Mistake

LIMIT, OVERLAP = 8, 4
Cut = namedtuple('Cut', 'x y w h east')  # a block: its south-west tile, its size, and the byte for the column to the east


def windows(start, count):
    """Where the blocks along `count` tiles begin, and how many tiles each has."""
    last = max(count - LIMIT, 0)
    return [(start + first, min(count, LIMIT)) for first in [*range(0, last, LIMIT - OVERLAP), last]]


def strips(chip):
    """The strips of a chip: first column, columns, first row, rows."""
    rows = {}
    for x, y in chip.logic:
        rows.setdefault(x, []).append(y)
    for x, ys in rows.items():
        if ys != list(range(ys[0], ys[0] + len(ys))):
            raise Mistake('column %d of a %s has other tiles among its logic tiles' % (x, chip.device))
    for (_, first, count), columns in groupby(sorted(rows), key=lambda x: (x - sorted(rows).index(x), rows[x][0], len(rows[x]))):
        columns = list(columns)
        yield columns[0], len(columns), first, count


def blocks(chip):
    """The blocks, strip by strip from the west, in a strip from the south."""
    return [Cut(x, y, w, h, int(column_kind(chip.device, x + w) in ('logic', 'RAM')))
            for first, columns, south, rows in strips(chip) for y, h in windows(south, rows) for x, w in windows(first, columns)]


def tiles(cut):
    """The coordinates of a block's tiles, by index."""
    return [(cut.x + a, cut.y + b) for b in range(cut.h) for a in range(cut.w)]


def homes(cuts):
    """For each tile the first block that it is in, and its index there."""
    found = {}
    for k, cut in enumerate(cuts):
        for t, at in enumerate(tiles(cut)):
            found.setdefault(at, (k, t))
    return found


def name(cut):
    """A block by its corners, as (4,1)-(9,8)."""
    return '(%d,%d)-(%d,%d)' % (cut.x, cut.y, cut.x + cut.w - 1, cut.y + cut.h - 1)
