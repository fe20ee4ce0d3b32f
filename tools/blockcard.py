"""The shelf cards of a design's blocks as a table for its page: cells, flip-flops, what leaves each block and what feeds it.

All numbers are the library's (`ice40_card`). Python puts the chip's names to the wires, and says which pads of the chip they come from or go to
(pads.py): that is not proved.
"""
import html

import cover
from faults import sized_block
from ice40 import NAMES
from pads import Pads
from tool import counted

SEEN = ('sp4_r_v_b', 'neigh_op')
SINGLE = 14  # as many rows are in one table; more are in two, side by side
HEADS = ('block', 'cells', 'flip-flops', 'leaving', 'feeding')
COUNTS = ("A cell counts where any of its bits is set. Leaving are span wires that a switch of the block drives and that go on outside it. Feeding are the open "
          "wires that a leaving wire or a flip-flop's in, clk, cen or s_r depends on. Blocks overlap, so that a cell or a wire may count in several. Open a number "
          "for its wires; what is open is printed.")
KEY = COUNTS + " Names and pins are Python's, not proved."


class Names:
    """The names of a block's wires."""

    def __init__(self, cut):
        self.block, self.at = sized_block(cut.w, cut.h, cut.east), cover.tiles(cut)

    def of(self, wire):
        """Every name in the block: x, y, name."""
        return [(*self.at[port // len(NAMES)], NAMES[port % len(NAMES)]) for port in self.block.ports(wire)]


def names_words(names):
    """The names of a wire in a line, each with its tile. Names for a wire of the column or the tile beside are left out where it has others. A global
    net has one name in every tile."""
    if names[0][2].startswith('glb_netwk'):
        return names[0][2]
    own = [name for name in names if not name[2].startswith(SEEN)] or names
    return ', '.join('(%d,%d) %s' % name for name in own)


def wire_words(names, pads, way):
    """A wire by its pads, if it has any, and its names. `way` is from or to."""
    return '%s %s: %s' % (way, pads, names_words(names)) if pads else names_words(names)


def wire_list(names, wires, pads, way):
    """How many wires there are, with each folded behind it. `pads` gives the pads of a wire by its names."""
    if not wires:
        return '0'
    items = ''.join('<li>%s</li>' % html.escape(wire_words(found, pads(found), way)) for found in map(names.of, wires))
    return '<details><summary>%s</summary><ul>%s</ul></details>' % (counted(len(wires), 'wire'), items)


def is_empty(card):
    return card is not None and not (card.cells or card.leaving or card.feeding)


def row(cut, ground, card, pads):
    """The row of a block; where the library made no card that is said."""
    name = cover.name(cut)
    if ground:
        cells = '<td colspan="4">no, ground %d: no card</td>' % ground
    else:
        names = Names(cut)
        lists = wire_list(names, card.leaving, pads.reached, 'to'), wire_list(names, card.feeding, pads.sources, 'from')
        cells = '<td>%d</td><td>%d</td><td>%s</td><td>%s</td>' % (card.cells, card.flip_flops, *lists)
    return '<tr data-card="%s"><th scope="row">%s</th>%s</tr>' % (name, name, cells)


def empty_row(count):
    """All blocks in which there is nothing, in one line."""
    return ['<tr class="empty"><td colspan="5">%s: no cells, no wires</td></tr>' % counted(count, 'other block')] * bool(count)


def tables(verdict, evidence, package=None):
    """The tables: one, or two to stand side by side. `package` is the one whose pins are named."""
    pads = Pads(verdict, package)
    rows = [row(cut, ground, card, pads) for cut, (ground, _), card in zip(verdict.cuts, verdict.answers, verdict.cards) if not is_empty(card)]
    rows += empty_row(sum(map(is_empty, verdict.cards)))
    half = len(rows) if len(rows) <= SINGLE else (len(rows) + 1) // 2
    head = '<tr>%s</tr>' % ''.join('<th scope="col">%s</th>' % name for name in HEADS)
    caption = 'What the proved library finds in each block' if evidence.proved else 'What the library finds in each block, not proved'
    return ['<table class="held"><caption>%s%s</caption>%s%s</table>' % (caption, ', continued' if k else '', head, ''.join(rows[k:k + half]))
            for k in range(0, len(rows), half)]
