#!/usr/bin/env python3
"""Puts IceStorm's names to the numbers of a report, and back.

    names.py W H wire N            every name of wire N in a block of W by H tiles, with its tile's coordinates
    names.py W H port TILE NAME    the number of the wire that a port is on; TILE is an index or x,y
    names.py position P            a bit position as row and column, and what claims it; P is a number or a name as B0[14]

Numbers are decimal, or hexadecimal after 0x: the report's wire 0162 is 0x0162. With --east 1 the column to the east of the block is logic or
RAM, as the last byte of the input's frame 04 says.
"""

from frames import FIELDS, port_name, read_table
from ice40 import CELLS, FLAG_BITS, FLAGS, LUT_INIT, NAMES, PORT, POSITIONS, Block, cell_position, position_at, position_name
from tool import Mistake, add_east, number, parser_for, run


def wire_words(block, wire):
    return [block.port_name(port) for port in block.ports(wire)]


def port_words(block, tile, name):
    if name not in PORT:
        raise Mistake('%s is no port of a logic tile' % name)
    wire = block.wire[len(NAMES) * block.tile_at(tile) + PORT[name]]
    return '%d (0x%04X)' % (wire, wire)


def cell_claims(position):
    """The bit of a logic cell that stands at a position."""
    uses = {k: 'LUT_INIT %d' % j for j, k in enumerate(LUT_INIT)}
    uses.update(zip(FLAG_BITS, FLAGS))
    return ['LC_%d[%d], %s' % (i, k, use) for i in range(CELLS) for k, use in uses.items() if cell_position(i, k) == position]


def table_claims(position, table):
    """What a routing table says of a position. A table that breaks the rules may claim it more than once."""
    claims = [name for name, p in zip(FIELDS, table.fields) if p == position]
    claims += ['passive position %d' % j for j, p in enumerate(table.passive) if p == position]
    for g, group in enumerate(table.groups):
        claims += ['group %d, destination %s, weight %d' % (g, port_name(group.destination), 1 << k)
                   for k, p in enumerate(group.positions) if p == position]
    return claims


def position_words(text, path):
    position = position_at(text) if text.startswith('B') else number(text)
    if not 0 <= position < POSITIONS:
        raise Mistake('%d is no position: 0 to %d' % (position, POSITIONS - 1))
    claims = cell_claims(position) + (table_claims(position, read_table(path)) if path else [])
    unknown = 'claimed by nothing' if path else 'no bit of a logic cell; what else claims it, --table says'
    return 'position %d, %s: %s' % (position, position_name(position), '; '.join(claims) or unknown)


def main():
    parser = parser_for(__doc__, usage='%(prog)s [options] QUESTION')
    parser.add_argument('question', nargs='+', metavar='QUESTION', help='one of the three forms above')
    parser.add_argument('--corner', nargs=2, type=number, default=(0, 0), metavar=('X', 'Y'), help="the chip's coordinates of tile 0")
    add_east(parser, '1 where the column to the east of the block is logic or RAM, else 0; 0 unless said')
    parser.add_argument('--table', metavar='FILE', help='the routing table, or a whole input, for what claims a position')
    arguments = parser.parse_args()

    def block():
        return Block(number(words[0]), number(words[1]), arguments.corner, arguments.east or 0)

    words = arguments.question
    if words[0] == 'position' and len(words) == 2:
        return [position_words(words[1], arguments.table)], 0
    if words[2:3] == ['wire'] and len(words) == 4:
        return wire_words(block(), number(words[3])), 0
    if words[2:3] == ['port'] and len(words) == 5:
        return [port_words(block(), words[3], words[4])], 0
    return parser.error('the question is W H wire N, W H port TILE NAME, or position P')


if __name__ == '__main__':
    run(main)
