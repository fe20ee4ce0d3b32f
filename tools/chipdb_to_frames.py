#!/usr/bin/env python3
"""Turns IceStorm's chip database of a device into the routing table of its logic tiles: frames 01, 02 and 03.

    chipdb_to_frames.py chipdb-1k.txt > 1k.tab

The database is in Debian's package fpga-icestorm-chipdb, or in IceStorm's own installation.
"""
import functools

from frames import FIELDS, Group, Table, table_frames
from ice40 import CELL_BITS, CELLS, COLUMNS, NEIGHBOURS, PORT, ROWS, cell_position, position_at
from icestorm import LINE, coordinates, sections
from tool import Mistake, about, parser_for, pieces, run

CHAIN = [PORT['carry_in'], PORT['carry_in_mux']]  # the one switch that is a field and no group
# the switch that the database lacks: the cascade of the tile below, selected by a bit of its own
LTIN = Group(PORT['lutff_0/in_2'], [position_at('B0[50]')], [(1, PORT['ltin'])])


class Database:
    """What the lines of a chip database say of one logic tile. They are read in one pass, so that a pipe serves too: tiles and bits stand
    before the nets."""

    def __init__(self, lines):
        self.known, self.tiles = set(), set()  # the kinds of section that were met; the coordinates of all logic tiles
        self.bits = {}  # by name, the positions of bits that are no switches
        self.names = {}  # by net, the names that it has in the tile
        self.switches = []  # the tile's sections: a destination net and its bits, then for each source a pattern and a net
        self.take = {'.logic_tile': self.add_tile, '.logic_tile_bits': self.add_bits, '.net': self.add_net, '.buffer': self.add_switch,
                     '.routing': self.add_switch}
        for head, rows in sections(lines):
            self.known.add(head[0])
            self.add(head, rows)
        for kind in ('.device', '.logic_tile_bits', '.net'):
            if kind not in self.known:
                raise Mistake('not a chip database: no section %s' % kind)
        if not self.switches:
            raise Mistake('not a chip database: tile (%s,%s) has no switches' % self.tile)

    def add(self, head, rows):
        if head[0] in self.take:
            self.take[head[0]](head, rows)

    @functools.cached_property
    def tile(self):
        """A logic tile with logic on all sides. Beside IO tiles one net has two names in a tile; here each has one."""
        for x, y in sorted(self.tiles):
            if all((x + east, y + north) in self.tiles for east, north in NEIGHBOURS.values()):
                return str(x), str(y)
        raise Mistake('not a chip database: no logic tile with logic tiles on all sides')

    def add_tile(self, head, _):
        self.tiles.add(coordinates(head[1:]))

    def add_bits(self, head, rows):
        if head[1:] != [str(COLUMNS), str(ROWS)]:
            raise Mistake('a logic tile has %d columns and %d rows, not %s' % (COLUMNS, ROWS, ' and '.join(head[1:])))
        self.bits = {words[0]: [position_at(name) for name in words[1:]] for words in rows}

    def add_net(self, head, rows):
        self.names[head[-1]] = [words[-1] for words in rows if tuple(words[:2]) == self.tile]

    def add_switch(self, head, rows):
        if tuple(head[1:3]) == self.tile:
            self.switches.append((head, rows))


def port_of(names, net):
    """The port of a net, by the one name that it has in the tile."""
    found = names.get(net, [])
    if len(found) != 1 or found[0] not in PORT:
        raise Mistake('net %s is no one port of a logic tile: %s' % (net, ', '.join(found) or 'no name'))
    return PORT[found[0]]


def pattern_of(bits):
    """A pattern as the database writes it: the first digit belongs to the first position and has weight 1."""
    return int(bits[::-1], 2)


def group_of(names, head, rows):
    """The group of one section: its positions and entries keep the database's order."""
    try:
        entries = [(pattern_of(pattern), port_of(names, source)) for pattern, source in rows]
        return Group(port_of(names, head[3]), [position_at(bit) for bit in head[4:]], entries)
    except (ValueError, IndexError):
        raise Mistake('not a chip database: the section "%s"' % ' '.join(head)) from None


def is_chain(group):
    return [source for _, source in group.entries] + [group.destination] == CHAIN


def check_cells(bits):
    """Refuses a database whose logic cell bits are elsewhere: the reader has their positions built in."""
    for i in range(CELLS):
        if bits.get('LC_%d' % i) != [cell_position(i, k) for k in range(CELL_BITS)]:
            raise Mistake('the bits of LC_%d are not where a logic tile has them' % i)


def table_of(database, ltin=False):
    check_cells(database.bits)
    groups = [group_of(database.names, head, rows) for head, rows in database.switches]
    chain = [group.positions[0] for group in groups if is_chain(group)]
    fields = database.bits.get('NegClk', []) + database.bits.get('CarryInSet', []) + chain
    if len(fields) != len(FIELDS):
        raise Mistake('not one position each for NegClk, CarryInSet and the switch from carry_in to carry_in_mux')
    passive = [p for name in database.bits if name.startswith('ColBufCtrl.') for p in database.bits[name]]
    return Table(fields, passive, [group for group in groups if not is_chain(group)] + [LTIN] * ltin)


def main():
    parser = parser_for(__doc__)
    parser.add_argument('database', metavar='CHIPDB', help='chipdb-1k.txt, chipdb-384.txt, chipdb-5k.txt or chipdb-8k.txt; - for standard input')
    parser.add_argument('--ltin', action='store_true',
                        help='add the switch that the database lacks: ltin (port 505) to lutff_0/in_2, at B0[50]')
    arguments = parser.parse_args()
    with about(arguments.database):
        return table_frames(table_of(Database(pieces(arguments.database, LINE)), arguments.ltin)), 0


if __name__ == '__main__':
    run(main)
