"""A block of logic tiles: its ports and their IceStorm names, the published joins, bit positions.

The wires are computed here from the joins' names by a plain union-find. That is apart from the proved reader on purpose: a tool
only puts names to what the reader answers, and where the two disagree one of them is wrong.
"""
import functools
import re

from tool import Mistake, number

ROWS, COLUMNS = 16, 54
POSITIONS = ROWS * COLUMNS
CELLS, CELL_BITS = 8, 20  # in a tile, in a cell
LIBRARY_LIMIT, PROGRAM_LIMIT = 8, 3  # the largest W and H


def check_size(w, h):
    """Refuses a block that the library does not take."""
    if not (1 <= w <= LIBRARY_LIMIT and 1 <= h <= LIBRARY_LIMIT):
        raise Mistake('a block of %d by %d: W and H are 1 to %d' % (w, h, LIBRARY_LIMIT))


def tile_name(corner, w, tile):
    """The coordinates of a tile of a block of this width, as (x,y)."""
    return '(%d,%d)' % (corner[0] + tile % w, corner[1] + tile // w)


# ---- ports (document 01, 'Ports'; the names are IceStorm's)

SPANS = [('sp4_h_l', 48), ('sp4_h_r', 48), ('sp4_v_t', 48), ('sp4_v_b', 48), ('sp4_r_v_b', 48),
         ('sp12_h_l', 24), ('sp12_h_r', 24), ('sp12_v_t', 24), ('sp12_v_b', 24)]
# where the neighbour of a neigh_op name is, in steps east and north
NEIGHBOURS = {'bnl': (-1, -1), 'bot': (0, -1), 'bnr': (1, -1), 'lft': (-1, 0),
              'rgt': (1, 0), 'tnl': (-1, 1), 'top': (0, 1), 'tnr': (1, 1)}

# NAMES[q] is the name of port q, PORT[name] the port of a name
NAMES = ['%s_%d' % (span, k) for span, count in SPANS for k in range(count)]
NAMES += ['local_g%d_%d' % (a, b) for a in range(4) for b in range(8)]
NAMES += ['glb2local_%d' % k for k in range(4)]
NAMES += ['lutff_%d/in_%d' % (i, j) for i in range(CELLS) for j in range(4)]
NAMES += ['lutff_%d/out' % i for i in range(CELLS)]
NAMES += ['neigh_op_%s_%d' % (side, i) for side in NEIGHBOURS for i in range(CELLS)]
NAMES += ['lutff_global/clk', 'lutff_global/cen', 'lutff_global/s_r']
NAMES += ['glb_netwk_%d' % n for n in range(8)]
NAMES += ['carry_in', 'carry_in_mux']
NAMES += ['lutff_%d/cout' % i for i in range(CELLS)]
NAMES += ['lutff_%d/lout' % i for i in range(CELLS)]
NAMES += ['ltin']  # the cascade input of cell 0; IceStorm has no name for it
PORT = {name: q for q, name in enumerate(NAMES)}


# ---- joins and wires (document 01, 'Joins', and 02, W2)

def span_joins(x, y):
    """The span wires: on to the next tile east and south, crossed in pairs from one side of the tile to the other, and seen from the west."""
    for span, count, through, shift in (('sp4', 48, 36, 12), ('sp12', 24, 22, 2)):
        for k in range(count):
            yield (x, y, '%s_h_r_%d' % (span, k)), (x + 1, y, '%s_h_l_%d' % (span, k))
            yield (x, y, '%s_v_b_%d' % (span, k)), (x, y - 1, '%s_v_t_%d' % (span, k))
        for k in range(through):
            yield (x, y, '%s_h_l_%d' % (span, k)), (x, y, '%s_h_r_%d' % (span, (k ^ 1) + shift))
            yield (x, y, '%s_v_t_%d' % (span, k)), (x, y, '%s_v_b_%d' % (span, (k ^ 1) + shift))
    for k in range(48):
        yield (x, y, 'sp4_r_v_b_%d' % k), (x + 1, y, 'sp4_v_b_%d' % k)


def output_names(x, y):
    """The neigh_op names of tile (x, y), each with the output that it is a name for."""
    for side, (east, north) in NEIGHBOURS.items():
        for i in range(CELLS):
            yield (x, y, 'neigh_op_%s_%d' % (side, i)), (x + east, y + north, 'lutff_%d/out' % i)


def joins(x, y):
    """Each join that starts in tile (x, y): two ends of (x, y, name). The other end may be outside the block."""
    yield from span_joins(x, y)
    yield from output_names(x, y)
    for n in range(8):
        yield (x, y, 'glb_netwk_%d' % n), (0, 0, 'glb_netwk_%d' % n)
    yield (x, y, 'carry_in'), (x, y - 1, 'lutff_7/cout')
    yield (x, y, 'ltin'), (x, y - 1, 'lutff_7/lout')


def east_joins(w, h):
    """The vertical wires of the column to the east of a block, where that is logic or RAM: they run on from row to row, and the block's east
    column has names for them."""
    for y in range(1, h):
        for k in range(36):
            yield (w - 1, y, 'sp4_r_v_b_%d' % k), (w - 1, y - 1, 'sp4_r_v_b_%d' % ((k ^ 1) + 12))


class Block:
    """W by H logic tiles: which ports are one wire, and what everything is called.

    `corner` is the chip's coordinates of tile 0, so that names are those of the chip; without it tile 0 is (0,0). `east` is 1 where the
    column to the east is logic or RAM, else 0.
    """

    def __init__(self, w, h, corner=(0, 0), east=0):
        check_size(w, h)
        self.w, self.h, self.corner, self.east = w, h, corner, east
        self.wire = self.lowest_ports()  # by port number: the wire's number, which is the lowest port number on it
        self.members = {}  # by wire: its ports, rising
        for port, wire in enumerate(self.wire):
            self.members.setdefault(wire, []).append(port)

    def lowest_ports(self):
        root = list(range(len(NAMES) * self.w * self.h))

        def find(port):
            while root[port] != port:
                root[port] = root[root[port]]
                port = root[port]
            return port

        for one, other in self.joins():
            low, high = sorted((find(self.number(one)), find(self.number(other))))
            root[high] = low
        return [find(port) for port in range(len(root))]

    def joins(self):
        """Each join of the block, as two ends inside it. Names for one output of a tile outside are one wire."""
        names = {}  # by output of a tile outside: the first name for it
        for x, y in [(x, y) for y in range(self.h) for x in range(self.w)]:
            yield from (ends for ends in joins(x, y) if self.inside(*ends[1][:2]))
            yield from ((name, names.setdefault(output, name)) for name, output in output_names(x, y) if not self.inside(*output[:2]))
        yield from east_joins(self.w, self.h) if self.east else ()

    def inside(self, x, y):
        return 0 <= x < self.w and 0 <= y < self.h

    @functools.cached_property
    def leaving(self):
        """The span wires that go on outside: those with a port that a join links to a tile outside the block."""
        found = set()
        for x, y in [(x, y) for y in range(-1, self.h + 1) for x in range(-1, self.w + 1)]:
            for ends in span_joins(x, y):
                inside = [end for end in ends if self.inside(end[0], end[1])]
                found.update(self.wire[self.number(end)] for end in inside if len(inside) < len(ends))
        return found

    def number(self, end):
        x, y, name = end
        return len(NAMES) * (y * self.w + x) + PORT[name]

    def ports(self, wire):
        """Every port number on a wire, rising."""
        if wire in self.members:
            return self.members[wire]
        known = ': that port is on wire %d' % self.wire[wire] if 0 <= wire < len(self.wire) else ''
        raise Mistake('%d is no wire of a block of %d by %d%s' % (wire, self.w, self.h, known))

    def tile_name(self, tile):
        """A tile's coordinates, as (x,y)."""
        if tile >= self.w * self.h:
            raise Mistake('a block of %d by %d has no tile %d' % (self.w, self.h, tile))
        return tile_name(self.corner, self.w, tile)

    def tile_at(self, text):
        """The index of a tile that the user gives as an index or as its coordinates x,y."""
        words = [number(word) for word in text.split(',')]
        if len(words) == 2:
            x, y = words[0] - self.corner[0], words[1] - self.corner[1]
            if self.inside(x, y):
                return y * self.w + x
        elif len(words) == 1 and 0 <= words[0] < self.w * self.h:
            return words[0]
        raise Mistake('%s is no tile of this block of %d by %d' % (text, self.w, self.h))

    def port_name(self, port):
        """A port's tile and name, as '(0,1) neigh_op_bnr_0'."""
        tile, q = divmod(port, len(NAMES))
        return '%s %s' % (self.tile_name(tile), NAMES[q])

    def wire_name(self, wire):
        """A wire's number and all its names. A global net has its name in every tile, so that name stands once."""
        names = ', '.join(self.port_name(port) for port in self.ports(wire))
        own = NAMES[wire % len(NAMES)]
        return 'wire %d [%s]' % (wire, own + ' of every tile' if own.startswith('glb_netwk') else names)


# ---- bit positions and cells (document 01, 'Cells')

LUT_INIT = [4, 14, 15, 5, 6, 16, 17, 7, 3, 13, 12, 2, 1, 11, 10, 0]  # the LC bits of the table, lowest first
FLAGS = ['carry', 'flip-flop', 'set', 'asynchronous']  # weights 1, 2, 4, 8 in frame 07
FLAG_BITS = [8, 9, 18, 19]  # their LC bits


def cell_position(i, k):
    """The position of LC_i[k]."""
    return COLUMNS * 2 * i + 36 + k if k < 10 else COLUMNS * (2 * i + 1) + 26 + k


def cell_numbers(tile, i):
    """The table and the flags of a cell; a tile is one number with position p at weight 2^p."""
    return [sum((tile >> cell_position(i, k) & 1) << j for j, k in enumerate(bits)) for bits in (LUT_INIT, FLAG_BITS)]


def table_and_flags(table, flags):
    """A cell's table and flags in words."""
    return 'table %04X, %s' % (table, ', '.join(name for k, name in enumerate(FLAGS) if flags >> k & 1) or 'no flags')


def position_name(position):
    """IceStorm's name of a position: B0[14] for 14."""
    return 'B%d[%d]' % divmod(position, COLUMNS)


def position_at(name):
    """The position of a name such as B0[14]."""
    match = re.fullmatch(r'B(\d+)\[(\d+)\]', name)
    if not match or int(match[1]) >= ROWS or int(match[2]) >= COLUMNS:
        raise Mistake('%s is no bit of a logic tile: B0[0] to B%d[%d]' % (name, ROWS - 1, COLUMNS - 1))
    return COLUMNS * int(match[1]) + int(match[2])
