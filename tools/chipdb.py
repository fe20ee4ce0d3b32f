"""A whole chip database, worked out to the parts that chip.py reads: the tiles, the routing table, which nets the switches of each tile join,
the names of every net, and the pins of each package.

Tiles of one kind have the same switches, at most a few variants of them (IO tiles): a shape lists their bits and patterns once, and a tile
has the nets alone.
"""
import io
import json
import sys
from array import array

import packed
from chip import KINDS, NO_SHAPE
from chipdb_to_frames import Database, group_of, is_chain, pattern_of, table_of
from icestorm import LINE, coordinates
from proved import table_numbers
from tool import Mistake, lines_in

BUFFER = 'padin_glb_netwk.'  # a bit by which a pad drives a global network, by the network's number


def number_of(word, limit=1 << 31):
    if not word.isdecimal() or len(word) > 10 or int(word) >= limit:
        raise Mistake('not a chip database: %s is no number that can stand there' % word[:20])
    return int(word)


def three_numbers(words):
    if len(words) != 3:
        raise Mistake('not a chip database: not three numbers: %s' % ' '.join(words)[:60])
    return [number_of(word) for word in words]


class Whole(Database):
    """A database with every tile, switch and net."""

    def __init__(self, lines):
        self.kinds, self.columns, self.device = {}, {}, []
        self.starts, self.xs, self.ys, self.labels, self.label_of = array('I', [0]), array('B'), array('B'), array('H'), {}
        self.pads = {'packages': {}, 'globals': [], 'buffers': []}
        self.sections, self.section_of = {}, {}  # by tile: section number, destination net, source nets; by bits and patterns: the section's number
        super().__init__(lines)

    def add(self, head, rows):
        super().add(head, rows)
        kind = head[0][1:].split('_')[0]
        if head[0] == '.device':
            self.device.append(head[1:4])
        elif head[0].endswith('_tile_bits'):
            self.columns[kind] = number_of(head[1], 64)
        elif head[0].endswith('_tile'):
            if kind not in KINDS:
                raise Mistake('a kind of tile that is not known: %s' % head[0])
            self.kinds[coordinates(head[1:])] = kind
        else:
            self.add_pads(head, rows)

    def add_pads(self, head, rows):
        """What stands of pads in a section, in the form of `Chip.pads`."""
        if head[0] == '.pins' and len(head) == 2:
            self.pads['packages'][head[1]] = [[row[0], *three_numbers(row[1:])] for row in rows]
        elif head[0] == '.gbufin':
            self.pads['globals'] = [three_numbers(row) for row in rows]
        elif head[0] == '.extra_bits':
            self.pads['buffers'] = [[number_of(row[0][len(BUFFER):]), *three_numbers(row[1:])] for row in rows if row[0].startswith(BUFFER)]

    def add_net(self, head, rows):
        super().add_net(head, rows)
        if number_of(head[1]) != len(self.starts) - 1:
            raise Mistake('not a chip database: net %s is out of turn' % head[1])
        for x, y, name in rows:
            self.xs.append(number_of(x, 256))
            self.ys.append(number_of(y, 256))
            self.labels.append(self.label_of.setdefault(name, len(self.label_of)))
        self.starts.append(len(self.xs))

    def add_switch(self, head, rows):
        super().add_switch(head, rows)
        bits, patterns = tuple(head[4:]), tuple(row[0] for row in rows)
        section = self.section_of.setdefault((bits, patterns), len(self.section_of))
        self.sections.setdefault(coordinates(head[1:]), []).append((section, number_of(head[3]), [number_of(row[1]) for row in rows]))

    # ---- the logic tiles

    def chain(self):
        """Where a logic tile's sections have the switch from carry_in to carry_in_mux, which is a field of the table and no group."""
        return [k for k, (head, rows) in enumerate(self.switches) if is_chain(group_of(self.names, head, rows))]

    def logic_nets(self):
        """The nets of the groups' destinations, for each logic tile by row and column. Every tile must have the table's groups in its order."""
        nets, chain = array('I'), set(self.chain())
        tiles = sorted((y, x) for (x, y), kind in self.kinds.items() if kind == 'logic')
        order = [section for section, _, _ in self.sections[tuple(map(int, self.tile))]]
        for y, x in tiles:
            found = self.sections.get((x, y), [])
            if [section for section, _, _ in found] != order:
                raise Mistake('logic tile (%d,%d) has other switches than tile (%s,%s)' % (x, y, *self.tile))
            nets.extend(net for k, (_, net, _) in enumerate(found) if k not in chain)
        return nets

    # ---- the other tiles

    def shape(self, kind, numbers):
        """The switches of a kind of tile: for each section its positions and its patterns. Position p is 2^p's in the tile's number."""
        names = {number: words for words, number in self.section_of.items()}
        sections = [names[number] for number in numbers]
        return [[[position(bit, self.columns[kind]) for bit in bits], [pattern_of(pattern) for pattern in patterns]] for bits, patterns in sections]

    def others(self):
        """The shapes, the shape of each tile, and for all tiles by row and column the destination nets and the source nets."""
        shapes, of_tile, destinations, sources = {}, {}, array('I'), array('I')
        for y, x in sorted((y, x) for (x, y), kind in self.kinds.items() if kind != 'logic'):
            found = self.sections.get((x, y), [])
            key = self.kinds[x, y], tuple(section for section, _, _ in found)
            of_tile[x, y] = shapes.setdefault(key, len(shapes))
            destinations.extend(net for _, net, _ in found)
            sources.extend(net for _, _, nets in found for net in nets)
        return [self.shape(*key) for key in shapes], of_tile, destinations, sources


def position(bit, columns):
    """The position of a bit such as B1[4] in a tile whose rows have so many columns."""
    row, column = bit[1:-1].split('[')
    return columns * number_of(row, 16) + number_of(column, columns)


def grid(width, height, values, rest):
    """A byte for each place of a chip, row by row."""
    return bytes(values.get((x, y), rest) for y in range(height) for x in range(width))


def packed_chip(data, told):
    """The parts of a chip whose database has these bytes; `told` is their SHA-256."""
    whole = Whole(lines_in(io.BytesIO(data), LINE))
    if len(whole.device) != 1 or len(whole.device[0]) != 3:
        raise Mistake('not a chip database: no one line .device with its size')
    device, width, height = whole.device[0][0], *(number_of(word, 256) for word in whole.device[0][1:])
    shapes, of_tile, destinations, sources = whole.others()
    facts = {'database': told, 'order': sys.byteorder, 'device': device, 'width': width, 'height': height, 'columns': whole.columns,
             'sections': [len(shape) for shape in shapes], 'entries': [sum(len(patterns) for _, patterns in shape) for shape in shapes]}
    kinds = {at: KINDS.index(kind) for at, kind in whole.kinds.items()}
    parts = {'kinds': grid(width, height, kinds, 0), 'shape_of': grid(width, height, of_tile, NO_SHAPE),
             'table': bytes(table_numbers(table_of(whole))), 'logic': whole.logic_nets().tobytes()}
    parts.update(('shape%d' % k, json.dumps(shape).encode()) for k, shape in enumerate(shapes))
    numbers = {'destinations': destinations, 'sources': sources, 'starts': whole.starts, 'xs': whole.xs, 'ys': whole.ys, 'labels': whole.labels}
    parts.update((name, numbers[name].tobytes()) for name in numbers)
    parts['names'] = '\n'.join(whole.label_of).encode()
    parts['pads'] = json.dumps(whole.pads).encode()
    return packed.pack(facts, parts)
