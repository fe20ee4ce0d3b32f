#!/usr/bin/env python3
"""Compares the wires that leave a block by its shelf card with the nets of IceStorm's chip databases: a driven span wire leaves if its net has a name in a
tile outside the block. Blocks of real designs, and random switches in blocks all over the chips of all devices.

    python3 tests/leaving.py                     needs the Rattle kit (rt), a C compiler and Python 3; Debian's fpga-icestorm-chipdb for devices other
                                                 than the 1k, whose nets are bundled
    python3 tests/leaving.py 1000                so many random blocks of each device (300 unless said)
    python3 tests/leaving.py --designs FOLDER    .asc files beyond those in tests/data

The switches that drive and the joins that fail are those of tests/model.py, from the papers. It prints a line for each group of cases and ends with the
number of differences.
"""
import argparse
import glob
import os
import random
import sys

sys.path.insert(0, os.path.dirname(os.path.abspath(__file__)))
import model  # noqa: E402
import nets  # noqa: E402
import shelf_model  # noqa: E402
from circuits import lent_build  # noqa: E402
from library import U16, U64, Count, Library, run  # noqa: E402
from shelf_tool import GOOD, database  # noqa: E402
from tools import contents, data  # noqa: E402

import chip  # noqa: E402
import ice40  # noqa: E402
from tool import counted  # noqa: E402

TABLE = {'1k': '1k', '384': '384', '5k': '5k', '8k': '8k', 'u4k': '8k', 'lm4k': '8k'}  # the bundled table of each device
SPANS = model.BASE['local']  # the ports below it are those of span wires
SIZES = [(1, 1), (2, 1), (1, 5), (5, 1), (2, 2), (3, 3), (2, 8), (6, 4), (4, 8)]


class Bundled(nets.Chip):
    """The nets of a device that is bundled, as those of a database."""

    def __init__(self, device):
        whole = chip.chip_of(device, None)
        self.kinds, self.nets = whole.kinds, {}
        for net in range(len(whole.numbers('starts')) - 1):
            for x, y, name in whole.net(net):
                self.nets.setdefault((x, y), {})[name] = net


def chips():
    """The chip of each device for which there is one, with the tiles of each net."""
    for device in nets.DEVICES:
        if os.path.exists(database(device)) or device == '1k':
            found = nets.Chip(database(device)) if os.path.exists(database(device)) else Bundled(device)
            found.tiles = {}
            for at, names in found.nets.items():
                for net in names.values():
                    found.tiles.setdefault(net, set()).add(at)
            yield device, found
        else:
            print('left out, no chip database (Debian has them in fpga-icestorm-chipdb): %s' % device)


class Block(nets.Block):
    """A block of a chip, with its table and bits, and the card that the library makes of it."""

    def __init__(self, lib, found, table, corner, w, h, bits):
        super().__init__(found, corner, w, h)
        self.east, self.table, self.bits = int(self.column <= set(nets.JOINED)), table, bits
        self.wires = nets.wires(w, h, self.east)
        lent = [(U16, table), (U64, bits), (U16, [0] * (6 + 1012 * w * h)), *[(U16, [0] * k) for k in lent_build(w * h)]]
        (self.ground, self.count), after = lib.call('ice40_card', w, h, self.east, *lent)
        self.leaving = set(after[2][5:5 + after[2][4]])

    def driven(self):
        """The span wires on which an enabled switch ends."""
        settings = model.read(self.w, self.h, self.table, self.bits)
        ends = [(t, self.table[69 + 75 * g]) for t in range(self.w * self.h) for g in range(self.table[68]) if settings[model.SETTINGS * t + 67 + g]]
        return {self.wires[model.PORTS * t + q] for t, q in ends if q < SPANS}

    def going_on(self):
        """The wires whose net has a name in a tile outside."""
        x, y = self.corner
        inside = {(x + a, y + b) for a in range(self.w) for b in range(self.h)}
        return {wire for wire, net in self.pairs(self.east) if self.chip.tiles[net] - inside}

    def by_rule(self, wire):
        """Whether a wire leaves by document 01's joins alone: sp4_v_b of the west column and sp4_r_v_b of the east column are joined to the tile beside,
        whatever that is (E14.2 of the readings). An IO tile has neither name, so that the nets show nothing there."""
        ports = [divmod(port, model.PORTS) for port, lowest in enumerate(self.wires) if lowest == wire]
        return any(self.is_beside_io(t, 'sp4_v_b_', -1, q) or self.is_beside_io(t, 'sp4_r_v_b_', 1, q) for t, q in ports)

    def is_beside_io(self, t, span, step, q):
        """Whether port q of a tile is of a span and the tile a step to the east is one of IO. Columns are of one kind, so that it is outside the block."""
        x, y = self.corner[0] + t % self.w, self.corner[1] + t // self.w
        return ice40.NAMES[q].startswith(span) and self.chip.kinds.get((x + step, y)) == 'io'

    def compared(self, count):
        """How many wires leave by the nets, and how many by the rule alone."""
        expected = self.driven() & self.going_on()
        ruled = {wire for wire in self.driven() - expected if self.by_rule(wire)}
        count.same(self.leaving, expected | ruled, (self.corner, self.w, self.h))
        return len(expected), len(ruled)


def check_blocks(name, blocks):
    """All of these that the library makes a card of."""
    count, sums, refused = Count(name), [0, 0], 0
    for block in blocks:
        if block.ground:
            refused += 1
        else:
            sums = [a + b for a, b in zip(sums, block.compared(count))]
    wrong = count.done()
    print('%-58s %7d wires leave, %d more by rule, %d blocks refused' % ('', *sums, refused))
    return wrong, sums


def lent(tiles, corner, w, h):
    """The bits of a block of a design."""
    rows = [row for b in range(h) for a in range(w) for row in tiles[corner[0] + a, corner[1] + b]]
    return [int(row[::-1], 2) for row in rows]


def cut_everywhere(lib, found, table, designs):
    """Blocks of every size around the tiles in use of each design."""
    for path in designs:
        tiles = shelf_model.tiles_of(contents(path))
        used = {at for at in shelf_model.in_use(tiles) if found.kinds.get(at) == 'logic'}
        for w, h in SIZES + [(6, 8), (8, 8)]:
            for corner in found.spots(w, h):
                if used & {(corner[0] + a, corner[1] + b) for a in range(w) for b in range(h)}:
                    yield Block(lib, found, table, corner, w, h, lent(tiles, corner, w, h))


def random_blocks(lib, found, table, rounds):
    """Blocks with some switches onto span wires."""
    spans = [g for g in range(table[68]) if table[69 + 75 * g] < SPANS]
    for _ in range(rounds):
        w, h = random.choice(SIZES)
        spots = found.spots(w, h)
        if spots:
            settings = [0] * (model.SETTINGS * w * h)
            for _ in range(random.randrange(1, 12)):
                g = random.choice(spans)
                settings[model.SETTINGS * random.randrange(w * h) + 67 + g] = random.randint(1, table[69 + 75 * g + 10])
            yield Block(lib, found, table, random.choice(spots), w, h, model.write(w, h, table, settings))


def device_of(path):
    return next(line.split()[1] for line in contents(path).splitlines() if line.startswith('.device'))


def check_all(rounds, folders):
    lib, wrong, met = Library(), 0, [0, 0]
    designs = GOOD + sorted(path for folder in folders for path in glob.glob(os.path.join(folder, '*.asc')))
    for device, found in chips():
        table = model.parse(contents(data(TABLE[device] + '.tab')))[3]
        own = [path for path in designs if device_of(path) == device]
        groups = [('%s: wires that leave, %s' % (device, counted(len(own), 'real design')), cut_everywhere(lib, found, table, own))] * bool(own)
        for name, blocks in groups + [('%s: wires that leave, random switches' % device, random_blocks(lib, found, table, rounds))]:
            different, sums = check_blocks(name, blocks)
            wrong, met = wrong + different, [a + b for a, b in zip(met, sums)]
    return wrong + (rounds >= 100 and 0 in met)  # both kinds are met


def main():
    parser = argparse.ArgumentParser(description=__doc__, formatter_class=argparse.RawDescriptionHelpFormatter)
    parser.add_argument('rounds', metavar='ROUNDS', type=int, nargs='?', default=300)
    parser.add_argument('--designs', metavar='FOLDER', action='append', default=[])
    arguments = parser.parse_args()
    return run([(check_all, arguments.rounds, arguments.designs)], 1)


if __name__ == '__main__':
    sys.exit(main())
