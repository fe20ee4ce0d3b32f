#!/usr/bin/env python3
"""Compares the wires of blocks with the nets of IceStorm's chip databases: no wire is two nets, and inside the chip no two wires are one net.

    python3 tests/nets.py                     needs Python 3, and Debian's fpga-icestorm-chipdb
    python3 tests/nets.py --chipdb FOLDER     where chipdb-1k.txt and the others are, if not where Debian puts them

The wires are those of tests/wire_numbers.py, which holds the library to them port for port. A block is taken with the byte that fits the column
to its east, and with the other one to see that it would not do. It prints a line for each group of cases and ends with the number of
differences.
"""
import argparse
import functools
import os
import random
import sys

sys.path.insert(0, os.path.dirname(os.path.abspath(__file__)))
import wire_numbers  # noqa: E402
from library import Count, run  # noqa: E402
from tools import DEBIAN  # noqa: E402

import ice40  # noqa: E402

DEVICES = ['1k', '384', '5k', '8k', 'lm4k', 'u4k']
SIZES = [(1, 1), (1, 2), (2, 1), (2, 2), (3, 3), (1, 8), (6, 1), (2, 4), (5, 3), (4, 6), (8, 8)]
SPOTS = 25  # blocks of a size and device, at random where there are more
JOINED = ('logic', 'ramb', 'ramt')  # columns whose vertical wires a byte of 1 follows


class Chip:
    """A chip database: the kind of each tile, and by tile the net of each name."""

    def __init__(self, path):
        self.kinds, self.nets = {}, {}
        net = None
        with open(path) as file:
            for line in file:
                words = line.split()
                if line.startswith('.'):
                    if words[0] in ('.buffer', '.routing'):
                        break  # the nets stand before the switches
                    net = int(words[1]) if words[0] == '.net' else None
                    if words[0].endswith('_tile'):
                        self.kinds[int(words[1]), int(words[2])] = words[0][1:-len('_tile')]
                elif words and net is not None:
                    self.nets.setdefault((int(words[0]), int(words[1])), {})[words[2]] = net

    def spots(self, w, h):
        """The corners of blocks of logic tiles, all of them or some at random."""
        found = [(x, y) for x, y in sorted(self.kinds) if all(self.kinds.get((x + a, y + b)) == 'logic' for a in range(w) for b in range(h))]
        return random.sample(found, min(len(found), SPOTS))


@functools.lru_cache(maxsize=None)
def wires(w, h, east):
    return wire_numbers.wires(w, h, east)


class Block:
    """A block of a chip: the kinds of the tiles around it, and which nets its wires are."""

    def __init__(self, chip, corner, w, h):
        self.chip, self.corner, self.w, self.h = chip, corner, w, h
        x, y = corner
        self.around = {chip.kinds.get((a, b)) for a in range(x - 1, x + w + 1) for b in range(y - 1, y + h + 1)
                       if not (x <= a < x + w and y <= b < y + h)}
        self.column = {chip.kinds.get((x + w, b)) for b in range(y, y + h)}  # to the east

    def is_inside(self):
        return self.around <= set(JOINED)

    def known_names(self, x, y):
        """The names of a tile and their nets, but for those of outputs of DSP and IP connect tiles: the databases join these to nothing, not
        even to the tile that they are of."""
        nets = dict(self.chip.nets[x, y])
        for side, (east, north) in ice40.NEIGHBOURS.items():
            if self.chip.kinds.get((x + east, y + north), '').startswith(('dsp', 'ipcon')):
                for i in range(ice40.CELLS):
                    nets.pop('neigh_op_%s_%d' % (side, i), None)
        return nets

    def pairs(self, east):
        """Each wire with the net of each of its names. The database has one name for a net in a tile, and none for ltin and lutff_7/lout."""
        of_port = wires(self.w, self.h, east)
        for t in range(self.w * self.h):
            for name, net in self.known_names(self.corner[0] + t % self.w, self.corner[1] + t // self.w).items():
                yield of_port[wire_numbers.PORTS * t + ice40.PORT[name]], net

    def doubled(self, east):
        """The wires that are two nets, and the sets of wires that are one net."""
        nets, found = {}, {}
        for wire, net in self.pairs(east):
            nets.setdefault(wire, set()).add(net)
            found.setdefault(net, set()).add(wire)
        return [wire for wire, several in nets.items() if len(several) > 1], [several for several in found.values() if len(several) > 1]

    def is_right_name(self, wire):
        """Whether a wire is a name of the east column for a wire of the column beside it, and nothing more."""
        t, q = divmod(wire, wire_numbers.PORTS)
        return t % self.w == self.w - 1 and ice40.NAMES[q].startswith('sp4_r_v_b_')


def check_device(name, chip):
    apart, single, needed = Count(name + ': no wire is two nets'), Count(name + ': inside, no two wires are one net'), Count(name + ': the other byte would not do')
    beside_ram = inside = 0
    for w, h in SIZES:
        for corner in chip.spots(w, h):
            block = Block(chip, corner, w, h)
            east = int(block.column <= set(JOINED))
            two, one = block.doubled(east)
            apart.same(two, [], (corner, w, h))
            beside_ram += block.column <= {'ramb', 'ramt'}
            if block.is_inside():
                inside += 1
                single.same(one, [], (corner, w, h))
                two, one = block.doubled(0)
                needed.same((two, bool(one), all(block.is_right_name(wire) for several in one for wire in several)), ([], h > 1, True), (corner, w, h))
            if block.column == {'io'}:
                needed.same(bool(block.doubled(1)[0]), h > 1, (corner, w, h))
    print('%-58s %7d blocks inside, %d beside RAM' % (name, inside, beside_ram))
    single.same((inside > 0, beside_ram > 0), (True, name != '384'), 'there are such blocks')
    return apart.done() + single.done() + needed.done()


def check_all(folder):
    missing, wrong = [], 0
    for name in DEVICES:
        path = os.path.join(folder, 'chipdb-%s.txt' % name)
        if os.path.exists(path):
            wrong += check_device(name, Chip(path))
        else:
            missing.append(name)
    if missing:
        print('left out, no chip database (Debian has them in fpga-icestorm-chipdb): %s' % ', '.join(missing))
    return wrong


def main():
    parser = argparse.ArgumentParser(description=__doc__, formatter_class=argparse.RawDescriptionHelpFormatter)
    parser.add_argument('--chipdb', metavar='FOLDER', default=DEBIAN)
    return run([(check_all, parser.parse_args().chipdb)], 1)


if __name__ == '__main__':
    sys.exit(main())
