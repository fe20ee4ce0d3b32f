#!/usr/bin/env python3
"""Compares the listing of contentions with the model of tests/model.py: the users' vectors, real blocks as they are, and the same with
contentions put in: two and more switches on a wire, in one tile and across tiles, from several sources and from one.

    python3 tests/contentions.py                    needs the Rattle kit (rt), a C compiler and Python 3
    python3 tests/contentions.py --rounds 20000     the same with so many random cases (1,000 unless said)
    python3 tests/contentions.py --vectors FOLDER   where the users' vectors are, if not in tests/data/vectors

It prints a line for each group of cases and ends with the number of differences.
"""
import argparse
import os
import random
import sys

sys.path.insert(0, os.path.dirname(os.path.abspath(__file__)))
import model  # noqa: E402
import vectors  # noqa: E402
from bits_model import flipped  # noqa: E402
from circuits import EAST, build  # noqa: E402
from library import U16, U64, Count, Library, blocks, junk, run, with_strays  # noqa: E402


def work_room(n):
    """settings, wires, heads, nexts of n tiles"""
    return [595 * n, 506 * n, 506 * n, 512 * n]


def ask(lib, w, h, east, table, bits, room, lengths=None):
    """The library's rows or its no. What it leaves must be what it promises: zeros behind the rows, the old list after a no, and the work
    room zeroed, or as it was under grounds 1 and 2."""
    lent = [junk(k) for k in [room] + (work_room(w * h) if lengths is None else lengths)]
    answer, after = lib.call('ice40_contentions', w, h, east, (U16, table), (U64, bits), *[(U16, numbers) for numbers in lent])
    listed, *rest = after[2:]
    if any(now != old if answer[0] in (1, 2) else any(now) for now, old in zip(rest, lent[1:])):
        return 'a work room that is not as promised', answer
    if answer[0]:
        return answer if listed == lent[0] else ('a list changed by a no', answer)
    rows, left = listed[:3 * answer[1]], listed[3 * answer[1]:]
    return [tuple(rows[k:k + 3]) for k in range(0, len(rows), 3)] if not any(left) else ('no zeros behind the rows', answer)


# ---- the users' vectors

def check_vectors(lib, folder):
    count = Count("the users' vectors: the library and the model")
    for case in vectors.cases(folder, 'w6-fights', 'w7-fights'):
        (w, h), bits = case.block('block')
        asked = w, h, case.given['east'], case.table(), bits, case.given['length']
        count.same(ask(lib, *asked), case.rows(3), asked[:3])
        count.same(model.contentions(*asked), case.rows(3), asked[:3])
    return count.done()


# ---- real blocks

def check(lib, count, w, h, east, table, bits, what=''):
    """The list in room enough, in just enough and in one number less; and what building says of the same block."""
    expected = model.contentions(w, h, east, table, bits, 1 << 32)
    answer = ask(lib, w, h, east, table, bits, 3 * 512 * w * h)
    count.same(answer, expected, what)
    if isinstance(expected, tuple):
        return expected
    for room in {3 * len(expected), max(3 * len(expected) - 1, 0), random.randrange(3 * len(expected) + 9)}:
        count.same(ask(lib, w, h, east, table, bits, room), model.in_room(expected, room), what)
    refused = build(lib, w, h, east, table, bits)[0]
    count.same((refused[0] == 5, refused if refused[0] == 5 else 0), (bool(expected), (5, expected[0][0]) if expected else 0), what)
    return expected


def real(lib):
    count = Count('real blocks as they are')
    for name, (w, h, _, table, bits) in blocks().items():
        for east in EAST:
            check(lib, count, w, h, east, table, bits, name)
    return count.done()


class Candidates:
    """For each wire of a block what could end on it: (tile, group, entry, source wire)."""

    def __init__(self, w, h, east, table):
        self.block = model.Block(w, h, east, table, [0] * (model.SETTINGS * w * h))
        self.ends = {}
        for t in range(w * h):
            for g, group in enumerate(model.groups_of(table)):
                for e, (_, source) in enumerate(group.entries, 1):
                    self.ends.setdefault(self.block.at(t, group.destination), []).append((t, g, e, self.block.at(t, source)))
        self.shared = [wire for wire, ends in self.ends.items() if len({end[:2] for end in ends}) > 1]

    def pick(self, wire, many):
        """Entries of so many different switches on a wire, or of all that there are."""
        found = {}
        for t, g, e, _ in random.sample(self.ends[wire], len(self.ends[wire])):
            if len(found) < many:
                found.setdefault((t, g), e)
        return found

    def from_one_source(self, wire):
        """Entries of different switches on a wire, all from one source; none where no source has two."""
        by_source = {}
        for t, g, e, source in self.ends[wire]:
            by_source.setdefault(source, {})[t, g] = e
        several = [found for found in by_source.values() if len(found) > 1]
        return random.choice(several) if several else {}


def put(settings, found):
    settings = list(settings)
    for (t, g), e in found.items():
        settings[model.SETTINGS * t + 67 + g] = e
    return settings


def unclaimed(table):
    """The positions that neither a cell nor the table claims."""
    claimed = model.ALL_CELL_BITS.union(table[0:3], table[4:4 + table[3]], *[group.positions for group in model.groups_of(table)])
    return [p for p in range(864) if p not in claimed]


def twins(table):
    """A real table with groups more, as many as there are positions that nothing claims: each has the destination and a source of a group that
    is there, so that two switches of a tile can end on one wire from one source."""
    groups, table = model.groups_of(table), list(table)
    for p in unclaimed(table)[:512 - len(groups)]:
        group, at = random.choice(groups), 69 + 75 * table[68]
        table[at:at + 3] = [group.destination, 1, p]
        table[at + 10:at + 13] = [1, 1, random.choice(group.entries)[1]]
        table[68] += 1
    return table


def injected(lib, rounds):
    """Contentions put into real blocks."""
    whole = []
    for w, h, _, table, bits in blocks().values():
        if 1 < w * h <= 9:
            settings, table = model.read(w, h, table, bits), twins(table)
            whole += [(w, h, east, table, settings, Candidates(w, h, east, table)) for east in EAST]
    names = 'two on a wire', 'three and more on a wire', 'several wires', 'from one source', 'across tiles'
    counts = {name: Count('put in: ' + name) for name in names}
    met = dict.fromkeys(names, 0)
    for k in range(rounds):
        name = names[k % len(names)]
        w, h, east, table, settings, candidates = random.choice(whole)
        wire = random.choice(candidates.shared)
        if name == 'two on a wire':
            found = candidates.pick(wire, 2)
        elif name == 'three and more on a wire':
            wire = random.choice([wire for wire in candidates.shared if len({end[:2] for end in candidates.ends[wire]}) > 2])
            found = candidates.pick(wire, random.randint(3, 9))
        elif name == 'several wires':
            found = {}
            for wire in random.sample(candidates.shared, 5):
                found.update(candidates.pick(wire, random.randint(1, 4)))
        elif name == 'from one source':
            found = next(filter(None, (candidates.from_one_source(wire) for wire in random.sample(candidates.shared, len(candidates.shared)))), {})
        else:
            found = candidates.pick(wire, len(candidates.ends[wire]))
        rows = check(lib, counts[name], w, h, east, table, model.write(w, h, table, put(settings, found)), name)
        tiles = {}
        for wire, t, _ in rows:
            tiles.setdefault(wire, []).append(t)
        met[name] += {'three and more on a wire': any(len(t) > 2 for t in tiles.values()), 'across tiles': any(len(set(t)) > 1 for t in tiles.values())}.get(name, bool(rows))
    wrong = sum(count.done() for count in counts.values())
    for name in names:
        if not met[name]:
            print('no case of:', name)
    return wrong + sum(not met[name] for name in names)


def changed(lib, rounds):
    count = Count('settings changed at random, bits flipped, bits past the columns')
    whole = [block for block in blocks().values() if block[0] * block[1] <= 9]
    for _ in range(rounds):
        w, h, _, table, bits = random.choice(whole)
        if random.random() < 0.2:
            bits = flipped(bits, [random.randrange(864 * w * h)])
        else:
            settings = model.read(w, h, table, bits)
            for _ in range(random.choice((1, 5, 50, 300))):
                g = random.randrange(table[68])
                settings[model.SETTINGS * random.randrange(w * h) + 67 + g] = random.randint(0, table[69 + 75 * g + 10])
            bits = model.write(w, h, table, settings)
        if random.random() < 0.1:
            bits = with_strays(bits, [random.randrange(len(bits))])
        check(lib, count, w, h, random.choice(EAST), table, bits)
    return count.done()


# ---- made tables

def crowded_table(ports):
    """512 groups of one position and one entry each, from lout_0 to these ports in turn; every group has another position."""
    free = [p for p in range(864) if p not in model.ALL_CELL_BITS]
    table = [0] * model.TABLE
    table[0:4] = free[:3] + [0]
    table[68] = 512
    for g in range(512):
        at = 69 + 75 * g
        table[at:at + 3] = [ports[g % len(ports)], 1, free[3 + g]]
        table[at + 10:at + 13] = [1, 1, model.BASE['lout']]
    return table


def crowded(lib):
    """Every switch of every tile is on."""
    count = Count('512 switches a tile on one port, on eight, on all, up to 8 by 8')
    spans = list(range(model.BASE['sp12_h_r'], model.BASE['sp12_h_r'] + 8))
    for ports in ([model.BASE['local']], [model.BASE['sp12_h_r']], spans, [p for p in range(506) if model.is_destination(p)]):
        table = crowded_table(ports)
        tile = [0] * model.SETTINGS
        tile[67:67 + 512] = [1] * 512
        for w, h in ((1, 1), (8, 1), (1, 8), (8, 8)):
            for east in EAST:
                check(lib, count, w, h, east, table, model.write(w, h, table, tile * (w * h)), (w, h, len(ports)))
    return count.done()


# ---- bad input

def bad_input(lib):
    count = Count('sizes, lengths, the byte for the east, the table: grounds 1 to 3')
    w, h, _, table, bits = next(b for b in blocks().values() if b[0] * b[1] == 4)
    room = work_room(4)
    for size in ((0, 1), (1, 0), (9, 1), (1, 9), (0, 0), (65536, 65536), (4294967295, 4294967295)):
        count.same(ask(lib, *size, 0, [], [], 3, [1, 2, 3, 4]), (1, 0), size)
        count.same(ask(lib, *size, 2, table, bits, 3, room), (1, 0), size)
    for east in (2, 3, 255, 256, 65536, 4294967295):
        count.same(ask(lib, w, h, east, table, bits, 30, room), (1, 0), east)
        count.same(ask(lib, w, h, east, [], [], 30, [0] * 4), (1, 0), east)
    for change in (-1, 1):
        for k in range(4):
            lengths = [n + (change if k == i else 0) for i, n in enumerate(room)]
            count.same(ask(lib, w, h, 1, table, bits, 30, lengths), (2, 0), lengths)
        count.same(ask(lib, w, h, 1, table, bits[:-1] if change < 0 else bits + [0], 30), (2, 0))
        count.same(ask(lib, w, h, 1, table[:-1] if change < 0 else table + [0], bits, 30), (2, 0))
    for at, number in ((1, table[0]), (3, 65), (68, 513), (69, 404)):
        broken = list(table)
        broken[at] = number
        expected = 3, model.faulty_part(broken)
        count.same(ask(lib, w, h, 1, broken, bits, 30), expected, at)
    return count.done()


def main():
    parser = argparse.ArgumentParser(description=__doc__, formatter_class=argparse.RawDescriptionHelpFormatter)
    parser.add_argument('--rounds', metavar='N', type=int, default=1000)
    parser.add_argument('--vectors', metavar='FOLDER', default=vectors.FOLDER)
    arguments = parser.parse_args()
    lib = Library()
    return run([(check_vectors, lib, arguments.vectors), (real, lib), (injected, lib, arguments.rounds), (changed, lib, arguments.rounds // 2), (crowded, lib), (bad_input, lib)], 6)


if __name__ == '__main__':
    sys.exit(main())
