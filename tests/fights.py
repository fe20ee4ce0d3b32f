#!/usr/bin/env python3
"""Compares tools/fights.py with the model of tests/model.py: bundled blocks as they are and with fights put in, as frames and as .asc files; bad
input of every kind.

    python3 tests/fights.py                     needs Python 3 alone; the shared library (make lib), where it is built, is tried too
    python3 tests/fights.py --library FILE      the shared library, if not where `make lib` writes it

It prints a line for each group of cases and ends with the number of differences.
"""
import argparse
import os
import random
import sys
import tempfile

sys.path.insert(0, os.path.dirname(os.path.abspath(__file__)))
import asc_model  # noqa: E402
import library  # noqa: E402
import model  # noqa: E402
from bits_model import flipped  # noqa: E402
from contentions import Candidates, put, unclaimed  # noqa: E402
from library import Count, blocks  # noqa: E402
from tools import BUILT, CUTS, contents, data, frames_of, read_by, readers, run  # noqa: E402

import ice40  # noqa: E402  (its names and wires are held against the documents by tests/tools.py and tests/words.py)


def expected(w, h, east, table, bits, corner):
    """The lines of the tool, by the model's rows."""
    block, rows = ice40.Block(w, h, corner, east), model.contentions(w, h, east, table, bits, 1 << 32)
    settings = model.read(w, h, table, bits)
    groups, lines, tiles = model.groups_of(table), [], '1 tile' if w * h == 1 else '%d tiles' % (w * h)
    for wire in sorted({row[0] for row in rows}):
        switches = [row[1:] for row in rows if row[0] == wire]
        lines.append('%s: %d enabled switches end on it' % (block.wire_name(wire), len(switches)))
        for t, g in switches:
            source = groups[g].entries[settings[model.SETTINGS * t + 67 + g] - 1][1]
            on = ['B%d[%d]' % divmod(p, 54) for p in groups[g].positions if model.bit(bits[model.WORDS * t:], p)]
            lines.append('  group %d: (%d,%d) %s <- %s, bit%s %s' % (g, corner[0] + t % w, corner[1] + t // w, ice40.NAMES[groups[g].destination],
                                                                     ice40.NAMES[source], 's' * (len(on) > 1), ' '.join(on)))
    wires = len({row[0] for row in rows})
    if rows:
        lines.append('%d wire%s of %s fight%s, with %d switches' % (wires, 's' * (wires > 1), tiles, 's' * (wires == 1), len(rows)))
    else:
        count = sum(1 for t in range(w * h) for g in range(len(groups)) if settings[model.SETTINGS * t + 67 + g])
        lines.append('no wire of %s fights: %d enabled switch%s' % (tiles, count, '' if count == 1 else 'es'))
    return int(bool(rows)), ''.join(line + '\n' for line in lines)


def listed_by(reader):
    return 'note: the fights were listed by %s' % ('the proved library' if reader else 'Python, as no library is there (make lib)')


def with_fights(name, east, many):
    """The bits of a bundled block with up to so many switches more on each of some wires."""
    w, h, _, table, bits = blocks()[name]
    candidates, found = Candidates(w, h, east, table), {}
    for wire in random.sample(candidates.shared, min(3, len(candidates.shared))):
        found.update(candidates.pick(wire, many))
    return model.write(w, h, table, put(model.read(w, h, table, bits), found))


def check_frames(reader):
    count = Count('frames, as they are and with fights, by ' + ('the library' if reader else 'Python'))
    for name, (w, h, _, table, bits) in blocks().items():
        for east in (0, 1):
            cases = [bits] + [with_fights(name, east, many) for many in (2, 3, 9) if w * h > 1]
            for other in cases:
                status, text, notes = run('fights', '-', stdin=frames_of(name, east, other), reader=reader)
                count.same((status, text, notes), (*expected(w, h, east, table, other, (0, 0)), listed_by(reader) + '\n'), (name, east))
    w, h, _, table, bits = blocks()['uart_tx_3x3']
    count.same(run('fights', data('uart_tx_3x3.in'), '--corner', 5, 10, reader=reader)[:2], expected(w, h, 0, table, bits, (5, 10)), 'a corner')
    return count.done()


def check_designs(reader):
    """The same through files of IceStorm's; the column to the east of each is logic or RAM."""
    count = Count('.asc files, as they are and with fights, by ' + ('the library' if reader else 'Python'))
    with tempfile.TemporaryDirectory() as folder:
        for name, (_, x, y, w, h) in CUTS.items():
            *_, table, bits = blocks()[name]
            for other in [bits] + [with_fights(name, 1, 3)] * (w * h > 1):
                path = os.path.join(folder, 'design.asc')
                with open(path, 'wb') as file:
                    file.write(asc_model.write(w, h, x, y, other, asc_model.text_length(w, h, x, y)))
                for options, east in (([], 1), (['--east', 1], 1), (['--east', 0], 0)):
                    status, text, notes = run('fights', path, x, y, w, h, '--table', data('1k.tab'), *options, reader=reader)
                    count.same((status, text), expected(w, h, east, table, other, (x, y)), (name, options))
                    first, column, last = notes.splitlines()
                    count.same((first, last), ('note: %s was read by %s' % (path, read_by(reader)), listed_by(reader)), (name, options))
                    count.same(column.startswith('note: the column to the east, x = %d, is ' % (x + w)), True, (name, options))
    return count.done()


def mistakes(folder):
    """Words for the tool that it cannot answer, with its standard input and a part of what it says."""
    whole = contents(data('counter8_2x2.in'))
    *_, table, bits = blocks()['counter8_2x2']
    p = unclaimed(table)[0]
    undecodable = flipped(bits, [864 * 3 + p])
    lines = whole.splitlines(keepends=True)
    broken = ''.join([lines[0][:2] + lines[0][6:10] * 2 + lines[0][10:]] + lines[1:])
    yield ['-'], '', 'line 1'
    yield ['-'], whole[:-1], 'line end'
    yield ['-'], ''.join(lines[:-1]), 'ends before it'
    yield ['-'], whole + lines[-1], 'no frame 05 is due'
    yield ['-'], frames_of('counter8_2x2', 0, undecodable), 'ground 4, tile (1,1) cannot be decoded: B%d[%d]' % divmod(p, 54)
    yield ['-'], broken, 'ground 3, part 0 of the routing table: position'
    yield ['-'], whole.replace('\n040202', '\n040209'), 'W and H are 1 to 8'
    yield [os.path.join(folder, 'missing.frames')], '', 'No such file'
    yield [data('1k.tab')], '', 'ends before it'
    yield ['-', 5, 6, 2, 2], '', 'usage'
    yield ['-', 5, 6, 2, '--table', data('1k.tab')], '', 'usage'
    yield ['-', '--table', data('1k.tab')], whole, 'usage'
    yield ['-', '--east', 1], whole, 'usage'
    yield ['-', 5, 6, 2, 2, '--table', data('1k.tab'), '--corner', 1, 1], '', 'usage'
    yield ['-', 5, 6, 2, 2, '--table', data('1k.tab')], '', 'device'
    yield ['-', 5, 6, 0, 2, '--table', data('1k.tab')], '', 'W and H are 1 to 8'
    yield [data('counter8.asc'), 0, 0, 1, 1, '--table', data('1k.tab')], '', '(0,0)'
    yield [data('counter8.asc'), 5, 6, 2, 2, '--table', data('8k.tab')], '', 'the table for'
    yield [data('counter8.asc'), 5, 6, 2, 2, '--table', os.path.join(folder, 'missing')], '', 'No such file'


def check_mistakes(reader):
    count = Count('what cannot be told: status 2, and why, by ' + ('the library' if reader else 'Python'))
    with tempfile.TemporaryDirectory() as folder:
        for words, given, part in mistakes(folder):
            status, text, errors = run('fights', *words, stdin=given, reader=reader)
            count.same((status, text, part in errors), (2, '', True), (words, errors))
    return count.done()


def main():
    parser = argparse.ArgumentParser(description=__doc__, formatter_class=argparse.RawDescriptionHelpFormatter)
    parser.add_argument('--library', metavar='FILE', default=BUILT)
    ways = readers(parser.parse_args().library)
    return library.run([(test, reader) for test in (check_frames, check_designs, check_mistakes) for reader in ways], 6)


if __name__ == '__main__':
    sys.exit(main())
