#!/usr/bin/env python3
"""Compares tools/compare.py with the model of tests/model.py and with IceStorm's icebox_diff: bundled blocks and designs in pairs, with settings
changed and with bits flipped, as frames and as .asc files; designs rebuilt with one line of Verilog changed; bad input of every kind.

    python3 tests/changes.py                    needs Python 3 alone; the shared library (make lib), where it is built, is tried too, and so are
                                                icebox_diff (Debian: fpga-icestorm), yosys and nextpnr-ice40
    python3 tests/changes.py --library FILE     the shared library, if not where `make lib` writes it

It prints a line for each group of cases and ends with the number of differences.
"""
import argparse
import itertools
import os
import random
import re
import shutil
import subprocess
import sys
import tempfile

sys.path.insert(0, os.path.dirname(os.path.abspath(__file__)))
import asc_model  # noqa: E402
import library  # noqa: E402
import model  # noqa: E402
from bits_model import flipped  # noqa: E402
from contentions import unclaimed  # noqa: E402
from icebox import make  # noqa: E402
from library import ROOT, Count, blocks  # noqa: E402
from tools import BUILT, CUTS, contents, data, frames_of, read_by, readers, run  # noqa: E402

import ice40  # noqa: E402  (its names are held against the documents by tests/tools.py)

FIELDS = ('NegClk', 'CarryInSet', 'carry_in_mux <- carry_in')
FLAGS = ('carry', 'flip-flop', 'set', 'asynchronous')
# design: what stands in one line of it, and what is put there; the device
EDITS = [('fifo', 'count == 8', 'count == 7', '1k'), ('fsm', 'timer[10]', 'timer[9]', '1k'), ('pwm', 'c < duty[k]', 'c <= duty[k]', '1k'),
         ('spi', 'bits == 7', 'bits == 6', '1k'), ('spi', 'bits + 1', 'bits + 3', '8k'), ('fsm', "3'b100", "3'b110", '5k')]


# ---- what is expected

def rows_of(size, table, old, new):
    """The model's rows, or its no."""
    n = size[0] * size[1]
    return model.compare(size, size, table, old, new, 1 << 32, model.SETTINGS * n, model.SETTINGS * n)


def switch(group, setting):
    return '<- ' + ice40.NAMES[group.entries[setting - 1][1]] if setting else 'off'


def cell(number):
    return 'table %04X, %s' % (number % 65536, ', '.join(name for k, name in enumerate(FLAGS) if number >> 16 + k & 1) or 'no flags')


def line(table, groups, kind, index, old, new):
    """A row in words, without its tile."""
    if kind == 2:
        group = groups[index]
        return 'group %d: %s %s, now %s' % (index, ice40.NAMES[group.destination], switch(group, old), switch(group, new))
    if kind == 3:
        return 'lutff_%d: %s; now %s' % (index, cell(old), cell(new))
    what, p = (FIELDS[index], table[index]) if kind == 1 else ('passive bit %d' % index, table[4 + index])
    return '%s, B%d[%d]: %d, now %d' % (what, *divmod(p, 54), old, new)


def shown(table, n, rows):
    """Exit status and output for rows that have a tile's coordinates in front."""
    groups, tiles = model.groups_of(table), '1 tile' if n == 1 else '%d tiles' % n
    lines = ['(%d,%d) %s' % (*at, line(table, groups, *row)) for at, *row in rows]
    changed = len({at for at, *_ in rows})
    lines.append('%d difference%s in %d of %s' % (len(rows), 's' * (len(rows) > 1), changed, tiles) if rows else 'no difference in ' + tiles)
    return int(bool(rows)), ''.join(each + '\n' for each in lines)


def expected(size, table, old, new, corner=(0, 0)):
    rows = rows_of(size, table, old, new)
    return shown(table, size[0] * size[1], [((corner[0] + t % size[0], corner[1] + t // size[0]), *row) for t, *row in rows])


def logic_tiles(text):
    """The words of every logic tile of a design, by coordinates, row by row from the south."""
    found = re.findall(r'^\.logic_tile (\d+) (\d+)\n((?:[01]{54}\n){16})', text, re.MULTILINE)
    tiles = {(int(x), int(y)): tuple(asc_model.words_of_rows(rows.encode().split())) for x, y, rows in found}
    return {at: tiles[at] for at in sorted(tiles, key=lambda at: (at[1], at[0]))}


def chip_rows(table, old, new):
    """Rows with coordinates in front, for every logic tile of two designs. Many tiles are alike."""
    rows = {pair: rows_of((1, 1), table, *pair) for pair in {(old[at], new[at]) for at in old}}
    return [(at, *row[1:]) for at in old for row in rows[old[at], new[at]]]


def listed_by(reader):
    return 'note: the differences were listed by %s' % ('the proved library' if reader else 'Python, as no library is there (make lib)')


# ---- frames

def with_settings(w, h, table, bits, many):
    """A block with so many settings changed, as far as there are bits for them."""
    settings, groups = list(model.read(w, h, table, bits)), model.groups_of(table)
    for _ in range(many):
        t, g = model.SETTINGS * random.randrange(w * h), random.randrange(len(groups))
        at, value = random.choice(((t + random.randrange(2), random.randrange(2)), (t + 67 + g, random.randint(0, len(groups[g].entries))),
                                   (t + 579 + 2 * random.randrange(8), random.randrange(65536)),
                                   (t + 580 + 2 * random.randrange(8), random.randrange(16)),
                                   (t + 3 + random.randrange(table[3] or 1), random.randrange(2))))
        settings[at] = value
    written = model.write(w, h, table, settings)
    return bits if isinstance(written, tuple) else written


def pairs(whole):
    """Bundled blocks of one size and table in all pairs, each with an empty one and with itself changed: a name for the table, and both bits."""
    for (name, one), (_, other) in itertools.product(whole.items(), repeat=2):
        if one[:2] == other[:2] and one[3] == other[3]:
            yield name, one[4], other[4]
    for name, (w, h, _, table, bits) in whole.items():
        yield name, bits, [0] * len(bits)
        yield name, [0] * len(bits), bits
        for many in (1, 3, 30):
            yield name, bits, with_settings(w, h, table, bits, many)


def ask(reader, folder, old, new, *words):
    """The tool on two texts: status, output and notes."""
    paths = [os.path.join(folder, name) for name in ('old', 'new')]
    for path, text in zip(paths, (old, new)):
        with open(path, 'w', newline='') as file:
            file.write(text)
    return run('compare', *paths, *words, reader=reader)


def check_frames(reader):
    count = Count('pairs of bundled blocks as frames, by ' + ('the library' if reader else 'Python'))
    with tempfile.TemporaryDirectory() as folder:
        whole = blocks()
        for name, old, new in pairs(whole):
            w, h, _, table, _ = whole[name]
            got = ask(reader, folder, frames_of(name, 0, old), frames_of(name, 0, new))
            count.same(got, (*expected((w, h), table, old, new), listed_by(reader) + '\n'), name)
        w, h, _, table, bits = whole['uart_tx_3x3']
        got = ask(reader, folder, frames_of('uart_tx_3x3', 0, bits), frames_of('uart_tx_3x3', 1, [0] * len(bits)), '--corner', 5, 10)
        count.same(got[:2], expected((w, h), table, bits, [0] * len(bits), (5, 10)), 'a corner')
        count.same(got[2].splitlines()[0].startswith('note: the byte for the column to the east differs'), True, 'the byte for the east')
    return count.done()


# ---- .asc files

def icebox_tiles(folder):
    """The logic tiles that icebox_diff names, of the two files that were asked for last; None where it is not there."""
    if not shutil.which('icebox_diff'):
        return None
    command = ['icebox_diff', os.path.join(folder, 'old'), os.path.join(folder, 'new')]
    text = subprocess.run(command, check=True, stdout=subprocess.PIPE, universal_newlines=True).stdout
    return {(int(x), int(y)) for x, y in re.findall(r'^[ +-] \.logic_tile (\d+) (\d+)$', text, re.MULTILINE)}


def check_chip(count, reader, folder, old, new, device, what, peer=True):
    """Two whole designs: the tool's lines are the model's, and the tiles with rows are icebox_diff's."""
    table = model.parse(contents(data(device + '.tab')))[3]
    one, other = logic_tiles(old), logic_tiles(new)
    rows = chip_rows(table, one, other)
    status, text, notes = ask(reader, folder, old, new, '--table', data(device + '.tab'))
    count.same((status, text), shown(table, len(one), rows), what)
    first, second, last = notes.splitlines()
    for name, words in (('old', first), ('new', second)):
        count.same(words, 'note: %s was read by %s' % (os.path.join(folder, name), read_by(reader, device)), what)
    count.same(last, listed_by(reader), what)
    tiles = icebox_tiles(folder) if peer else None
    if tiles is not None:
        count.same({at for at, *_ in rows}, tiles, (what, 'icebox_diff'))
    return rows


def check_blocks(reader):
    count = Count('blocks of .asc files, by ' + ('the library' if reader else 'Python'))
    with tempfile.TemporaryDirectory() as folder:
        whole = blocks()
        for name, (_, x, y, w, h) in CUTS.items():
            *_, table, bits = whole[name]
            for new in (bits, with_settings(w, h, table, bits, 5)):
                texts = [asc_model.text_of(w, h, x, y, each).decode() for each in (bits, new)]
                count.same(ask(reader, folder, *texts, x, y, w, h, '--table', data('1k.tab'))[:2], expected((w, h), table, bits, new, (x, y)), name)
                count.same(ask(reader, folder, *texts, '--table', data('1k.tab'))[1].splitlines()[:-1],
                           expected((w, h), table, bits, new, (x, y))[1].splitlines()[:-1], (name, 'every tile'))
    return count.done()


def with_flips(text, tiles, table, first):
    """A design with one bit of each logic tile flipped, such that the tile can still be decoded: one of the first positions, if any will do."""
    for at in tiles:
        start = text.index('.logic_tile %d %d\n' % at)
        start = text.index('\n', start) + 1
        for p in random.sample(first, len(first)) + random.sample(range(864), 864):
            c = start + 55 * (p // 54) + p % 54
            other = text[:c] + '10'[int(text[c])] + text[c + 1:]
            if not isinstance(rows_of((1, 1), table, tiles[at], logic_tiles(other[start - 40:start + 900])[at]), tuple):
                text = other
                break
    return text


def check_designs(reader):
    count = Count('whole designs, by ' + ('the library' if reader else 'Python'))
    counter, uart = contents(data('counter8.asc')), contents(data('uart_tx.asc'))
    with tempfile.TemporaryDirectory() as folder:
        for what, old, new in (('one and the other', counter, uart), ('the other way', uart, counter), ('itself', uart, uart)):
            check_chip(count, reader, folder, old, new, '1k', what)
    return count.done()


def check_flips(reader):
    count = Count('one bit of each logic tile flipped: one row each, by ' + ('the library' if reader else 'Python'))
    text = contents(data('uart_tx.asc'))
    tiles, table = logic_tiles(text), model.parse(contents(data('1k.tab')))[3]
    kinds = set()
    with tempfile.TemporaryDirectory() as folder:
        for k, first in enumerate((table[:3] + table[4:4 + table[3]], [], [])):
            rows = check_chip(count, reader, folder, text, with_flips(text, tiles, table, first), '1k', k, peer=k == 0)
            count.same([row[0] for row in rows], list(tiles), k)
            kinds.update(row[1] for row in rows)
    count.same(kinds, {1, 2, 3, 4}, 'kinds of rows')
    return count.done()


def check_rebuilt(ways):
    """Designs built twice, the second time with one line changed."""
    needed = [name for name in ('yosys', 'nextpnr-ice40') if not shutil.which(name)]
    if needed:
        print('left out, designs rebuilt with one line changed: not here: %s' % ', '.join(needed))
        return 0
    count = Count('designs rebuilt with one line of Verilog changed')
    with tempfile.TemporaryDirectory() as folder:
        for design, old, new, device in EDITS:
            source = os.path.join(ROOT, 'tests', 'designs', design + '.v')
            changed, text = os.path.join(folder, design + '_changed.v'), contents(source)
            count.same([text.count(old) == 1, text.replace(old, new).count('\n') == text.count('\n')], [True, True], (design, old))
            with open(changed, 'w') as file:
                file.write(text.replace(old, new))
            texts = [contents(make(path, device, folder)) for path in (source, changed)]
            for reader in ways:
                rows = check_chip(count, reader, folder, *texts, device, (design, device), peer=not reader)
                count.same(len(rows) > 0, True, (design, 'a change that is seen'))
    return count.done()


# ---- bad input

def mistakes(folder):
    """Words for the tool that it cannot answer, with its standard input and a part of what it says."""
    whole, tab = contents(data('counter8_2x2.in')), data('1k.tab')
    *_, table, bits = blocks()['counter8_2x2']
    p = unclaimed(table)[0]
    faulty = flipped(bits, [864 * 3 + p])
    lines = whole.splitlines(keepends=True)
    broken = ''.join([lines[0][:2] + lines[0][6:10] * 2 + lines[0][10:]] + lines[1:])
    undecodable = 'ground 4, tile (1,1) cannot be decoded: B%d[%d]: set, and nothing claims it' % divmod(p, 54)
    path, other = data('counter8_2x2.in'), os.path.join(folder, 'other')
    yield [path, '-'], '', 'standard input, line 1'
    yield ['-', path], whole[:-1], 'line end'
    yield [path, '-'], ''.join(lines[:-1]), 'ends before it'
    yield [path, '-'], frames_of('counter8_2x2', 0, faulty), 'standard input: ' + undecodable
    yield ['-', path], frames_of('counter8_2x2', 0, faulty), 'standard input: ' + undecodable
    yield [path, '-'], broken, 'the routing tables differ'
    yield [path, data('uart_tx_3x3.in')], '', 'ground 14, the sizes differ: %s is of 2 by 2 tiles, %s of 3 by 3' % (path, data('uart_tx_3x3.in'))
    yield [path, '-'], whole.replace('\n040202', '\n040209'), 'standard input: a block of 2 by 9: W and H are 1 to 8'
    yield [path, os.path.join(folder, 'missing')], '', 'No such file'
    yield [path, data('1k.tab')], '', 'ends before it'
    yield ['-', '-'], whole, 'usage'
    yield [path], '', 'usage'
    yield [path, path, 5, 6, 2, 2], '', 'usage'
    yield [path, path, '--device', '1k'], '', 'usage'
    yield [data('counter8.asc'), data('uart_tx.asc')], '', 'line 1: not upper-case hexadecimal digits in pairs (.asc files go with --table FILE)'
    design = [data('counter8.asc'), data('uart_tx.asc')]
    yield [*design, 5, 6, 2, '--table', tab], '', 'usage'
    yield [*design, '--table', tab, '--corner', 1, 1], '', 'usage'
    yield [*design, 5, 6, 9, 2, '--table', tab], '', 'W and H are 1 to 8'
    yield [*design, 0, 0, 1, 1, '--table', tab], '', '(0,0)'
    yield [*design, '--table', data('8k.tab')], '', 'the table for'
    yield [*design, '--table', os.path.join(folder, 'missing')], '', 'No such file'
    yield [design[0], '-', '--table', tab], '', 'standard input: '
    yield [design[0], '-', '--table', tab], contents(design[1]).replace('.device 1k', '.device 384'), 'standard input: the design is for a 384'
    yield [design[0], '-', '--table', tab], asc_model.text_of(1, 1, 5, 6, [0] * model.WORDS).decode(), 'is a logic tile of %s alone' % design[0]
    yield ['-', design[0], '--table', tab], asc_model.text_of(1, 1, 5, 6, [0] * model.WORDS).decode(), 'is a logic tile of %s alone' % design[0]
    yield [other, '-', '--table', data('8k.tab')], eight('5k'), 'the devices differ: %s is for a 8k, standard input for a 5k' % other
    yield [other, '-', '--table', data('8k.tab'), '--device', '8k'], eight('5k'), 'the table for a 8k'


def eight(device):
    """A design of one empty tile for another device."""
    return asc_model.text_of(1, 1, 5, 6, [0] * model.WORDS).decode().replace('.device 1k', '.device ' + device)


def check_mistakes(reader):
    count = Count('what cannot be told: status 2, and why, by ' + ('the library' if reader else 'Python'))
    with tempfile.TemporaryDirectory() as folder:
        with open(os.path.join(folder, 'other'), 'w') as file:
            file.write(eight('8k'))
        for words, given, part in mistakes(folder):
            status, text, errors = run('compare', *words, stdin=given, reader=reader)
            count.same((status, text, part in errors), (2, '', True), (words, errors))
        whole = contents(data('counter8_2x2.in')).splitlines(keepends=True)
        broken = ''.join([whole[0][:2] + whole[0][6:10] * 2 + whole[0][10:]] + whole[1:])
        status, text, errors = ask(reader, folder, broken, broken)
        count.same((status, text, 'ground 3, part 0 of the routing table: position' in errors), (2, '', True), errors)
    return count.done()


def main():
    parser = argparse.ArgumentParser(description=__doc__, formatter_class=argparse.RawDescriptionHelpFormatter)
    parser.add_argument('--library', metavar='FILE', default=BUILT)
    ways = readers(parser.parse_args().library)
    if not shutil.which('icebox_diff'):
        print('left out, the tiles of icebox_diff, which is not here (Debian: fpga-icestorm)')
    tests = [(test, reader) for test in (check_frames, check_blocks, check_designs, check_flips, check_mistakes) for reader in ways]
    return library.run(tests + [(check_rebuilt, ways)], 9)


if __name__ == '__main__':
    sys.exit(main())
