#!/usr/bin/env python3
"""Compares the scripts of tools/ with the bundled tables and blocks and with document 01's names; bad input of every kind. What explain.py
says of reports is in tests/words.py.

    python3 tests/tools.py                      needs Python 3 alone; the shared library (make lib), where it is built, is tried too
    python3 tests/tools.py --library FILE       the shared library, if not where `make lib` writes it
    python3 tests/tools.py --chipdb FOLDER      where chipdb-1k.txt and the others are, if not where Debian puts them
    python3 tests/tools.py --designs FOLDER     .asc files beyond the two in tests/data

It prints a line for each group of cases and ends with the number of differences.
"""
import argparse
import itertools
import os
import subprocess
import sys
import tempfile

sys.path.insert(0, os.path.dirname(os.path.abspath(__file__)))
import library  # noqa: E402
import model  # noqa: E402
import wire_numbers  # noqa: E402
from library import DATA, ROOT, Count  # noqa: E402

TOOLS = os.path.join(ROOT, 'tools')
sys.path.insert(0, TOOLS)
import asc_to_frames  # noqa: E402
import frames  # noqa: E402
import ice40  # noqa: E402
import icestorm  # noqa: E402
import names  # noqa: E402
import proved  # noqa: E402

DEBIAN = '/usr/share/fpga-icestorm/chipdb'
TABLES = [('1k', []), ('384', []), ('5k', []), ('8k', []), ('1k-ltin', ['--ltin'])]
# block: design, corner, size
CUTS = {'counter8_2x2': ('counter8', 5, 6, 2, 2), 'counter8_1x1': ('counter8', 5, 7, 1, 1), 'uart_tx_3x3': ('uart_tx', 5, 10, 3, 3),
        'counter32_2x4': ('counter32', 1, 11, 2, 4), 'lfsr16_3x3': ('lfsr16', 4, 6, 3, 3), 'shift_arst_2x2': ('shift_arst', 8, 5, 2, 2),
        'latch_1x1': ('latch', 6, 6, 1, 1), 'ripplediv_loc_2x2': ('ripplediv_local', 5, 8, 2, 2)}

FLAGS = ['carry', 'flip-flop', 'set', 'asynchronous']


BUILT = os.path.join(ROOT, 'target', 'lib', 'libice40.so')


def run(tool, *arguments, stdin='', reader=''):
    """A tool's exit status, output and errors. `reader` is the library that reads .asc files, or '' for Python."""
    command = [sys.executable, os.path.join(TOOLS, tool + '.py')] + [str(argument) for argument in arguments]
    environment = dict(os.environ, **{proved.VARIABLE: reader})
    done = subprocess.run(command, input=stdin.encode(), stdout=subprocess.PIPE, stderr=subprocess.PIPE, env=environment)
    return done.returncode, done.stdout.decode(), done.stderr.decode()


def readers(path):
    """The two ways to read an .asc file: Python, and the library where it is built."""
    try:
        proved.Library(path)
    except (OSError, AttributeError):
        print('left out, no library to read .asc files (make lib): %s' % os.path.relpath(path, ROOT))
        return ['']
    return ['', path]


def read_by(reader, device='1k'):
    """What the note of asc_to_frames says of who read a design."""
    if reader and device == '1k':
        return 'the proved library'
    return 'Python, as the library takes a 1k, and this is a ' + device if reader else 'Python, as no library is there (make lib)'


def data(name):
    return os.path.join(DATA, name)


def contents(path):
    with open(path, newline='') as file:
        return file.read()


def frames_of(name, east, bits):
    """A bundled input with other bits."""
    head, rest = contents(data(name + '.in')).split('\n04')
    return head + '\n04%s%02X\n' % (rest[:4], east) + model.tile_frames(bits)


# ---- files to frames

def check_tables(folder):
    count, missing = Count('chip databases to tables, byte for byte'), []
    for name, options in TABLES:
        database = os.path.join(folder, 'chipdb-%s.txt' % name.split('-')[0])
        if os.path.exists(database):
            count.same(run('chipdb_to_frames', database, *options), (0, contents(data(name + '.tab')), ''), name)
        else:
            missing.append(name)
    if missing:
        print('left out, no chip database (Debian has them in fpga-icestorm-chipdb): %s' % ', '.join(missing))
    return count.done()


def check_blocks(folders, reader):
    """The bundled blocks have no byte for the column to the east; it is logic or RAM for each of them."""
    count = Count('.asc files to blocks, byte for byte, by ' + ('the library' if reader else 'Python'))
    for name, (design, x, y, w, h) in CUTS.items():
        found = [path for path in (os.path.join(folder, design + '.asc') for folder in folders) if os.path.exists(path)]
        for path in found[:1]:
            expected, size = contents(data(name + '.in')), '04%02X%02X' % (w, h)
            kind = 'RAM' if x + w in (3, 10) else 'logic'
            for options, words, text in (([], ', so --east 1 is taken', expected.replace(size + '\n', size + '01\n')), (['--east', 0], '; --east 0 was given', expected),
                                         (['--east', 1], '; --east 1 was given', expected.replace(size + '\n', size + '01\n'))):
                status, whole, notes = run('asc_to_frames', path, x, y, w, h, '--table', data('1k.tab'), *options, reader=reader)
                who, column, *large = notes.splitlines()
                count.same((status, whole, who), (0, text, 'note: %s was read by %s' % (path, read_by(reader))), (name, options))
                count.same((column, len(large)), ('note: the column to the east, x = %d, is %s%s' % (x + w, kind, words), int(max(w, h) > 3)), (name, options))
                frames = run('asc_to_frames', path, x, y, w, h, *options, reader=reader)[1]
                count.same(contents(data('1k.tab')) + frames, whole, (name, options))
    return count.done()


def columns_of(path):
    """The columns of a chip database, west to east: the kinds of tile that each has besides its first and last row."""
    kinds = {}
    with open(path) as file:
        for line in file:
            words = line.split()
            if words[:1] == ['.device']:
                height = int(words[3])
            if words[:1] == ['.net']:
                break  # the tiles stand before
            if line.startswith('.') and words[0].endswith('_tile') and 0 < int(words[2]) < height - 1:
                kinds.setdefault(int(words[1]), set()).add(words[0][1:-len('_tile')])
    return kinds


def check_columns(folder):
    """What the tools know of a device's columns, against its chip database; what asc_to_frames takes and says of each."""
    count, missing = Count("columns of all devices: the chip databases' own, and the byte for each"), []
    made_of = {'logic': {'logic'}, 'RAM': {'ramb', 'ramt'}, 'IO': {'io'}, 'DSP': {'dsp0', 'dsp1', 'dsp2', 'dsp3', 'ipcon'}}
    for device in icestorm.LAST_COLUMN:
        path = os.path.join(folder, 'chipdb-%s.txt' % device)
        if not os.path.exists(path):
            missing.append(device)
            continue
        columns = columns_of(path)
        for x in range(-1, max(columns) + 3):
            kind = icestorm.column_kind(device, x)
            count.same(columns.get(x), made_of.get(kind), (device, x))
            east = int(kind in ('logic', 'RAM'))
            words = 'the column to the east, x = %d, is %s, so --east %d is taken' % (x, kind or 'not known of a ' + device, east)
            count.same(asc_to_frames.east_of(device, x, None), (east, words), (device, x))
    if missing:
        print('left out, no chip database: %s' % ', '.join(missing))
    count.same(asc_to_frames.east_of('9k', 4, None), (0, 'the column to the east, x = 4, is not known of a 9k, so --east 0 is taken'))
    count.same(asc_to_frames.east_of('9k', 4, 1), (1, 'the column to the east, x = 4, is not known of a 9k; --east 1 was given'))
    return count.done()


def check_strict(designs, reader):
    """What Python passes over and the library does not: each is refused at its line, with the file's device."""
    count = Count('.asc files that only Python takes: refused by the library')
    text, frames = contents(data('counter8.asc')), run('asc_to_frames', data('counter8.asc'), 5, 6, 1, 1)[1]
    start, end = text.index('.logic_tile 5 6\n'), text.count('\n') + 1
    device, header, row = text[:text.index('.device')].count('\n') + 1, text[:start].count('\n') + 1, start + len('.logic_tile 5 6\n')
    for changed, line, shown in (
            (text.replace('\n', '\r\n'), device, r"'.device 1k\r'"), (text.replace('.device 1k', '.device  1k'), device, "'.device  1k'"),
            (text.replace('.logic_tile 5 6', '.logic_tile 05 6'), header, "'.logic_tile 05 6'"), (text[:row] + '# words\n' + text[row:], header + 1, "'# words'"),
            (text[:row] + ' ' + text[row:], header + 1, "' 0"), (text[:row] + ' \n' + text[row:], header + 1, "' '"),
            (text + '.comment', end, "'.comment', without a line feed"), (text + '.logic_tile 300 1\n', end, "'.logic_tile 300 1'")):
        path = designs.write(changed)
        count.same(run('asc_to_frames', path, 5, 6, 1, 1)[:2], (0, frames), shown)
        status, output, errors = run('asc_to_frames', path, 5, 6, 1, 1, reader=reader)
        words = 'the library refuses it with ground 13 (device: 1k): line %d is %s' % (line, shown)
        count.same((status, output, errors.count('\n'), words in errors), (2, '', 1, True), errors)
    for corner, words in (((250, 6), 'ground 1 '), ((-1, 6), 'ground 1 '), ((1 << 32 | 5, 6), 'ground 1 '), ((5, 200), 'ground 13 ')):
        count.same(words in run('asc_to_frames', data('counter8.asc'), *corner, 8, 8, reader=reader)[2], True, corner)
    return count.done()


def check_no_library():
    count = Count('a library that is named and cannot be loaded: a mistake')
    for path in ('/none/libice40.so', data('1k.tab'), DATA):
        status, output, errors = run('asc_to_frames', data('counter8.asc'), 5, 6, 1, 1, reader=path)
        count.same((status, output, errors.count('\n'), proved.VARIABLE in errors), (2, '', 1, True), errors)
    return count.done()


# ---- names

PORTS = {0: 'sp4_h_l_0', 47: 'sp4_h_l_47', 48: 'sp4_h_r_0', 96: 'sp4_v_t_0', 144: 'sp4_v_b_0', 192: 'sp4_r_v_b_0', 239: 'sp4_r_v_b_47',
         240: 'sp12_h_l_0', 264: 'sp12_h_r_0', 288: 'sp12_v_t_0', 312: 'sp12_v_b_0', 335: 'sp12_v_b_23', 336: 'local_g0_0',
         336 + 8 * 2 + 3: 'local_g2_3', 368: 'glb2local_0', 372: 'lutff_0/in_0', 372 + 4 * 5 + 2: 'lutff_5/in_2', 404: 'lutff_0/out',
         412: 'neigh_op_bnl_0', 420: 'neigh_op_bot_0', 428: 'neigh_op_bnr_0', 436: 'neigh_op_lft_0', 444: 'neigh_op_rgt_0',
         452: 'neigh_op_tnl_0', 460: 'neigh_op_top_0', 468: 'neigh_op_tnr_0', 475: 'neigh_op_tnr_7', 476: 'lutff_global/clk',
         477: 'lutff_global/cen', 478: 'lutff_global/s_r', 479: 'glb_netwk_0', 486: 'glb_netwk_7', 487: 'carry_in', 488: 'carry_in_mux',
         489: 'lutff_0/cout', 496: 'lutff_7/cout', 497: 'lutff_0/lout', 504: 'lutff_7/lout', 505: 'ltin'}
# 'Names to try': size, tile, name, wire
WIRES = [(5, 1, '0,0', 'sp4_h_r_0', 48), (5, 1, '4,0', 'sp4_h_l_37', 48), (2, 5, '1,4', 'sp4_v_b_0', 639), (2, 5, '0,1', 'sp4_r_v_b_37', 639),
         (2, 1, '1', 'sp12_h_r_3', 264), (2, 1, '0', 'sp12_h_r_0', 264), (1, 1, '0', 'sp12_h_l_22', 262), (2, 2, '0,1', 'neigh_op_bnr_0', 444),
         (1, 1, '0', 'lutff_1/cout', 490)]


def check_wires():
    count = Count('wires of every port, all 64 sizes, without and with a column to the east')
    for w, h, east in itertools.product(range(1, 9), range(1, 9), (0, 1)):
        block = ice40.Block(w, h, east=east)
        for port, wire in enumerate(wire_numbers.wires(w, h, east)):
            count.same(block.wire[port], wire, (w, h, east, port))
    return count.done()


def check_names():
    count = Count("port names, document 01's names to try")
    count.same(len(ice40.NAMES), wire_numbers.PORTS)
    for port, name in PORTS.items():
        count.same((ice40.NAMES[port], ice40.PORT[name]), (name, port), port)
    for w, h, tile, name, wire in WIRES:
        count.same(run('names', w, h, 'port', tile, name), (0, '%d (0x%04X)\n' % (wire, wire), ''), name)
    count.same(run('names', 5, 1, 'port', '0,0', 'sp4_h_r_1')[1] == '48 (0x0030)\n', False)
    count.same(run('names', 1, 1, 'wire', 262)[1], '(0,0) sp12_h_l_22\n')
    count.same(len(ice40.Block(1, 1).members), 390)
    seen = '(%d,%d) neigh_op_rgt_0\n(%d,%d) lutff_0/out\n(%d,%d) neigh_op_bnr_0\n(%d,%d) neigh_op_bot_0\n'
    count.same(run('names', 2, 2, 'wire', '0x1BC')[1], seen % (0, 0, 1, 0, 0, 1, 1, 1))
    count.same(run('names', '--corner', 5, 6, 2, 2, 'wire', 444)[1], seen % (5, 6, 6, 6, 5, 7, 6, 7))
    count.same(run('names', '--corner', 5, 6, 2, 2, 'port', '5,7', 'neigh_op_bnr_0')[1], '444 (0x01BC)\n')
    # names outside: of one output of a tile, and of the column to the east
    count.same(run('names', 2, 2, 'wire', 974), (0, '(1,0) neigh_op_tnr_0\n(1,1) neigh_op_rgt_0\n', ''))
    count.same(run('names', 2, 2, 'port', '1,1', 'neigh_op_rgt_0'), (0, '974 (0x03CE)\n', ''))
    for options, wire, names in (([], 1710, '(1,1) sp4_r_v_b_0\n'), (['--east', 0], 1710, '(1,1) sp4_r_v_b_0\n'), (['--east', 1], 711, '(1,0) sp4_r_v_b_13\n(1,1) sp4_r_v_b_0\n')):
        count.same(run('names', 2, 2, 'port', 3, 'sp4_r_v_b_0', *options), (0, '%d (0x%04X)\n' % (wire, wire), ''), options)
        count.same(run('names', 2, 2, 'wire', wire, *options), (0, names, ''), options)
    return count.done()


def claims(table):
    """What claims each position, in words, by the model's reading of a table: position to words."""
    words = {}
    uses = dict(zip(model.LUT_INIT + model.FLAG_BITS, ['LUT_INIT %d' % j for j in range(16)] + FLAGS))
    for i in range(8):
        for k, use in uses.items():
            words[model.lc(i, k)] = 'LC_%d[%d], %s' % (i, k, use)
    for f, name in enumerate(('NegClk', 'CarryInSet', 'the switch from carry_in to carry_in_mux')):
        words[table[f]] = name
    for j in range(table[3]):
        words[table[4 + j]] = 'passive position %d' % j
    for g, group in enumerate(model.groups_of(table)):
        for k, p in enumerate(group.positions):
            words[p] = 'group %d, destination %s, weight %d' % (g, ice40.NAMES[group.destination], 1 << k)
    return words


def check_positions():
    count = Count('positions and what claims them')
    expected = claims(model.parse(contents(data('1k.tab')))[3])
    count.same(864 - len(expected), 57, 'positions that nothing claims')
    table = frames.read_table(data('1k.tab'))
    for p in range(864):
        count.same(names.cell_claims(p) + names.table_claims(p, table), [expected[p]] if p in expected else [], p)
    for given, position in ((14, 14), ('B0[14]', 14), ('0x2D', 45), ('B1[49]', 103), ('B0[50]', 50), ('B15[53]', 863)):
        answer = 'position %d, B%d[%d]: %s\n' % (position, position // 54, position % 54, expected.get(position, 'claimed by nothing'))
        count.same(run('names', 'position', given, '--table', data('1k.tab')), (0, answer, ''), given)
    return count.done()


# ---- devices

def check_devices(designs, reader):
    count = Count('tables and designs of all devices, by ' + ('the library' if reader else 'Python'))
    fits = {'1k': {'1k', '1k-ltin'}, '384': {'384'}, '5k': {'5k', '8k'}, '8k': {'5k', '8k'}, 'lm4k': {'5k', '8k'}, 'u4k': {'5k', '8k'}}
    for device, tables in fits.items():
        path = designs.write(contents(data('counter8.asc')).replace('.device 1k', '.device ' + device))
        for table, _ in TABLES:
            status, output, errors = run('asc_to_frames', path, 5, 6, 1, 1, '--table', data(table + '.tab'), reader=reader)
            count.same((status, bool(output), 'the design is for a %s' % device in errors), (0, True, False) if table in tables else (2, False, True),
                       (device, table))
            count.same('was read by %s\n' % read_by(reader, device) in errors, table in tables, (device, table))
        for told in fits:
            status, output, errors = run('asc_to_frames', path, 5, 6, 1, 1, '--table', data('384.tab'), '--device', told, reader=reader)
            count.same((status, 'the table for a %s' % told in errors), (0, False) if told == device else (2, True), (device, told))
        count.same(run('asc_to_frames', path, 5, 6, 1, 1, reader=reader)[0], 0, 'no table, no device to hold against')
        count.same('(device: %s)' % device in run('asc_to_frames', path, 3, 6, 1, 1, reader=reader)[2], True, 'the device is named in the error')
    other = designs.write('01000000680067\n02010005\n')
    count.same('--device' in run('asc_to_frames', data('counter8.asc'), 5, 6, 1, 1, '--table', other)[2], True, 'a table of no known device')
    count.same(run('asc_to_frames', data('counter8.asc'), 5, 6, 1, 1, '--table', other, '--device', '1k')[0], 0, 'the tool is told')
    return count.done()


# ---- errors

class Folder:
    """Files with contents of our own."""

    def __init__(self, path):
        self.path, self.files = path, 0

    def write(self, text):
        self.files += 1
        path = os.path.join(self.path, 'file%d' % self.files)
        with open(path, 'w', encoding='latin-1', newline='') as file:
            file.write(text)
        return path


def damaged_designs(designs):
    """Copies of a design with one fault each in tile (5,6), and what asc_to_frames says of it."""
    text = contents(data('counter8.asc'))
    start = text.index('.logic_tile 5 6')
    row = start + len('.logic_tile 5 6\n')
    faults = [(text[:row] + text[row + 1:], 'tile (5,6), row 0: not 54 digits'), (text[:row] + '2' + text[row + 1:], 'tile (5,6), row 0'),
              (text[:row] + text[row + 55:], 'tile (5,6) has 15 rows'), (text[:row] + text[row + 55 * 15:], 'tile (5,6) has 1 row,'),
              (text[:start] + '.logic_tile 5\n' + text[start:], 'not two coordinates'),
              (text[:start] + '.logic_tile 5 6\n' + text[start:], 'tile (5,6) is there twice'), ('', 'not an .asc file'), ('\0' * 99, "IceStorm's"),
              (text.replace('.device 1k', '.comment'), '0 .device lines'), ('.device 8k\n' + text, '2 .device lines'), ('.device 1k\n', 'no tiles'),
              ('.comment\n' + 'x' * 100000, "IceStorm's"), ('no section\n' + text, "IceStorm's"), ('\xff\xfe' + text, "IceStorm's")]
    for damaged, words in faults:
        yield 'asc_to_frames', [designs.write(damaged), 5, 6, 1, 1], words


def damaged_databases(designs):
    """Small texts that are no chip database, and what chipdb_to_frames says of them."""
    for text, words in (('', 'no section .device'), ('.device 1k 3 3 9\n', 'no section .logic_tile_bits'), ('.device 1k 3 3 9\n.logic_tile_bits 54 16\n', 'no section .net'),
                        ('.device 1k 3 3 9\n.logic_tile_bits 54 17\n', '54 and 17'), ('.device 1k 3 3 9\n.logic_tile_bits 54 16\n.net 0\n', 'on all sides'),
                        ('.device 1k 3 3 9\n.logic_tile x\n', 'not two coordinates'), ('.device 1k 3 3 9\n.logic_tile_bits 54 16\nLC_0 C0\n', 'C0 is no bit')):
        yield 'chipdb_to_frames', [designs.write(text)], words


def mistakes():
    """A tool, its arguments, and words that it writes to standard error."""
    design, table = data('counter8.asc'), data('1k.tab')
    for x, y, w, words in ((2, 3, 2, 'tile (3,3) is a RAM tile (ramb)'), (2, 4, 2, 'tile (3,4) is a RAM tile (ramt)'),
                           (12, 1, 2, 'tile (13,1) is an IO tile (io)'), (0, 0, 1, 'tile (0,0) is missing'), (-1, -1, 1, 'tile (-1,-1) is missing'),
                           (5, 6, 9, '9 by 1'), (5, 6, 0, '0 by 1'), (5, 6, -1, '-1 by 1'), ('x', 6, 1, "'x' is no number"), ('1_0', 6, 1, 'no number')):
        yield 'asc_to_frames', [design, x, y, w, 1], words
    yield 'asc_to_frames', [design, 5, 6, 1, 1, '--table', design], 'line 1'
    yield 'asc_to_frames', [design, 5, 6, 1, 1, '--table', '/dev/zero'], 'too long'
    yield 'asc_to_frames', ['/dev/zero', 5, 6, 1, 1], "IceStorm's"
    yield 'asc_to_frames', [design + '.none', 5, 6, 1, 1], 'No such file'
    yield 'chipdb_to_frames', [design], 'not a chip database'
    yield 'chipdb_to_frames', [table], "IceStorm's"
    yield 'chipdb_to_frames', [DATA], 'directory'
    yield 'chipdb_to_frames', ['/dev/zero'], "IceStorm's"
    for words, text in ((['2', '2', 'wire', '910'], 'that port is on wire 444'), (['2', '2', 'wire', '2024'], 'no wire'), (['2', '2', 'wire', '-5'], 'no wire'),
                        (['2', '2', 'wire', '0162'], '0x'), (['0', '2', 'wire', '0'], '0 by 2'), (['-2', '2', 'wire', '0'], '-2 by 2'),
                        (['2', '2', 'port', '4', 'ltin'], 'no tile'), (['2', '2', 'port', '2,0', 'ltin'], 'no tile'), (['2', '2', 'port', '-1', 'ltin'], 'no tile'),
                        (['2', '2', 'port', '0', 'sp4_h_r_48'], 'no port'), (['position', '864'], 'no position'), (['position', '-1'], 'no position'),
                        (['position', '9' * 9999], 'no number'), (['position', 'B16[0]'], 'no bit'), (['position', '1', '--table', design], 'line 1'),
                        (['position', '1', '--table', '/dev/zero'], 'too long')):
        yield 'names', words, text
    yield 'explain', [1, 1, os.devnull], 'no line 08'
    yield 'explain', [1, 1, table], 'line 1 of the report'
    yield 'explain', [1, 1, '/dev/zero'], 'too long'
    yield 'explain', [-1, 1, table], 'line 1 of the report'
    yield 'explain', [1, 1, '--corner', 'a', 'b', table], 'no number'


USAGES = [('asc_to_frames', ['design.asc', 5, 6, 1]), ('chipdb_to_frames', []), ('names', ['2', '2']), ('explain', []),
          ('explain', ['--input', os.devnull, os.devnull, os.devnull]), ('names', ['--nothing']), ('names', ['2', '2', 'wire', '0', '--east', '2']),
          ('explain', ['--input', os.devnull, '--east', '1']), ('explain', ['2', '2', '--east', '-1']), ('asc_to_frames', ['design.asc', 5, 6, 1, 1, '--east', 'yes'])]


def check_mistakes(reader):
    count = Count('mistakes: exit status 2, one line, no output, by ' + ('the library' if reader else 'Python'))
    with tempfile.TemporaryDirectory() as folder:
        designs = Folder(folder)
        for tool, arguments, words in [*mistakes(), *damaged_designs(designs), *damaged_databases(designs)]:
            status, output, errors = run(tool, *arguments, reader=reader)
            count.same((status, output, words in errors, errors.count('\n')), (2, '', True, 1), (tool, arguments, errors))
    for tool, arguments in USAGES:
        status, output, errors = run(tool, *arguments)
        count.same((status, output, errors.startswith('usage:'), 'Traceback' in errors), (2, '', True, False), (tool, arguments, errors))
    return count.done()


def check_channels(folder):
    """Standard output closed or full, standard input closed, a pipe in place of a file."""
    count = Count('closed and full output, closed input, pipes')
    design, table, block = data('counter8.asc'), data('1k.tab'), data('latch_1x1.in')
    commands = ['names.py 1 1 wire 354', 'asc_to_frames.py %s 5 6 1 1 --table %s' % (design, table), 'explain.py --input %s' % block, 'names.py --help']
    database = os.path.join(folder, 'chipdb-1k.txt')
    if os.path.exists(database):
        commands.append('chipdb_to_frames.py %s' % database)
    for command in commands:
        for where, words in (('>&-', 'standard output is closed'), ('>/dev/full', 'standard output: No space left on device')):
            status, output, errors = shell('echo 08070162 | %s %s/%s %s' % (sys.executable, TOOLS, command, where))
            count.same((status, output, errors), (2, '', '%s: %s\n' % (command.split()[0], words)), (command, where))
        count.same(shell('echo 08070162 | %s %s/%s >/dev/full 2>&-' % (sys.executable, TOOLS, command)), (2, '', ''), command)
    count.same(shell('%s %s/explain.py 1 1 <&-' % (sys.executable, TOOLS)), (2, '', 'explain.py: standard input: it is closed\n'))
    count.same(shell('cat %s | %s %s/asc_to_frames.py - 5 7 1 1 --east 0 --table <(cat %s)' % (design, sys.executable, TOOLS, table)),
               (0, contents(data('counter8_1x1.in')), ''))
    for closed in ('2>&-', '2>/dev/full'):
        count.same(shell('%s %s/asc_to_frames.py %s 5 7 1 1 --east 0 --table %s %s' % (sys.executable, TOOLS, design, table, closed)), (0, contents(data('counter8_1x1.in')), ''), closed)
    count.same(shell('echo 08070162 | %s %s/explain.py --input <(cat %s)' % (sys.executable, TOOLS, block))[0], 1)
    if os.path.exists(database):
        count.same(shell('cat %s | %s %s/chipdb_to_frames.py -' % (database, sys.executable, TOOLS)), (0, contents(table), ''))
        count.same(shell('%s %s/chipdb_to_frames.py <(cat %s)' % (sys.executable, TOOLS, database)), (0, contents(table), ''))
    return count.done()


def shell(command):
    """A shell's exit status, output and errors, but for notes."""
    done = subprocess.run(['bash', '-c', command], stdout=subprocess.PIPE, stderr=subprocess.PIPE, timeout=60)
    return done.returncode, done.stdout.decode(), without_notes(done.stderr.decode())


def without_notes(errors):
    return ''.join(line for line in errors.splitlines(True) if not line.startswith('note: '))


def main():
    parser = argparse.ArgumentParser(description=__doc__, formatter_class=argparse.RawDescriptionHelpFormatter)
    parser.add_argument('--library', metavar='FILE', default=BUILT)
    parser.add_argument('--chipdb', metavar='FOLDER', default=DEBIAN)
    parser.add_argument('--designs', metavar='FOLDER', action='append', default=[])
    arguments = parser.parse_args()
    with tempfile.TemporaryDirectory() as folder:
        tests = [(check_tables, arguments.chipdb), (check_columns, arguments.chipdb), (check_wires,), (check_names,), (check_positions,), (check_no_library,), (check_channels, arguments.chipdb)]
        for reader in readers(arguments.library):
            tests += [(check_blocks, [DATA] + arguments.designs, reader), (check_devices, Folder(folder), reader), (check_mistakes, reader)]
            tests += [(check_strict, Folder(folder), reader)] if reader else []
        return library.run(tests, 1)


if __name__ == '__main__':
    sys.exit(main())
