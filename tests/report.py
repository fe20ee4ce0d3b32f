#!/usr/bin/env python3
"""Compares the report program with the model of tests/model.py: real blocks, the users' vectors, bad lines of every kind, damaged inputs.

    python3 tests/report.py                     needs Python 3, and the Rattle kit (rt) where target/bin/report is not there yet
    python3 tests/report.py 20000               the same with so many damaged inputs (2,000 unless said)
    python3 tests/report.py --program PROGRAM   the same with another program

Each input must end within ten seconds, with exit status 0, nothing on standard error, the model's lines on standard output and one line
08, the last. It prints a line for each group of cases and ends with the number of differences; inputs that differ are kept in
target/differences.
"""
import argparse
import glob
import os
import random
import re
import subprocess
import sys
import tempfile
import threading

sys.path.insert(0, os.path.dirname(os.path.abspath(__file__)))
import model  # noqa: E402
from library import DATA, ROOT, Count, made, run  # noqa: E402

VECTORS = os.path.join(ROOT, 'crates', 'report_run')
KEPT = os.path.join(ROOT, 'target', 'differences')
SECONDS = 10
REPORT = re.compile('((06[0-9A-F]{8}\n)*(07[0-9A-F]{10}\n)*08000000|08[0-9A-F]{6})\n')
GROUNDS = {0, 1, 3, 4, 5, 6, 7, 8, 11}  # all that a report can give; 0 is a yes


class Program:
    """The program, with the grounds that its inputs have had."""

    def __init__(self, path):
        self.path, self.grounds = path, set()

    def answer(self, **given):
        """Exit status, standard output and standard error."""
        try:
            done = subprocess.run([self.path], stdout=subprocess.PIPE, stderr=subprocess.PIPE, timeout=SECONDS, **given)
        except subprocess.TimeoutExpired:
            return 'no end', '', ''
        return done.returncode, done.stdout.decode('latin-1'), done.stderr.decode('latin-1')

    def in_pieces(self, data, size):
        """The same for an input that is written a few bytes at a time."""
        pipe = subprocess.PIPE
        with subprocess.Popen([self.path], bufsize=0, stdin=pipe, stdout=pipe, stderr=pipe) as process:
            timer = threading.Timer(SECONDS, process.kill)
            timer.start()
            try:
                for at in range(0, len(data), size):
                    process.stdin.write(data[at:at + size])
            except BrokenPipeError:
                pass  # it ended before it had read all, and its output tells the rest
            output, errors = process.communicate()
            timer.cancel()
        return process.returncode, output.decode('latin-1'), errors.decode('latin-1')

    def check(self, count, data, what='', ends=None, answer=None):
        """An input's report against the model's, which ends in a ground and place (zeros for a yes) where they are said. The model's report."""
        expected = model.report_of(data)
        if ends:
            count.same(expected[-9:], model.last_line(*ends), (what, 'the model'))
        status, printed, errors = answer or self.answer(input=data)
        if not count.same((status, printed, errors, bool(REPORT.fullmatch(printed))), (0, expected, '', True), what) and count.wrong < 4:
            keep(data)
        self.grounds.add(int(expected[-7:-5], 16))
        return expected


def own_program():
    path = os.path.join(ROOT, 'target', 'bin', 'report')
    if not os.path.exists(path):
        made('target/bin/report')
    return path


def keep(data):
    os.makedirs(KEPT, exist_ok=True)
    path = os.path.join(KEPT, '%d.in' % len(os.listdir(KEPT)))
    with open(path, 'wb') as file:
        file.write(data)
    print('  the input is in %s' % path)


def contents(path):
    with open(path, 'rb') as file:
        return file.read()


def inputs(folder):
    """The inputs of a folder: name to bytes."""
    return {os.path.basename(path): contents(path) for path in sorted(glob.glob(os.path.join(folder, '*.in')))}


# ---- inputs from parts

FIELDS, CHAIN, CARRY_SET = (0, 104, 103), 103, 104
FREE = [p for p in range(864) if p not in model.ALL_CELL_BITS and p not in FIELDS]


def four(numbers):
    return ''.join('%04X' % n for n in numbers)


def group_line(destination, positions, entries):
    return '03%04X%02X%s%02X%s' % (destination, len(positions), four(positions), len(entries), ''.join('%02X%04X' % entry for entry in entries))


def tile_line(positions):
    """A tile with these bits set."""
    return '05' + sum(1 << p for p in set(positions)).to_bytes(model.BYTES, 'little').hex().upper()


def lines_of(groups, tiles, w=1, h=1, fields=FIELDS, passive=(), east=''):
    """An input's lines. A group is (destination, positions, entries of pattern and source), a tile the positions that are set, `east` the
    digits of the byte for the column to the east."""
    return ['01' + four(fields), '02%02X' % len(passive) + four(passive), *[group_line(*group) for group in groups], '04%02X%02X' % (w, h) + east,
            *[tile_line(tile) for tile in tiles]]


def whole(lines):
    return ''.join(line + '\n' for line in lines).encode('latin-1')


def sample():
    """Document 01's input: fields, passive list, two groups, size, tile."""
    return contents(os.path.join(DATA, 'sample.in')).decode().splitlines()


def longest():
    """As many digits as frames can have."""
    group = 0, FREE[:8], [(pattern, 404) for pattern in range(1, 33)]
    return lines_of([group] * 512, [[]] * 9, 3, 3, passive=FREE[:64], east='01')


# ---- groups of cases

def real(program):
    count = Count('real blocks, and an empty block with each real table')
    for name, data in inputs(DATA).items():
        program.check(count, data, name)
    for path in sorted(glob.glob(os.path.join(DATA, '*.tab'))):
        program.check(count, contents(path) + whole(['040102'] + [tile_line([])] * 2), path, (0, 0))
    return count.done()


def vectors(program):
    """Behind each input's name in `stdout` stands its report."""
    count = Count("the users' vectors and the real blocks' reports")
    _, *parts = re.split(r'^(\d+\.in)\n', contents(os.path.join(VECTORS, 'stdout')).decode(), flags=re.MULTILINE)
    given = inputs(os.path.join(VECTORS, 'data'))
    count.same(parts[0::2], list(given), 'names')
    for name, expected in zip(parts[0::2], parts[1::2]):
        count.same(program.check(count, given[name], name), expected, name)
    return count.done()


def malformed(line):
    """A line with one thing wrong, of every kind."""
    yield from (line[:-1] + digit for digit in 'aGg/:@`\xb0')
    yield from (line + end for end in '\r \t\0')
    yield from (start + line for start in ('\r', ' ', '\0', '0x', 'x', '\xef\xbb\xbf'))
    more = '0000' if line[:2] == '04' else '00'  # one byte more is the block frame's own
    yield from (line[:-1], line[:-2], line[:1], line[:2], line + '0', line + more, line + line)
    yield from ('%02X' % kind + line[2:] for kind in (0, 6, 7, 8, 9, 10, 15, 16, 17, 255))
    yield from (line + '0' * (n - len(line)) for n in (511, 512, 513, 514, 1024, 4096))


def bad_lines(program):
    count = Count('lines missing, doubled, malformed, out of turn, extra')
    lines = sample()

    def check(what, changed, place, end=''):
        program.check(count, whole(changed) + end.encode('latin-1'), what, (11, place))

    for k, line in enumerate(lines):
        before, place = lines[:k], k + 1
        check('missing', before, place)
        check('empty', before + [''] + lines[k:], place)
        check('not ended', before, place, line)
        check('stray byte', before, place, 'x')
        for changed in malformed(line):
            check(repr(changed)[:60], before + [changed] + lines[k + 1:], place)
            check(repr(changed)[:60], before, place, changed)
        due = ('03', '04') if line[:2] in ('03', '04') else (line[:2],)
        for other in lines:
            if other[:2] not in due:
                check('out of turn', before + [other] + lines[k:], place)
    for kind, place in (('01', 2), ('02', 3), ('04', 6), ('05', 7)):
        check('doubled', [line for one in lines for line in [one] * (1 + (one[:2] == kind))], place)
    for extra in (*lines, '', ' ', '06', '08000000'):
        check('extra', lines + [extra], 7)
    for end in ('0', '\0', '\r', 'x' * 600, lines[5]):
        check('extra', lines, 7, end)
    check('3 by 1 with two tiles', lines[:4] + ['040301'] + lines[5:] * 2, 8)
    return count.done()


def counted_lines():
    """Lines 02 and 03 with all kinds of counts, and what a block with nothing set gives then."""
    position = '%04X' % FREE[0]
    for n in (0, 1, 63, 64, 65, 66, 255):
        yield '02%02X' % n + four(FREE[:n]), (0, 0) if n <= 64 else (11, 2)
    for rest in ('', '01', 'FF', '41', '00' + position, '02' + position):
        yield '02' + rest, (11, 2)
    # a count of zero is well formed, and breaks a rule of the table
    for n in (0, 1, 7, 8, 9, 10, 255):
        yield group_line(336, FREE[:n], [(1, 404)]), (3, 2) if n == 0 else (0, 0) if n <= 8 else (11, 3)
    for n in (0, 1, 31, 32, 33, 34, 64, 255):
        yield group_line(336, FREE[:8], [(e + 1, 404) for e in range(n)]), (3, 2) if n == 0 else (0, 0) if n <= 32 else (11, 3)
    for rest in ('', '00', '01', '0100', 'FF', '01' + position, '01' + position + '01', '01' + position + '02010194', '01' + position + '21',
                 '01' + position + '0101019401', '09' + position + '01010194'):
        yield '030150' + rest, (11, 3)


def counts(program):
    count = Count("counts: at and over the limit, zero, not the line's own")
    for line, ends in counted_lines():
        fields, passive, size, tile = lines_of([], [[]])
        lines = [fields, line, size, tile] if line[:2] == '02' else [fields, passive, line, size, tile]
        program.check(count, whole(lines), line[:40], ends)
    for n in (0, 1, 2, 511, 512, 513, 514, 600):
        groups = [(336 + g % 32, [FREE[g]], [(1, 404)]) for g in range(n)]
        over = n > 512
        program.check(count, whole(lines_of(groups, [[]])), '%d groups' % n, (11, 515) if over else (0, 0))
        program.check(count, whole(lines_of(groups, [FREE[n - 1:n]])), '%d groups, the last on' % n, (11, 515) if over else (0, 0))
        program.check(count, whole(lines_of(groups, [])[:-1]), '%d groups, no more' % n, (11, 515 if over else n + 3))
        groups[n - 1:] = [(336, [864], [(1, 404)])]
        program.check(count, whole(lines_of(groups, [[]])), '%d groups, the last faulty' % n, (11, 515) if over else (3, len(groups) + 1))
    return count.done()


def sizes(program):
    count = Count('sizes: ground 1 as the block frame is met')
    lines = sample()
    for w, h in [(w, h) for w in (0, 1, 2, 3, 4, 8, 9, 255) for h in (0, 1, 2, 3, 4, 8, 9, 255)]:
        fine = 1 <= w <= 3 and 1 <= h <= 3
        size = ['04%02X%02X' % (w, h)]
        program.check(count, whole(lines[:4] + size + [tile_line([])] * (w * h if fine else 1)), (w, h), (0 if fine else 1, 0))
        for rest in (b'', b'\n', b'x', whole(lines)):
            program.check(count, whole(lines[:4] + size) + rest, (w, h), (11, 6) if fine else (1, 0))
        program.check(count, whole(lines[:4]) + size[0].encode(), (w, h), (11, 5))
        program.check(count, whole(['01' + four([864] * 3)] + lines[1:4] + size), (w, h), (11, 6) if fine else (1, 0))
    return count.done()


def east_bytes(program):
    count = Count('the byte for the east: 01, 00 or left out, another is 11 before 1')
    lines = sample()
    for size in ('0101', '0302', '0000', '0401', '0909', 'FFFF'):
        fine = size in ('0101', '0302')
        tiles = [tile_line([])] * (6 if size == '0302' else 1)
        for east in ('', '00', '01'):
            program.check(count, whole(lines[:4] + ['04' + size + east] + tiles), (size, east), (0 if fine else 1, 0))
            program.check(count, whole(lines[:4]) + ('04' + size + east).encode(), (size, east), (11, 5))
        for east in ['%02X' % byte for byte in range(2, 256)] + ['0', '1', '0000', '0001', '0100', '0101', '000000', '1 ', '+1', '0g', 'aa', ' 0']:
            program.check(count, whole(lines[:4] + ['04' + size + east] + tiles), (size, east), (11, 5))
        for fields in ('0864' * 3, '0000' * 3):  # nor does a table that breaks a rule come first
            program.check(count, whole(['01' + fields] + lines[1:4] + ['04' + size + '02'] + tiles), size, (11, 5))
    return count.done()


A, B, C, D = FREE[100:104]
OUT, LOCAL, IN, CLK, S_R, COUT = 404, 336, 372, 476, 478, 489
RIGHT, BOT, BNR, RGT, TNL, TOP, TNR = 192, 420, 428, 444, 452, 460, 468  # sp4_r_v_b_0, and neigh_op names of number 0
PLAIN = LOCAL, [A], [(1, OUT)]


def flag(i, k):
    """Where cell i has carry, flip-flop, set and asynchronous, k from 0."""
    return model.CELL_BITS[i][16 + k]


def faulty_tables():
    """The parts of tables that break a rule, and which part does."""
    for fields in ((864, 1, 2), (0, 1, 65535), (0, 1, 1), (0, 1, 0), (0, 36, 1)):
        yield 0, [PLAIN], fields, []
    for passive in ([864], [B, B], [104], [36], [B, C, D, 65535]):
        yield 1, [PLAIN], FIELDS, passive
    for destination in (404, 475, 479, 505, 506, 65535):
        yield 2, [(destination, [A], [(1, OUT)])], FIELDS, []
    for source in (372, 403, 476, 477, 478, 506, 65535):
        yield 2, [(LOCAL, [A], [(1, source)])], FIELDS, []
    for entries in ([(0, OUT)], [(4, OUT)], [(255, OUT)], [(1, OUT), (1, 405)], [(1, OUT), (2, 372)]):
        yield 2, [(LOCAL, [A, B], entries)], FIELDS, []
    for positions in ([864], [A, A], [C], [0], [103], [36], [A, 65535]):
        yield 2, [(LOCAL, positions, [(1, OUT)])], FIELDS, [C]
    yield 3, [PLAIN, PLAIN], FIELDS, []
    yield 1, [(404, [A], [(1, OUT)])], FIELDS, [864]
    yield 0, [(404, [A], [(1, OUT)])], (0, 0, 0), [864]


def judged_blocks():
    """Blocks with the ground and place that they are refused by, each with a second fault or not, and some that are not refused."""
    for destination, source in ((0, 371), (371, 505), (403, 404), (476, 475), (478, 479)):
        yield 0, 0, lines_of([(destination, [A], [(1, source)])], [[]])
    for place, groups, fields, passive in faulty_tables():
        yield 3, place, lines_of(groups, [[]], fields=fields, passive=passive)
        yield 3, place, lines_of(groups, [[B], [A, D]], 2, 1, fields, passive)
    yield 4, B, lines_of([PLAIN], [[B]])
    yield 4, CARRY_SET, lines_of([PLAIN], [[CHAIN, CARRY_SET]])
    yield 4, A, lines_of([(LOCAL, [A, B], [(3, OUT)])], [[A]])
    yield 4, B, lines_of([(LOCAL, [B, A], [(3, OUT)])], [[A]])  # the first that the table lists, not the lowest, and not set
    yield 4, C, lines_of([(LOCAL, [D, A], [(3, OUT)])], [[A, C]])  # a stray bit below it
    yield 4, 2 * 864 + B, lines_of([PLAIN], [[A], [], [B], [B]], 2, 2)
    yield 4, 8 * 864 + B, lines_of([PLAIN], [[]] * 8 + [[B]], 3, 3)
    fight = [PLAIN, (LOCAL, [B], [(1, OUT)])]
    yield 5, LOCAL, lines_of(fight, [[A, B]])
    yield 5, LOCAL, lines_of(fight, [[A, B, flag(0, 0), flag(2, 0)]])
    yield 5, 506 + LOCAL, lines_of(fight, [[], [A, B]], 2, 1)
    yield 5, 48, lines_of([(48, [A], [(1, OUT)]), (0, [B], [(1, OUT)])], [[A], [B]], 2, 1)  # sp4_h_r_0 is the next tile's sp4_h_l_0
    yield 4, C, lines_of(fight, [[A, B, C]])
    carry = [(LOCAL, [A], [(1, COUT)]), (LOCAL + 1, [B], [(1, LOCAL + 1)])]
    yield 6, COUT + 1, lines_of([PLAIN], [[flag(0, 0), flag(2, 0)]])
    yield 6, COUT, lines_of(carry, [[A]])
    yield 6, COUT, lines_of(carry, [[A, B]])
    yield 6, COUT + 7, lines_of([PLAIN], [[], [CHAIN]], 1, 2)
    loop = [PLAIN, (IN, [B], [(1, LOCAL)]), (CLK, [C], [(1, OUT)])]
    yield 7, LOCAL, lines_of(loop, [[A, B]])
    yield 7, LOCAL, lines_of(loop, [[A, B, C, flag(1, 1)]])
    yield 7, LOCAL, lines_of([(LOCAL, [A], [(1, LOCAL)])], [[A]])
    yield 7, 460, lines_of(loop, [[A], [A, B]], 1, 2)  # the cell's output is neigh_op_top_0 of the tile below
    clocks = [(CLK, [A], [(1, OUT)]), (S_R, [B], [(1, OUT)])]
    yield 8, 0, lines_of(clocks, [[A, flag(3, 1)]])
    yield 8, 0, lines_of(clocks, [[B, flag(3, 1), flag(3, 3)]])
    yield 8, 3, lines_of(clocks, [[A], [B, flag(0, 1)], [B, flag(0, 3)], [B, flag(3, 1), flag(3, 3)]], 2, 2)
    fields, passive, local, lut_in, size, tile = sample()
    bits = model.words_of(bytes.fromhex(tile[2:]))
    yield 7, LOCAL, [fields, passive, local, lut_in, size, tile_line(p for p in range(864) if model.bit(bits, p) and p != 45)]


def outside_blocks():
    """Blocks of one column, whose answer depends on what is joined outside: lines without a byte, then what they give without and with it."""
    right = RIGHT, [A], [(1, OUT)]  # row 1's sp4_r_v_b_0 is row 0's sp4_r_v_b_13
    yield [right, (RIGHT + 13, [B], [(1, OUT)])], [[B], [A]], (0, 0), (5, RIGHT + 13)
    yield [right, (RIGHT + 12, [B], [(1, OUT)])], [[B], [A]], (0, 0), (0, 0)  # not without the flip
    yield [right, (RIGHT + 13, [B], [(1, OUT)])], [[B], [], [A]], (0, 0), (0, 0)  # one row further it is sp4_r_v_b_24
    yield [right, (RIGHT + 24, [B], [(1, OUT)])], [[B], [], [A]], (0, 0), (5, RIGHT + 24)
    yield [(RIGHT + 36, [A], [(1, OUT)]), (RIGHT + 47, [B], [(1, OUT)])], [[B], [A]], (0, 0), (0, 0)  # 36 and above end in their row
    back = [(LOCAL, [A], [(1, RIGHT + 13)]), (IN, [B], [(1, LOCAL)]), (RIGHT, [C], [(1, BOT)])]
    yield back, [[A, B], [C]], (0, 0), (7, RIGHT + 13)
    yield back, [[A, B], [A, B]], (0, 0), (0, 0)
    clock = [(CLK, [A], [(1, RIGHT + 13)]), (RIGHT, [B], [(1, BOT)])]
    yield clock, [[A, flag(3, 1)], [B]], (0, 0), (8, 0)
    carry = [(RIGHT, [A], [(1, COUT)]), (LOCAL, [B], [(1, RIGHT + 13)])]
    yield carry, [[B, flag(0, 0)], [A]], (6, 506 + COUT), (6, 506 + COUT)


def outside(program):
    """The two joins outside, by blocks of two and three rows, and by the sources of single switches."""
    count = Count('joined outside: the column to the east, neigh_op names of one tile')
    for groups, tiles, apart, joined in outside_blocks():
        for east, ends in (('', apart), ('00', apart), ('01', joined)):
            program.check(count, whole(lines_of(groups, tiles, 1, len(tiles), east=east)), (groups, east), ends)
    # a switch of the last tile of a block of 2 by 2, and its source's wire: the lowest name for the same output of that outside tile
    for source, wire in ((RGT, 506 + TNR), (RGT + 7, 506 + TNR + 7), (BNR, 506 + RGT), (BNR + 3, 506 + RGT + 3), (TOP, 2 * 506 + TNR), (TNL, 2 * 506 + TOP),
                         (TNR, 3 * 506 + TNR)):
        for east in ('', '00', '01'):
            lines = lines_of([(LOCAL, [A], [(1, source)])], [[], [], [], [A]], 2, 2, east=east)
            count.same(program.check(count, whole(lines), (source, east)), '06%04X%04X\n08000000\n' % (3 * 506 + LOCAL, wire), (source, east))
    return count.done()


def grounds(program):
    count = Count('grounds 3 to 8, and which of two comes first')
    for ground, place, lines in judged_blocks():
        program.check(count, whole(lines), (ground, place), (ground, place))
        program.check(count, whole(lines + ['']), (ground, place), (11, len(lines) + 1))
    return count.done()


def cut(program):
    count = Count('cut short: at each byte, and near each line end')
    data = whole(sample())
    for n in range(len(data)):
        program.check(count, data[:n], n, (11, data[:n].count(b'\n') + 1))
    data = inputs(os.path.join(VECTORS, 'data'))['0002.in']
    for end in [n for n, byte in enumerate(data) if byte == 10]:
        for n in range(end - 1, end + 3):
            program.check(count, data[:n], n)
    return count.done()


def large(program):
    count = Count('inputs longer than any block needs')
    lines, most = sample(), longest()
    data, million = whole(lines), b'0' * 1000000
    cases = [(million, 11, 1), (million + b'\n', 11, 1), (whole(lines[:1]) + million + b'\n', 11, 2), (whole(lines[:5]) + b'05' + million + b'\n', 11, 6),
             (whole(lines[:2] + lines[2:3] * 55000), 11, 515), (whole(lines[:5] + lines[5:] * 9200), 11, 7), (whole(lines * 6300), 11, 7),
             (b'\n' * 2000000, 11, 1), (bytes(2000000), 11, 1), (data + bytes(2000000), 11, 7), (whole(lines[:4] + ['040404']) + million * 2, 1, 0),
             (whole(most), 3, 2), (whole(most[:-1]), 11, 524), (whole(most + ['']), 11, 525), (whole(most[:-10] + ['040401'] + most[-9:]), 1, 0)]
    for end in (131071, 131072, 131073, 196608, 196609):  # about the room that the program has
        for start, place in ((data, 7), (whole(most), 525)):
            cases += [(start + b'0' * (end - len(start)), 11, place), (start + b'0' * (end - 1 - len(start)) + b'\n', 11, place)]
    for given, ground, place in cases:
        program.check(count, given, '%d bytes' % len(given), (ground, place))
    return count.done()


def pieces(program):
    count = Count('inputs in small pieces, and from a file')
    given = [*inputs(DATA).values(), whole(longest()), b'', b'x']
    with tempfile.TemporaryDirectory() as folder:
        path = os.path.join(folder, 'any.in')
        for data in given:
            for size in (1, 100, 4096):
                if len(data) < 5000 * size:
                    program.check(count, data, '%d a piece' % size, answer=program.in_pieces(data, size))
            with open(path, 'wb') as file:
                file.write(data)
            with open(path, 'rb') as file:
                program.check(count, data, 'a file', answer=program.answer(stdin=file))
    return count.done()


# ---- inputs at random

DESTINATIONS = [*range(336, 404)] * 3 + [476, 478] * 20 + [477] + [*range(336)]
SOURCES = [*range(404, 412)] * 20 + [*range(479, 487)] * 4 + [*range(336, 372)] * 6 + [*range(412, 476)] + [*range(487, 506)] + [*range(336)]


def random_group(positions):
    patterns = random.sample(range(1, 1 << len(positions)), min((1 << len(positions)) - 1, random.randint(1, 6)))
    return random.choice(DESTINATIONS), positions, [(pattern, random.choice(SOURCES)) for pattern in patterns]


def random_tile(groups, passive):
    tile = [p for p in passive if random.random() < 0.5] + [p for p in FIELDS if random.random() < 0.05]
    for _, positions, entries in groups:
        if random.random() < 0.3:
            pattern = random.choice(entries)[0]
            tile += [p for k, p in enumerate(positions) if pattern >> k & 1]
    carries = random.choice((0, 0, 0, 0, 0.1, 1))
    for *table, carry, flip_flop, set_bit, asynchronous in model.CELL_BITS:
        if random.random() < 0.4:
            tile += [p for p in (*table, flip_flop, set_bit, asynchronous) if random.random() < 0.4]
        if random.random() < carries:
            tile.append(carry)
    return tile


def random_block():
    """A block of up to 3 by 3 tiles with a small table, mostly without a fault in its lines and its table."""
    free = random.sample(FREE, len(FREE))
    passive = [free.pop() for _ in range(random.choice((0, 0, 1, 5)))]
    groups = [random_group([free.pop() for _ in range(random.randint(1, 5))]) for _ in range(random.choice((1, 4, 10, 30)))]
    w, h = random.choice(((1, 1), (1, 1), (1, 2), (2, 1), (2, 2), (3, 3)))
    return lines_of(groups, [random_tile(groups, passive) for _ in range(w * h)], w, h, passive=passive, east=random.choice(('', '00', '01', '01')))


def made(program, rounds):
    count = Count('blocks made at random')
    for _ in range(rounds):
        program.check(count, whole(random_block()))
    return count.done()


def at_some_byte(change):
    """Damage at one place of an input: what becomes of its byte."""
    def damage(data):
        at = random.randrange(len(data) or 1)
        return data[:at] + change(data[at:at + 1]) + data[at + 1:]
    return damage


def at_some_line(change):
    """Damage to one line, with its end: what becomes of it, given the next one, which is replaced too."""
    def damage(data):
        lines = data.splitlines(True)
        at = random.randrange(len(lines) or 1)
        return b''.join(lines[:at]) + change(*(lines[at:at + 2] + [b'', b''])[:2]) + b''.join(lines[at + 2:])
    return damage


def some_byte():
    return bytes([random.choice((0, 9, 10, 10, 13, 32, 48, 65, 97, 127, 255, random.randrange(256)))])


def some_digit():
    return random.choice('0123456789ABCDEF').encode()


def other_count(line, following):
    """A line's count, size or first number changed."""
    at = 6 if line[:2] == b'03' else 2
    return line[:at] + b'%02X' % random.choice((0, 1, 2, 3, 4, 8, 9, 32, 33, 64, 65, 255)) + line[at + 2:] + following


def copied_line(data):
    """A line at another place too."""
    lines = data.splitlines(True)
    lines.insert(random.randrange(len(lines) + 1), random.choice(lines or [b'']))
    return b''.join(lines)


def shortened(data):
    return data[:random.randrange(len(data) + 1)]


DAMAGES = [at_some_byte(lambda byte: some_byte()), at_some_byte(lambda byte: byte + some_byte()), at_some_byte(lambda byte: b''),
           at_some_byte(lambda byte: some_digit() + byte + some_digit()), at_some_byte(lambda byte: byte * random.choice((2, 3, 600))),
           at_some_line(lambda line, following: following + line), at_some_line(lambda line, following: line + line + following),
           at_some_line(lambda line, following: following), at_some_line(lambda line, following: line.rstrip(b'\n') + following),
           at_some_line(lambda line, following: line.lower() + following), at_some_line(lambda line, following: line.replace(b'\n', b'\r\n') + following),
           at_some_line(lambda line, following: line + b'\n' + following), at_some_line(other_count), copied_line, shortened,
           lambda data: data.lower(), lambda data: data.replace(b'\n', b'\r\n'), lambda data: data[:-1],
           lambda data: data + random.choice((b'\n', b'\0', b'0', data, some_byte() * random.randrange(300)))]
# that keep most lines well formed
CHANGES = [at_some_byte(lambda byte: some_digit() if byte != b'\n' else byte)] * 6 + [at_some_line(other_count)]


def damaged_inputs(rounds):
    """So many inputs, each damaged at random."""
    given = [data for folder in (DATA, os.path.join(VECTORS, 'data')) for data in inputs(folder).values()]
    small = [data for data in given if len(data) < 1000]
    for _ in range(rounds):
        data = random.choice((random.choice(small), random.choice(given), whole(random_block()), whole(random_block())))
        kinds = random.choice((DAMAGES, CHANGES))
        for _ in range(random.choice((1, 1, 2, 4))):
            data = random.choice(kinds)(data)
        yield data


def damaged(program, rounds):
    count = Count('damaged at random: bytes, digits, lines, counts, ends')
    for data in damaged_inputs(rounds):
        program.check(count, data)
    return count.done()


def every_ground(program):
    count = Count('grounds met: all that a report can give, no other')
    count.same(program.grounds, GROUNDS)
    return count.done()


def main():
    parser = argparse.ArgumentParser(description=__doc__, formatter_class=argparse.RawDescriptionHelpFormatter)
    parser.add_argument('rounds', metavar='ROUNDS', type=int, nargs='?', default=2000)
    parser.add_argument('--program', metavar='PROGRAM')
    arguments = parser.parse_args()
    program, rounds = Program(arguments.program or own_program()), arguments.rounds
    return run([(real, program), (vectors, program), (bad_lines, program), (counts, program), (sizes, program), (east_bytes, program), (grounds, program),
                (outside, program), (cut, program), (large, program), (pieces, program), (made, program, rounds // 4), (damaged, program, rounds),
                (every_ground, program)], 3)


if __name__ == '__main__':
    sys.exit(main())
