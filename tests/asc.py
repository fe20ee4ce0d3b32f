#!/usr/bin/env python3
"""Compares the library's reading and writing of IceStorm's ASCII files with the model of tests/asc_model.py, with the Python cutter of tools/
and with IceStorm's own programs.

    python3 tests/asc.py                    needs the Rattle kit (rt), a C compiler and Python 3
    python3 tests/asc.py --rounds 20000     the same with so many random cases (2,000 unless said)
    python3 tests/asc.py --vectors FOLDER   where the users' vectors are, if not in tests/data/vectors
    python3 tests/asc.py --designs FOLDER   .asc files beyond the two in tests/data, if not in ../shared/realdata/designs

What is written goes through icepack, iceunpack and icebox_explain where they are installed (Debian: fpga-icestorm). It prints a line for each
group of cases and ends with the number of differences.
"""
import argparse
import ctypes
import glob
import os
import random
import shutil
import subprocess
import sys
import tempfile
from array import array

sys.path.insert(0, os.path.dirname(os.path.abspath(__file__)))
import asc_model  # noqa: E402
import library  # noqa: E402
import vectors  # noqa: E402
from bits_model import COLUMNS, WORDS, words_of  # noqa: E402
from library import DATA, ROOT, U8, U64, Count, junk  # noqa: E402

sys.path.insert(0, os.path.join(ROOT, 'tools'))
import asc_to_frames  # noqa: E402
from tool import Mistake  # noqa: E402

DESIGNS = os.path.join(os.path.dirname(ROOT), 'shared', 'realdata', 'designs')
BIG = 100_000_000  # bytes
DAMAGED = ('uart_tx', 3, 3, 5, 10)  # design, size, corner: each line of it is damaged


def room(w, h):
    """For the bits of a block."""
    return array(U64, [0] * (WORDS * w * h))


class Files:
    """The three calls, over texts and words: each answers as the model does, and says what it left of a refused output."""

    def __init__(self):
        self.lib = library.Library().lib
        for name in ('read', 'length', 'write'):
            getattr(self.lib, 'ice40_asc_' + name).restype = ctypes.c_uint64

    def call(self, name, numbers, *slices):
        """Slices are bytes, which are only read, or arrays."""
        words = [ctypes.c_uint32(n) for n in numbers]
        for memory in slices:
            words += [memory if isinstance(memory, bytes) else ctypes.c_void_p(memory.buffer_info()[0]), ctypes.c_size_t(len(memory))]
        answer = getattr(self.lib, 'ice40_asc_' + name)(*words)
        return answer >> 32, answer & 0xffffffff

    def fill(self, name, numbers, given, kind, length):
        """A call with one slice in and one out: its output, or its no. What a no leaves behind must be what was there."""
        out = array(kind, [0x33] * length)
        old = out[:]
        answer = self.call(name, numbers, given, out)
        if answer == (0, 0):
            return out
        return answer if out == old else ('an output changed by a no', answer)

    def read(self, w, h, x, y, text, length=None):
        got = self.fill('read', (w, h, x, y), text, U64, WORDS * w * h if length is None else length)
        return got if isinstance(got, tuple) else got.tolist()

    def write(self, w, h, x, y, bits, length):
        got = self.fill('write', (w, h, x, y), array(U64, bits), U8, length)
        return got if isinstance(got, tuple) else got.tobytes()

    def length(self, w, h, x, y):
        ground, value = self.call('length', (w, h, x, y))
        return (ground, value) if ground else value


class Inputs:
    """The .asc files, by name, and the folder of the users' vectors."""

    def __init__(self, folders, vectors, rounds):
        self.vectors, self.designs, self.rounds = vectors, folders[-1], rounds
        paths = [path for folder in folders for path in sorted(glob.glob(os.path.join(folder, '*.asc')))]
        self.paths = {os.path.basename(path)[:-4]: path for path in paths}
        self.texts = {name: whole(path) for name, path in self.paths.items()}


def whole(path):
    with open(path, 'rb') as file:
        return file.read()


# ---- the users' vectors

def check_vectors(files, inputs):
    count = Count("the users' vectors for read and write: the library and the model")
    for case in vectors.cases(inputs.vectors, 'w1-asc_read', 'w7-asc_read'):
        block, text, length = [case.given[key] for key in 'whxy'], bytes.fromhex(case.given['text']), case.index(case.given['length'])
        for reader in (files, asc_model):
            count.same(reader.read(*block, text, length), case.no or case.words(case.answer['numbers']), block)
    for case in vectors.cases(inputs.vectors, 'w1-asc_write', 'w7-asc_write'):
        block, bits = [case.given[key] for key in 'whxy'], case.words(case.given['numbers'])
        for writer in (files, asc_model):
            count.same(writer.write(*block, bits, case.given['length']), case.no or bytes.fromhex(case.answer['text']), block)
    return count.done()


# ---- sizes, corners and lengths

EDGES = (0, 1, 9, 10, 92, 99, 100, 247, 248, 249, 254, 255, 256, 257, 65535, 65536, (1 << 31) - 1, 1 << 31, (1 << 32) - 8, (1 << 32) - 1)


def check_sizes(files):
    count = Count('sizes, corners and lengths: grounds 1 and 2, the length told')
    for w in (0, 1, 2, 7, 8, 9, 256, 65536, (1 << 32) - 1):
        for h in (0, 1, 3, 8, 9, 65537, (1 << 32) - 1):
            for x in EDGES:
                for y in (0, 9, 100, 248, 255, 256, (1 << 32) - 1):
                    count.same(files.length(w, h, x, y), asc_model.text_length(w, h, x, y), (w, h, x, y))
                    if not asc_model.is_size(w, h, x, y):
                        for length in (0, WORDS):
                            count.same(files.read(w, h, x, y, b'', length), (1, 0), (w, h, x, y))
                            count.same(files.write(w, h, x, y, [1 << 63] * length, length), (1, 0), (w, h, x, y))
    for w, h, x, y in ((1, 1, 0, 0), (2, 3, 254, 9), (8, 8, 248, 248)):
        bits, size = [0] * (WORDS * w * h), asc_model.text_length(w, h, x, y)
        text = asc_model.write(w, h, x, y, bits)
        for change in (-1, 1, -WORDS, WORDS, 92 * w * h, 1 << 16):  # 92 more a tile are its bytes
            count.same(files.read(w, h, x, y, text, max(0, len(bits) + change)), (2, 0), (w, h, change))
            count.same(files.read(w, h, x, y, b'?', max(0, len(bits) + change)), (2, 0), 'before 13')
            count.same(files.write(w, h, x, y, bits, max(0, size + change)), (2, 0), (w, h, change))
            count.same(files.write(w, h, x, y, [1 << 63] * max(0, len(bits) + change), size), (2, 0), (w, h, change, 'before 4'))
    none = ctypes.c_void_p(), ctypes.c_size_t(0)
    out = (ctypes.c_uint64 * WORDS)()
    one = [ctypes.c_uint32(n) for n in (1, 1, 5, 7)]
    count.same(files.lib.ice40_asc_read(*one, *none, out, ctypes.c_size_t(WORDS)), 13 << 32 | 1, 'no text, NULL')
    count.same(files.lib.ice40_asc_read(*one, *none, *none), 2 << 32, 'no bits, NULL')
    count.same(files.lib.ice40_asc_write(*one, *none, *none), 2 << 32, 'neither')
    return count.done()


# ---- what the readings say, each with its answer

ZERO_ROWS = ('0' * 54 + '\n') * 16


def tile_text(x, y, rows=ZERO_ROWS):
    return '.logic_tile %d %d\n%s' % (x, y, rows)


def spelt():
    """Texts for the block of one tile at (3, 5), and their answers: the line at fault, or 0 for a yes."""
    device, tile = '.device 1k\n', tile_text(3, 5)
    good = device + tile
    yield 'plain', good, 0
    yield '.device behind the tiles', tile + device, 0
    yield '.comment first', '.comment from nextpnr\nline\n\n' + good, 0
    for text, line in (('text\n' + good, 1), (device + 'text\n' + tile, 2), (good + '0' * 54 + '\n', 19), (good + ' \n', 19)):
        yield 'text where none is due', text, line
    yield 'empty lines', '\n\n' + device + '\n' + tile.replace('\n', '\n\n') + '\n\n', 0
    yield 'a blank between rows', device + tile.replace('\n', '\n \n', 1), 3
    yield 'a carriage return is no empty line', device + '\r\n' + tile, 2
    for words in ('256 0', '0 256', '03 5', '3 05', '00 5', '3', '3 5 ', '3  5', ' 3 5', '3 5 0', '-3 5', '+3 5', '3,5', 'x y', '', ' ', '3 5\r',
                  '3\t5', '1000 5', '99999999999 5', '4294967299 5', '3 5.', '3 ', '3 0x5', '\xb3 5', '300 5', '3 999', '3 5\0'):
        yield '.logic_tile ' + words, device + '.logic_tile ' + words + '\n' + tile, 2
    yield 'no coordinates', device + '.logic_tile\n' + tile, 2
    for x, y in ((0, 0), (255, 255), (3, 4), (3, 6), (2, 5), (4, 5), (5, 3), (35, 5), (3, 55)):
        yield 'a tile outside', device + '.logic_tile %d %d\nwhat follows\n' % (x, y) + tile, 0
    yield 'skipped lines', device + '.io_tile 0 0\n\xff\0\x80 \t\r\n ..\n' + '9' * 5000 + '\n' + tile, 0
    for word in ('.devices 1k', '.Device 8k', '.logic_tiles 3 5', '.device\t8k', '.', '..', '. device 1k', '.logic_tile\t3 5',
                 '.logic_tile_bits', '.dev', '.logic_til', '.DEVICE 8k'):
        yield 'another section, ' + word, device + word + '\nskipped\n' + tile, 0
    for word in ('.device', '.device ', '.device 1k ', '.device  1k', '.device 1k 1k', '.device 8k', '.device 1K', '.device 1',
                 '.device 1k\r', '.device 1k\0', '.device 01k', '.device 384'):
        yield 'the word and not the shape, ' + word, word + '\n' + tile, 1
    yield 'a blank before the dot', ' ' + good, 1
    yield 'a blank before the dot, skipped', '.comment\n .device 8k\n' + good, 0
    for text, line in ((good[:-1], 18), (good + '.comment', 19), (good + '.comment\nx', 20), (good + ' ', 19), (good + '.device 8k', 19),
                       ('.', 1), (device + '.io_tile 0 0\n1', 3)):
        yield 'no line feed at the end', text, line
    yield 'nothing but line feeds', '\n\n\n', 4
    yield 'nothing', '', 1
    yield 'fifteen rows, a dot line', device + tile[:-55] + '.comment\n', 18
    yield 'fifteen rows, the end', device + tile[:-55], 18
    yield 'no row, empty lines, the end', device + '.logic_tile 3 5\n\n\n', 5
    yield 'given twice', good + tile, 19
    yield 'given twice, the header alone', good + '.logic_tile 3 5\n', 19
    yield 'outside given twice', device + tile_text(4, 5) + tile_text(4, 5) + tile, 0
    yield 'a second device before a missing tile', device + '.device 1k\n', 2
    yield 'a missing device after a bad row', tile[:-2] + '2\n', 17
    yield 'both missing', '.comment\n', 2
    yield 'the tile missing', device, 2
    yield 'the device missing', tile, 18
    for c in (0, 1, 31, 32, 52, 53):
        for digit in '2379a/: \0\r\t\x80':
            yield 'a digit %r' % digit, device + tile[:17 + 54 - 1 - c - 1] + digit + tile[17 + 54 - 1 - c:], 3
    for rows in ('0' * 53, '0' * 55, '0' * 54 + '\r', ' ' + '0' * 54, '0' * 54 + ' ', '0' * 27 + ' ' + '0' * 26, '1' * 108):
        yield 'a row of another length', device + '.logic_tile 3 5\n' + rows + '\n' + ZERO_ROWS, 3
    yield 'a byte order mark', '\xef\xbb\xbf' + good, 1


def check_readings(files):
    count = Count('what the readings say, each with its answer written down')
    for words, text, line in spelt():
        text = text.encode('latin-1')
        expected = (13, line) if line else [0] * WORDS
        count.same(files.read(1, 1, 3, 5, text), expected, words)
        count.same(asc_model.read(1, 1, 3, 5, text), expected, 'the model: ' + words)
    return count.done()


# ---- random files

PIECES = ['.device 1k', '.device 8k', '.device', '.device 1k ', '.comment', '.comment x', '.', '.logic_tile', '.logic_tile 1 2 3',
          '.logic_tile 01 2', '.logic_tile 256 1', '.logic_tilex 1 1', '', ' ', 'text', '0' * 54, '1' * 54, '0' * 53, '0' * 55, '.io_tile 0 1', '\r', '.\0']


def random_lines(w, h, x, y):
    """The lines of a file of a block, in some order, with tiles outside and skipped sections among them."""
    parts = [['.device 1k']]
    for at in asc_model.tiles_of(w, h, x, y):
        parts.append(['.logic_tile %d %d' % at] + [''.join(random.choice('01') for _ in range(54)) for _ in range(16)])
    for _ in range(random.randrange(3)):
        at = random.choice((0, 1, x - 1, x + w, 255)), random.choice((0, y - 1, y + h, y, 255))
        parts.append(['.logic_tile %d %d' % at if 0 <= min(at) <= max(at) <= 255 and at not in asc_model.tiles_of(w, h, x, y) else '.ramb_tile 3 1', 'no rows'])
    if random.random() < 0.5:
        random.shuffle(parts)
    return [line for part in parts for line in part]


def damage(lines):
    """A fault or two at random places; some are none."""
    for _ in range(random.choice((0, 1, 1, 1, 2))):
        at, other = random.randrange(len(lines)), random.randrange(len(lines))
        kind = random.randrange(8)
        if kind == 0:
            del lines[at]
        elif kind == 1:
            lines.insert(at, lines[other])
        elif kind == 2:
            lines[at], lines[other] = lines[other], lines[at]
        elif kind in (3, 4):
            lines.insert(at, random.choice(PIECES))
        elif kind == 5:
            lines[at] = random.choice(PIECES)
        elif lines[at]:
            c = random.randrange(len(lines[at]))
            lines[at] = lines[at][:c] + random.choice('012 .\r\0xk9') + lines[at][c + random.randrange(2):]
        if not lines:
            return


def check_random(files, inputs):
    count = Count('random files with random faults, the model')
    met = {}
    for _ in range(inputs.rounds):
        w, h = random.choice(((1, 1), (1, 1), (2, 1), (1, 2), (2, 2), (3, 2)))
        x, y = random.choice((0, 1, 5, 9, 10, 99, 100, 255 - w, 256 - w)), random.choice((0, 7, 98, 256 - h))
        lines = random_lines(w, h, x, y)
        damage(lines)
        text = '\n'.join(lines + [''] * (random.random() < 0.95)).encode()
        expected = asc_model.read(w, h, x, y, text)
        met[isinstance(expected, list)] = met.get(isinstance(expected, list), 0) + 1
        count.same(files.read(w, h, x, y, text), expected, (w, h, x, y, text[:200]))
    wrong = count.done()
    print('  of them a yes: %d, ground 13: %d' % (met.get(True, 0), met.get(False, 0)))
    count = Count('random bytes of the alphabet of such files, the model')
    for _ in range(inputs.rounds):
        text = bytes(random.choice(b'.\n\n 01kdevicelogc_t5') for _ in range(random.randrange(40)))
        count.same(files.read(1, 1, 1, 1, text), asc_model.read(1, 1, 1, 1, text), text)
    return wrong + count.done()


def check_round_trip(files, inputs):
    count = Count('random blocks: the text is the model\'s, and reads back')
    for k in range(max(200, inputs.rounds // 10)):
        w, h = random.randrange(1, 9), random.randrange(1, 9)
        x, y = random.choice((0, 3, 9, 95, 250 - w, 256 - w)), random.choice((0, 9, 94, 256 - h))
        rows = random.choice(([0] * (WORDS * w * h), [(1 << 64) - 1] * (WORDS * w * h), junk(WORDS * w * h, U64)))
        bits, length = [row & (1 << COLUMNS) - 1 for row in rows], files.length(w, h, x, y)
        text = files.write(w, h, x, y, bits, length)
        count.same(text, asc_model.write(w, h, x, y, bits), (w, h, x, y))
        count.same(files.read(w, h, x, y, text), bits, (w, h, x, y))
        stray = library.with_strays(bits, random.choices(range(len(bits)), k=random.randint(1, 3)))
        count.same(files.write(w, h, x, y, stray, length), asc_model.write(w, h, x, y, stray, length), (w, h, x, y, 'bits past the columns'))
    return count.done()


def check_strays(files):
    """Ground 4 for each bit past the columns, and the lowest of two."""
    count = Count('bits past the columns: the writer refuses them, and where')
    length = asc_model.text_length(2, 1, 5, 7)
    for r in range(2 * WORDS):
        for c in range(COLUMNS, 64):
            bits = [0] * (2 * WORDS)
            bits[r] = 1 << c
            count.same(files.write(2, 1, 5, 7, bits, length), (4, 864 * (r // 16) + 54 * (r % 16) + 53), (r, c))
            bits[-1] |= 1 << 63
            count.same(files.write(2, 1, 5, 7, bits, length), (4, 864 * (r // 16) + 54 * (r % 16) + 53), (r, c, 'and the last'))
    return count.done()


# ---- real designs

def cutter(text):
    """The Python cutter of tools/ over a design: a block's words, or None where it finds no such block."""
    _, tiles = asc_to_frames.read_design(text)
    cut = {}
    for at in tiles:
        try:
            cut[at] = asc_to_frames.tile_bytes(asc_to_frames.logic_rows(tiles, at))
        except Mistake:
            pass

    def block(w, h, x, y):
        parts = [cut.get(at) for at in asc_model.tiles_of(w, h, x, y)]
        return None if None in parts else words_of(b''.join(parts))
    return block


def check_designs(files, inputs):
    count = Count('every corner of every design, five sizes, the Python cutter')
    blocks = 0
    for name, text in inputs.texts.items():
        block = cutter(text)
        lines = text.count(b'\n')
        for x in range(14):
            for y in range(18):
                for w, h in ((1, 1), (2, 2), (3, 3), (6, 8), (2, 8)):
                    expected = block(w, h, x, y)
                    blocks += expected is not None
                    out = room(w, h)
                    answer = files.call('read', (w, h, x, y), text, out)
                    got = out.tolist() if answer == (0, 0) else answer
                    count.same(got, (13, lines + 1) if expected is None else expected, (name, w, h, x, y))
    wrong = count.done()
    if not glob.glob(os.path.join(inputs.designs, '*.asc')):
        print('left out, no further designs (--designs FOLDER): %s' % os.path.relpath(inputs.designs, ROOT))
    print('  %d designs; of these blocks %d are logic tiles only' % (len(inputs.texts), blocks))
    return wrong


def damages(lines, k):
    """A design with its line k damaged: a list of lines for each way, as one text."""
    line = lines[k]
    changed = next((line[:c] + b'2' + line[c + 1:] for c in range(len(line) - 1, -1, -1) if line[c:c + 1].isdigit()), b'2' + line)
    for here in ([], [line, line], [changed], [line + b' '], [b' ' + line]):
        yield b'\n'.join(lines[:k] + here + lines[k + 1:])
    yield b'\n'.join(lines[:k]) + b'\n' * (k > 0) + line + b'\n'.join(lines[k + 1:])  # no line feed behind it
    yield b'\n'.join(lines[:k + 1])  # nor anything else


def check_damaged(files, inputs):
    name, *block = DAMAGED
    count, refused = Count('each line of %s damaged in seven ways, the model' % name), 0
    lines = inputs.texts[name].split(b'\n')
    out = room(*block[:2])
    for k in range(len(lines) - 1):
        for text in damages(lines, k):
            expected = asc_model.read(*block, text)
            answer = files.call('read', block, text, out)
            count.same(out.tolist() if answer == (0, 0) else answer, expected, k)
            refused += isinstance(expected, tuple)
    wrong = count.done()
    print('  of them refused: %d' % refused)
    return wrong


# ---- IceStorm's own programs

def output_of(*command):
    return subprocess.run(command, check=True, stdout=subprocess.PIPE, stderr=subprocess.DEVNULL).stdout.decode()


def explained(path):
    """What icebox_explain says of each logic tile."""
    parts = output_of('icebox_explain', path).split('\n.')
    return {part.split('\n')[0]: part.strip() for part in parts if part.startswith('logic_tile')}


def check_icestorm(files, inputs):
    missing = [name for name in ('icepack', 'iceunpack', 'icebox_explain') if not shutil.which(name)]
    if missing:
        print("left out, not installed (Debian has them in fpga-icestorm): %s" % ', '.join(missing))
        return 0
    count = Count('written files through icepack, iceunpack, icebox_explain')
    with tempfile.TemporaryDirectory() as folder:
        path, packed, back = (os.path.join(folder, name) for name in ('written.asc', 'written.bin', 'back.asc'))
        for name, text in inputs.texts.items():
            words = explained(inputs.paths[name])
            for w, h, x, y in ((6, 8, 4, 1), (6, 8, 4, 9), (2, 8, 1, 1), (2, 8, 1, 9), (2, 8, 11, 1), (2, 8, 11, 9), (3, 3, 5, 10)):
                bits = files.read(w, h, x, y, text)
                with open(path, 'wb') as file:
                    file.write(files.write(w, h, x, y, bits, files.length(w, h, x, y)))
                output_of('icepack', path, packed)
                output_of('iceunpack', packed, back)
                count.same(files.read(w, h, x, y, whole(back)), bits, (name, w, h, x, y))
                inside = {'logic_tile %d %d' % at for at in asc_model.tiles_of(w, h, x, y)}
                count.same(explained(path).keys(), words.keys() & inside, (name, w, h, x, y))
                # it takes the chip's size from the tiles that a file has, and its words depend on that: iceunpack's file has them all
                count.same(explained(back), {at: said for at, said in words.items() if at in inside}, (name, w, h, x, y))
    return count.done()


# ---- a file of 100 MB

def check_big(files, inputs):
    count = Count('files of 100 MB: the answer, and the exact line')
    w, h, x, y = 3, 3, 5, 10
    text = inputs.texts['uart_tx']
    bits, lines = asc_model.read(w, h, x, y, text), text.count(b'\n')
    outside = b'.logic_tile 200 200\n' + b'0123456789abcdef' * 3 + b'\n'
    many = outside * (BIG // len(outside))
    added = many.count(b'\n')
    for words, big, expected in (
            ('a line of 100 MB, skipped', text + b'.comment\n' + b'x' * BIG + b'\n', bits),
            ('the same without a line feed', text + b'.comment\n' + b'x' * BIG, (13, lines + 2)),
            ('a dot line of 100 MB', b'.' + b'x' * BIG + b'\n' + text, bits),
            ('a device of 100 MB', text + b'.device 1k' + b'k' * BIG + b'\n', (13, lines + 1)),
            ('a number of 100 MB', text + b'.logic_tile 1' + b'0' * BIG + b' 1\n', (13, lines + 1)),
            ('tiles outside', many + text, bits),
            ('tiles outside, then a fault', many + text + b'.device 1k\n', (13, added + lines + 1)),
            ('tiles outside, then nothing', many, (13, added + 1)),
            ('100 million empty lines', b'\n' * BIG + text, bits),
            ('100 million empty lines alone', b'\n' * BIG, (13, BIG + 1)),
            ('zero bytes', bytes(BIG), (13, 1))):
        count.same(files.read(w, h, x, y, big), expected, words)
        del big
    return count.done()


def main():
    parser = argparse.ArgumentParser(description=__doc__, formatter_class=argparse.RawDescriptionHelpFormatter)
    parser.add_argument('--rounds', metavar='N', type=int, default=2000)
    parser.add_argument('--vectors', metavar='FOLDER', default=vectors.FOLDER)
    parser.add_argument('--designs', metavar='FOLDER', default=DESIGNS)
    arguments = parser.parse_args()
    files, inputs = Files(), Inputs([DATA, arguments.designs], arguments.vectors, arguments.rounds)
    tests = [check_vectors, check_random, check_round_trip, check_designs, check_damaged, check_icestorm, check_big]
    return library.run([(check_sizes, files), (check_readings, files), (check_strays, files)] + [(test, files, inputs) for test in tests], 1)


if __name__ == '__main__':
    sys.exit(main())
