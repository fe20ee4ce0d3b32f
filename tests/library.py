#!/usr/bin/env python3
"""Compares the library with the model of tests/model.py: real tables and blocks, damaged ones, bits past the columns of a row, both forms of a
block's bits, and bad input of every kind. Lookups are compared with tests/cell_model.py.

    python3 tests/library.py                    needs the Rattle kit (rt), a C compiler and Python 3
    python3 tests/library.py 20000              the same with so many random cases (2,000 unless said)
    python3 tests/library.py --vectors FOLDER   where the users' vectors are, if not in tests/data/vectors

It prints a line for each group of cases and ends with the number of differences.
"""
import argparse
import ctypes
import functools
import glob
import os
import random
import shutil
import subprocess
import sys
import tempfile
from array import array

sys.path.insert(0, os.path.dirname(os.path.abspath(__file__)))
import cell_model  # noqa: E402
import model  # noqa: E402
import vectors  # noqa: E402
from bits_model import bit_count, bytes_of_words, flipped, words_of_bytes  # noqa: E402

ROOT = os.path.dirname(os.path.dirname(os.path.abspath(__file__)))
DATA = os.path.join(ROOT, 'tests', 'data')
USED = 'uart_tx_3x3'  # a block, of which each bit of one tile is flipped
U8, U16, U32, U64 = 'B', 'H', 'I', 'Q'  # the types of a slice's numbers, as array has them
BYTES_OF = {kind: array(kind).itemsize for kind in (U8, U16, U32, U64)}


def made(target):
    """A file that `make` makes where it is not there, or older than its sources."""
    subprocess.run(['make', '-s', target], cwd=ROOT, check=True, stdout=subprocess.DEVNULL, stderr=subprocess.DEVNULL)
    return os.path.join(ROOT, target)


def present(program, what):
    """Whether a program is there; where it is not, what is left out without it is said."""
    if shutil.which(program):
        return True
    print('left out, no %s: %s' % (program, what))
    return False


def build_archive():
    """The static library of capi_c, built."""
    return made('target/staticlib/libcapi.a')


class Library:
    """The functions of capi_c, each with arrays that it is lent and gives back."""

    def __init__(self):
        archive = build_archive()
        with tempfile.TemporaryDirectory() as folder:
            path = os.path.join(folder, 'libcapi.so')
            subprocess.run(['cc', '-shared', '-o', path, '-Wl,--whole-archive', archive, '-Wl,--no-whole-archive'], check=True)
            self.lib = ctypes.CDLL(path)

    def call(self, name, *arguments):
        """Numbers go as they are, (type, list) as a slice. Answers (ground, value), and what each slice holds afterwards."""
        passed, slices = [], []
        for argument in arguments:
            if isinstance(argument, tuple):
                slices.append(array(*argument))
                address, length = slices[-1].buffer_info()
                passed += [ctypes.c_void_p(address), ctypes.c_size_t(length)]
            else:
                passed.append(ctypes.c_uint32(argument))
        function = getattr(self.lib, name)
        function.restype = ctypes.c_uint64
        answer = function(*passed)
        return (answer >> 32, answer & 0xffffffff), [numbers.tolist() for numbers in slices]


def junk(n, kind=U16):
    """What a lent slice of n numbers may hold."""
    return array(kind, random.getrandbits(8 * BYTES_OF[kind] * n).to_bytes(BYTES_OF[kind] * n, 'little')).tolist() if n else []


class Count:
    def __init__(self, name):
        self.name, self.cases, self.wrong = name, 0, 0

    def same(self, got, expected, what=''):
        self.cases += 1
        if got != expected:
            self.wrong += 1
            if self.wrong < 4:
                print('  DIFFERENT', self.name, what, 'got', str(got)[:80], 'expected', str(expected)[:80])
        return got == expected

    def done(self):
        print('%-58s %7d cases, %d differences' % (self.name, self.cases, self.wrong))
        return self.wrong


def rounds_asked(usual):
    """How many random cases the command line asks for."""
    return int(sys.argv[1]) if len(sys.argv) > 1 else usual


def asked(words, usual):
    """The command line of a script that takes a number of random cases and a folder of the users' vectors."""
    parser = argparse.ArgumentParser(description=words, formatter_class=argparse.RawDescriptionHelpFormatter)
    parser.add_argument('rounds', metavar='ROUNDS', type=int, nargs='?', default=usual)
    parser.add_argument('--vectors', metavar='FOLDER', default=vectors.FOLDER)
    return parser.parse_args()


def run(tests, seed):
    """Runs tests, each a function that gives its number of differences, with its arguments, and prints the sum. The exit status."""
    random.seed(seed)
    wrong = sum(test(*arguments) for test, *arguments in tests)
    print('%d differences' % wrong)
    return wrong != 0


@functools.lru_cache(maxsize=None)
def blocks():
    """The bundled blocks: name to (w, h, east, table, bits). Nobody writes to them."""
    return {os.path.basename(f)[:-3]: model.parse(open(f).read()) for f in sorted(glob.glob(os.path.join(DATA, '*.in')))}


def tables():
    return {os.path.basename(f)[:-4]: model.parse(open(f).read())[3] for f in sorted(glob.glob(os.path.join(DATA, '*.tab')))}


def check_read(lib, count, w, h, table, bits, what=''):
    expected = model.read(w, h, table, bits)
    old = junk(model.SETTINGS * w * h)
    answer, after = lib.call('ice40_read', w, h, (U16, table), (U64, bits), (U16, old))
    if isinstance(expected, tuple):
        count.same((answer, after[2]), (expected, old), what)
    else:
        count.same((answer, after[2]), ((0, 0), expected), what)
    return expected


def check_write(lib, count, w, h, table, settings, what=''):
    expected = model.write(w, h, table, settings)
    old = junk(model.WORDS * w * h, U64)
    answer, after = lib.call('ice40_write', w, h, (U16, table), (U16, settings), (U64, old))
    if isinstance(expected, tuple):
        count.same((answer, after[2]), (expected, old), what)
    else:
        count.same((answer, after[2]), ((0, 0), expected), what)


def check_count(lib, count, w, h, bits, tile, what=''):
    expected = bit_count(w, h, bits, tile)
    answer, after = lib.call('ice40_bit_count', w, h, (U64, bits), tile)
    count.same((answer, after), (expected if isinstance(expected, tuple) else (0, expected), [bits]), what)


def fullest(w, h, bits):
    """The tile with the most bits set."""
    return max(range(w * h), key=lambda t: bit_count(w, h, bits, t))


def real(lib):
    count = Count('real tables: ground 3, an empty tile read and written')
    for name, table in tables().items():
        expected = check_read(lib, count, 1, 1, table, [0] * model.WORDS, name)
        count.same(isinstance(expected, tuple), False, name)
        check_write(lib, count, 1, 1, table, expected, name)
    wrong = count.done()
    count = Count('real blocks: read, written back to the same bits')
    for name, (w, h, _, table, bits) in blocks().items():
        settings = check_read(lib, count, w, h, table, bits, name)
        answer, after = lib.call('ice40_write', w, h, (U16, table), (U16, settings), (U64, junk(len(bits), U64)))
        count.same((answer, after[2]), ((0, 0), bits), name)
        for t in range(w * h):
            check_count(lib, count, w, h, bits, t, name)
    return wrong + count.done()


def each_bit(lib):
    """Every single bit of the fullest tile of a real block flipped in turn: the position at fault, or the settings."""
    count = Count('each bit of a used tile flipped')
    w, h, _, table, bits = blocks()[USED]
    t = fullest(w, h, bits)
    for p in range(864 * t, 864 * t + 864):
        check_read(lib, count, w, h, table, flipped(bits, [p]), p)
    return count.done()


# ---- bits past the columns of a row

def with_strays(bits, rows):
    """A block with a bit or more set past the columns of each of these rows."""
    bits = list(bits)
    for r in rows:
        bits[r] |= random.choice((1, 1 << random.randrange(10), random.randrange(1, 1 << 10))) << model.COLUMNS
    return bits


def check_stray(lib, count, block, bits, what):
    w, h, _, table, _ = block
    expected = check_read(lib, count, w, h, table, bits, what)
    count.same(isinstance(expected, tuple), True, what)
    old = junk(model.BYTES * w * h, U8)
    answer, after = lib.call('ice40_bytes_of_words', w, h, (U64, bits), (U8, old))
    count.same((answer, after), (bytes_of_words(w, h, bits, len(old)), [bits, old]), what)
    for t in {0, w * h - 1, random.randrange(w * h)}:
        check_count(lib, count, w, h, bits, t, what)


def strays(lib, rounds):
    """Alone in each column of each row of a tile; several, with other bits flipped, so that the lowest place wins."""
    count = Count('bits past the columns: who refuses them, and where')
    block = blocks()[USED]
    w, h, *_, bits = block
    for r in range(model.WORDS):
        for c in range(model.COLUMNS, 64):
            stray = list(bits)
            stray[model.WORDS * fullest(w, h, bits) + r] |= 1 << c
            check_stray(lib, count, block, stray, (r, c))
    for _ in range(rounds // 4):
        block = random.choice(list(blocks().values()))
        bits = block[4]
        rows = [random.randrange(len(bits)) for _ in range(random.choice((1, 1, 2, 5)))]
        near = random.randrange(len(bits)) if random.random() < .3 else rows[0]  # in a row with a stray bit, a row around it, or anywhere
        places = [min(max(0, 54 * near + random.randrange(-54, 108)), 54 * len(bits) - 1) for _ in range(random.choice((0, 1, 2)))]
        check_stray(lib, count, block, with_strays(flipped(bits, places), rows), (rows, places))
    return count.done()


# ---- both forms of a block's bits

def check_words(lib, count, w, h, data, length, what=''):
    expected, old = words_of_bytes(w, h, data, length), junk(length, U64)
    answer, after = lib.call('ice40_words_of_bytes', w, h, (U8, data), (U64, old))
    count.same((answer, after), (expected, [list(data), old]) if isinstance(expected, tuple) else ((0, 0), [list(data), expected]), what)


def check_bytes(lib, count, w, h, bits, length, what=''):
    expected, old = bytes_of_words(w, h, bits, length), junk(length, U8)
    answer, after = lib.call('ice40_bytes_of_words', w, h, (U64, bits), (U8, old))
    count.same((answer, after), (expected, [bits, old]) if isinstance(expected, tuple) else ((0, 0), [bits, list(expected)]), what)


def forms(lib, rounds):
    count = Count('bytes to words and words to bytes: each bit, random blocks')
    for p in range(864):
        data = (1 << p).to_bytes(model.BYTES, 'little')
        check_words(lib, count, 1, 1, data, model.WORDS, p)
        check_bytes(lib, count, 1, 1, flipped([0] * model.WORDS, [p]), model.BYTES, p)
    for name, (w, h, _, _, bits) in blocks().items():
        data = model.bytes_of(bits)
        check_words(lib, count, w, h, data, len(bits), name)
        check_bytes(lib, count, w, h, bits, len(data), name)
    for _ in range(rounds):
        w, h = random.choice(((1, 1), (2, 1), (1, 3), (8, 8), (random.randrange(10), random.randrange(10))))
        lengths = [random.choice((k * w * h,) * 8 + (k * w * h + 1, max(0, k * w * h - 1), 0, k)) for k in (model.BYTES, model.WORDS)]
        data, bits = bytes(junk(lengths[0], U8)), junk(lengths[1], U64)
        if random.random() < .9:
            bits = [row & (1 << model.COLUMNS) - 1 for row in bits]
        check_words(lib, count, w, h, data, lengths[1], (w, h, lengths))
        check_bytes(lib, count, w, h, with_strays(bits, random.choices(range(len(bits)), k=random.randrange(3)) if bits else []), lengths[0], (w, h, lengths))
    return count.done()


# ---- the users' vectors


def vector_settings(tile):
    """The settings of a tile as they are lent, from a vector's."""
    cells = [half for value in tile['cells'] for half in (value & 0xffff, value >> 16)]
    return tile['fields'] + (tile['passive'] + [0] * 64)[:64] + (tile['groups'] + [0] * 512)[:512] + cells


def check_vectors(lib, folder):
    count = Count("the users' vectors of reading")
    for case in vectors.cases(folder, 'w5-read', 'w7-read'):
        (w, h), bits = case.block('block')
        old = junk(model.SETTINGS * w * h)
        settings = None if case.no else [n for tile in case.answer['tiles'] for n in vector_settings(tile)]
        answer, after = lib.call('ice40_read', w, h, (U16, case.table()), (U64, bits), (U16, old))
        count.same((answer, after[2]), (case.no, old) if case.no else ((0, 0), settings), case.no)
        count.same(model.read(w, h, case.table(), bits), case.no or settings, ('the model', case.no))
    wrong = count.done()
    count = Count("the users' vectors of counting a tile's bits")
    for case in vectors.cases(folder, 'w7-bit_count'):
        (w, h), bits = case.block('block')
        check_count(lib, count, w, h, bits, case.given['tile'])
        count.same(bit_count(w, h, bits, case.given['tile']), case.no or case.answer['bits'], 'the model')
    wrong += count.done()
    count = Count("the users' vectors of both conversions")
    for case in vectors.cases(folder, 'w7-to_words'):
        w, h, data = case.given['w'], case.given['h'], bytes.fromhex(case.given['numbers'])
        check_words(lib, count, w, h, data, model.WORDS * w * h)
        count.same(words_of_bytes(w, h, data, model.WORDS * w * h), case.no or case.words(case.answer['numbers']), 'the model')
    for case in vectors.cases(folder, 'w7-to_bytes'):
        w, h, bits = case.given['w'], case.given['h'], case.words(case.given['numbers'])
        check_bytes(lib, count, w, h, bits, model.BYTES * w * h)
        count.same(bytes_of_words(w, h, bits, model.BYTES * w * h), case.no or bytes.fromhex(case.answer['numbers']), 'the model')
    return wrong + count.done()


# ---- damaged and bad input

def damaged(lib, rounds):
    """Bits flipped, settings changed, tables changed in every slot that is read."""
    whole = [(w, h, table, bits) for w, h, _, table, bits in blocks().values()]
    count = Count('bits flipped: the lowest position at fault')
    for _ in range(rounds):
        w, h, table, bits = random.choice(whole)
        places = [random.randrange(864 * w * h) for _ in range(random.choice((1, 1, 2, 5)))]
        check_read(lib, count, w, h, table, flipped(bits, places))
    wrong = count.done()
    count = Count('settings changed: the lowest tile that no bits have')
    read = [(w, h, table, model.read(w, h, table, bits)) for w, h, table, bits in whole]
    for _ in range(rounds):
        w, h, table, settings = random.choice(read)
        settings = list(settings)
        for _ in range(random.choice((1, 1, 2))):
            at = random.randrange(w * h) * model.SETTINGS + random.choice((random.randrange(3), random.randrange(model.SETTINGS), random.randrange(67, 330), 579 + random.randrange(16)))
            settings[at] = random.choice((0, 1, 2, 15, 16, 33, random.randrange(65536), settings[at] + 1 & 0xffff))
        check_write(lib, count, w, h, table, settings)
    wrong += count.done()
    count = Count('tables changed: the first part that breaks a rule')
    small = [(w, h, table, bits) for w, h, table, bits in whole if w * h == 1]
    for _ in range(rounds):
        w, h, table, bits = random.choice(small)
        table = list(table)
        for _ in range(random.choice((1, 1, 2))):
            g = random.randrange(min(table[68], 512) or 1) if random.random() < 0.9 else random.randrange(512)
            at = random.choice((random.randrange(69), 3, 68, 69 + 75 * g, 69 + 75 * g + 1, 69 + 75 * g + 10, 69 + 75 * g + random.randrange(75)))
            table[at] = random.choice((0, 1, 8, 9, 32, 33, 64, 65, 254, 512, 513, 403, 404, 476, 479, 505, 506, 863, 864, 65535, random.randrange(65536),
                                       table[69 + 75 * random.randrange(254) + 2], random.choice(sorted(model.ALL_CELL_BITS))))
        check_read(lib, count, w, h, table, bits)
    return wrong + count.done()


def bad_input(lib):
    count = Count('sizes and lengths: grounds 1 and 2, nothing touched')
    w, h, _, table, bits = next(b for b in blocks().values() if b[0] * b[1] == 4)
    settings = [7] * (595 * 4)
    for size in ((0, 1), (1, 0), (9, 1), (1, 9), (0, 0), (4294967295, 4294967295), (65536, 65536)):
        answer, after = lib.call('ice40_read', *size, (U16, []), (U64, []), (U16, [1, 2, 3]))
        count.same((answer, after[2]), ((1, 0), [1, 2, 3]), size)
        answer, after = lib.call('ice40_write', *size, (U16, table), (U16, settings), (U64, [5] * 9))
        count.same((answer, after[2]), ((1, 0), [5] * 9), size)
        count.same(lib.call('ice40_bit_count', *size, (U64, bits), 0)[0], (1, 0), size)
    for change in (-1, 1):
        def cut(numbers):
            return list(numbers)[:change] if change < 0 else list(numbers) + [0]
        for lent in ((cut(table), bits, settings), (table, cut(bits), settings), (table, bits, cut(settings))):
            answer, after = lib.call('ice40_read', w, h, (U16, lent[0]), (U64, lent[1]), (U16, lent[2]))
            count.same((answer, after[2]), ((2, 0), list(lent[2])))
            answer, after = lib.call('ice40_write', w, h, (U16, lent[0]), (U16, lent[2]), (U64, lent[1]))
            count.same((answer, after[2]), ((2, 0), list(lent[1])))
        count.same(lib.call('ice40_bit_count', w, h, (U64, cut(bits)), 0)[0], (2, 0))
    for tile in (4, 5, 64, 4294967295):
        count.same(lib.call('ice40_bit_count', w, h, (U64, bits), tile)[0], (20, tile))
    return count.done()


def lookups(lib):
    count = Count('lookups: every table at every input, inputs above 15')
    look = lib.lib.ice40_lookup
    look.argtypes, look.restype = [ctypes.c_uint16, ctypes.c_uint32], ctypes.c_uint64
    for table in range(65536):
        expected = [cell_model.table_bit(table, inputs) for inputs in range(16)]
        count.same([look(table, inputs) for inputs in range(16)], expected, table)
    for inputs in (16, 17, 31, 32, 65536, 4294967295):
        count.same(look(0xACFC, inputs), 20 << 32 | inputs, inputs)
    return count.done()


def main():
    arguments, lib = asked(__doc__, 2000), Library()
    rounds = arguments.rounds
    return run([(real, lib), (check_vectors, lib, arguments.vectors), (each_bit, lib), (strays, lib, rounds), (forms, lib, rounds), (damaged, lib, rounds),
                (bad_input, lib), (lookups, lib)], 1)


if __name__ == '__main__':
    sys.exit(main())
