#!/usr/bin/env python3
"""Compares the library as WebAssembly with the native one: the answer and every lent slice of every call, on all bundled blocks and designs and on
thousands of random calls of every export, valid and damaged. Looks at its exports, its stack, the memory
that it is not lent, and its speed.

    python3 tests/wasm.py               needs both libraries (make lib wasm), node and Python 3
    python3 tests/wasm.py 20000         the same with so many random calls (4,000 unless said)

It prints a line for each group of cases and ends with the number of differences.
"""
import ctypes
import functools
import glob
import json
import os
import random
import re
import shutil
import struct
import subprocess
import sys
import tempfile
import threading
import time
from array import array

sys.path.insert(0, os.path.dirname(os.path.abspath(__file__)))
import model  # noqa: E402
from bits_model import flipped  # noqa: E402
from circuits import lent_build  # noqa: E402
from library import BYTES_OF, DATA, ROOT, U8, U16, U32, U64, Count, blocks, junk, rounds_asked, run  # noqa: E402
from tools import proved  # noqa: E402

WASM = os.path.join(ROOT, 'target', 'wasm', 'ice40.wasm')
MODULE = os.path.join(ROOT, 'target', 'module')  # of the archive, as scripts/keep_module.sh kept it
LARGEST = 'big8_8x8'
PATIENCE = 30  # seconds for a call
SLICE = re.compile(r'&(?:mut )?\[u(\d+)\]')


# ---- both libraries

def exports():
    """Every function that capi_c exports, with the types of its arguments: 0 for a number, else that of a slice's numbers."""
    found = {}
    for path in glob.glob(os.path.join(ROOT, 'crates', 'capi_c', 'src', '*.rt')):
        with open(path) as file:
            for name, given in re.findall(r'pub extern "C" fn (\w+)\(([^)]*)\)', file.read()):
                types = [SLICE.search(each) for each in given.split(',') if ':' in each]
                found[name] = [{'8': U8, '16': U16, '32': U32, '64': U64}[each[1]] if each else 0 for each in types]
    return found


def is_slice(each):
    return isinstance(each, tuple)


class Native:
    """The library that the tools use."""

    def __init__(self):
        self.lib = ctypes.CDLL(proved.library().path)

    def lent(self, name, given):
        """The function, what it is passed, and the slices that it is lent."""
        slices, passed = [], []
        for each in given:
            if is_slice(each):
                slices.append(array(*each))
                address, length = slices[-1].buffer_info()
                passed += [ctypes.c_void_p(address), ctypes.c_size_t(length)]
            else:
                passed.append(ctypes.c_uint32(each))
        function = getattr(self.lib, name)
        function.restype = ctypes.c_uint64
        return function, passed, slices

    def call(self, name, given):
        """The answer, and the bytes of every slice afterwards."""
        function, passed, slices = self.lent(name, given)
        return function(*passed), b''.join(map(bytes, slices))

    def milliseconds(self, name, given, rounds):
        """The median of so many calls."""
        times, (function, passed, _slices) = [], self.lent(name, given)
        for _ in range(rounds):
            start = time.perf_counter()
            function(*passed)
            times.append(1000 * (time.perf_counter() - start))
        return sorted(times)[rounds // 2]


class Wasm:
    """The same library as WebAssembly, in node, which is ended if it does not answer."""

    def __init__(self):
        script = os.path.join(ROOT, 'tests', 'wasm.mjs')
        self.node = subprocess.Popen(['node', script, WASM], stdin=subprocess.PIPE, stdout=subprocess.PIPE)
        self.since = time.monotonic()
        threading.Thread(target=self.watch, daemon=True).start()

    def watch(self):
        while self.node.poll() is None:
            time.sleep(1)
            if time.monotonic() - self.since > PATIENCE:
                print('  DIFFERENT no answer from WebAssembly')
                self.node.kill()

    def ask(self, what, name='', given=(), **more):
        request = dict(more, do=what, name=name, given=[[each[0], len(each[1])] if is_slice(each) else each for each in given])
        text, self.since = json.dumps(request).encode(), time.monotonic()
        lent = [bytes(array(*each)) for each in given if is_slice(each)]
        self.node.stdin.write(b''.join([struct.pack('<I', len(text)), text, *lent]))
        self.node.stdin.flush()
        return sum(map(len, lent))

    def call(self, name, given):
        length = self.ask('call', name, given)
        return struct.unpack('<Q', self.node.stdout.read(8))[0], self.node.stdout.read(length)

    def told(self, *question, **more):
        """The answer to anything but a call."""
        self.ask(*question, **more)
        return json.loads(self.node.stdout.read(struct.unpack('<I', self.node.stdout.read(4))[0]))

    def end(self):
        self.node.stdin.close()
        self.node.wait()


class Both:
    def __init__(self):
        self.native, self.wasm = Native(), Wasm()

    def check(self, count, name, given, what=''):
        """The answer, which is the same in both. `given` are numbers and (type, numbers)."""
        expected, got = self.native.call(name, given), self.wasm.call(name, given)
        count.same(got, expected, (name, what))
        return expected


# ---- valid calls

@functools.lru_cache(maxsize=None)
def read_settings(name):
    w, h, _, table, bits = blocks()[name]
    return model.read(w, h, table, bits)


def varied(name):
    """The bits and settings of a bundled block, as they are or with some switches and flags changed to what other bits have."""
    w, h, _, table, bits = blocks()[name]
    settings = list(read_settings(name))
    if random.random() < .5:
        return bits, settings
    for _ in range(random.choice((1, 2, 4, 10))):
        at = model.SETTINGS * random.randrange(w * h)
        if random.random() < .7:
            g = random.randrange(table[68])
            settings[at + 67 + g] = random.randint(0, table[69 + 75 * g + 10])
        else:
            settings[at + 580 + 2 * random.randrange(8)] ^= random.choice((1, 1, 2, 8))
    written = model.write(w, h, table, settings)
    return (bits, read_settings(name)) if isinstance(written, tuple) else (written, settings)


def built_list(both, w, h, east, table, bits):
    """The list of a block, zeros where it is refused."""
    lent = [array(U16, [0] * k) for k in lent_build(w * h)]
    _, after = both.native.call('ice40_build', [w, h, east, (U16, table), (U64, bits), *((U16, each) for each in lent)])
    start = BYTES_OF[U16] * len(table) + BYTES_OF[U64] * len(bits)
    return array(U16, after[start:start + 2 * len(lent[0])]).tolist()


def rooms(*lengths):
    return [(U16, junk(length)) for length in lengths]


def digits(n):
    return [random.randrange(2) for _ in range(n)]


def text_of(w, h, x, y, bits):
    """The .asc file of a block."""
    parts = ['.device 1k\n']
    for t in range(w * h):
        parts.append('.logic_tile %d %d\n' % (x + t % w, y + t // w))
        parts += [''.join(str(row >> c & 1) for c in range(54)) + '\n' for row in bits[16 * t:16 * t + 16]]
    return ''.join(parts).encode()


def valid_calls(both, name, vary=True):
    """A call of every export that a bundled block, as it is or varied, is right for, with junk in outputs and work room."""
    w, h, _, table, bits = blocks()[name]
    n, east = w * h, random.randrange(2)
    bits, settings = varied(name) if vary else (bits, read_settings(name))
    x, y, tile, port = random.randrange(12), random.randrange(20), random.randrange(n), random.randrange(506)
    values, state, lists = (U8, digits(506 * n)), (U8, digits(8 * n)), (U16, built_list(both, w, h, east, table, bits))
    table_too, lent, set_too = (U16, table), (U64, bits), (U16, settings)
    other = (U64, flipped(bits, [random.randrange(864 * n)]) if random.random() < .5 else bits)
    text = text_of(w, h, x, y, bits)
    return {
        'ice40_wire_number': [w, h, east, tile, port],
        'ice40_lookup': [random.randrange(65536), random.randrange(16)],
        'ice40_read': [w, h, table_too, lent, *rooms(595 * n)],
        'ice40_write': [w, h, table_too, set_too, (U64, junk(16 * n, U64))],
        'ice40_bit_count': [w, h, lent, tile],
        'ice40_words_of_bytes': [w, h, (U8, model.bytes_of(bits)), (U64, junk(16 * n, U64))],
        'ice40_bytes_of_words': [w, h, lent, (U8, junk(108 * n, U8))],
        'ice40_compare': [w, h, w, h, table_too, lent, other, (U32, junk(random.choice((0, 5, 60, 2935 * n)), U32)), *rooms(595 * n, 595 * n)],
        'ice40_tile_part': [w, h, w, h, lent, other, random.randrange(3), tile],
        'ice40_build': [w, h, east, table_too, lent, *rooms(*lent_build(n))],
        'ice40_follow': [w, h, east, table_too, set_too, tile, random.choice((port, 476, 478)), *rooms(506 * n, 506 * n, 506 * n)],
        'ice40_contentions': [w, h, east, table_too, lent, *rooms(random.choice((0, 3, 30, 1536 * n)), 595 * n, 506 * n, 506 * n, 512 * n)],
        'ice40_card': [w, h, east, table_too, lent, *rooms(random.choice((0, 6, 100, 6 + 1012 * n)), *lent_build(n))],
        'ice40_step': [w, h, east, table_too, set_too, lists, state, values, (U8, digits(506 * n)), (U8, junk(506 * n, U8)), (U8, junk(8 * n, U8)),
                       *rooms(506 * n, 506 * n, 506 * n), (U8, junk(506 * n, U8)), (U8, junk(506 * n, U8))],
        'ice40_settle': [w, h, east, table_too, set_too, lists, state, values, (U8, junk(506 * n, U8)), *rooms(506 * n, 506 * n, 506 * n)],
        'ice40_clock': [w, h, table_too, set_too, state, values, (U8, digits(506 * n)), (U8, junk(8 * n, U8))],
        'ice40_asc_read': [w, h, x, y, (U8, text), (U64, junk(16 * n, U64))],
        'ice40_asc_length': [w, h, x, y],
        'ice40_asc_write': [w, h, x, y, lent, (U8, junk(len(text), U8))],
    }


# ---- damage

def damaged_number(number):
    return random.choice((0, 1, 8, 9, 255, 256, 506, 1 << 31, (1 << 32) - 1, number + 1, max(0, number - 1), random.getrandbits(32)))


def damaged_numbers(kind, numbers):
    """Numbers of a slice with some changed or moved, or a slice of another length."""
    numbers, limit = list(numbers), 1 << 8 * BYTES_OF[kind]
    how = random.random()
    if how < .1:
        return random.choice((numbers[:-1], numbers + [0], [], numbers + numbers[:1]))
    for _ in range(random.choice((1, 1, 2, 5)) if numbers else 0):
        at = random.randrange(len(numbers))
        if how > .95:
            numbers[at], numbers[0] = numbers[0], numbers[at]
        else:
            numbers[at] = random.choice((0, 1, numbers[at] ^ 1 << random.randrange(8 * BYTES_OF[kind]), random.randrange(limit), (numbers[at] + 1) % limit))
    return numbers


def damaged(given):
    """A call with one argument changed, or a few."""
    given = list(given)
    for _ in range(random.choice((1, 1, 1, 2, 3))):
        at = random.randrange(len(given))
        if is_slice(given[at]):
            given[at] = given[at][0], damaged_numbers(*given[at])
        elif random.random() < .6:
            given[at] = damaged_number(given[at])
    return given


# ---- the cases

def check_shape(both):
    count = Count('exports: those of capi_c and the memory, and no import')
    told = both.wasm.told('shape')
    count.same((told['imports'], told['stack']), ([], stack_bytes()))
    count.same({each['name']: each['kind'] for each in told['exports']}, dict({name: 'function' for name in exports()}, memory='memory'))
    for name, types in exports().items():
        given = valid_calls(both, 'latch_1x1')[name]
        count.same([each[0] if is_slice(each) else 0 for each in given], types, name)
    return count.done()


def check_blocks(both):
    count = Count('every export on every bundled block, twelve times')
    for name in blocks():
        for k in range(12):
            for call, given in valid_calls(both, name, vary=k % 2).items():
                both.check(count, call, given, name)
    return count.done()


def check_wires(both):
    count = Count('the wire number of every port of a block of 8 by 8')
    for east in (0, 1):
        for tile in range(0, 65, 4):
            for port in range(507):
                both.check(count, 'ice40_wire_number', [8, 8, east, tile, port])
    return count.done()


def check_designs(both):
    count = Count('designs read, whole and with a line changed')
    cuts = [(1, 1, 2, 8), (4, 1, 6, 8), (4, 5, 6, 8), (11, 9, 2, 8), (1, 1, 8, 8), (0, 0, 1, 1), (255, 255, 1, 1)]
    for path in glob.glob(os.path.join(DATA, '*.asc')):
        with open(path, 'rb') as file:
            text = file.read()
        for x, y, w, h in cuts:
            both.check(count, 'ice40_asc_read', [w, h, x, y, (U8, text), (U64, junk(16 * w * h, U64))], path)
            for _ in range(12):
                at = random.randrange(len(text))
                changed = random.choice((text[:at], text[:at] + text[at + 1:], text[:at] + bytes([random.randrange(256)]) + text[at + 1:], text + text[at:]))
                both.check(count, 'ice40_asc_read', [w, h, x, y, (U8, changed), (U64, junk(16 * w * h, U64))], path)
    return count.done()


def check_random(both, rounds):
    count, grounds = Count('random calls of every export, most of them damaged'), {}
    names = [name for name in blocks() if blocks()[name][0] * blocks()[name][1] <= 9]
    for k in range(rounds):
        name = LARGEST if k % 50 == 0 else random.choice(names)
        calls = valid_calls(both, name)
        call = random.choice(list(calls))
        answer, _ = both.check(count, call, damaged(calls[call]) if random.random() < .8 else calls[call], name)
        grounds.setdefault(call, set()).add(answer >> 32)
    met = sorted(set().union(*grounds.values()))
    print('%-58s %s' % ('grounds met', ' '.join(map(str, met))))
    count.same(set(met) >= {0, 1, 2, 3, 4, 5, 6, 7, 8, 9, 10, 12, 13, 14, 15, 20} or rounds < 4000, True, met)
    return count.done()


def stack_bytes():
    with open(os.path.join(ROOT, 'include', 'ice40.h')) as file:
        return int(re.search(r'#define ICE40_STACK_BYTES (\d+)', file.read())[1])


def compiled(out, module=MODULE, **environment):
    """What web/wasm.sh says, and its status."""
    done = subprocess.run([os.path.join(ROOT, 'web', 'wasm.sh'), module, out], stderr=subprocess.PIPE, env=dict(os.environ, **environment), encoding='utf-8')
    return done.returncode, done.stderr


def check_kits():
    """A kit without WebAssembly, no kit, a module of another archive: one line that says so, and nothing is written. The same module gives the same bytes."""
    count = Count('make wasm: the same bytes again, a clear line without a kit')
    with tempfile.TemporaryDirectory() as folder:
        kit, out, other = os.path.join(folder, 'kit'), os.path.join(folder, 'out'), os.path.join(folder, 'other')
        rt, clang = os.path.join(kit, 'bin', 'rt'), os.path.join(kit, 'toolchain', 'bin', 'clang')
        for program in (rt, clang):
            os.makedirs(os.path.dirname(program))
            with open(program, 'w') as file:
                file.write('#!/bin/sh\necho "    x86-64     - 64-bit X86"\n')
            os.chmod(program, 0o755)
        shutil.copytree(MODULE, other, symlinks=True)
        with open(os.path.join(other, 'archive.sha256'), 'w') as file:
            file.write('%s  target/staticlib/libcapi.a\n' % ('0' * 64))
        for words, module, environment in (('does not compile for wasm32', MODULE, {'RT': rt}), ('The Rattle kit', MODULE, {'RT': '/none/rt'}),
                                           ('no module of the archive that is there', other, {}), ('no module of the archive', folder, {})):
            status, errors = compiled(out, module, **environment)
            count.same((status, words in errors, errors.count('\n'), os.path.exists(out)), (2, True, 1, False), errors)
        if not shutil.which(os.environ.get('RT', 'rt')):
            print('left out, no rt: WebAssembly compiled again')
            return count.done()
        count.same(compiled(out), (0, ''))
        with open(os.path.join(out, 'ice40.wasm'), 'rb') as again, open(WASM, 'rb') as file:
            count.same(again.read() == file.read(), True)
    return count.done()


def check_stack(both):
    """No call comes near the end of its stack, and a stack that is too short ends in a trap that writes nothing above it."""
    count, used = Count('the stack: enough, and a trap where it is not'), {}
    for call, given in valid_calls(both, LARGEST, vary=False).items():
        used[call] = both.wasm.told('stack', call, given)
        count.same(used[call] <= stack_bytes() * 3 // 4, True, (call, used[call]))
    for call, given in valid_calls(both, 'uart_tx_3x3', vary=False).items():
        if used[call] > 1024:
            told = both.wasm.told('overflow', call, given, start=1024)
            count.same(('out of bounds' in told['trap'], told['kept'], told['then']), (True, True, told['trap']), (call, told))
    most = max(used, key=used.get)
    print('%-58s %7d bytes, by %s' % ('the most that a call takes of %d' % stack_bytes(), used[most], most))
    return count.done()


def show_speed(both):
    """The median of calls on the largest block, in turn; work room is not copied."""
    calls = valid_calls(both, LARGEST, vary=False)
    for name in ('ice40_read', 'ice40_build', 'ice40_contentions', 'ice40_asc_read'):
        pairs = [(both.native.milliseconds(name, calls[name], 40), both.wasm.told('time', name, calls[name], rounds=40)) for _ in range(5)]
        native, wasm = (sorted(times)[2] for times in zip(*pairs))
        print('%-58s %7.3f ms native, %.3f ms as WebAssembly: %.2f times' % (name + ' of 8 by 8', native, wasm, wasm / native))
    return 0


def main():
    if not os.path.exists(WASM) or not shutil.which('node') or not proved.library():
        print('left out, no WebAssembly, no node or no library (make lib wasm): all of it')
        return run([], 1)
    rounds, both = rounds_asked(4000), Both()
    print('%-58s %7d bytes' % ('the library as WebAssembly', os.path.getsize(WASM)))
    try:
        return run([(check_kits,), (check_shape, both), (check_blocks, both), (check_wires, both), (check_designs, both), (check_random, both, rounds), (check_stack, both),
                    (show_speed, both)], 1)
    finally:
        both.wasm.end()


if __name__ == '__main__':
    sys.exit(main())
