#!/usr/bin/env python3
"""Compares ice40_wire_number with a union-find over the published joins, for every port of all 64 block sizes, without and with a column to
the east; a byte for that column that is neither 0 nor 1.

Run from anywhere in the repository; it needs the Rattle kit (rt), a C compiler and Python 3:  python3 tests/wire_numbers.py
The joins are written here from documents 01 and 02 (W2) by the ports' names, apart from the reader's own text.
"""
import os
import subprocess
import sys
import tempfile

ROOT = os.path.dirname(os.path.dirname(os.path.abspath(__file__)))
ARCHIVE = 'target/staticlib/libcapi.a'

RANGES = [('sp4_h_l', 48), ('sp4_h_r', 48), ('sp4_v_t', 48), ('sp4_v_b', 48), ('sp4_r_v_b', 48),
          ('sp12_h_l', 24), ('sp12_h_r', 24), ('sp12_v_t', 24), ('sp12_v_b', 24), ('local', 32), ('glb2local', 4), ('in', 32), ('out', 8),
          ('bnl', 8), ('bot', 8), ('bnr', 8), ('lft', 8), ('rgt', 8), ('tnl', 8), ('top', 8), ('tnr', 8),
          ('clk', 1), ('cen', 1), ('s_r', 1), ('glb_netwk', 8), ('carry_in', 1), ('carry_in_mux', 1), ('cout', 8), ('lout', 8), ('ltin', 1)]
SEES = {'bnl': (-1, -1), 'bot': (0, -1), 'bnr': (1, -1), 'lft': (-1, 0), 'rgt': (1, 0), 'tnl': (-1, 1), 'top': (0, 1), 'tnr': (1, 1)}

BASE, at = {}, 0
for name, count in RANGES:
    BASE[name] = at
    at += count
PORTS = at
assert PORTS == 506


def joins(w, h, east):
    """Each published join of a w by h block, as a pair of port numbers; `east` is 1 where the column to the east is logic or RAM."""
    def port(x, y, name, k=0):
        return PORTS * (y * w + x) + BASE[name] + k

    def inside(x, y):
        return 0 <= x < w and 0 <= y < h

    for y in range(h):
        for x in range(w):
            for span, count, through, offset in (('sp4', 48, 36, 12), ('sp12', 24, 22, 2)):
                for k in range(count):
                    if inside(x + 1, y):
                        yield port(x, y, span + '_h_r', k), port(x + 1, y, span + '_h_l', k)
                    if inside(x, y - 1):
                        yield port(x, y, span + '_v_b', k), port(x, y - 1, span + '_v_t', k)
                for k in range(through):
                    m = (k ^ 1) + offset
                    yield port(x, y, span + '_h_l', k), port(x, y, span + '_h_r', m)
                    yield port(x, y, span + '_v_t', k), port(x, y, span + '_v_b', m)
            if inside(x + 1, y):
                for k in range(48):
                    yield port(x, y, 'sp4_r_v_b', k), port(x + 1, y, 'sp4_v_b', k)
            for name, (dx, dy) in SEES.items():
                if inside(x + dx, y + dy):
                    for i in range(8):
                        yield port(x, y, name, i), port(x + dx, y + dy, 'out', i)
            for n in range(8):
                yield port(x, y, 'glb_netwk', n), port(0, 0, 'glb_netwk', n)
            if inside(x, y - 1):
                yield port(x, y, 'carry_in'), port(x, y - 1, 'cout', 7)
                yield port(x, y, 'ltin'), port(x, y - 1, 'lout', 7)
    if east:
        for y in range(1, h):
            for k in range(36):
                yield port(w - 1, y, 'sp4_r_v_b', k), port(w - 1, y - 1, 'sp4_r_v_b', (k ^ 1) + 12)
    first = {}  # for output i of an outside tile, the first name that means it
    for t in range(w * h):
        for name, (dx, dy) in SEES.items():
            tile = t % w + dx, t // w + dy
            for i in range(8):
                if not inside(*tile):
                    yield port(t % w, t // w, name, i), first.setdefault((tile, i), port(t % w, t // w, name, i))


def wires(w, h, east):
    """The lowest port of each port's wire, by union-find."""
    root = list(range(PORTS * w * h))

    def find(p):
        while root[p] != p:
            root[p] = root[root[p]]
            p = root[p]
        return p

    for p, q in joins(w, h, east):
        p, q = find(p), find(q)
        if p != q:
            root[max(p, q)] = min(p, q)
    return [find(p) for p in range(len(root))]


DRIVER = r'''
#include <stdio.h>
#include "ice40.h"
int main(void) {
    for (uint32_t east = 0; east < 2; east++)
        for (uint32_t h = 1; h <= 8; h++)
            for (uint32_t w = 1; w <= 8; w++)
                for (uint32_t t = 0; t < w * h; t++)
                    for (uint32_t q = 0; q < 506; q++)
                        printf("%llu\n", (unsigned long long)ice40_wire_number(w, h, east, t, q));
    static const uint32_t refused[][5] = {{1, 1, 2, 0, 0}, {8, 8, 255, 0, 0}, {2, 2, UINT32_MAX, 9, 999}, {2, 2, 256, 4, 0}, {9, 1, 1, 0, 0}, {0, 1, 2, 0, 0}};
    for (size_t k = 0; k < sizeof refused / sizeof *refused; k++) {
        const uint32_t *asked = refused[k];
        printf("%llu\n", (unsigned long long)ice40_wire_number(asked[0], asked[1], asked[2], asked[3], asked[4]));
    }
    return 0;
}
'''
REFUSED = 6  # the last calls, all with ground 1 at place 0: a byte above 1, or a size


def answers():
    """What the library answers to the calls of DRIVER."""
    subprocess.run(['make', '-s', ARCHIVE], cwd=ROOT, check=True, stdout=subprocess.DEVNULL, stderr=subprocess.DEVNULL)
    with tempfile.TemporaryDirectory() as folder:
        source, program = os.path.join(folder, 'all.c'), os.path.join(folder, 'all')
        with open(source, 'w') as f:
            f.write(DRIVER)
        subprocess.run(['cc', '-I', os.path.join(ROOT, 'include'), source, os.path.join(ROOT, ARCHIVE), '-o', program], check=True)
        return [int(line) for line in subprocess.run([program], check=True, stdout=subprocess.PIPE).stdout.split()]


def main():
    got = iter(answers())
    ports = different = 0
    counts = {}
    for east in (0, 1):
        for h in range(1, 9):
            for w in range(1, 9):
                expected = wires(w, h, east)
                counts[w, h, east] = sum(p == n for p, n in enumerate(expected))
                for n in expected:
                    ports += 1
                    different += next(got) != n
    for n in (1, 2, 3, 8):
        print('%d by %d: %d wires, %d with a column to the east' % (n, n, counts[n, n, 0], counts[n, n, 1]))
    print('%d ports in 64 sizes without and with that column, %d differences' % (ports, different))
    wrong = sum(answer != 1 << 32 for answer in got)
    print('%d calls with another byte or size, %d not refused with ground 1' % (REFUSED, wrong))
    return different + wrong != 0


if __name__ == '__main__':
    sys.exit(main())
