#!/usr/bin/env python3
# This speaks of a follow that is not in the tree: request W12's, which refuses a loop with ground 7, meets no ring and has two more work rooms, rows and queue.
# The library's ice40_follow is the older one, which tests/circuits.py compares. No test program runs this file.
"""Compares W12's following with the model: followed_without_ring of tests/model.py, and the users' vectors w12-plain-follow.jsonl.gz.

    python3 drafts/tests/follow_w12.py          needs a library with that follow, a C compiler and Python 3

It prints a line for each group of cases and ends with the number of differences.
"""
import os
import random
import sys

sys.path.insert(0, os.path.join(os.path.dirname(os.path.dirname(os.path.dirname(os.path.abspath(__file__)))), 'tests'))
import model  # noqa: E402
import vectors  # noqa: E402
from circuits import EAST, small_settings  # noqa: E402
from library import U16, Count, Library, asked, blocks, junk, run  # noqa: E402


def lent_follow(n):
    """The work room of following: wires, sources, rows, marks, queue."""
    return [506 * n, 506 * n, 3542 * n, 506 * n, 506 * n]


def following(lib, rounds):
    count = Count('drivers followed: every kind of end, fights and loops')
    whole, grounds = small_settings(), {}
    for _ in range(rounds):
        w, h, table, settings = random.choice(whole)
        n, east = w * h, random.choice(EAST)
        if random.random() < 0.5:
            settings = list(settings)
            for _ in range(random.choice((1, 3, 10))):
                g = random.randrange(table[68])
                settings[model.SETTINGS * random.randrange(n) + 67 + g] = random.randint(0, table[69 + 75 * g + 10])
        tile, port = random.choice(((random.randrange(n), random.randrange(506)), (random.randrange(n), random.choice((476, 478))), (n, 506), (0, 506)))
        expected = model.followed_without_ring(w, h, east, table, settings, tile, port)
        grounds[expected[0]] = grounds.get(expected[0], 0) + 1
        answer, after = lib.call('ice40_follow', w, h, east, (U16, table), (U16, settings), tile, port, *[(U16, junk(k)) for k in lent_follow(n)])
        count.same((answer, any(map(any, after[2:]))), (expected, False))
    if rounds >= 500:
        count.same({0, 5, 7, 20} <= set(grounds), True, grounds)
    return count.done()


ENDS = {'open': 1, 'cell': 4}


def driver_value(end):
    """What following a driver answers, from a vector's words: a no, or 65,536 times the kind of end plus the wire."""
    if isinstance(end, dict):
        return tuple(end['no'])
    kind, wire, *value = end
    return 0, 65536 * (2 + value[0] if kind == 'constant' else ENDS[kind]) + wire


def users_vectors(lib, folder):
    count = Count("the users' vectors of following")
    for case in vectors.cases(folder, 'w12-plain-follow'):
        w, h = case.given['w'], case.given['h']
        for tile, port, end in case.answer['asked']:
            given = [(U16, case.table()), (U16, case.settings()), tile, port, *[(U16, junk(k)) for k in lent_follow(w * h)]]
            count.same(lib.call('ice40_follow', w, h, case.given['east'], *given)[0], driver_value(end))
    return count.done()


def bad_byte(lib):
    """Ground 1 at place 0 and nothing touched, whatever else is wrong."""
    count = Count('a byte for the east that is not 0 or 1: ground 1, nothing touched')
    w, h, _, table, _ = blocks()['counter8_2x2']
    lent = [(U16, table), (U16, [7] * 2380), 9, 999] + [(U16, [7] * k) for k in lent_follow(4)]
    for east in (2, 3, 255, 256, 65536, 4294967295):
        for size in ((w, h), (9, 1), (0, 0)):
            for given in (lent, [(part[0], list(part[1])[1:]) if isinstance(part, tuple) else part for part in lent]):
                answer, after = lib.call('ice40_follow', *size, east, *given)
                count.same((answer, after), ((1, 0), [list(part[1]) for part in given if isinstance(part, tuple)]), (size, east))
    return count.done()


def main():
    arguments = asked(__doc__, 1000)
    lib = Library()
    return run([(users_vectors, lib, arguments.vectors), (following, lib, arguments.rounds // 2), (bad_byte, lib)], 2)


if __name__ == '__main__':
    sys.exit(main())
