#!/usr/bin/env python3
"""Compares the library's comparison of two blocks with the model of tests/model.py: real blocks, damaged and random ones, bits past
the columns of a row, and bad input.

    python3 tests/compare.py                    needs the Rattle kit (rt), a C compiler and Python 3
    python3 tests/compare.py 20000              the same with so many random cases (1,000 unless said)
    python3 tests/compare.py --vectors FOLDER   where the users' vectors are, if not in tests/data/vectors

It prints a line for each group of cases and ends with the number of differences.
"""
import os
import random
import sys

sys.path.insert(0, os.path.dirname(os.path.abspath(__file__)))
import model  # noqa: E402
import vectors  # noqa: E402
from bits_model import flipped  # noqa: E402
from library import U16, U32, U64, Count, Library, asked, blocks, fullest, junk, run, with_strays  # noqa: E402

LIMIT = 587 * 64  # more rows than any two blocks have


def lent_for(size, length):
    """A list of `length` numbers and the work room for a block of this size, all full; some for a size that no block has."""
    n = min(size[0] * size[1], 64)
    return junk(length, U32), junk(model.SETTINGS * n), junk(model.SETTINGS * n)


def memory_after(ground, old_list, rows, before, after):
    """What the list and the work room must hold after an answer."""
    if ground == 0:
        numbers = [number for row in rows for number in row]
        return numbers + [0] * (len(old_list) - len(numbers)), [0] * len(before), [0] * len(after)
    if ground in (1, 2):
        return old_list, before, after
    return old_list, [0] * len(before), [0] * len(after)


def check(lib, count, one, other, table, first, second, lent, what=''):
    """One call against the model: the answer, and everything that was lent."""
    old_list, before, after = lent
    expected = model.compare(one, other, table, first, second, len(old_list), len(before), len(after))
    rows = expected if isinstance(expected, list) else None
    answer = (0, len(rows)) if rows is not None else expected
    got, slices = lib.call('ice40_compare', *one, *other, (U16, table), (U64, first), (U64, second), (U32, old_list), (U16, before), (U16, after))
    kept = (list(table), list(first), list(second))
    count.same((got, tuple(slices[3:])), (answer, memory_after(answer[0], old_list, rows, before, after)), what)
    count.same(tuple(slices[:3]), kept, what)
    return expected


def check_part(lib, count, one, other, first, second, which, tile, what=''):
    expected = model.part(one, other, len(first), len(second), tile)
    got, slices = lib.call('ice40_tile_part', *one, *other, (U64, first), (U64, second), which, tile)
    count.same((got, slices), (expected if isinstance(expected, tuple) else (0, expected), [list(first), list(second)]), what)
    return got


# ---- the users' vectors

def check_vectors(lib, folder):
    """The older ones name the tile of ground 4, as it was before W5: its place is 864 times that plus a position."""
    count = Count("the users' vectors of comparing")
    for case in vectors.cases(folder, 'w4-compare', 'w7-compare'):
        (one, first), (other, second) = case.block('first'), case.block('second')
        table, lent = case.table(), lent_for(one, case.given['length'])
        got, slices = lib.call('ice40_compare', *one, *other, (U16, table), (U64, first), (U64, second), (U32, lent[0]), (U16, lent[1]), (U16, lent[2]))
        ground, place = got
        count.same((ground, place // 864 if ground == 4 and case.bytes else place), case.no or (0, case.answer['count']), case.no)
        rows = None if case.no else case.rows(5)
        count.same(tuple(slices[3:]), memory_after(ground, lent[0], rows, *lent[1:]), case.no)
        check(lib, count, one, other, table, first, second, lent)
    wrong = count.done()
    count = Count("the users' vectors of asking for a tile")
    for case in vectors.cases(folder, 'w4-part', 'w7-part'):
        (one, first), (other, second) = case.block('first'), case.block('second')
        got = check_part(lib, count, one, other, first, second, case.given['from_second'], case.given['tile'])
        count.same(got, case.no or (0, case.index(case.answer['from'])), case.no)
        if not case.no:
            chosen = second if case.given['from_second'] else first
            count.same(chosen[got[1]:got[1] + model.WORDS], case.words(case.answer['numbers']))
    return wrong + count.done()


# ---- blocks

def real(lib):
    """Each real block against itself, against an empty one, and with each bit of its fullest tile flipped."""
    count = Count('real blocks: against themselves and an empty block')
    for name, (w, h, _, table, bits) in blocks().items():
        for first, second in ((bits, bits), (bits, [0] * len(bits)), ([0] * len(bits), bits)):
            rows = check(lib, count, (w, h), (w, h), table, first, second, lent_for((w, h), 5 * LIMIT // 64 * w * h), name)
            count.same(isinstance(rows, list) and (not rows) == (first == second), True, name)
    wrong = count.done()
    count = Count('each bit of a real tile flipped: one row, or ground 4')
    for name in ('uart_tx_3x3', 'big8_8x8'):
        w, h, _, table, bits = blocks()[name]
        t = fullest(w, h, bits)
        for p in range(864 * t, 864 * t + 864):
            rows = check(lib, count, (w, h), (w, h), table, bits, flipped(bits, [p]), lent_for((w, h), 9), p)
            count.same(rows[0] == 4 if isinstance(rows, tuple) else len(rows) == 1, True, p)
    return wrong + count.done()


def pair_of(whole):
    """Two blocks of one size and table: settings changed at random, written, and bits flipped."""
    w, h, _, table, bits = random.choice(whole)
    made = []
    for _ in range(2):
        settings = list(model.read(w, h, table, random.choice((bits, bits, [0] * len(bits)))))
        for _ in range(random.choice((0, 1, 3, 40, 300))):
            t = random.randrange(w * h) * model.SETTINGS
            k = random.choice((random.randrange(3), random.randrange(model.SETTINGS), random.randrange(67, 330), 579 + random.randrange(16)))
            settings[t + k] = random.choice((0, 1, 2, random.randrange(16), random.randrange(65536)))
        written = model.write(w, h, table, settings)
        made.append(bits if isinstance(written, tuple) else written)
    if random.random() < .2:
        side = random.randrange(2)
        made[side] = flipped(made[side], [random.randrange(864 * w * h) for _ in range(random.choice((1, 2, 5)))])
    if random.random() < .1:
        side = random.randrange(2)
        made[side] = with_strays(made[side], [random.randrange(len(bits)) for _ in range(random.choice((1, 2)))])
    return (w, h), table, made


def randomly(lib, rounds):
    """Random pairs, with lists that are long enough, just long enough, and too short by one."""
    whole = list(blocks().values())
    count = Count('random pairs: rows, lists of every length, ground 4 and 15')
    for _ in range(rounds):
        size, table, (first, second) = pair_of(whole)
        rows = check(lib, count, size, size, table, first, second, lent_for(size, random.choice((0, 4, 5, 500, 20000))))
        if isinstance(rows, tuple) and rows[0] == 15:
            needed = rows[1]
            for length in (5 * needed - 1, 5 * needed, 5 * needed + 1, 5 * needed + 5):
                check(lib, count, size, size, table, first, second, lent_for(size, length))
        for which in (0, 1, 2, 0xffffffff):
            check_part(lib, count, size, size, first, second, which, random.choice((0, size[0] * size[1] - 1, size[0] * size[1], random.randrange(1 << 32))))
    return count.done()


def sizes():
    return random.choice((0, 1, 1, 2, 2, 3, 8, 9, 256, 0xffffffff))


def refusals(lib, rounds):
    """Sizes and lengths of every kind: the order 1, 14, 2, 3, 4, 15, and the work room, zeroed under 14 whatever its length."""
    w, h, _, table, bits = blocks()['uart_tx_3x3']
    count = Count('sizes, lengths and a faulty table: the order of the grounds')
    for _ in range(rounds):
        one = (w, h) if random.random() < .6 else (sizes(), sizes())
        other = one if random.random() < .6 else (sizes(), sizes())
        n = one[0] * one[1] if one[0] < 9 and one[1] < 9 else 1
        lengths = [model.TABLE, model.WORDS * n, model.WORDS * n, model.SETTINGS * n, model.SETTINGS * n]
        for k in range(5):
            if random.random() < .1:
                lengths[k] = max(0, lengths[k] + random.choice((-1, 1, -lengths[k], 16, 108, 595)))
        tables = [table, [1] + table[1:], [0] * model.TABLE]
        chosen = (random.choice(tables) + [0] * 1000)[:lengths[0]]
        others = bits, [0] * len(bits), [(1 << 54) - 1] * len(bits), [1 << 63] * len(bits)
        first, second = ((block + [0] * 9000)[:length] for block, length in zip((bits, random.choice(others)), lengths[1:3]))
        lent = (junk(random.choice((0, 3, 5000)), U32), junk(lengths[3]), junk(lengths[4]))
        check(lib, count, one, other, chosen, first, second, lent)
        check_part(lib, count, one, other, first, second, random.randrange(2), random.choice((0, 1, 8, 9, 63, 64, 0xffffffff)))
    return count.done()


def main():
    arguments, lib = asked(__doc__, 1000), Library()
    rounds = arguments.rounds
    return run([(check_vectors, lib, arguments.vectors), (real, lib), (randomly, lib, rounds), (refusals, lib, rounds)], 4)


if __name__ == '__main__':
    sys.exit(main())
