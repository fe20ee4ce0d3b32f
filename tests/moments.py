#!/usr/bin/env python3
"""Compares settling, clocking and the shelf card with the model of tests/model.py: real blocks without and with a column to the east, damaged
ones, random states and values. Settling twice and clocking is compared with the step, the library's and the model's.

    python3 tests/moments.py            needs the Rattle kit (rt), a C compiler and Python 3
    python3 tests/moments.py 10000      the same with that many steps a block (1,000 unless said)
    python3 tests/moments.py --vectors FOLDER  where the users' vectors are, if not in tests/data/vectors

It prints a line for each group of cases and ends with the number of differences.
"""
import os
import random
import sys

sys.path.insert(0, os.path.dirname(os.path.abspath(__file__)))
import circuits  # noqa: E402
import model  # noqa: E402
import vectors  # noqa: E402
from circuits import EAST, bad_row, lent_build, small_settings  # noqa: E402
from library import U8, U16, U64, Count, Library, asked, blocks, junk, run, with_strays  # noqa: E402


def carding(lib, rounds):
    """The shelf card of real blocks and of changed ones, with room for it, for one number less, for more, and for none."""
    count, met = Count('shelf cards: every number, and how many are needed'), set()
    for name, (w, h, _, table, bits) in blocks().items():
        for east in EAST:
            met |= check_card(lib, count, w, h, east, table, bits, name)
    met |= check_clocked(lib, count)
    whole = small_settings()
    for _ in range(rounds):
        w, h, table, settings = random.choice(whole)
        settings = list(settings) if random.random() < 0.6 else [0] * len(settings)
        for _ in range(random.choice((1, 2, 4, 10))):
            at = random.randrange(w * h) * model.SETTINGS
            if random.random() < 0.7:
                g = random.randrange(table[68])
                settings[at + 67 + g] = random.randint(0, table[69 + 75 * g + 10])
            else:
                settings[at + 580 + 2 * random.randrange(8)] ^= random.choice((1, 2, 8))
        bits = model.write(w, h, table, settings)
        met |= check_card(lib, count, w, h, random.choice(EAST), table, with_strays(bits, [random.randrange(len(bits))] * (random.random() < 0.05)))
    if rounds >= 200:
        count.same(met >= {0, 4, 7, 8, 15, 'leaving', 'feeding', 'both', 'neither'}, True, met)
    return count.done()


def check_card(lib, count, w, h, east, table, bits, what=''):
    """What was met: the grounds, and which of the two lists are not empty."""
    numbers = model.card(w, h, east, table, bits, 1 << 20)
    needed, met = 0 if isinstance(numbers, tuple) else len(numbers), set()
    for room in {0, 5, max(needed - 1, 0), needed, needed + random.randrange(1, 40), 6 + 1012 * w * h}:
        expected = model.card(w, h, east, table, bits, room)
        old, lent = junk(room), [junk(k) for k in lent_build(w * h)]
        answer, after = lib.call('ice40_card', w, h, east, (U16, table), (U64, bits), (U16, old), *[(U16, numbers) for numbers in lent])
        shown = (expected, old) if isinstance(expected, tuple) else ((0, needed), expected + [0] * (room - needed))
        count.same((answer, after[2], any(map(any, after[3:]))), (*shown, False), (what, room))
        met.add(answer[0])
    if needed:
        leaving = numbers[4]
        met.add({(0, 0): 'neither', (1, 0): 'leaving', (0, 1): 'feeding', (1, 1): 'both'}[leaving > 0, numbers[5 + leaving] > 0])
    return met


def check_clocked(lib, count):
    """One flip-flop whose clock is a global net: a cell, a flip-flop, nothing leaves, and that net feeds it."""
    table, settings = blocks()['counter8_1x1'][3], [0] * model.SETTINGS
    g = next(g for g in range(table[68]) if table[69 + 75 * g] == model.BASE['clk'])
    entry = next(k for k in range(table[69 + 75 * g + 10]) if table[69 + 75 * g + 12 + 2 * k] == model.BASE['glb_netwk'] + 3)
    settings[67 + g], settings[580] = entry + 1, 2
    bits = model.write(1, 1, table, settings)
    count.same(model.card(1, 1, 0, table, bits, 7), [1, 1, 1, 1, 0, 1, model.BASE['glb_netwk'] + 3], 'the model')
    return check_card(lib, count, 1, 1, 0, table, bits, 'one flip-flop')


def card_lengths(lib):
    """Grounds 1 and 2 of the card: another size, and each exact length missed by one or empty. Nothing is touched. The card may have any length."""
    count = Count('shelf cards of other sizes and lengths: grounds 1 and 2, nothing touched')
    w, h, east, table, bits = blocks()['counter8_2x2']
    lent = [(U16, table), (U64, bits), (U16, junk(40)), *[(U16, junk(k)) for k in lent_build(w * h)]]

    def refused(size, given, ground):
        answer, after = lib.call('ice40_card', *size, east, *given)
        count.same((answer, after), ((ground, 0), [list(numbers) for _, numbers in given]), (size, [len(numbers) for _, numbers in given]))

    for size in ((0, 2), (2, 0), (9, 2), (2, 9), (2, 65538), (4294967295, 1)):
        refused(size, lent, 1)
        refused(size, [(kind, numbers[1:]) for kind, numbers in lent], 1)
    for k in [k for k in range(len(lent)) if k != 2]:
        kind, numbers = lent[k]
        for other in (numbers[:-1], numbers + [0], []):
            refused((w, h), lent[:k] + [(kind, other)] + lent[k + 1:], 2)
    for size in ((1, 1), (1, 2), (2, 3)):
        refused(size, lent, 2)
    return count.done()


def settle(lib, w, h, east, table, settings, rows, state, lent):
    """The answer, the values, what stood there, and whether the work room came back as zeros."""
    n = w * h
    old = junk(506 * n, U8)
    answer, after = lib.call('ice40_settle', w, h, east, (U16, table), (U16, settings), (U16, rows), (U8, state), (U8, lent), (U8, old),
                             *[(U16, junk(506 * n))] * 3)
    return answer, after[5], old, not any(map(any, after[6:]))


def clock(lib, w, h, table, settings, state, before, after):
    """The answer, the next state, and what stood there."""
    old = junk(8 * w * h, U8)
    answer, lent = lib.call('ice40_clock', w, h, (U16, table), (U16, settings), (U8, state), (U8, before), (U8, after), (U8, old))
    return answer, lent[5], old


def step(lib, w, h, east, table, settings, rows, state, before, after):
    """Settling both and clocking what that wrote; the first no of the three."""
    answer, values, old, clear = settle(lib, w, h, east, table, settings, rows, state, before)
    if answer != (0, 0):
        return answer, values, None, (old, None), clear
    other, later, old_later, clear_too = settle(lib, w, h, east, table, settings, rows, state, after)
    if other != (0, 0):
        return other, later, None, (old_later, None), clear and clear_too
    last, new, old_state = clock(lib, w, h, table, settings, state, values, later)
    return last, values, new, (old, old_state), clear and clear_too


def stepping(lib, rounds):
    wrong = 0
    for name, (w, h, _, table, bits) in blocks().items():
        if isinstance(model.build(w, h, 0, table, bits), tuple) or w * h > 9:
            continue
        count = Count('%s settled and clocked: state for state, port for port' % name)
        often = rounds if name in ('uart_tx_3x3', 'counter8_2x2') else rounds // 10
        for east in EAST:
            step_often(lib, count, (w, h, east), table, bits, often // 2)
        wrong += count.done()
    return wrong


def step_often(lib, count, block, table, bits, rounds):
    n = block[0] * block[1]
    settings, rows = model.read(*block[:2], table, bits), model.build(*block, table, bits)
    numbers = [number for row in rows for number in row]
    numbers += [0] * (3542 * n - len(numbers))
    state, lent = [0] * (8 * n), [0] * (506 * n)
    for k in range(rounds):
        later = [v ^ (random.random() < 0.02) for v in lent]
        for c in range(479, 487):  # the global networks, clocks among them, move most
            later[c] = random.randrange(2)
        answer, values, new, _, clear = step(lib, *block, table, settings, numbers, state, lent, later)
        expected = model.step(*block, settings, rows, state, lent, later)
        count.same((answer, values, new, clear), ((0, 0), *expected, True), (block, k))
        count.same(model.settled_and_clocked(*block, settings, rows, state, lent, later), expected, ('the model', block, k))
        count.same(circuits.step(lib, *block, table, settings, numbers, state, lent, later)[:3], (answer, values, new), ('the step', block, k))
        lent = later
        state = new if k % 50 else [random.randrange(2) for _ in state]


def users_vectors(lib, folder):
    count = Count("the users' vectors of settling, clocking and the card")
    for case in vectors.cases(folder, 'w11-plain-settle'):
        w, h, rows = case.given['w'], case.given['h'], case.given['list']
        rows = rows + [0] * (3542 * w * h - len(rows))
        answer, values, old, clear = settle(lib, w, h, case.given['east'], case.table(), case.settings(), rows, case.digits('state'), case.digits('lent'))
        expected = (case.no, old) if case.no else ((0, 0), list(map(int, case.answer['values'])))
        count.same((answer, values, clear), (*expected, True))
    for case in vectors.cases(folder, 'w11-plain-clock'):
        answer, state, old = clock(lib, case.given['w'], case.given['h'], case.table(), case.settings(), *map(case.digits, ('state', 'before', 'after')))
        count.same((answer, state), (case.no, old) if case.no else ((0, 0), list(map(int, case.answer['state']))))
    for case in vectors.cases(folder, 'w14-plain-card'):
        (w, h), bits = case.block('block')
        old = junk(case.given['length'])
        lent = [(U16, case.table()), (U64, bits), (U16, old), *[(U16, junk(k)) for k in lent_build(w * h)]]
        answer, after = lib.call('ice40_card', w, h, case.given['east'], *lent)
        if case.no:
            count.same((answer, after[2]), (case.no, old))
        else:
            numbers = case.answer['list']
            count.same((answer, after[2]), ((0, 6 + numbers[4] + numbers[5 + numbers[4]]), numbers))
    return count.done()


def refusals(lib, rounds):
    """Ground 12 on damaged lists, ground 10 on bytes above 1; outputs kept, work room zeroed."""
    count = Count('lists and bytes damaged: grounds 12 and 10')
    w, h, east, table, bits = blocks()['counter8_1x1']
    settings, rows = model.read(w, h, table, bits), model.build(w, h, east, table, bits)
    own = set(model.Block(w, h, east, table, settings).wires)
    numbers = [number for row in rows for number in row] + [0] * (3542 - 7 * len(rows))

    for _ in range(rounds):
        changed = list(numbers)
        for _ in range(random.choice((1, 1, 2))):
            changed[random.choice((random.randrange(7 * len(rows)), random.randrange(3542)))] = random.choice((0, 1, 4, 5, 7, 8, 336, 489, random.randrange(65536)))
        lent = [[0] * 8, [0] * 506, [0] * 506]
        if random.random() < 0.5:
            changed = numbers
            part = random.choice(lent)
            part[random.randrange(len(part))] = random.choice((2, 255))
        place = bad_row(changed, own, 1)
        for values in lent[1:]:
            over = [i for i, v in enumerate(lent[0] + values) if v > 1]
            answer, after, before, clear = settle(lib, w, h, east, table, settings, changed, lent[0], values)
            if place is not None or over:
                expected = (12, place) if place is not None else (10, over[0])
                count.same((answer, after, clear), (expected, before, True))
            else:
                count.same((answer, clear), ((0, 0), True))
        over = [i for i, v in enumerate(sum(lent, [])) if v > 1]
        answer, after, before = clock(lib, w, h, table, settings, *lent)
        expected = ((10, over[0]), before) if over else ((0, 0), model.clock(w, h, settings, *lent))
        count.same((answer, after), expected)
    return count.done()


def clocking(lib, rounds):
    """Values of every port at random: two names of one wire need not agree. Grounds 1, 2, 3, 9 in their order, with bytes above 1."""
    count = Count('clocked by each tile\'s own ports, whatever is handed')
    whole = small_settings()
    for _ in range(rounds):
        w, h, table, settings = random.choice(whole)
        n = w * h
        lent = [[random.randrange(2) for _ in range(k)] for k in (8 * n, 506 * n, 506 * n)]
        expected = (0, 0), model.clock(w, h, settings, *lent)
        if random.random() < 0.5:
            wrong = random.choice((10, 9, 3, 2, 1))
            part = random.randrange(3)
            at = random.randrange(len(lent[part]))
            lent[part][at] = random.choice((2, 3, 255))
            expected = (10, sum(map(len, lent[:part])) + at), None
            if wrong <= 9:
                settings, tile = list(settings), random.randrange(n)
                settings[model.SETTINGS * tile + 66] = 2
                expected = (9, tile), None
            if wrong <= 3:
                table = list(table)
                table[0] = 864
                expected = (3, 0), None
            if wrong <= 2:
                lent[random.randrange(3)].append(0)
                expected = (2, 0), None
            if wrong == 1:
                w = random.choice((0, 9, 65536))
                expected = (1, 0), None
            old = junk(8 * n, U8)
            answer, after = lib.call('ice40_clock', w, h, (U16, table), (U16, settings), *[(U8, part) for part in lent], (U8, old))
            count.same((answer, after[5]), (expected[0], old), wrong)
        else:
            count.same(clock(lib, w, h, table, settings, *lent)[:2], expected)
    return count.done()


def other_wires(lib):
    """A list for one byte is none for the other where the two have other wires: ground 12 at the first row that is not right."""
    count = Count('lists of the other byte: ground 12')
    for name, (w, h, _, table, bits) in blocks().items():
        if w * h > 9:
            continue
        settings = model.read(w, h, table, bits)
        for east in EAST:
            rows = model.build(w, h, 1 - east, table, bits)
            if isinstance(rows, tuple):
                continue
            numbers = [number for row in rows for number in row]
            numbers += [0] * (3542 * w * h - len(numbers))
            place = bad_row(numbers, set(model.Block(w, h, east, table, settings).wires), w * h)
            count.same(place is None, h == 1, (name, 'with one row the byte changes nothing'))
            answer, values, old, clear = settle(lib, w, h, east, table, settings, numbers, [0] * (8 * w * h), [0] * (506 * w * h))
            if place is None:
                count.same((answer, clear), ((0, 0), True), (name, east))
            else:
                count.same((answer, values, clear), ((12, place), old, True), (name, east))
    return count.done()


def bad_byte(lib):
    """Ground 1 at place 0 and nothing touched, whatever else is wrong."""
    count = Count('a byte for the east that is not 0 or 1: ground 1, nothing touched')
    w, h, _, table, bits = blocks()['counter8_2x2']
    slices = {'ice40_card': [(U16, table), (U64, bits), (U16, [7] * 40)] + [(U16, [7] * k) for k in lent_build(4)],
              'ice40_settle': [(U16, table), (U16, [7] * 2380), (U16, [7] * 14168), (U8, [7] * 32)] + [(U8, [7] * 2024)] * 2 + [(U16, [7] * 2024)] * 3}
    for name, lent in slices.items():
        for east in (2, 3, 255, 256, 65536, 4294967295):
            for size in ((w, h), (9, 1), (0, 0)):
                for given in (lent, [(part[0], list(part[1])[1:]) if isinstance(part, tuple) else part for part in lent]):
                    answer, after = lib.call(name, *size, east, *given)
                    count.same((answer, after), ((1, 0), [list(part[1]) for part in given if isinstance(part, tuple)]), (name, size, east))
    return count.done()


def main():
    arguments = asked(__doc__, 1000)
    lib, steps = Library(), arguments.rounds
    return run([(users_vectors, lib, arguments.vectors), (stepping, lib, steps), (refusals, lib, steps // 2), (clocking, lib, steps // 2),
                (carding, lib, steps // 5), (card_lengths, lib), (other_wires, lib), (bad_byte, lib)], 2)


if __name__ == '__main__':
    sys.exit(main())
