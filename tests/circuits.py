#!/usr/bin/env python3
"""Compares building, following and the step with the model of tests/model.py: real blocks without and with a column to the east, damaged
ones, random states and values.

    python3 tests/circuits.py           needs the Rattle kit (rt), a C compiler and Python 3
    python3 tests/circuits.py 10000     the same with that many steps a block (1,000 unless said)

It prints a line for each group of cases and ends with the number of differences.
"""
import os
import random
import sys

sys.path.insert(0, os.path.dirname(os.path.abspath(__file__)))
import model  # noqa: E402
from bits_model import flipped  # noqa: E402
from library import U8, U16, U64, Count, Library, blocks, junk, rounds_asked, run, with_strays  # noqa: E402

EAST = (0, 1)  # whether the column to the east of a block is logic or RAM


def lent_build(n):
    """The list, then the work room: settings, wires, sources, rows, marks, queue."""
    return [3542 * n, 595 * n, 506 * n, 506 * n, 3542 * n, 506 * n, 506 * n]


def build(lib, w, h, east, table, bits):
    """The library's answer and list; the rest of what it was lent must be zeros, or as it was under grounds 1 and 2."""
    lent = [junk(k) for k in lent_build(w * h)]
    answer, after = lib.call('ice40_build', w, h, east, (U16, table), (U64, bits), *[(U16, numbers) for numbers in lent])
    after = after[2:]
    kept = answer[0] in (1, 2)
    room = all(now == old if kept else not any(now) for now, old in zip(after[1:], lent[1:]))
    return answer, after[0], lent[0], room


def check_build(lib, count, w, h, east, table, bits, what=''):
    expected = model.build(w, h, east, table, bits)
    answer, after, before, room = build(lib, w, h, east, table, bits)
    count.same(room, True, what + ' work room')
    if isinstance(expected, tuple):
        count.same((answer, after == before), (expected, True), what)
        return None
    rows = [number for row in expected for number in row]
    count.same((answer, after), ((0, len(expected)), rows + [0] * (3542 * w * h - len(rows))), what)
    return after


def small_settings():
    """The bundled blocks of at most nine tiles, with their settings: (w, h, table, settings)."""
    return [(w, h, table, model.read(w, h, table, bits)) for w, h, _, table, bits in blocks().values() if w * h <= 9]


def building(lib, rounds):
    count = Count('real blocks built: every row')
    for name, (w, h, _, table, bits) in blocks().items():
        for east in EAST:
            check_build(lib, count, w, h, east, table, bits, name)
    wrong = count.done()
    count = Count("document 01's sample, with the flip-flop off, carries 0 and 2")
    sample = os.path.join(os.path.dirname(os.path.abspath(__file__)), 'data', 'sample.in')
    block = model.parse(open(sample).read())
    check_build(lib, count, *block, 'sample')
    *_, table, bits = block
    count.same(build(lib, 1, 1, 0, table, flipped(bits, [45]))[0], (7, 0x150), 'flip-flop off')
    carry = flipped([0] * model.WORDS, [model.lc(i, 8) for i in (0, 2)])
    count.same(build(lib, 1, 1, 0, table, carry)[0], (6, 490), 'carry in cells 0 and 2')
    for c in range(54, 64):
        stray = bits[:-1] + [bits[-1] | 1 << c]
        count.same(build(lib, 1, 1, 0, table, stray)[0], (4, 863), 'a bit past the columns')
    wrong += count.done()
    count = Count('settings changed at random: grounds 4 to 8, or every row')
    whole = small_settings()
    for _ in range(rounds):
        w, h, table, settings = random.choice(whole)
        settings = list(settings)
        for _ in range(random.choice((1, 2, 4, 10))):
            at = random.randrange(w * h) * model.SETTINGS
            if random.random() < 0.7:
                g = random.randrange(table[68])
                settings[at + 67 + g] = random.choice((0, random.randint(1, table[69 + 75 * g + 10])))
            else:
                settings[at + 580 + 2 * random.randrange(8)] ^= random.choice((1, 1, 2, 8))
        bits = model.write(w, h, table, settings)
        check_build(lib, count, w, h, random.choice(EAST), table, with_strays(bits, [random.randrange(len(bits))] * (random.random() < 0.05)))
    return wrong + count.done()


def following(lib, rounds):
    count = Count('drivers followed: every kind of end')
    whole = small_settings()
    for _ in range(rounds):
        w, h, table, settings = random.choice(whole)
        n, east = w * h, random.choice(EAST)
        if random.random() < 0.5:
            settings = list(settings)
            for _ in range(random.choice((1, 3, 10))):
                g = random.randrange(table[68])
                settings[model.SETTINGS * random.randrange(n) + 67 + g] = random.randint(0, table[69 + 75 * g + 10])
        block = model.Block(w, h, east, table, settings)
        tile, port = random.choice(((random.randrange(n), random.randrange(506)), (random.randrange(n), random.choice((476, 478))), (n, 506), (0, 506)))
        if block.contended:
            expected = 5, min(block.contended)
        elif tile >= n or port >= 506:
            expected = 20, tile if tile >= n else port
        else:
            kind, wire = block.follow(block.at(tile, port))
            expected = 0, 65536 * kind + wire
        answer, after = lib.call('ice40_follow', w, h, east, (U16, table), (U16, settings), tile, port, *[(U16, junk(506 * n))] * 3)
        count.same((answer, any(map(any, after[2:]))), (expected, False))
    return count.done()


def step(lib, w, h, east, table, settings, rows, state, before, after):
    n = w * h
    outputs = [junk(506 * n, U8), junk(8 * n, U8)]
    room = [(U16, junk(506 * n))] * 3 + [(U8, junk(506 * n, U8))] * 2
    answer, lent = lib.call('ice40_step', w, h, east, (U16, table), (U16, settings), (U16, rows), (U8, state), (U8, before), (U8, after),
                            *[(U8, o) for o in outputs], *room)
    values, new, rest = lent[6], lent[7], lent[8:]
    return answer, values, new, outputs, not any(map(any, rest))


def stepping(lib, rounds):
    wrong = 0
    for name, (w, h, _, table, bits) in blocks().items():
        if isinstance(model.build(w, h, 0, table, bits), tuple) or w * h > 9:
            continue
        count = Count('%s stepped: state for state, port for port' % name)
        often = rounds if name in ('uart_tx_3x3', 'counter8_2x2') else rounds // 10
        for east in EAST:
            step_often(lib, count, (w, h, east), table, bits, often // 2)
        wrong += count.done()
    return wrong


def step_often(lib, count, block, table, bits, rounds):
    n = block[0] * block[1]
    settings, rows = model.read(*block[:2], table, bits), model.build(*block, table, bits)
    numbers = [number for row in rows for number in row]
    numbers += [0] * (3542 * n - len(numbers))
    state, lent = [0] * (8 * n), [0] * (506 * n)
    for k in range(rounds):
        later = [v ^ (random.random() < 0.02) for v in lent]
        for c in range(479, 487):  # the global networks, clocks among them, move most
            later[c] = random.randrange(2)
        answer, values, new, _, clear = step(lib, *block, table, settings, numbers, state, lent, later)
        expected = model.step(*block, settings, rows, state, lent, later)
        count.same((answer, values, new, clear), ((0, 0), *expected, True), (block, k))
        lent = later
        state = new if k % 50 else [random.randrange(2) for _ in state]


def bad_row(numbers, own, tiles):
    """Ground 12's place in a list of a block with these wires, or None."""
    seen = set()
    for i in range(506 * tiles):
        kind, wire, *rest = row = numbers[7 * i:7 * i + 7]
        if i >= len(own):
            if any(row):
                return i
            continue
        reads = {5: 1, 6: 4, 7: 3}.get(kind, 0)
        used = reads or int(kind == 4)
        fine = (1 <= kind <= 7 and wire in own and wire not in seen and all(o in seen for o in rest[:reads]) and (kind != 4 or rest[0] < 8 * tiles)
                and not any(rest[used:4]) and (kind == 6 or rest[4] == 0))
        if not fine:
            return i
        seen.add(wire)
    return None


def refusals(lib, rounds):
    """Ground 12 on damaged lists, ground 10 on bytes above 1; outputs kept, work room zeroed."""
    count = Count('lists and bytes damaged: grounds 12 and 10')
    w, h, east, table, bits = blocks()['counter8_1x1']
    settings, rows = model.read(w, h, table, bits), model.build(w, h, east, table, bits)
    own = set(model.Block(w, h, east, table, settings).wires)
    numbers = [number for row in rows for number in row] + [0] * (3542 - 7 * len(rows))

    for _ in range(rounds):
        changed = list(numbers)
        for _ in range(random.choice((1, 1, 2))):
            changed[random.choice((random.randrange(7 * len(rows)), random.randrange(3542)))] = random.choice((0, 1, 4, 5, 7, 8, 336, 489, random.randrange(65536)))
        lent = [[0] * 8, [0] * 506, [0] * 506]
        if random.random() < 0.5:
            changed = numbers
            part = random.choice(lent)
            part[random.randrange(len(part))] = random.choice((2, 255))
        place = bad_row(changed, own, 1)
        joined = sum(lent, [])
        over = [i for i, v in enumerate(joined) if v > 1]
        answer, values, new, outputs, clear = step(lib, w, h, east, table, settings, changed, *lent)
        if place is not None or over:
            expected = (12, place) if place is not None else (10, over[0])
            count.same((answer, values, new, clear), (expected, *outputs, True))
        else:
            count.same((answer, clear), ((0, 0), True))
    return count.done()


def other_wires(lib):
    """A list for one byte is none for the other where the two have other wires: ground 12 at the first row that is not right."""
    count = Count('lists of the other byte: ground 12')
    for name, (w, h, _, table, bits) in blocks().items():
        if w * h > 9:
            continue
        settings = model.read(w, h, table, bits)
        for east in EAST:
            rows = model.build(w, h, 1 - east, table, bits)
            if isinstance(rows, tuple):
                continue
            numbers = [number for row in rows for number in row]
            numbers += [0] * (3542 * w * h - len(numbers))
            place = bad_row(numbers, set(model.Block(w, h, east, table, settings).wires), w * h)
            count.same(place is None, h == 1, (name, 'with one row the byte changes nothing'))
            answer, values, new, outputs, clear = step(lib, w, h, east, table, settings, numbers, [0] * (8 * w * h), *[[0] * (506 * w * h)] * 2)
            if place is None:
                count.same((answer, clear), ((0, 0), True), (name, east))
            else:
                count.same((answer, values, new, clear), ((12, place), *outputs, True), (name, east))
    return count.done()


def bad_byte(lib):
    """Ground 1 at place 0 and nothing touched, whatever else is wrong."""
    count = Count('a byte for the east that is not 0 or 1: ground 1, nothing touched')
    w, h, _, table, bits = blocks()['counter8_2x2']
    slices = {'ice40_build': [(U16, table), (U64, bits)] + [(U16, [7] * k) for k in lent_build(4)],
              'ice40_follow': [(U16, table), (U16, [7] * 2380), 9, 999] + [(U16, [7] * 2024)] * 3,
              'ice40_step': [(U16, table), (U16, [7] * 2380), (U16, [7] * 14168), (U8, [7] * 32)] + [(U8, [7] * 2024)] * 3 + [(U8, [7] * 32)]
              + [(U16, [7] * 2024)] * 3 + [(U8, [7] * 2024)] * 2}
    for name, lent in slices.items():
        for east in (2, 3, 255, 256, 65536, 4294967295):
            for size in ((w, h), (9, 1), (0, 0)):
                for given in (lent, [(part[0], list(part[1])[1:]) if isinstance(part, tuple) else part for part in lent]):
                    answer, after = lib.call(name, *size, east, *given)
                    count.same((answer, after), ((1, 0), [list(part[1]) for part in given if isinstance(part, tuple)]), (name, size, east))
    return count.done()


def main():
    lib, steps = Library(), rounds_asked(1000)
    return run([(building, lib, steps // 5), (following, lib, steps // 2), (stepping, lib, steps), (refusals, lib, steps // 2),
                (other_wires, lib), (bad_byte, lib)], 2)


if __name__ == '__main__':
    sys.exit(main())
