#!/usr/bin/env python3
"""Compares what explain.py says of a report with the model of tests/model.py: the lines of a yes, what leads to a no, the exit status, and
which reports it refuses because they are not the input's.

    python3 tests/words.py            needs Python 3 alone
    python3 tests/words.py 20000      the same with so many damaged inputs (1,000 unless said)

It prints a line for each group of cases and ends with the number of differences.
"""
import os
import random
import re
import sys
import tempfile

sys.path.insert(0, os.path.dirname(os.path.abspath(__file__)))
import model  # noqa: E402
from bits_model import flipped  # noqa: E402
import report  # noqa: E402
import wire_numbers  # noqa: E402
from library import Count, blocks, rounds_asked  # noqa: E402
from library import run as run_all  # noqa: E402
from tools import CUTS, FLAGS, contents, data, run  # noqa: E402

import explain  # noqa: E402
import frames  # noqa: E402
import ice40  # noqa: E402
import tool  # noqa: E402
import trail  # noqa: E402

YES, NO, COULD_NOT = 0, 1, 2


# ---- the lines of a yes

def names_of(w, h, east, corner):
    """Every wire's names as explain prints them, from the wires of tests/wire_numbers.py."""
    all_names = {}
    for port, wire in enumerate(wire_numbers.wires(w, h, east)):
        t, q = divmod(port, wire_numbers.PORTS)
        all_names.setdefault(wire, []).append('(%d,%d) %s' % (corner[0] + t % w, corner[1] + t // w, ice40.NAMES[q]))
    return {wire: ports[0].split()[1] + ' of every tile' if 'glb_netwk' in ports[0] else ', '.join(ports)
            for wire, ports in all_names.items()}


def leaving(w, h, east):
    """The wires of a block that go on in the tiles around it: seen in a block that is larger by one tile on each side."""
    own, wide, ports = wire_numbers.wires(w, h, east), wire_numbers.wires(w + 2, h + 2, 0), wire_numbers.PORTS
    around = {wide[ports * (y * (w + 2) + x) + q] for y in range(h + 2) for x in range(w + 2) for q in range(ports)
              if x in (0, w + 1) or y in (0, h + 1)}
    return {own[ports * t + q] for t in range(w * h) for q in range(ports) if wide[ports * ((t // w + 1) * (w + 2) + t % w + 1) + q] in around}


def field_lines(w, corner, settings):
    for t in range(len(settings) // model.SETTINGS):
        for f, words in enumerate(('NegClk', 'CarryInSet', 'carry_in_mux <- carry_in')):
            if settings[model.SETTINGS * t + f]:
                yield '(%d,%d) %s' % (corner[0] + t % w, corner[1] + t // w, words)


def explained(w, h, east, corner, switches, cells, fields=()):
    """The lines that explain prints for a yes."""
    named, out = names_of(w, h, east, corner), leaving(w, h, east)
    for driven, source in switches:
        yield 'wire %d [%s] <- wire %d [%s]' % (driven, named[driven], source, named[source])
    yield from fields
    for t, i, lut, flags in cells:
        words = [word for k, word in enumerate(FLAGS) if flags >> k & 1]
        yield '(%d,%d) lutff_%d: table %04X, %s' % (corner[0] + t % w, corner[1] + t // w, i, lut, ', '.join(words) or 'no flags')
    n = sum(driven in out for driven, _ in switches)
    if n:
        yield ('%s the block: switches outside that end on %s are not looked at'
               % (('1 driven wire leaves', 'it') if n == 1 else ('%d driven wires leave' % n, 'them')))
    yield 'yes: %s, %s, %s in use' % ('1 tile' if w * h == 1 else '%d tiles' % (w * h), '1 enabled switch' if len(switches) == 1 else
                                      '%d enabled switches' % len(switches), '1 cell' if len(cells) == 1 else '%d cells' % len(cells))


# what explain shows of the refused blocks, beyond the place
TRAILS = {'latch_1x1': """each of these reads the next:
  wire 354 [(5,6) local_g2_2]
  wire 406 [(5,6) lutff_2/out]
  wire 382 [(5,6) lutff_2/in_2]
  wire 354 [(5,6) local_g2_2]
cells on it:
  (5,6) lutff_2: table B8B8, which ignores in_3
the tables on it use every input that it goes through
""", 'pwm_1x1': """each of these reads the next:
  wire 341 [(5,6) local_g0_5]
  wire 409 [(5,6) lutff_5/out]
  wire 394 [(5,6) lutff_5/in_2]
  wire 341 [(5,6) local_g0_5]
cells on it:
  (5,6) lutff_5: table 00FF, which ignores in_0, in_1, in_2
this loop is there by structure only: without the inputs that tables ignore, wire 341 does not depend on itself, and no other wire of the \
block does
""", 'ripplediv_loc_2x2': """from switch to switch, back to the cell:
  wire 476 [(5,6) lutff_global/clk] <- wire 345 [(5,6) local_g1_1] <- wire 57 [(5,6) sp4_h_r_9, (6,6) sp4_h_l_9, (6,6) sp4_h_r_20] <- \
wire 446 [(5,6) neigh_op_rgt_2, (6,6) lutff_2/out, (5,7) neigh_op_bnr_2, (6,7) neigh_op_bot_2]
"""}


def check_bundled():
    count = Count('reports of the bundled blocks: every line, exit status')
    for name, (w, h, east, table, bits) in blocks().items():
        text, switches, cells = model.report(w, h, east, table, bits)
        by_size = run('explain', w, h, '--corner', 5, 6, stdin=text)
        by_input = run('explain', '--input', data(name + '.in'), '--corner', 5, 6, stdin=text)
        if text.endswith('08000000\n'):
            fields = list(field_lines(w, (5, 6), model.read(w, h, table, bits)))
            count.same(by_size, (YES, '\n'.join(explained(w, h, east, (5, 6), switches, cells)) + '\n', ''), name)
            count.same(by_input, (YES, '\n'.join(explained(w, h, east, (5, 6), switches, cells, fields)) + '\n', ''), name)
        else:
            count.same((by_size[0], by_size[2]), (NO, ''), name)
            count.same(by_input, (NO, by_size[1] + TRAILS[name], ''), name)
    return count.done()


def check_east():
    """The bundled blocks once more, with a column to the east: wires of that column, some of which are driven, have one name a row."""
    count = Count('the same with a column to the east; the byte left out or 00')
    more = 0
    for name, (w, h, _, table, bits) in blocks().items():
        text, switches, cells = model.report(w, h, 1, table, bits)
        digits = '04%02X%02X' % (w, h)
        with_byte = contents(data(name + '.in')).replace(digits + '\n', digits + '01\n')
        status, words = told(text, with_byte)
        if text.endswith('08000000\n'):
            fields, size = list(field_lines(w, (0, 0), model.read(w, h, table, bits))), (w, h, 1, (0, 0))
            count.same((status, words), (YES, list(explained(*size, switches, cells, fields))), name)
            count.same(run('explain', w, h, '--east', 1, stdin=text), (YES, ''.join(line + '\n' for line in explained(*size, switches, cells)), ''), name)
            more += text != model.report(w, h, 0, table, bits)[0]
        else:
            count.same(status, NO, (name, words))
        for given in (contents(data(name + '.in')), with_byte.replace(digits + '01\n', digits + '00\n')):
            apart = model.report(w, h, 0, table, bits)[0]
            count.same(told(apart, given), told(apart, contents(data(name + '.in'))), (name, 'the byte 00 is one that is left out'))
            count.same(told(text, given)[0] == COULD_NOT, text != apart, (name, 'the report of the other byte'))
    count.same(more > 0, True, 'a report that the byte changes')
    return count.done()


def in_words(text, given):
    """Exit status and lines of explain for a report and its input, both texts, or COULD_NOT and the mistake."""
    scene = explain.Scene(None, 'the input', (0, 0))
    scene.text = given
    try:
        found = explain.Report(text)
        scene.check(found)
        if found.verdict[0]:
            return NO, list(explain.no_words(*found.verdict, scene))
        return YES, list(explain.yes_words(found, scene))
    except tool.Mistake as mistake:
        return COULD_NOT, [str(mistake)]


def told(text, given):
    """As in_words, by the tool itself: its exit status and what it prints."""
    with tempfile.TemporaryDirectory() as folder:
        path = os.path.join(folder, 'given.in')
        with open(path, 'w', newline='') as file:
            file.write(given)
        status, words, errors = run('explain', '--input', path, stdin=text)
    return status, (words or errors).splitlines()


def counted_blocks():
    """Blocks with one and with several of everything: lines, and the last line of explain for them."""
    flag = report.flag
    switch, plain = (336, [report.A], [(1, 404)]), report.lines_of
    yield plain([switch], [[]]), 'yes: 1 tile, 0 enabled switches, 0 cells in use'
    yield plain([switch], [[report.A, flag(0, 1)]]), 'yes: 1 tile, 1 enabled switch, 1 cell in use'
    yield plain([switch], [[report.A, flag(0, 1), flag(1, 1)], [report.A, flag(0, 1)]], 2, 1), 'yes: 2 tiles, 2 enabled switches, 3 cells in use'


def check_yes():
    count = Count('a yes: fields that a report hides, wires that leave, counts')
    for fields, words in (((), []), ((0,), ['(0,0) NegClk']), ((1,), ['(0,0) CarryInSet']), ((2,), ['(0,0) carry_in_mux <- carry_in']),
                          ((0, 1), ['(0,0) NegClk', '(0,0) CarryInSet']), ((0, 2), ['(0,0) NegClk', '(0,0) carry_in_mux <- carry_in'])):
        lines = report.whole(report.lines_of([], [[report.FIELDS[f] for f in fields]]))
        count.same(told(model.report_of(lines), lines.decode())[1][:-1], words, fields)
    for lines, words in counted_blocks():
        lines = report.whole(lines)
        count.same(told(model.report_of(lines), lines.decode())[1][-1], words)
    for w, h in ((1, 1), (1, 3), (2, 2), (3, 1), (3, 3), (8, 8)):
        for east in (0, 1):
            spans = {wire for wire in leaving(w, h, east) if wire % 506 < 336}
            count.same(ice40.Block(w, h, east=east).leaving, spans, (w, h, east))
    return count.done()


def check_two_blocks():
    """Two switches that end on one span-12 wire, nine tiles apart: a fight on the chip, a yes for every block that has one of them. What
    explain says of each is that a driven wire leaves."""
    count = Count('a fight across blocks: each yes says that a driven wire leaves')
    table = model.parse(contents(data('1k.tab')))[3]
    wires = wire_numbers.wires(10, 1, 0)

    def switch_to(t):
        """The first group and entry of tile t that drive a name of the wire that sp12_h_r_2 of tile 0 is on, from a cell's output."""
        for g, group in enumerate(model.groups_of(table)):
            if wires[506 * t + group.destination] == wires[wire_numbers.BASE['sp12_h_r'] + 2]:
                for e, (_, source) in enumerate(group.entries):
                    if 404 <= source < 412:
                        return g, e + 1
        return None

    far = [t for t in range(8, 10) if switch_to(t)]
    count.same(bool(switch_to(0) and far), True, 'two switches that can drive one wire')
    tiles = []
    for t in (0, far[0]):
        g, e = switch_to(t)
        settings = [0] * model.SETTINGS
        settings[67 + g] = e
        settings[580] = 2
        tiles.append(model.encode(table, settings))
        block = contents(data('1k.tab')) + '040101\n' + model.tile_frames(tiles[-1])
        status, words = told(model.report_of(block.encode()), block)
        count.same((status, words[-2]), (YES, '1 driven wire leaves the block: switches outside that end on it are not looked at'), t)
    row = [tiles[0]] + [[0] * model.WORDS] * (far[0] - 1) + [tiles[1]]
    whole = model.Block(far[0] + 1, 1, 0, table, [n for tile in row for n in model.decode(table, tile)])
    count.same(whole.contended, {wires[wire_numbers.BASE['sp12_h_r'] + 2]}, 'one wire, two switches, in a row that no block can have')
    return count.done()


def extents(w, h, spans):
    """How many columns and rows the wires of some spans lie in, of those that stay off the rim of a block."""
    tiles, wires = {}, wire_numbers.wires(w, h, 0)
    for t in range(w * h):
        for name, count in wire_numbers.RANGES:
            if name in spans:
                for k in range(count):
                    tiles.setdefault(wires[wire_numbers.PORTS * t + wire_numbers.BASE[name] + k], set()).add((t % w, t // w))
    inner = [wire for wire in tiles.values() if not any(x in (0, w - 1) and w > 2 or y in (0, h - 1) and h > 2 for x, y in wire)]
    return {tuple(max(at[d] for at in wire) - min(at[d] for at in wire) + 1 for d in (0, 1)) for wire in inner}


def check_lengths():
    """What README says of blocks that overlap rests on these."""
    count = Count('span-4 wires lie in five tiles, span-12 wires in thirteen')
    count.same(extents(30, 1, ('sp4_h_l', 'sp4_h_r')), {(5, 1)})
    count.same(extents(1, 30, ('sp4_v_b', 'sp4_v_t')), {(1, 5)})
    count.same(extents(12, 12, ('sp4_v_b', 'sp4_v_t', 'sp4_r_v_b')), {(2, 5)})  # the column to the west sees them too
    count.same(extents(30, 1, ('sp12_h_l', 'sp12_h_r')), {(13, 1)})
    count.same(extents(1, 30, ('sp12_v_b', 'sp12_v_t')), {(1, 13)})
    return count.done()


# ---- a no

# a report's line 08 for a block of 2 by 2, and what explain says of its place
NOES = [('08010000', 'W or H is not 1 to 8'), ('08030000', 'the fields, line 1'), ('08030001', 'the passive list, line 2'),
        ('08030002', 'group 0, line 3'), ('08040AAE', 'B2[34] of tile (6,7), position 142 of tile 3'), ('080501BC', 'wire 444 [(5,6) neigh_op_rgt_0, (6,6) lutff_0/out, '),
        ('080601EA', 'wire 490 [(5,6) lutff_1/cout]'), ('08070162', 'wire 354 [(5,6) local_g2_2]'), ('08080001', 'tile 1, (6,6)'),
        ('080B0203', 'line 515'), ('08020000', 'a lent length'), ('08090001', 'tile 1, (6,6)'), ('080A0005', 'at index 5 '), ('080C0007', 'row 7,'),
        ('080D0003', 'line 3'), ('080E0000', 'sizes'), ('080F0009', 'needed: 9'), ('08100004', 'line 4'), ('081401FA', 'the number is 506')]


def check_noes():
    count = Count('a no of each ground in words, exit status 1')
    for line, words in NOES:
        status, text, errors = run('explain', 2, 2, '--corner', 5, 6, stdin=line + '\n')
        number, place = int(line[2:4], 16), int(line[4:], 16)
        count.same((status, text.startswith('no, ground %d, place %d (' % (number, place)), words in text, errors), (NO, True, True, ''), line)
    return count.done()


FIRST = '01000000680067\n'
# an input that is refused by a line, that line, and what explain shows of it
LINES = [('', 1, 'missing'), (FIRST, 2, 'missing'), (FIRST + '0200', 2, "'0200', without a line end"), ('01\r\n02\n', 1, "'01\\r'\n"), (FIRST + '\n', 2, "''\n"),
         (FIRST + '0200\n04010102\n', 3, "'04010102'\n"), (FIRST + '0200\n04FFFF02\n', 3, "'04FFFF02'\n"), (FIRST + '0200\n04FFFF', 3, "'04FFFF', without"),
         ('\xff\n', 1, 'xff'), ('0' * 3000000, 1, "'000"), (FIRST + '0200\n040101\n' + '05' + '0' * 216 + '\n' + 'x' * 2000000, 5, "'xxx")]


def check_lines():
    count = Count('the line that an input is refused by')
    with tempfile.TemporaryDirectory() as folder:
        path = os.path.join(folder, 'refused.in')
        for text, line, words in LINES:
            with open(path, 'w', encoding='latin-1', newline='') as file:
                file.write(text)
            count.same(model.report_of(text.encode('latin-1')), '080B%04X\n' % line, 'the model')
            status, shown, errors = run('explain', '--input', path, stdin='080B%04X\n' % line)
            count.same((status, 'it is line %d\n' % line in shown, words in shown, errors), (NO, True, True, ''), repr(text)[:60])
    return count.done()


def faulty(w, h, table, bits):
    """A block with some switches, tables, flags and bits changed at random, so that it is refused more often than not."""
    settings = model.read(w, h, table, bits)
    for _ in range(random.choice((1, 3, 30))):
        at = model.SETTINGS * random.randrange(w * h)
        g = random.randrange(table[68])
        settings[at + 67 + g] = random.randint(0, table[69 + 75 * g + 10])
        settings[at + 580 + 2 * random.randrange(8)] |= random.choice((0, 2, 10))
        settings[at + 579 + 2 * random.randrange(8)] = random.choice((0, 0x00FF, 0xF0F0, 0xAAAA, 0x6666, 0xCAFE))
    if random.random() < 0.2:
        settings[580 + 2 * random.randrange(8)] |= 1
    bits = [row for t in range(w * h) for row in model.encode(table, settings[model.SETTINGS * t:model.SETTINGS * t + model.SETTINGS])]
    return flipped(bits, [random.randrange(864 * w * h)] * (random.random() < 0.2))


def is_faults(table, tile, place, lines):
    """Whether the words for a no of ground 4 name the bits at fault that the model finds in the tile, the place's first, and what claims them."""
    shown = [ice40.position_at(line.split(':')[0]) for line in lines[1:]]
    if shown != sorted(model.decode(table, tile)) or shown[0] != place % 864:
        return False
    for p, line in zip(shown, lines[1:]):
        group = next((g for g, group in enumerate(model.groups_of(table)) if p == group.positions[0]), None)
        if group is None:
            words = 'CarryInSet' if p == table[1] else 'set, and nothing claims it'
        else:
            found = model.group_at(table, group)
            pattern = sum(model.bit(tile, q) << k for k, q in enumerate(found.positions))
            words = 'group %d, line %d of the input, destination %s: it does not list pattern %02X' % (group, group + 3, ice40.NAMES[found.destination], pattern)
        if words not in line:
            return False
    return True


def carry_reader_count(block, wire):
    chains = [t for t in range(block.tiles) if block.field(t, 2) and block.at(t, 487) == wire]
    carries = [(t, i) for t in range(block.tiles) for i in range(1, 8) if block.flag(t, i, 0) and block.at(t, 489 + i - 1) == wire]
    return len([source for _, source, _, _ in block.switches if source == wire] + chains + carries)


def used(lut, j):
    """Whether input j of a lookup matters: some other inputs are there for which it changes the table's bit."""
    return any((lut >> (k | 1 << j) ^ lut >> (k & ~(1 << j))) & 1 for k in range(16))


def live_reads(block, wire):
    """What a wire's row reads, without the inputs that its table ignores."""
    row = block.row(wire)
    return [operand for j, operand in enumerate(block.reads(row)) if row[0] != 6 or used(row[6], j)]


def lowest_live(block):
    """The lowest wire that depends on itself without ignored inputs, or None."""
    reads = {wire: live_reads(block, wire) for wire in block.wires}
    return next((wire for wire in block.wires if model.depends(reads.get, wire)), None)


def is_loop(block, w, place, lines):
    """Whether the words for a loop say what the model's block, w tiles wide, has: a chain, its cells with their tables, and whether tables
    break it."""
    cells_at = lines.index('cells on it:') if 'cells on it:' in lines else len(lines) - 1
    loop = [int(wire) for line in lines[1:cells_at] for wire in re.findall(r'^  wire (\d+) \[', line)]
    live = model.depends(lambda wire: live_reads(block, wire), place)
    reads = live_reads if live else lambda block, wire: block.reads(block.row(wire))
    if not (lines[0] == 'each of these reads the next:' and loop[0] == loop[-1] == place and len(loop) > 1
            and all(b in reads(block, a) for a, b in zip(loop, loop[1:]))):
        return False
    cells = {block.cells[wire][1:] for wire in loop if wire not in block.source and block.cells.get(wire, ('',))[0] in ('out', 'lout', 'cout')}
    shown = {(int(y) * w + int(x), int(i), int(lut, 16), tuple(int(j) for j in re.findall(r'in_(\d)', rest))) for line in lines[cells_at + 1:-1]
             for x, y, i, lut, rest in re.findall(r'^  \((\d+),(\d+)\) lutff_(\d): table (....), which ignores (.*)$', line)}
    if shown != {(t, i, block.lut(t, i), tuple(j for j in range(4) if not used(block.lut(t, i), j))) for t, i in cells}:
        return False
    if live:
        return lines[-1] == ('the tables on it use every input that it goes through' if cells else 'it has no cell')
    lowest = lowest_live(block)
    rest = 'no other wire of the block does' if lowest is None else 'the lowest wire that does is wire %d [' % lowest
    return 'by structure only' in lines[-1] and ('wire %d does not depend on itself, and %s' % (place, rest)) in lines[-1]


def is_trail(block, place, ground, lines):
    """Whether the words for a no of ground 5, 6 or 8 say what the model's block has."""
    ways = [[int(wire) for wire in re.findall(r'wire (\d+) \[', line)] for line in lines[1:]]
    if ground == 5:
        return len(lines) - 1 == sum(driven == place for driven, _, _, _ in block.switches) > 1
    if ground == 6:
        return len(lines) - 1 == carry_reader_count(block, place) > 0
    ends = {block.at(place, q) for q in (476, 478)}
    return bool(ways) and all(way[0] in ends and block.follow(way[0]) == (4, way[-1]) for way in ways) and all(
        block.source[a] == b for way in ways for a, b in zip(way, way[1:]))


def tile_numbers(bits):
    """A block's tiles as the tools hold them: position p at weight 2^p."""
    return [sum(row << 54 * r for r, row in enumerate(bits[at:at + model.WORDS])) for at in range(0, len(bits), model.WORDS)]


def check_reads(rounds):
    count = Count("what each wire's equation reads, with and without ignored inputs")
    table, sound = frames.read_table(data('1k.tab')), [blocks()[name] for name in CUTS]
    for _ in range(rounds):
        w, h, _, lent, bits = random.choice(sound)
        bits, east = faulty(w, h, lent, bits), random.randrange(2)
        settings = model.read(w, h, lent, bits)
        if isinstance(settings, tuple) or model.Block(w, h, east, lent, settings).contended:
            continue
        block, found = model.Block(w, h, east, lent, settings), trail.Trail(ice40.Block(w, h, east=east), table, tile_numbers(bits))
        for wire in block.wires:
            count.same(found.reads(wire), block.reads(block.row(wire)), (wire, block.row(wire)))
            count.same(found.reads(wire, live=True), live_reads(block, wire), (wire, block.row(wire)))
    return count.done()


def frames_of(w, h, east, table, bits):
    """A block as an input, with a table's text."""
    return table + '04%02X%02X%s\n' % (w, h, '01' * east) + model.tile_frames(bits)


def check_trails(rounds):
    counts = {ground: Count('what leads to a no, ground %d' % ground) for ground in (4, 5, 6, 7, 8)}
    table = contents(data('1k.tab'))
    sound = [block for block in (blocks()[name] for name in list(CUTS) + ['pwm_1x1']) if block[1] <= 3]
    for _ in range(rounds):
        w, h, _, lent, bits = random.choice(sound)
        bits, east = faulty(w, h, lent, bits), random.randrange(2)
        answer = model.build(w, h, east, lent, bits)
        if not isinstance(answer, tuple):
            continue
        ground, place = answer
        given = frames_of(w, h, east, table, bits)
        status, lines = in_words(model.report_of(given.encode()), given)
        counts[ground].same(status, NO, lines)
        if ground == 4:
            at = model.WORDS * (place // 864)
            counts[ground].same(is_faults(lent, bits[at:at + model.WORDS], place, [line.strip() for line in lines[2:]]), True, (place, lines))
            continue
        block = model.Block(w, h, east, lent, model.read(w, h, lent, bits))
        right = is_loop(block, w, place, lines[2:]) if ground == 7 else is_trail(block, place, ground, lines[2:])
        counts[ground].same(right, True, (answer, lines))
    return sum(count.done() for count in counts.values())


def looped(luts):
    """One tile in which cells read each other in a ring through in_0, by their own local tracks, with these tables."""
    groups = [(336 + i, [report.FREE[2 * i]], [(1, 404 + (i + 1) % len(luts))]) for i in range(len(luts))]
    groups += [(372 + 4 * i, [report.FREE[2 * i + 1]], [(1, 336 + i)]) for i in range(len(luts))]
    bits = [p for _, positions, _ in groups for p in positions]
    bits += [model.CELL_BITS[i][j] for i, lut in enumerate(luts) for j in range(16) if lut >> j & 1]
    return report.whole(report.lines_of(groups, [bits])).decode()


def check_structure():
    count = Count('loops by structure only, and those that tables do not break')
    for luts in ((0x00FF,), (0x5555,), (0xF0F0, 0xAAAA), (0x6996, 0xAAAA), (0x6996, 0xCAFE, 0x8000), (0xFFFF,), (0x0000, 0xAAAA), (0xCCCC, 0x3333)):
        given = looped(luts)
        text = model.report_of(given.encode())
        count.same(text[:4], '0807', luts)
        status, lines = told(text, given)
        broken = [lut for lut in luts if not used(lut, 0)]
        count.same((status, 'by structure only' in lines[-1]), (NO, bool(broken)), (luts, lines[-1]))
        for i, lut in enumerate(luts):
            ignored = ', '.join('in_%d' % j for j in range(4) if not used(lut, j)) or 'no input'
            count.same('  (0,0) lutff_%d: table %04X, which ignores %s' % (i, lut, ignored) in lines, True, (luts, i))
        w, h, east, table, bits = model.parse(given)
        count.same(is_loop(model.Block(w, h, east, table, model.read(w, h, table, bits)), w, int(text[4:8], 16), lines[2:]), True, luts)
    return count.done()


# ---- reports that are not the input's

def changed_reports(text):
    """A report's lines with one change each, none of which is a report of the same input."""
    lines = text.splitlines()
    for k in range(len(lines)):
        yield lines[:k] + lines[k + 1:]
        yield lines[:k] + [lines[k]] * 2 + lines[k + 1:]
        if k:
            yield lines[:k - 1] + [lines[k], lines[k - 1]] + lines[k + 1:]
        yield lines[:k] + [lines[k][:-1] + ('1' if lines[k][-1] != '1' else '2')] + lines[k + 1:]
    for extra in ('08000000', '08070162', '0600000001', '070000000102', ''):
        yield lines + [extra]
    yield lines[:-1] + ['08070163']
    yield ['08070163'] + lines
    yield []


def check_refused():
    """By the tool itself: reports that are no one's, and the report of one block with the input of another."""
    count = Count('no report, or that of another block: exit status 2, one line')
    for given in ('08070162\n08000000\n', '08000000\n08000000\n', '08000000\n0600000001\n', '0600010001\n0600000001\n08000000\n', '08000001\n',
                  '070008000102\n08000000\n', '070000000010\n08000000\n', '0600000001\n08070162\n', '08110000\n', '08FF0000\n', '08000000\n\n'):
        status, words, errors = run('explain', 3, 3, stdin=given)
        count.same((status, words, errors.count('\n')), (COULD_NOT, '', 1), given)
    for given, other in (('latch_1x1', 'counter8_1x1'), ('counter8_1x1', 'latch_1x1'), ('counter8_2x2', 'shift_arst_2x2')):
        status, words, errors = run('explain', '--input', data(given + '.in'), stdin=model.report_of(contents(data(other + '.in')).encode()))
        count.same((status, words, "is not this input's" in errors), (COULD_NOT, '', True), (given, other))
    return count.done()


def check_strangers():
    count = Count("reports that are not the input's: exit status 2, no words")
    texts = {name: contents(data(name + '.in')) for name in blocks()}
    reports = {name: model.report_of(text.encode()) for name, text in texts.items()}
    for name, text in texts.items():
        for other, found in reports.items():
            status, words = in_words(found, text)
            count.same(status != COULD_NOT, found == reports[name], (name, other, words))
        for lines in changed_reports(reports[name]):
            count.same(in_words(''.join(line + '\n' for line in lines), text)[0], COULD_NOT, (name, lines[-3:]))
    return count.done()


def check_verdicts(rounds):
    """Each damaged input with its own report, and with one that says something else."""
    count = Count("damaged inputs: their own report is taken, another's is not")
    for given in report.damaged_inputs(rounds):
        text = model.report_of(given)
        shown = given.decode('ascii', errors='backslashreplace')
        count.same(in_words(text, shown)[0], NO if text[2:4] != '00' and len(text) == 9 else YES, (text, given[:60]))
        other = random.choice([line for line in ('08000000\n', '080B0001\n', '08070150\n', '08010000\n', '08030002\n', '08040000\n') if line != text])
        beyond = other == '08010000\n' and frames.Input(shown).size not in ((), *[(w, h) for w in (1, 2, 3) for h in (1, 2, 3)])
        if not beyond:
            count.same(in_words(other, shown)[0], COULD_NOT, (text, other))
    return count.done()


def main():
    return run_all([(check_bundled,), (check_east,), (check_yes,), (check_two_blocks,), (check_lengths,), (check_noes,), (check_lines,), (check_reads, 20), (check_trails, 400),
                    (check_structure,), (check_refused,), (check_strangers,), (check_verdicts, rounds_asked(1000))], 1)


if __name__ == '__main__':
    sys.exit(main())
