#!/usr/bin/env python3
"""Turns a report (frames 06, 07 and 08) into words, with IceStorm's names for its wires.

    explain.py W H [--east 1] [REPORT]          from the block's size, and whether the column to the east is logic or RAM
    explain.py --input block.frames [REPORT]    from the report's own input: also shows what leads to a no and which fields a yes
                                                has set (NegClk, CarryInSet), and refuses the report of another input

REPORT is a file, or standard input where it is left out. With --corner X Y, the chip's coordinates of tile 0, names are those of the
chip. Exit status: 0 the report says yes, 1 it says no, 2 it could not be told.
"""
import functools

from frames import Cursor, Input, lines_of
from ice40 import CELLS, FLAGS, POSITIONS, PROGRAM_LIMIT, Block, position_name, table_and_flags
from rules import broken_rules, undecodable
from tool import Mistake, add_east, counted, file_name, number, parser_for, run, start_of, text_of
from trail import Trail, verdict

YES, NO = 0, 1  # exit status
# each ground for a no in words, and what its place is (document 01, 'Grounds for a no', and 02); include/ice40.h has the same words
GROUNDS = {
    1: ('W or H is not 1 to 8, or not 1 to 3 for the programs, or the byte for the column to the east is not 0 or 1', None),
    2: ('a lent length differs from the exact one', None),
    3: ('the routing table breaks a rule', 'part'),
    4: ("a tile cannot be decoded: a group's bits are a pattern that the table does not list, a bit is set that nothing claims or past the 54 columns of its row, "
        'or CarryInSet is set together with the switch from carry_in', 'position'),
    5: ('a fight: two enabled switches end on one wire', 'wire'),
    6: ('a disabled carry output is read: by an enabled switch, by the chain or by the next enabled carry', 'wire'),
    7: ('a loop: a wire depends on itself', 'wire'),
    8: ('the clock of a tile with a flip-flop, or the set/reset of one with an asynchronous flip-flop, comes from a cell', 'tile'),
    9: ('settings that no bits have', 'tile'),
    10: ('a byte of the state, of lent or of settled values is above 1', 'index'),
    11: ('a line of the input is malformed, out of turn, missing or extra', 'line'),
    12: ('a row of the list breaks a rule', 'row'),
    13: ('a line of an .asc file is malformed, out of turn, missing or given twice', 'line'),
    14: ('the sizes of two blocks differ', None),
    15: ('the lent list is too short', 'count'),
    16: ('a change to a wire that is not open, or two changes to one wire', 'line'),
    20: ('a port, tile or lookup input is out of range', 'number'),
}


class Report:
    """The frames of a report: switches (driven wire, source wire), cells (tile, cell, table, flags), ground and place."""

    def __init__(self, text):
        self.switches, self.cells, self.verdict = [], [], None
        for at, (line, _) in enumerate(lines_of(text), 1):
            try:
                self.add(Cursor(line))
            except Mistake as mistake:
                raise Mistake('line %d of the report: %s' % (at, mistake)) from None
        if self.verdict is None:
            raise Mistake('the report has no line 08: it is not whole')

    def add(self, cursor):
        kind = cursor.byte()
        if self.verdict is not None:
            raise Mistake('a line after the line 08, which is the last')
        if kind == 6:
            self.add_switch((cursor.word(), cursor.word()))
        elif kind == 7:
            self.add_cell((cursor.byte(), cursor.byte(), cursor.word(), cursor.byte()))
        elif kind == 8:
            self.add_verdict((cursor.byte(), cursor.word()))
        else:
            raise Mistake('no frame of a report')
        cursor.end()

    def add_switch(self, switch):
        if self.cells or self.switches and switch[0] <= self.switches[-1][0]:
            raise Mistake('out of turn: lines 06 come first, rising by the driven wire')
        self.switches.append(switch)

    def add_cell(self, cell):
        if self.cells and cell[:2] <= self.cells[-1][:2]:
            raise Mistake('out of turn: lines 07 rise by tile and cell')
        if cell[1] >= CELLS or cell[3] >= 1 << len(FLAGS) or not (cell[2] or cell[3]):
            raise Mistake('no cell in use')
        self.cells.append(cell)

    def add_verdict(self, verdict):
        if verdict[0] and (self.switches or self.cells):
            raise Mistake('a no has no lines before it')
        if verdict[0] not in GROUNDS and verdict != (0, 0):
            raise Mistake('%d is no ground for a no' % verdict[0] if verdict[0] else 'a yes has place 0')
        self.verdict = verdict


class Scene:
    """What is known beside a report: the size with the byte for the column to the east, or the report's input. Both are looked at only
    where the report needs them, as an input that was refused may have no size, or none that there are blocks of."""

    def __init__(self, size, path, corner, east=0):
        self.size, self.path, self.corner, self.east = size, path, corner, east

    @functools.cached_property
    def text(self):
        return start_of(self.path)

    @functools.cached_property
    def input(self):
        return Input(self.text)

    @functools.cached_property
    def block(self):
        if self.path:
            return Block(*self.input.size, self.corner, self.input.east)
        return Block(*self.size, self.corner, self.east)

    @functools.cached_property
    def trail(self):
        return Trail(self.block, self.input.table, self.input.tiles)

    def line(self, place):
        """A line of the input as it stands, cut short, with what cannot be seen written out."""
        lines = lines_of(self.text)
        if place > len(lines):
            return 'missing: the input ends before it'
        line, ended = lines[place - 1]
        return ascii(line[:60]) + ' ..' * (len(line) > 60) + ', without a line end' * (not ended)

    def verdicts(self):
        """The answers that the input can have: the programs refuse blocks that the library takes."""
        given = self.input
        if given.size and max(given.size) > PROGRAM_LIMIT or given.refused_size():
            yield 1, 0
        if given.fault:
            yield 11, given.fault[0]
        elif not given.refused_size():
            yield verdict(self.block, given.table, given.tiles)

    def check(self, report):
        """Refuses the report of another input."""
        found = list(self.verdicts())
        if report.verdict not in found:
            words = ' or '.join('no, ground %d, place %d' % each if each[0] else 'yes' for each in found)
            raise Mistake("the report is not this input's: it says %s, where %s gives %s" % (
                'no, ground %d, place %d' % report.verdict if report.verdict[0] else 'yes', file_name(self.path), words))
        if not report.verdict[0] and (report.switches, report.cells) != (self.trail.switch_wires(), self.trail.cells()):
            raise Mistake("the report is not this input's: the switches or cells of %s are others" % file_name(self.path))


# ---- a no

PLACES = {'index': 'it is at index %d of state, before and after, joined', 'line': 'it is line %d', 'row': 'it is row %d, from 0',
          'count': 'so many are needed: %d', 'number': 'the number is %d'}


def part_words(part):
    """A part of the routing table, with the line it has in an input."""
    if part < 2:
        return ['the fields, line 1 of the input', 'the passive list, line 2 of the input'][part]
    return 'more than 512 groups' if part == 514 else 'group %d, line %d of the input' % (part - 2, part + 1)


def place_words(what, place, scene):
    if what == 'part':
        return 'it is ' + part_words(place)
    if what == 'tile':
        return 'the lowest such tile is tile %d, %s' % (place, scene.block.tile_name(place))
    if what == 'position':
        tile, position = divmod(place, POSITIONS)
        return 'the lowest such bit is %s of tile %s, position %d of tile %d' % (position_name(position), scene.block.tile_name(tile), position, tile)
    if what == 'wire':
        return 'the lowest such wire is ' + scene.block.wire_name(place)
    return PLACES[what] % place


def loop_words(place, scene):
    way, cells, words = scene.trail.loop(place)
    return ['each of these reads the next:'] + ['  ' + wire for wire in way] + ['cells on it:'] * bool(cells) + ['  ' + cell for cell in cells] + [words]


def fault_words(place, scene):
    """The bits at fault in a tile, with what claims them; the first is the report's."""
    return ['%s: %s' % (position_name(p), words) for p, words in undecodable(scene.input.table, scene.input.tiles[place // POSITIONS])]


def trail_words(ground, place, scene):
    """What leads to a no, where the input shows any of it."""
    if ground == 7:
        return loop_words(place, scene)
    head, lines = {
        3: ('it breaks these rules:', lambda: [words for part, words in broken_rules(scene.input.table) if part == place]),
        4: ('in that tile:', lambda: fault_words(place, scene)),
        5: ('it is driven by:', lambda: scene.trail.fight(place)),
        6: ('it is read by:', lambda: scene.trail.carry_readers(place)),
        8: ('from switch to switch, back to the cell:', lambda: scene.trail.clocks(place)),
        11: ('the line is:', lambda: [scene.line(place)]),
    }.get(ground, ('', list))
    return [head] * bool(head) + ['  ' + line for line in lines()]


def no_words(ground, place, scene):
    words, what = GROUNDS[ground]
    yield 'no, ground %d, place %d (%04X hex): %s' % (ground, place, place, words)
    if what:
        yield place_words(what, place, scene)
    if scene.path:
        yield from trail_words(ground, place, scene)


# ---- a yes

def cell_words(block, cell):
    tile, i, *numbers = cell
    return '%s lutff_%d: %s' % (block.tile_name(tile), i, table_and_flags(*numbers))


def yes_words(report, scene):
    block = scene.block
    for driven, source in report.switches:
        yield '%s <- %s' % (block.wire_name(driven), block.wire_name(source))
    yield from scene.trail.field_words() if scene.path else ()
    for cell in report.cells:
        yield cell_words(block, cell)
    leaving = sum(driven in block.leaving for driven, _ in report.switches)
    if leaving:
        yield '%s leave%s the block: switches outside that end on %s are not looked at' % (
            counted(leaving, 'driven wire'), 's' * (leaving == 1), 'it' if leaving == 1 else 'them')
    yield 'yes: %s, %s, %s in use' % (
        counted(block.w * block.h, 'tile'), counted(len(report.switches), 'enabled switch', 'es'), counted(len(report.cells), 'cell'))


def main():
    parser = parser_for(__doc__,
                                     usage='%(prog)s [options] [W H] [REPORT]')
    parser.add_argument('words', nargs='*', metavar='W H REPORT')
    parser.add_argument('--input', metavar='FILE', help="the report's input; W and H are left out then")
    parser.add_argument('--corner', nargs=2, type=number, default=(0, 0), metavar=('X', 'Y'), help="the chip's coordinates of tile 0")
    add_east(parser, '1 where the column to the east of the block is logic or RAM, else 0; 0 unless said, and left out with --input, which has it')
    arguments = parser.parse_args()
    words, size = arguments.words, None
    if arguments.input and arguments.east is not None:
        parser.error('--east goes with W H; the input has its own byte')
    if not arguments.input:
        if len(words) < 2:
            parser.error('give the size, W H, or --input FILE')
        size, words = (number(words[0]), number(words[1])), words[2:]
    if len(words) > 1:
        parser.error('one report at a time')
    report = Report(text_of(words[0] if words else '-', 'a report'))
    scene = Scene(size, arguments.input, arguments.corner, arguments.east or 0)
    if scene.path:
        scene.check(report)
    if report.verdict[0]:
        return no_words(*report.verdict, scene), NO
    return yes_words(report, scene), YES


if __name__ == '__main__':
    run(main)
