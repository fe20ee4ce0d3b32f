#!/usr/bin/env python3
"""Lists the fights of a block: each wire on which two or more enabled switches end, with its names and these switches.

    fights.py block.frames                          frames: a whole input of the report program, of up to 8 by 8 tiles
    fights.py design.asc 5 6 2 2 --table 1k.tab     an IceStorm .asc file: X and Y of the block's south-west tile, W and H, the routing table

A switch is shown with its group, tile, destination and source, and the bits that are set for it. A file may be - for standard input.

The proved library lists them where it is built (`make lib`), else Python does; a note says which. Names and bits are Python's, and where the
two disagree the tool says so. Exit status: 0 no wire fights, 1 some do, 2 it could not be told, as for a block that cannot be decoded.
"""
from itertools import groupby

import proved
from asc_to_frames import LONGEST, check_device, east_of, read_block
from frames import Input, read_table
from ice40 import NAMES, Block, check_size
from rules import check_table, check_tile, pattern_of, set_names
from tool import Mistake, about, add_east, bytes_of, counted, file_name, note, number, parser_for, run, text_of

NONE, SOME = 0, 1  # exit status


class Scene:
    """A block with its routing table and its tiles, each one number with position p at weight 2^p."""

    def __init__(self, block, table, tiles):
        self.block, self.table, self.tiles = block, table, tiles

    def check(self):
        """Refuses a table that breaks a rule and tiles that cannot be decoded: what is enabled is not known then."""
        check_table(self.table)
        for t, tile in enumerate(self.tiles):
            check_tile(self.table, tile, self.block.tile_name(t))

    def switches(self):
        """Each enabled switch: driven wire, tile, group."""
        for t, tile in enumerate(self.tiles):
            for g, group in enumerate(self.table.groups):
                if pattern_of(group, tile):
                    yield self.block.wire[len(NAMES) * t + group.destination], t, g

    def fights(self):
        """The switches on wires that have two or more, rising."""
        every = sorted(self.switches())
        return [row for _, rows in groupby(every, lambda row: row[0]) for row in several(list(rows))]

    def proved_fights(self, library):
        """The same by the library."""
        return proved.asked(library.contentions, self.block.w, self.block.h, self.block.east, proved.table_numbers(self.table), self.tiles)

    def switch_words(self, t, g):
        group, tile = self.table.groups[g], self.tiles[t]
        source = dict(group.entries)[pattern_of(group, tile)]
        bits = set_names(tile, group.positions)
        return 'group %d: %s %s <- %s, bit%s %s' % (g, self.block.tile_name(t), NAMES[group.destination], NAMES[source], 's' * (' ' in bits), bits)


def several(rows):
    return rows if len(rows) > 1 else []


def words(scene, rows):
    for wire, fighting in groupby(rows, lambda row: row[0]):
        fighting = list(fighting)
        yield '%s: %d enabled switches end on it' % (scene.block.wire_name(wire), len(fighting))
        for _, t, g in fighting:
            yield '  ' + scene.switch_words(t, g)
    wires = len({row[0] for row in rows})
    tiles = counted(scene.block.w * scene.block.h, 'tile')
    if rows:
        yield '%s of %s fight%s, with %d switches' % (counted(wires, 'wire'), tiles, 's' * (wires == 1), len(rows))
    else:
        yield 'no wire of %s fights: %s' % (tiles, counted(sum(1 for _ in scene.switches()), 'enabled switch', 'es'))


def from_frames(path, corner):
    given = Input(text_of(path, 'frames'))
    if given.fault:
        raise Mistake('%s, line %d: %s' % (file_name(path), *given.fault))
    return Scene(Block(*given.size, corner, given.east), given.table, given.tiles)


def from_design(path, corner, size, table, device, told):
    """A block of an .asc file; `told` is what the user says of the column to the east."""
    check_size(*size)
    table = read_table(table)
    with about(path):
        text = bytes_of(path, LONGEST, "a text file of IceStorm's")
        found, tiles, reader = read_block(text, corner, *size)
        check_device(found, table, device)
    note('%s was read by %s' % (file_name(path), reader))
    east, column = east_of(found, corner[0] + size[0], told)
    note(column)
    return Scene(Block(*size, corner, east), table, [int.from_bytes(tile, 'little') for tile in tiles])


def main():
    parser = parser_for(__doc__,
                                     usage='%(prog)s [options] FRAMES | DESIGN.asc X Y W H --table FILE')
    parser.add_argument('file', metavar='FRAMES or DESIGN.asc')
    parser.add_argument('numbers', nargs='*', type=number, metavar='X Y W H', help='of an .asc file: the south-west tile and the size')
    parser.add_argument('--table', metavar='FILE', help='the routing table, for an .asc file')
    parser.add_argument('--device', metavar='NAME', help='the device that the table is for, as .device has it, whatever its passive list is')
    add_east(parser, '1 where the column to the east of the block is logic or RAM, else 0; unless said, it is known from the device. Frames have it')
    parser.add_argument('--corner', nargs=2, type=number, metavar=('X', 'Y'), help="for frames: the chip's coordinates of tile 0, for its names")
    arguments = parser.parse_args()
    numbers = arguments.numbers
    if numbers:
        if len(numbers) != 4 or not arguments.table or arguments.corner:
            parser.error('an .asc file goes with X Y W H and --table FILE, and without --corner')
        scene = from_design(arguments.file, tuple(numbers[:2]), numbers[2:], arguments.table, arguments.device, arguments.east)
    else:
        if arguments.table or arguments.device or arguments.east is not None:
            parser.error('--table, --device and --east go with an .asc file; frames have their own')
        scene = from_frames(arguments.file, tuple(arguments.corner or (0, 0)))
    scene.check()
    library = proved.library()
    rows = scene.proved_fights(library) if library else scene.fights()
    if rows != scene.fights():
        raise Mistake('the library and Python disagree on the fights: one of them is wrong')
    note('the fights were listed by %s' % (library.title() if library else 'Python, as no library is there (make lib)'))
    return words(scene, rows), SOME if rows else NONE


if __name__ == '__main__':
    run(main)
