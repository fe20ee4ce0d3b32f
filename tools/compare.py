#!/usr/bin/env python3
"""Lists what differs between two designs: each field, group, cell and passive bit whose setting changed, with IceStorm's names.

    compare.py old.frames new.frames                    frames: two whole inputs of the report program, of one size and with one routing table
    compare.py old.asc new.asc --table 1k.tab           IceStorm .asc files of one device, every logic tile; the routing table
    compare.py old.asc new.asc 5 6 2 2 --table 1k.tab   a block of them: X and Y of its south-west tile, W and H

A line has the tile and what changed in it: the old setting and, behind "now", the new one. A group has its destination and the source of its
enabled switch, a cell its table and flags. Tiles that are not logic are not looked at. One of the files may be - for standard input.

The proved library lists the differences where it is built (`make lib`), else Python does; a note says which. Names are Python's, and where the
two disagree the tool says so. Exit status, as diff's: 0 nothing differs, 1 something does, 2 it could not be told, as for a tile that cannot be
decoded.
"""
from collections import namedtuple

import proved
from asc_to_frames import LONGEST, check_device, read_block, read_chip
from frames import Input, field_name, read_table
from ice40 import CELLS, NAMES, cell_numbers, check_size, position_name, table_and_flags, tile_name
from rules import check_table, check_tile, pattern_of
from tool import Mistake, about, bytes_of, counted, file_name, note, number, parser_for, run, text_of

NONE, SOME = 0, 1  # exit status
FIELD, GROUP, CELL, PASSIVE = 1, 2, 3, 4  # kinds of rows
Area = namedtuple('Area', 'corner w h')  # a block, or each tile of a chip by itself


# ---- rows

def settings(table, tile):
    """Every setting of a tile that can be decoded, in the order of the rows: kind, index, setting."""
    for f, p in enumerate(table.fields):
        yield FIELD, f, tile >> p & 1
    for g, group in enumerate(table.groups):
        pattern = pattern_of(group, tile)
        yield GROUP, g, 1 + [each for each, _ in group.entries].index(pattern) if pattern else 0
    for i in range(CELLS):
        lut, flags = cell_numbers(tile, i)
        yield CELL, i, lut + (flags << 16)
    for j, p in enumerate(table.passive):
        yield PASSIVE, j, tile >> p & 1


def differences(table, old, new):
    """A row for each setting that differs between the tiles of two blocks, rising."""
    return [(t, kind, index, before, after) for t, tiles in enumerate(zip(old, new)) if tiles[0] != tiles[1]
            for (kind, index, before), (_, _, after) in zip(*(settings(table, tile) for tile in tiles)) if before != after]


class Pair:
    """Two designs with one table. `areas` say where their tiles are, `old` and `new` have the tiles of each area, each one number with position
    p at weight 2^p."""

    def __init__(self, table, areas, old, new):
        self.table, self.areas, self.old, self.new = table, areas, old, new

    def check(self, paths):
        """Refuses a table that breaks a rule and tiles that cannot be decoded: their settings are not known."""
        check_table(self.table)
        for path, side in zip(paths, (self.old, self.new)):
            with about(path):
                for area, tiles in zip(self.areas, side):
                    for t, tile in enumerate(tiles):
                        check_tile(self.table, tile, tile_name(area.corner, area.w, t))

    def rows(self, library):
        """The rows of each area, by the library where it is there."""
        numbers = proved.table_numbers(self.table)
        for area, old, new in zip(self.areas, self.old, self.new):
            rows = proved.asked(library.compare, area.w, area.h, numbers, old, new) if library else differences(self.table, old, new)
            if rows != differences(self.table, old, new):
                raise Mistake('the library and Python disagree on the differences: one of them is wrong')
            yield area, rows


# ---- words

def switch_words(group, setting):
    return '<- ' + NAMES[group.entries[setting - 1][1]] if setting else 'off'


def row_words(table, kind, index, old, new):
    if kind == GROUP:
        group = table.groups[index]
        return 'group %d: %s %s, now %s' % (index, NAMES[group.destination], switch_words(group, old), switch_words(group, new))
    if kind == CELL:
        return 'lutff_%d: %s; now %s' % (index, *(table_and_flags(each & 0xFFFF, each >> 16) for each in (old, new)))
    what, position = (field_name(index), table.fields[index]) if kind == FIELD else ('passive bit %d' % index, table.passive[index])
    return '%s, %s: %d, now %d' % (what, position_name(position), old, new)


def words(pair, found):
    """The lines for the rows of each area."""
    lines, changed = [], set()
    for area, rows in found:
        for t, *row in rows:
            name = tile_name(area.corner, area.w, t)
            changed.add(name)
            lines.append('%s %s' % (name, row_words(pair.table, *row)))
    tiles = counted(sum(area.w * area.h for area in pair.areas), 'tile')
    return lines + ['%s in %d of %s' % (counted(len(lines), 'difference'), len(changed), tiles) if lines else 'no difference in %s' % tiles]


# ---- what is given

def from_frames(paths, corner):
    texts = [text_of(path, 'frames') for path in paths]
    old, new = given = [Input(text) for text in texts]
    for path, text, each in zip(paths, texts, given):
        if each.fault:
            hint = ' (.asc files go with --table FILE)' * text.startswith('.')
            raise Mistake('%s, line %d: %s%s' % (file_name(path), *each.fault, hint))
        with about(path):
            check_size(*each.size)
    if old.size != new.size:
        raise Mistake('ground 14, the sizes differ: %s is of %d by %d tiles, %s of %d by %d'
                      % (file_name(paths[0]), *old.size, file_name(paths[1]), *new.size))
    if old.table != new.table:
        raise Mistake('the routing tables differ: settings can be compared under one table alone')
    if old.east != new.east:
        note('the byte for the column to the east differs, which no setting of a tile depends on')
    return Pair(old.table, [Area(corner, *old.size)], [old.tiles], [new.tiles])


def read_design(path, corner, size):
    """The device of an .asc file and its tiles: those of a block by index, or every logic tile by its coordinates."""
    text = bytes_of(path, LONGEST, "a text file of IceStorm's")
    device, tiles, reader = read_block(text, corner, *size) if size else read_chip(text)
    note('%s was read by %s' % (file_name(path), reader))
    by_place = tiles if not size else dict(enumerate(tiles))
    return device, {at: int.from_bytes(tile, 'little') for at, tile in by_place.items()}


def from_designs(paths, corner, size, table, told):
    """A block of two .asc files, or without a size every logic tile of both."""
    if size:
        check_size(*size)
    table, found = read_table(table), []
    for path in paths:
        with about(path):
            device, tiles = read_design(path, corner, size)
            check_device(device, table, told)
            found.append((device, tiles))
    (device, old), (other, new) = found
    if device != other:
        raise Mistake('the devices differ: %s is for a %s, %s for a %s' % (file_name(paths[0]), device, file_name(paths[1]), other))
    if size:
        return Pair(table, [Area(corner, *size)], [list(old.values())], [list(new.values())])
    for at in sorted(set(old) ^ set(new)):
        raise Mistake('tile (%d,%d) is a logic tile of %s alone' % (*at, file_name(paths[at in new])))
    return Pair(table, [Area(at, 1, 1) for at in old], [[tile] for tile in old.values()], [[new[at]] for at in old])


def main():
    parser = parser_for(__doc__,
                                     usage='%(prog)s [options] OLD.frames NEW.frames | OLD.asc NEW.asc [X Y W H] --table FILE')
    for name in ('OLD', 'NEW'):
        parser.add_argument(name.lower(), metavar=name)
    parser.add_argument('numbers', nargs='*', type=number, metavar='X Y W H', help='of .asc files: the south-west tile and the size of a block')
    parser.add_argument('--table', metavar='FILE', help='the routing table, for .asc files')
    parser.add_argument('--device', metavar='NAME', help='the device that the table is for, as .device has it, whatever its passive list is')
    parser.add_argument('--corner', nargs=2, type=number, metavar=('X', 'Y'), help="for frames: the chip's coordinates of tile 0, for its names")
    arguments = parser.parse_args()
    paths, numbers = (arguments.old, arguments.new), arguments.numbers
    if paths == ('-', '-'):
        parser.error('only one of the files can be standard input')
    if arguments.table:
        if len(numbers) not in (0, 4) or arguments.corner:
            parser.error('with --table FILE there is X Y W H or nothing, and no --corner')
        pair = from_designs(paths, tuple(numbers[:2]), numbers[2:], arguments.table, arguments.device)
    else:
        if numbers or arguments.device:
            parser.error('X Y W H and --device go with .asc files and --table FILE; frames have their own')
        pair = from_frames(paths, tuple(arguments.corner or (0, 0)))
    pair.check(paths)
    library = proved.library()
    found = list(pair.rows(library))
    note('the differences were listed by %s' % (library.title() if library else 'Python, as no library is there (make lib)'))
    return words(pair, found), SOME if any(rows for _, rows in found) else NONE


if __name__ == '__main__':
    run(main)
