#!/usr/bin/env python3
"""Cuts a block of logic tiles out of an IceStorm .asc file: frame 04 and, for each tile, frame 05.

    asc_to_frames.py design.asc 5 6 2 2 --table 1k.tab > block.frames

X and Y are the chip's coordinates of the block's south-west tile; W and H, its size, are 1 to 8. With --table the routing table's
frames come first, so that the output is a whole input of the report program. The table must be for the design's device: a table says
by its passive list, the bits of the column buffers, which devices it is for, or --device says it. A file may be - for standard input.

The column to the east of the block is known from the device. Where it is logic or RAM, frame 04 has the byte 01 behind W and H, so that the
vertical wires of that column are followed from row to row; else it has none. A note says which, and --east says it in the device's place.

The design of a 1k is read by the proved library where that is built (`make lib`); a design of another device, and any where there is no
library, by Python. A note says which of the two it was. The library takes what document 02, W1, says and refuses the rest.
"""
import io
import itertools
import re

import proved
from frames import read_table, table_frames
from ice40 import COLUMNS, PROGRAM_LIMIT, ROWS, check_size
from icestorm import LINE, column_kind, coordinates, sections, table_devices
from tool import Mistake, about, add_east, bytes_of, counted, file_name, lines_in, note, number, parser_for, run

LONGEST = 1 << 28  # bytes of a file; a real one has some millions at most

KINDS = {'io': 'an IO tile', 'ramb': 'a RAM tile', 'ramt': 'a RAM tile', 'ipcon': 'an IP connect tile'}  # the rest are parts of DSP tiles


def read_design(text):
    """The device of a file's bytes, and every tile: coordinates to (kind, rows), the kind being logic, io, ramb, ramt, .."""
    devices, tiles = [], {}
    for head, rows in sections(lines_in(io.BytesIO(text), LINE)):
        if head[0] == '.device':
            devices.append(' '.join(head[1:]))
        if not head[0].endswith('_tile'):
            continue
        at = coordinates(head[1:])
        if at in tiles:
            raise Mistake('tile (%d,%d) is there twice' % at)
        tiles[at] = head[0][1:-len('_tile')], rows
    if len(devices) != 1 or not tiles:
        raise Mistake('not an .asc file: %s' % ('no tiles' if len(devices) == 1 else counted(len(devices), '.device line')))
    return devices[0], tiles


def logic_rows(tiles, at):
    """The sixteen rows of a logic tile, each 54 digits, or what is wrong with it."""
    kind, rows = tiles.get(at, ('missing', []))
    if kind == 'missing':
        raise Mistake('tile (%d,%d) is missing' % at)
    if kind != 'logic':
        raise Mistake('tile (%d,%d) is %s (%s), and a block is of logic tiles' % (*at, KINDS.get(kind, 'no logic tile'), kind))
    if len(rows) != ROWS:
        raise Mistake('tile (%d,%d) has %s, not %d' % (*at, counted(len(rows), 'row'), ROWS))
    for r, words in enumerate(rows):
        if len(words) != 1 or len(words[0]) != COLUMNS or set(words[0]) - set('01'):
            raise Mistake('tile (%d,%d), row %d: not %d digits 0 or 1' % (*at, r, COLUMNS))
    return [words[0] for words in rows]


def tile_bytes(rows):
    """The bytes of a tile. Position p, counted along the rows, is in byte p/8 with weight 2^(p mod 8)."""
    bits = int(''.join(rows)[::-1], 2)
    return bits.to_bytes(ROWS * COLUMNS // 8, 'little')


def python_block(tiles, corner, w, h):
    """The bytes of each tile of a block, by index: west to east, then north."""
    rows = [logic_rows(tiles, (corner[0] + x, corner[1] + y)) for y in range(h) for x in range(w)]
    return [tile_bytes(each) for each in rows]


def block_frames(block, w, h, east=0):
    """Frame 04 and the frames 05 of a block. A byte of 00 for the column to the east is left out."""
    return ['04%02X%02X' % (w, h) + '01' * east] + ['05' + tile.hex().upper() for tile in block]


# ---- which of the two reads a file

def devices_named(text):
    """The devices that a file's bytes name, each once: which of the two can read it, and what an error says of it."""
    words = re.findall(rb'^\.device[ \t]+(\S+)', text, re.MULTILINE)
    return [word.decode('ascii', 'backslashreplace')[:20] for word in dict.fromkeys(words)]


def named(text):
    """The file's device, for an error."""
    return ' and '.join(devices_named(text)[:3]) or 'none named'


def line_of(text, place):
    """A line of a file as it stands, cut short, with what cannot be seen written out."""
    line = next(itertools.islice(io.BytesIO(text), place - 1, None), None)
    if line is None:
        return 'something is missing where it ends, at line %d' % place
    ended, line = line.endswith(b'\n'), line.rstrip(b'\n')
    return 'line %d is %s' % (place, ascii(line[:60].decode('latin-1')) + ' ..' * (len(line) > 60) + ', without a line feed' * (not ended))


def words_of(text, corner, w, h):
    """What Python finds wrong with a block that the library refused, if anything."""
    try:
        python_block(read_design(text)[1], corner, w, h)
    except Mistake as mistake:
        return ['%s' % mistake]
    return []


def library_block(library, text, corner, w, h):
    """The bytes of each tile, by the library; its no in words, to which Python may add some."""
    try:
        return library.read_block(text, corner, w, h)
    except proved.Refused as refused:
        where = line_of(text, refused.place) if refused.ground == proved.ASC_LINE else 'the block reaches outside 0 to 255'
        raise Mistake('the library refuses it with ground %d (device: %s): %s' % (
            refused.ground, named(text), '; '.join([where] + words_of(text, corner, w, h)))) from None


def library_for(text):
    """The library, where it is there and takes such a file, else None."""
    devices = devices_named(text)
    return proved.library() if proved.ASC_DEVICE in devices or not devices else None


def reader_words(library, device):
    """What read a file."""
    if library:
        return library.title()
    return 'Python, as %s' % ('the library takes a 1k, and this is a %s' % device if proved.library() else 'no library is there (make lib)')


def read_block(text, corner, w, h):
    """The device of a file's bytes, the bytes of each tile of a block, and what read them, in words."""
    library = library_for(text)
    if library:
        return proved.ASC_DEVICE, library_block(library, text, corner, w, h), reader_words(library, proved.ASC_DEVICE)
    device, tiles = read_design(text)
    try:
        block = python_block(tiles, corner, w, h)
    except Mistake as mistake:
        raise Mistake('%s (device: %s)' % (mistake, device)) from None
    return device, block, reader_words(None, device)


def read_chip(text):
    """The same for every logic tile of a file, by coordinates, row by row from the south. Which tiles there are is Python's word."""
    library = library_for(text)
    device, tiles = read_design(text)
    logic = sorted((at for at, (kind, _) in tiles.items() if kind == 'logic'), key=lambda at: (at[1], at[0]))
    if library:
        return device, {at: library_block(library, text, at, 1, 1)[0] for at in logic}, reader_words(library, device)
    return device, {at: python_block(tiles, at, 1, 1)[0] for at in logic}, reader_words(None, device)


# ---- the tool

def east_of(device, x, told):
    """The byte for the column to the east of a block, which has the coordinate x, and what is known of it in words. `told` is what the user
    says of it, if anything."""
    kind = column_kind(device, x)
    known = 'the column to the east, x = %d, is %s' % (x, kind or 'not known of a ' + device)
    east = int(kind in ('logic', 'RAM')) if told is None else told
    return east, '%s%s' % (known, ', so --east %d is taken' % east if told is None else '; --east %d was given' % east)


def check_device(device, table, told):
    """Refuses a table of another device. `told` is the device that the user says the table is for, if any."""
    devices = [told] if told else table_devices(table)
    if not devices:
        raise Mistake("the table's passive list is no known device's; say which device it is for with --device")
    if device not in devices:
        raise Mistake('the design is for a %s, the table for %s %s' % (device, 'a' if len(devices) == 1 else 'one of', ', '.join(devices)))


def note_size(w, h):
    """Tells the user of a block that only the library takes."""
    if max(w, h) > PROGRAM_LIMIT:
        note('%d by %d is for the library; the programs take W and H up to %d' % (w, h, PROGRAM_LIMIT))


def main():
    parser = parser_for(__doc__)
    parser.add_argument('design', metavar='DESIGN.asc')
    for name in 'XYWH':
        parser.add_argument(name, type=number)
    parser.add_argument('--table', metavar='FILE', help='a routing table from chipdb_to_frames.py')
    add_east(parser, '1 where the column to the east of the block is logic or RAM, else 0; unless said, it is known from the device')
    parser.add_argument('--device', metavar='NAME', help='the device that the table is for, as .device has it, whatever its passive list is')
    arguments = parser.parse_args()
    check_size(arguments.W, arguments.H)
    table = read_table(arguments.table) if arguments.table else None
    with about(arguments.design):
        text = bytes_of(arguments.design, LONGEST, "a text file of IceStorm's")
        device, block, reader = read_block(text, (arguments.X, arguments.Y), arguments.W, arguments.H)
        if table:
            check_device(device, table, arguments.device)
    note('%s was read by %s' % (file_name(arguments.design), reader))
    east, words = east_of(device, arguments.X + arguments.W, arguments.east)
    note(words)
    note_size(arguments.W, arguments.H)
    return (list(table_frames(table)) if table else []) + block_frames(block, arguments.W, arguments.H, east), 0


if __name__ == '__main__':
    run(main)
