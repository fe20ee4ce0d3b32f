"""A model of reading and writing IceStorm's ASCII files, written from document 02, W1 and W7, and apart from the reader's own text: plain
Python, slow, and proved nowhere.

A block is w by h logic tiles with its south-west one at (x, y) of the chip, its bits are words, 16 a tile. A text is bytes. A no is a pair
(ground, place); a yes is what was asked for.
"""
import os
import re
import sys

sys.path.insert(0, os.path.dirname(os.path.abspath(__file__)))
from bits_model import COLUMNS, WORDS, strays  # noqa: E402

NUMBER = rb'(0|[1-9][0-9]{0,2})'  # "decimal, 0 to 255, no leading zeros"
HEADER = re.compile(rb'\.logic_tile ' + NUMBER + b' ' + NUMBER)
ROW = re.compile(b'[01]{%d}' % COLUMNS)


def is_size(w, h, x, y):
    """Not ground 1: "1 also for a block reaching past 255"."""
    return 1 <= w <= 8 and 1 <= h <= 8 and x + w - 1 <= 255 and y + h - 1 <= 255


def tiles_of(w, h, x, y):
    """The coordinates of the block's tiles, by index."""
    return [(x + i, y + j) for j in range(h) for i in range(w)]


def words_of_rows(rows):
    """The words of a tile: "column 0 first", column c at weight 2^c."""
    return [int(row[::-1], 2) for row in rows]


class Fault(Exception):
    """The line is not of the shape due."""


class Reading:
    """What a file has said so far: the devices, the rows of the block's tiles, and what is due next."""

    def __init__(self, tiles):
        self.rows = dict.fromkeys(tiles)
        self.device, self.open, self.skipping = False, None, False

    def line(self, line):
        """Takes in a line that is not empty, without its line feed."""
        if self.open is not None:
            self.row(line)
        elif line[:1] == b'.':
            self.dot_line(line)
        else:  # text where a dot line is due
            raise Fault

    def row(self, line):
        """ "sixteen rows of 54 digits" """
        if not ROW.fullmatch(line):
            raise Fault
        self.open.append(line)
        if len(self.open) == WORDS:
            self.open = None

    def dot_line(self, line):
        first = line.split(b' ')[0]
        self.skipping = False
        if first == b'.device':
            if line != b'.device 1k' or self.device:  # "another or a second device"
                raise Fault
            self.device = True
        elif first == b'.logic_tile':
            self.tile(line)
        else:
            self.skipping = True

    def tile(self, line):
        match = HEADER.fullmatch(line)
        at = match and (int(match[1]), int(match[2]))
        if not at or max(at) > 255:
            raise Fault
        if at not in self.rows:
            self.skipping = True
        elif self.rows[at] is not None:  # "a block tile given twice"
            raise Fault
        else:
            self.open = self.rows[at] = []

    def whole(self):
        return self.device and self.open is None and None not in self.rows.values()


def read(w, h, x, y, text, length=None):
    """The bits of a block. `length` is that of the lent bits."""
    if not is_size(w, h, x, y):
        return 1, 0
    if length not in (None, WORDS * w * h):
        return 2, 0
    reading = Reading(tiles_of(w, h, x, y))
    *lines, rest = text.split(b'\n')
    for at, line in enumerate(lines, 1):
        if not line or reading.skipping and line[0] != ord('.'):
            continue  # "skipped up to the next dot line, and empty lines are passed over"
        try:
            reading.line(line)
        except Fault:
            return 13, at
    if rest or not reading.whole():  # "each line, skipped too, ends in a line feed"; "one past the last for what is missing"
        return 13, len(lines) + 1
    return [word for rows in reading.rows.values() for word in words_of_rows(rows)]


def text_of(w, h, x, y, bits):
    """ ".device first, tiles by index, no empty lines" """
    lines = ['.device 1k']
    for t, at in enumerate(tiles_of(w, h, x, y)):
        rows = bits[WORDS * t:WORDS * t + WORDS]
        lines += ['.logic_tile %d %d' % at] + [''.join(str(row >> c & 1) for c in range(COLUMNS)) for row in rows]
    return ''.join(line + '\n' for line in lines).encode()


def text_length(w, h, x, y):
    """How long the text of such a block is."""
    return len(text_of(w, h, x, y, [0] * (WORDS * w * h))) if is_size(w, h, x, y) else (1, 0)


def write(w, h, x, y, bits, length=None):
    """The text of a block. `length` is that of the lent text. A stray bit is ground 4, after 1 and 2."""
    if not is_size(w, h, x, y):
        return 1, 0
    if len(bits) != WORDS * w * h or length not in (None, text_length(w, h, x, y)):
        return 2, 0
    return (4, strays(bits)[0]) if strays(bits) else text_of(w, h, x, y, bits)
