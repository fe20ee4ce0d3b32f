"""Frames (document 01, 'Frames and one whole run'): a routing table as lines, and the input of the report program.

An input is read here a second time, line by line and apart from the proved reader, so that a report can be held against it.
"""
import re
from collections import namedtuple

from ice40 import LIBRARY_LIMIT, NAMES, POSITIONS
from tool import Mistake, file_name, text_of

NEG_CLK, CARRY_IN_SET, CHAIN = 0, 1, 2
FIELDS = ['NegClk', 'CarryInSet', 'the switch from carry_in to carry_in_mux']
PASSIVE_LIMIT, GROUP_LIMIT, POSITION_LIMIT, ENTRY_LIMIT = 64, 512, 8, 32  # as many a table can have, and a group of it
Group = namedtuple('Group', 'destination positions entries')  # an entry is (pattern, source)
Table = namedtuple('Table', 'fields passive groups')
MISSING = 'the input ends before it'


def digits(numbers, width):
    return ''.join('%0*X' % (width, n) for n in numbers)


def table_frames(table):
    """The frames 01, 02 and 03 of a routing table."""
    yield '01' + digits(table.fields, 4)
    yield '02' + digits([len(table.passive)], 2) + digits(table.passive, 4)
    for group in table.groups:
        entries = ''.join(digits([pattern], 2) + digits([source], 4) for pattern, source in group.entries)
        yield ('03' + digits([group.destination], 4) + digits([len(group.positions)], 2) + digits(group.positions, 4)
               + digits([len(group.entries)], 2) + entries)


class Cursor:
    """Takes the numbers of a frame from the left: bytes of two digits, words of four."""

    def __init__(self, frame):
        if not re.fullmatch('([0-9A-F]{2})*', frame):
            raise Mistake('not upper-case hexadecimal digits in pairs')
        self.left = bytes.fromhex(frame)

    def take(self, size):
        if len(self.left) < size:
            raise Mistake('a frame that is too short')
        part, self.left = self.left[:size], self.left[size:]
        return int.from_bytes(part, 'big')

    def byte(self):
        return self.take(1)

    def word(self):
        return self.take(2)

    def words(self, count):
        return [self.word() for _ in range(count)]

    def count(self, limit):
        count = self.byte()
        if count > limit:
            raise Mistake('a count of %d, where %d is the most' % (count, limit))
        return count

    def end(self):
        if self.left:
            raise Mistake('a frame that is too long')


def lines_of(text):
    """The lines of a text, each with whether it is ended."""
    lines = text.split('\n')
    return [(line, True) for line in lines[:-1]] + [(line, False) for line in lines[-1:] if line]


class Input:
    """A routing table and a block, as frames say them; or the table alone, or what stands before the first bad line.

    `fault` is None for a whole input, else the line at which it is not the frame due there, and words for it. `east` is the byte for the
    column to the east, 0 where it is left out. A tile is one number with position p at weight 2^p.
    """

    def __init__(self, text):
        self.table, self.size, self.east, self.tiles, self.fault = Table([], [], []), (), 0, [], None
        self.due = (1,)
        lines = lines_of(text)
        for at, (line, ended) in enumerate(lines, 1):
            try:
                if not ended:
                    raise Mistake('a last line without a line end')
                self.add(Cursor(line))
            except Mistake as mistake:
                self.fault = at, str(mistake)
                return
            if self.refused_size():
                return  # as the reader, which looks at nothing that follows
        if self.due:
            self.fault = len(lines) + 1, MISSING

    def add(self, cursor):
        kind = cursor.byte()
        if kind not in self.due:
            raise Mistake('no frame %02X is due here' % kind)
        {1: self.add_fields, 2: self.add_passive, 3: self.add_group, 4: self.add_size, 5: self.add_tile}[kind](cursor)
        cursor.end()

    def add_fields(self, cursor):
        self.table.fields.extend(cursor.words(len(FIELDS)))
        self.due = (2,)

    def add_passive(self, cursor):
        self.table.passive.extend(cursor.words(cursor.count(PASSIVE_LIMIT)))
        self.due = (3, 4)

    def add_group(self, cursor):
        destination, positions = cursor.word(), cursor.words(cursor.count(POSITION_LIMIT))
        entries = [(cursor.byte(), cursor.word()) for _ in range(cursor.count(ENTRY_LIMIT))]
        self.table.groups.append(Group(destination, positions, entries))
        self.due = (3, 4) if len(self.table.groups) < GROUP_LIMIT else (4,)

    def add_size(self, cursor):
        size, east = (cursor.byte(), cursor.byte()), cursor.byte() if cursor.left else 0
        cursor.end()
        if east > 1:
            raise Mistake('a byte of %02X for the column to the east: it is 00, 01 or left out' % east)
        self.size, self.east, self.due = size, east, (5,)

    def add_tile(self, cursor):
        self.tiles.append(sum(cursor.byte() << 8 * b for b in range(POSITIONS // 8)))
        self.due = (5,) if len(self.tiles) < self.size[0] * self.size[1] else ()

    def refused_size(self):
        """Whether the block frame was met and has a size that no block has."""
        return self.size != () and not all(1 <= n <= LIBRARY_LIMIT for n in self.size)


def field_name(f):
    """A field by IceStorm's names."""
    return 'carry_in_mux <- carry_in' if f == CHAIN else FIELDS[f]


def port_name(port):
    """A port of a table's group, which may be a number that no port has."""
    return NAMES[port] if port < len(NAMES) else 'port %d' % port


def read_table(path):
    """The routing table of a file of frames; a whole input serves too."""
    given = Input(text_of(path, 'a routing table'))
    whole = given.due not in ((1,), (2,))
    if given.fault and not (whole and given.fault[1] == MISSING):
        raise Mistake('%s, line %d: %s' % (file_name(path), *given.fault))
    return given.table
