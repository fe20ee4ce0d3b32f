"""The proved library, by ctypes, where it is built: it reads a block's bits from an .asc file, so that no unproved text stands between the
file and them, judges a block, makes its shelf card, reads a tile's settings, lists the switches that fight in a block, and lists what differs between
two.

In Python a tile is one number with position p at weight 2^p. `NUMBER`, `lent_bits` and `tiles_of` alone know the form that a block's bits are lent in.

The library is looked for where `make lib` writes it and beside tools that `make install` put somewhere, or where the environment's
ICE40_LIBRARY says; if that is empty none is used.
"""
import ctypes
import os
from collections import namedtuple

from evidence import Evidence
from tool import Mistake

VARIABLE = 'ICE40_LIBRARY'
TILE_BYTES, TILE_PORTS, TILE_GROUPS, TILE_SETTINGS, TILE_LIST = 108, 506, 512, 595, 3542
TILE_DIFFERENCES = 3 + 512 + 8 + 64  # fields, groups, cells and passive bits: as many rows as a tile can have
TABLE_LENGTH, PASSIVE_COUNT, GROUP_COUNT, GROUPS_FROM, GROUP_LENGTH, ENTRIES_FROM = 38469, 3, 68, 69, 75, 10
SETTINGS_GROUPS, SETTINGS_CELLS = 67, 579  # where a tile's settings have those of its groups and of its cells
SIZE, ASC_LINE = 1, 13  # grounds for a no
ASC_DEVICE = '1k'  # the one whose .asc files it reads
NUMBER, TILE_NUMBERS, COLUMNS = ctypes.c_uint64, 16, 54  # the type of the numbers of lent bits, how many a tile has, one a row, and a row's bits
BUILD_ROOM = (TILE_LIST, TILE_SETTINGS, TILE_PORTS, TILE_PORTS, TILE_LIST, TILE_PORTS, TILE_PORTS)  # numbers a tile of what `build` writes
CARD_CELLS, CARD_FLIP_FLOPS, CARD_LEAVING = 2, 3, 4  # places in a shelf card; what leaves follows its count, then what feeds follows its own
CARD_COUNTS = 6  # numbers of a card that are no wires: width and height stand at its start
ShelfCard = namedtuple('ShelfCard', 'cells flip_flops leaving feeding')  # how many, how many, and two lists of wires


class Refused(Exception):
    """The library's no: a ground and its place."""

    def __init__(self, ground, place):
        super().__init__('ground %d, place %d' % (ground, place))
        self.ground, self.place = ground, place


class Library:
    def __init__(self, path):
        library = ctypes.CDLL(path)
        self.path, self.calls, self.rooms = path, {}, {}
        # words_of_bytes is not asked: a library that has it takes bits as words
        for name, numbers, slices in (('asc_read', 4, 2), ('read', 2, 3), ('build', 3, 9), ('card', 3, 10), ('contentions', 3, 7),
                                      ('compare', 4, 6), ('words_of_bytes', 2, 2)):
            call = self.calls[name] = getattr(library, 'ice40_' + name)
            call.restype, call.argtypes = ctypes.c_uint64, [ctypes.c_uint32] * numbers + [ctypes.c_void_p, ctypes.c_size_t] * slices

    def title(self):
        """What it may be called: proved, if its receipt says so."""
        return Evidence(self.path).library()

    def call(self, name, numbers, lent):
        """The value of a yes; `lent` are arrays, or bytes that are only read."""
        slices = [word for array in lent for word in (ctypes.cast(array, ctypes.c_void_p), len(array))]
        answer = self.calls[name](*numbers, *slices)
        if answer >> 32:
            raise Refused(answer >> 32, answer & 0xFFFFFFFF)
        return answer

    def room(self, n, lengths):
        """Arrays of so many 16-bit numbers a tile for n tiles. They serve every call that asks for the same: a call needs nothing of what they hold."""
        if (n, lengths) not in self.rooms:
            self.rooms[n, lengths] = [(ctypes.c_uint16 * (length * n))() for length in lengths]
        return self.rooms[n, lengths]

    def asc_bits(self, text, corner, w, h):
        """The bits of a block of an .asc file, as they are lent."""
        if not all(0 <= n < 1 << 32 for n in corner):
            raise Refused(SIZE, 0)  # as it answers for every corner above 255
        bits = (NUMBER * (TILE_NUMBERS * w * h))()
        self.call('asc_read', (w, h, *corner), [text, bits])
        return bits

    def read_block(self, text, corner, w, h):
        """The bytes of each tile of a block, by index."""
        return [tile.to_bytes(TILE_BYTES, 'little') for tile in tiles_of(self.asc_bits(text, corner, w, h))]

    def build(self, w, h, east, table, bits):
        """Judges a block by its lent bits: the number of its rows, or Refused with one of the grounds 1 to 8."""
        return self.call('build', (w, h, east), [table, bits, *self.room(w * h, BUILD_ROOM)])

    def card(self, w, h, east, table, bits):
        """The shelf card of a block by its lent bits, or Refused with one of the grounds 1 to 8."""
        card = (ctypes.c_uint16 * (CARD_COUNTS + 2 * TILE_PORTS * w * h))()  # two lists in which no wire is given twice
        self.call('card', (w, h, east), [table, bits, card, *self.room(w * h, BUILD_ROOM)])
        leaving = counted_from(card, CARD_LEAVING)
        return ShelfCard(card[CARD_CELLS], card[CARD_FLIP_FLOPS], leaving, counted_from(card, CARD_LEAVING + 1 + len(leaving)))

    def settings(self, table, bits):
        """The settings of one tile by its lent bits: the entry of each group, 0 for off, and the table and flags of each cell."""
        settings, = self.room(1, (TILE_SETTINGS,))
        self.call('read', (1, 1), [table, bits, settings])
        return settings[SETTINGS_GROUPS:SETTINGS_GROUPS + table[GROUP_COUNT]], settings[SETTINGS_CELLS:]

    def contentions(self, w, h, east, table, tiles):
        """A row (wire, tile, group) for each enabled switch on a wire on which two or more end, rising. The table is `table_numbers`', and a tile is
        one number with position p at weight 2^p, here and below."""
        n = w * h
        rows, *room = [(ctypes.c_uint16 * (length * n))() for length in (3 * TILE_GROUPS, TILE_SETTINGS, TILE_PORTS, TILE_PORTS, TILE_GROUPS)]
        count = self.call('contentions', (w, h, east), [table, lent_bits(tiles), rows, *room])
        return rows_of(rows, count, 3)

    def compare(self, w, h, table, old, new):
        """A row (tile, kind, index, old setting, new setting) for each difference between the tiles of two blocks, rising."""
        rows, room = (ctypes.c_uint32 * (5 * TILE_DIFFERENCES * w * h))(), [(ctypes.c_uint16 * (TILE_SETTINGS * w * h))() for _ in range(2)]
        count = self.call('compare', (w, h, w, h), [table, lent_bits(old), lent_bits(new), rows, *room])
        return rows_of(rows, count, 5)


def asked(call, *arguments):
    """What the library answers to a question in which Python finds nothing wrong."""
    try:
        return call(*arguments)
    except Refused as refused:
        raise Mistake('the library refuses it with %s, where Python finds nothing wrong' % refused) from None


# ---- what is lent

def rows_of(numbers, count, length):
    """So many rows of a list."""
    return [tuple(numbers[at:at + length]) for at in range(0, length * count, length)]


def counted_from(numbers, at):
    """The list that follows its own count."""
    return numbers[at + 1:at + 1 + numbers[at]]


def lent_bits(tiles):
    """The tiles of a block in the form that its bits are lent in."""
    rows = [tile >> COLUMNS * r & (1 << COLUMNS) - 1 for tile in tiles for r in range(TILE_NUMBERS)]
    return (NUMBER * len(rows))(*rows)


def tiles_of(bits):
    """The tiles of lent bits."""
    return [sum(row << COLUMNS * r for r, row in enumerate(bits[at:at + TILE_NUMBERS])) for at in range(0, len(bits), TILE_NUMBERS)]


def part_of(bits, t):
    """The lent bits of one tile of a block, as bytes, which can be a key; `bits_from` makes lent bits of them again."""
    size = ctypes.sizeof(NUMBER) * TILE_NUMBERS
    return ctypes.string_at(ctypes.addressof(bits) + size * t, size)


def bits_from(part):
    return (NUMBER * TILE_NUMBERS).from_buffer_copy(part)


def table_numbers(table):
    """A routing table in the form that it is lent in."""
    numbers = (ctypes.c_uint16 * TABLE_LENGTH)()
    numbers[:PASSIVE_COUNT + 1 + len(table.passive)] = [*table.fields, len(table.passive), *table.passive]
    numbers[GROUP_COUNT] = len(table.groups)
    for g, group in enumerate(table.groups):
        at = GROUPS_FROM + GROUP_LENGTH * g
        numbers[at:at + 2 + len(group.positions)] = [group.destination, len(group.positions), *group.positions]
        entries = [number for entry in group.entries for number in entry]
        numbers[at + ENTRIES_FROM:at + ENTRIES_FROM + 1 + len(entries)] = [len(group.entries), *entries]
    return numbers


# ---- where it is

def places():
    """Where the library may be: of a repository, then of an installation."""
    here = os.path.dirname(os.path.realpath(__file__))
    above, name = os.path.split(here)
    if name == 'tools':
        yield os.path.join(above, 'target', 'lib', 'libice40.so')
    if name == 'ice40' and os.path.basename(above) == 'share':
        yield os.path.join(os.path.dirname(above), 'lib', 'libice40.so')


def library():
    """The library, or None where there is none: not built, for another processor, or of a version without these calls."""
    told = os.environ.get(VARIABLE)
    for path in places() if told is None else [told] if told else []:
        try:
            return Library(path)
        except (OSError, AttributeError) as error:
            if told:
                raise Mistake('%s: %s' % (VARIABLE, error)) from None
    return None
