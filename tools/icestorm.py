"""IceStorm's text files, chip databases and .asc files: their sections, and which device they are of."""
from tool import Mistake

LINE = 1 << 16  # characters of a line; IceStorm's have some hundred at most

# Where a logic tile of each device has the bits of its column buffers (ColBufCtrl in IceStorm's chip databases). They are the passive list
# of a routing table and the one part of it in which devices differ, so that they tell which devices a table is for.
COLUMN_BUFFERS = {
    '384': (),
    '1k': (1, 56, 272, 380, 488, 596, 704, 812),
    **dict.fromkeys(('5k', '8k', 'lm4k', 'u4k'), (439, 493, 547, 601, 655, 709, 763, 817)),
}

# The last column of each device and what it is made of, and its RAM columns (the sections .logic_tile, .ramb_tile, .io_tile, .. of the chip
# databases). All other columns from the second on are logic.
LAST_COLUMN = {'384': (7, 'IO'), '1k': (13, 'IO'), '8k': (33, 'IO'), 'lm4k': (25, 'IO'), '5k': (25, 'DSP'), 'u4k': (25, 'DSP')}
RAM_COLUMNS = {'384': (), '1k': (3, 10), '8k': (8, 25), **dict.fromkeys(('5k', 'lm4k', 'u4k'), (6, 19))}


def column_kind(device, x):
    """What the tiles of a column are, between the rows of IO tiles: logic, RAM, IO or DSP; None for a device or a column that is not known."""
    last, kind = LAST_COLUMN.get(device, (0, None))
    if 0 < x < last:
        return 'RAM' if x in RAM_COLUMNS[device] else 'logic'
    return kind if x in (0, last) else None


def sections(lines):
    """The dot sections of a file, one at a time: the words of the dot line, and those of each line below it. The lines have LINE characters
    at most. Comments (#) and empty lines are passed over; anything else before the first section is no IceStorm file."""
    head, rows = None, []
    for line in lines:
        words = line.split()
        if line.startswith('.'):
            if head:
                yield head, rows
            head, rows = words, []
        elif words and not line.startswith('#'):
            if not head or len(line) == LINE:
                raise Mistake("not a text file of IceStorm's")
            rows.append(words)
    if head:
        yield head, rows


def coordinates(words):
    """The two coordinates at the start of a dot line's arguments."""
    if len(words) < 2 or not all(word.isdecimal() and len(word) < 6 for word in words[:2]):
        raise Mistake('not two coordinates: %s' % ' '.join(words)[:60])
    return int(words[0]), int(words[1])


def table_devices(table):
    """The devices that a routing table is for, by its passive list."""
    return [device for device, positions in COLUMN_BUFFERS.items() if sorted(table.passive) == list(positions)]
