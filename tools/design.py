"""A whole .asc file, read by Python: its device, and the bits of every tile of the chip. What is wrong is said with its line.

This is the only reader for devices other than a 1k and for IO, RAM and DSP tiles; the logic tiles of a 1k are the library's to read. It takes the
shapes that document 02, W1, gives: single blanks, line feeds, rows of digits. Sections that it does not know are passed over.
"""
from tool import Mistake

ROWS = 16  # of a tile of any kind


class BadLine(Mistake):
    """What is wrong with a file, and the line."""

    def __init__(self, line, words):
        super().__init__('line %d: %s' % (line, words))
        self.line, self.words = line, words


def shown(line):
    """A line as it stands, cut short, with what cannot be seen written out."""
    return ascii(line[:40].decode('latin-1')) + ' ..' * (len(line) > 40)


class Sections:
    """The dot sections of a file's bytes, without the dots."""

    def __init__(self, text):
        body = text.lstrip(b'\n')
        self.text, self.start = text, len(text) - len(body)
        if not body.startswith(b'.'):
            raise BadLine(self.start + 1, '%s: not an .asc file' % shown(body.partition(b'\n')[0]) if body else 'the file is empty')
        self.parts = text[self.start + 1:].split(b'\n.')

    def line(self, k):
        """The line at which a section begins."""
        return 1 + self.text.count(b'\n', 0, self.start + sum(len(part) + 2 for part in self.parts[:k]))

    def check_end(self):
        if not self.text.endswith(b'\n'):
            raise BadLine(self.text.count(b'\n') + 1, '%s: cut short, it does not end in a line feed' % shown(self.text[self.text.rfind(b'\n') + 1:]))

    def end(self):
        """One past the last line."""
        return self.text.count(b'\n') + 1

    def device(self):
        """The one device that is named."""
        found = [(k, part) for k, part in enumerate(self.parts) if part.startswith(b'device')]
        if not found:
            raise BadLine(self.end(), 'no line .device up to the end: not an .asc file, or cut short')
        for k, part in found:
            words = part.partition(b'\n')[0].split(b' ')
            if k != found[0][0] or len(words) != 2 or not words[1].isalnum():
                what = 'a second device' if k != found[0][0] else 'no device'
                raise BadLine(self.line(k), '%s: %s' % (shown(b'.' + part.partition(b'\n')[0]), what))
        return found[0][1].split()[1].decode('ascii', 'backslashreplace'), self.line(found[0][0])


def coordinates(words):
    return tuple(int(word) for word in words) if len(words) == 2 and all(word.isdigit() and len(word) < 4 for word in words) else None


def tile_of(body, columns):
    """A tile as one number with position p at weight 2^p, or None where the lines are not sixteen rows of so many digits."""
    rows = body.rstrip(b'\n')
    digits = rows.replace(b'\n', b'')
    if len(digits) == ROWS * columns and rows[columns::columns + 1] == b'\n' * (ROWS - 1) and not digits.translate(None, b'01'):
        return int(digits[::-1], 2)
    return None


def bad_row(line, body, columns):
    """What is wrong with the rows of a tile whose dot line is given."""
    rows = body.rstrip(b'\n').split(b'\n')
    for r, row in enumerate(rows):
        if r >= ROWS:
            return BadLine(line + 1 + r, '%s: a tile has %d rows' % (shown(row), ROWS))
        if len(row) != columns or row.strip(b'01'):
            return BadLine(line + 1 + r, '%s: row %d of a tile is %d digits 0 or 1' % (shown(row), r, columns))
    return BadLine(line + 1 + len(rows), 'a tile has %d rows, and this one %d' % (ROWS, len(rows)))


def read_tiles(sections, chip):
    """Every tile of a chip: coordinates to number."""
    tiles = {}
    for k, part in enumerate(sections.parts):
        head, _, body = part.partition(b'\n')
        words = head.split(b' ')
        if not words[0].endswith(b'_tile'):
            continue
        at, kind = coordinates(words[1:]), words[0][:-len(b'_tile')].decode('ascii', 'backslashreplace')
        if chip.kinds.get(at) != kind or at in tiles:
            what = 'a tile given twice' if at in tiles and chip.kinds[at] == kind else 'a %s has %s there' % (
                chip.device, chip.kinds[at] + '_tile' if at in chip.kinds else 'no such tile')
            raise BadLine(sections.line(k), '%s: %s' % (shown(b'.' + head), what))
        tiles[at] = tile_of(body, chip.columns[kind])
        if tiles[at] is None:
            raise bad_row(sections.line(k), body, chip.columns[kind])
    sections.check_end()
    for at, kind in chip.kinds.items():
        if at not in tiles:
            raise BadLine(sections.end(), 'the file ends, and tile (%d,%d), %s, is missing: cut short' % (*at, kind))
    return tiles


class Design:
    """A file's bytes, its device, and every tile."""

    def __init__(self, text, chip_for):
        """`chip_for` gives the chip of a device, or a Mistake."""
        sections = Sections(text)
        device, line = sections.device()
        try:
            self.chip = chip_for(device)
        except Mistake as mistake:
            raise BadLine(line, '.device %s: %s' % (device[:20], mistake)) from None
        self.text, self.device, self.tiles = text, device, read_tiles(sections, self.chip)
