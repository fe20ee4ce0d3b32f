"""What tools/shelf.py should find with the nets of a chip, worked out from the text of a chip database and of an .asc file alone. Nothing of tools/ is
used. A tile is its sixteen rows of digits.
"""
import re


class Chip:
    """A chip database: kinds of tiles, names of nets, and the switches of those tiles that are asked for."""

    def __init__(self, path, wanted=None):
        self.kinds, self.names, self.switches, self.known = {}, {}, {}, {}  # by tile; by net: (x, y, name); by tile: (net, bits, {pattern: source net})
        take = None
        with open(path) as file:
            for line in file:
                words = line.split()
                if line.startswith('.'):
                    take = self.section(words, wanted)
                elif words and take is not None:
                    take(words)

    def section(self, words, wanted):
        if words[0] == '.net':
            names = self.names.setdefault(int(words[1]), [])
            return lambda row: names.append((int(row[0]), int(row[1]), row[2]))
        if words[0].endswith('_tile'):
            self.kinds[int(words[1]), int(words[2])] = words[0][1:-len('_tile')]
        if words[0] in ('.buffer', '.routing') and (wanted is None or (int(words[1]), int(words[2])) in wanted):
            bits = [tuple(map(int, re.fullmatch(r'B(\d+)\[(\d+)\]', word).groups())) for word in words[4:]]
            patterns = {}
            self.switches.setdefault((int(words[1]), int(words[2])), []).append((int(words[3]), bits, patterns))
            return lambda row: patterns.update({row[0]: int(row[1])})
        return None

    def names_in(self, net, at):
        """The names of a net in a tile. A switch is shown by one of them."""
        return {name for x, y, name in self.names[net] if (x, y) == at}

    def known_in(self, at):
        """Every name that the database has in a tile. It has one for a net and leaves out the others, those of the tile's far side."""
        if at not in self.known:
            self.known[at] = {name for names in self.names.values() for x, y, name in names if (x, y) == at}
        return self.known[at]


def tiles_of(text):
    """The tiles of an .asc file: coordinates to rows."""
    found = re.findall(r'^\.\w+_tile (\d+) (\d+)\n((?:[01]+\n){16})', text, re.MULTILINE)
    return {(int(x), int(y)): rows.split() for x, y, rows in found}


def in_use(tiles):
    return {at for at, rows in tiles.items() if '1' in ''.join(rows)}


def enabled(chip, tiles):
    """Every enabled switch: tile, destination net, source net. The switch of the carry chain is one of them."""
    for at, switches in chip.switches.items():
        for net, bits, patterns in switches:
            pattern = ''.join(tiles[at][row][column] for row, column in bits)
            if pattern in patterns:
                yield at, net, patterns[pattern]


def contentions(chip, tiles):
    """The nets on which two or more enabled switches end: net to a sorted list of (tile, source net)."""
    ends = {}
    for at, net, source in enabled(chip, tiles):
        ends.setdefault(net, []).append((at, source))
    return {net: sorted(switches) for net, switches in ends.items() if len(switches) > 1}


def with_switch(text, tiles, at, bits, pattern):
    """A design's text with the bits of one switch set in a tile."""
    rows = [list(row) for row in tiles[at]]
    for (row, column), digit in zip(bits, pattern):
        rows[row][column] = digit
    head = re.search(r'^\.\w+_tile %d %d\n' % at, text, re.MULTILINE)
    end = head.end() + sum(len(row) + 1 for row in rows)
    return text[:head.end()] + ''.join(''.join(row) + '\n' for row in rows) + text[end:]


def second_switches(chip, tiles):
    """Switches that are off and would be the second on their net: tile, bits, pattern, net, source, and the tile and source of the first."""
    first = {net: (at, source) for at, net, source in enabled(chip, tiles)}
    for at, switches in chip.switches.items():
        for net, bits, patterns in switches:
            if net in first and '1' not in ''.join(tiles[at][row][column] for row, column in bits):
                for pattern, source in patterns.items():
                    yield at, bits, pattern, net, source, first[net]
