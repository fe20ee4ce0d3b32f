"""A page on one design, to be pinned up: the answer, the chip as a grid with the tiles in use, the answer for each block, and the wires of each fault
drawn through the tiles that they pass. Pointing at a tile in use, or going to it with the tab key, shows its switches and cells.

The page is one file without scripts, fonts or pictures from elsewhere. Nothing on it is said by colour alone, and it prints on one sheet of A4.
"""
import html
import json
import os
from collections import Counter

import blockcard
import cover
from card_style import PATTERNS, STYLE
from faults import table_from
from ice40 import FLAGS, NAMES
from lodging import sentence
from tool import counted, file_name

STEP = 40  # units of the drawing for a tile
MARGIN = 26  # for the coordinates
MARKS = [(10, -10), (-10, -10), (10, 10), (-10, 10)]  # where in a tile labels of faults stand
SHIFTS = [-11, -3, 5]  # from the middle of a tile, so that wires on one way lie side by side
FAULTS = 6  # as many are written out; the rest are counted
LONGEST = 420  # characters of a fault on the page
SEEN = ('sp4_r_v_b', 'neigh_op', 'logic_op')  # names of wires of the column or the tile beside
LETTERS = {'io': 'io', 'ramb': 'ram', 'ramt': 'ram', 'ipcon': 'ip'}  # the rest are parts of DSP tiles


def escaped(text):
    return html.escape(str(text), quote=True)


def cut_short(text, limit=LONGEST):
    return text if len(text) <= limit else text[:limit] + ' ..'


def rectangle(left, top, width, height, look=''):
    return '<rect x="%d" y="%d" width="%d" height="%d"%s/>' % (left, top, width, height, ' class="%s"' % look if look else '')


def label(x, y, text, look=''):
    return '<text x="%d" y="%d"%s>%s</text>' % (x, y, ' class="%s"' % look if look else '', escaped(text))


# ---- what stands in a tile

class Tiles:
    """The switches and cells of every tile in use, in words."""

    def __init__(self, verdict):
        self.verdict, self.chip, self.table = verdict, verdict.design.chip, table_from(verdict.design.chip.table)
        self.words = {at: self.logic_words(*settings) for at, settings in verdict.settings.items()}
        for at, section, net, pattern in verdict.others:
            source = self.chip.source(at, section, pattern)
            self.words.setdefault(at, []).append('%s <- %s' % (self.chip.name_in(at, net), self.chip.name_in(at, source)))
        self.words = {at: words for at, words in self.words.items() if words}

    def logic_words(self, entries, cells):
        on = [(group, entry) for group, entry in zip(self.table.groups, entries) if entry]
        return self.cell_words(cells) + ['%s <- %s' % (NAMES[group.destination], NAMES[group.entries[entry - 1][1]]) for group, entry in on]

    def cell_words(self, cells):
        """The cells that are not all zero. `cells` has the table and the flags of each."""
        found = [(i, *cells[2 * i:2 * i + 2]) for i in range(len(cells) // 2)]
        return ['lutff_%d: %s' % (i, ', '.join(['table %04X' % table] + [name for k, name in enumerate(FLAGS) if flags >> k & 1]))
                for i, table, flags in found if table or flags]

    def cells(self, at):
        """How many cells of a tile are in use."""
        return len(self.cell_words(self.verdict.settings[at][1])) if at in self.verdict.settings else 0


# ---- the drawing

class Drawing:
    def __init__(self, entry):
        self.verdict = entry.verdict
        self.chip, self.tiles = self.verdict.design.chip, Tiles(self.verdict)
        self.width, self.height, self.marked = STEP * self.chip.width, STEP * self.chip.height, Counter()

    def corner(self, x, y):
        """The upper left corner of a tile: y counts from the south."""
        return STEP * x, STEP * (self.chip.height - 1 - y)

    def centre(self, x, y, shift=0):
        left, top = self.corner(x, y)
        return left + STEP // 2 + shift, top + STEP // 2 + shift

    def square(self, at, kind):
        """A tile as it lies on the page."""
        look = 'logic' if kind == 'logic' else 'ram' if kind.startswith('ram') else 'rim'
        return rectangle(*self.corner(*at), STEP, STEP, look + ' used' * (at in self.tiles.words))

    def sign(self, at, kind):
        """A letter for a tile's kind, or the number of its cells in use."""
        used, (left, top) = at in self.tiles.words, self.corner(*at)
        sign = str(self.tiles.cells(at) or '·') * used if kind == 'logic' else LETTERS.get(kind, 'dsp')
        return label(left + STEP // 2, top + STEP - 6, sign, 'sign' + ' used' * used) if sign else ''

    def tile(self, at, words):
        """What is shown when a tile in use is pointed at."""
        place = 'tile (%d,%d), %s' % (*at, self.chip.kinds[at])
        spoken = escaped('%s: %s' % (place, '; '.join(words)))
        shown = rectangle(*self.corner(*at), STEP, STEP) + self.panel(at, place, words)
        return '<g class="tile" tabindex="0" id="t%d-%d" aria-label="%s">%s</g>' % (*at, spoken, shown)

    def panel(self, at, place, words):
        """What a tile holds, drawn over the other half of the chip while the tile is pointed at."""
        half = self.width / 2
        left = half + 4 if at[0] < self.chip.width / 2 else 4
        high, wide = 1.25 * len(words) + 1.6, 0.62 * max(len(word) for word in words + [place])  # in units of the letters' size
        size = min(18, (self.height - 20) / high, (half - 24) / wide)
        lines = ''.join('<tspan x="%d" dy="1.25em">%s</tspan>' % (left + 8, escaped(word)) for word in words)
        place = '<tspan class="strong">%s</tspan>' % escaped(place)
        text = '<text x="%d" y="%d" style="font-size: %.1fpx">%s%s</text>' % (left + 8, 8 + size, size, place, lines)
        return '<g class="panel">%s%s</g>' % (rectangle(left, 4, half - 8, 12 + size * high), text)

    def refused_blocks(self):
        """A frame for each block with a no. Blocks overlap, so that each has its frame a little further in."""
        refused = [cut for cut, (ground, _) in zip(self.verdict.cuts, self.verdict.answers) if ground]
        for k, cut in enumerate(refused):
            left, top = self.corner(cut.x, cut.y + cut.h - 1)
            inset = 2 + 4 * (k % 3)
            yield rectangle(left + inset, top + inset, STEP * cut.w - 2 * inset, STEP * cut.h - 2 * inset, 'refused')

    def way(self, names):
        """The tiles that a wire passes, in order. From those where its name is one of SEEN it is only seen."""
        tiles = sorted({(x, y) for x, y, name in names if not name.startswith(SEEN)} or {(x, y) for x, y, _ in names})
        way = tiles[:1]
        while len(way) < len(tiles):
            way.append(min((at for at in tiles if at not in way), key=lambda at: (abs(at[0] - way[-1][0]) + abs(at[1] - way[-1][1]), at)))
        return way

    def wire(self, way, shift):
        """A wire through its tiles; one that lies in a single tile is a ring there."""
        points = [self.centre(x, y, shift) for x, y in way]
        if len(points) == 1:
            return '<circle cx="%d" cy="%d" r="8" class="wire"/>' % points[0]
        line = ' '.join('%d,%d' % point for point in points)
        return '<polyline points="%s" class="halo"/><polyline points="%s" class="wire"/>' % (line, line)

    def fault(self, number, fault):
        """The wires of a fault, a number at the place, and a letter at each switch that fights."""
        ways = list(dict.fromkeys(tuple(self.way(names)) for names in fault.wires))
        parts = [self.wire(way, SHIFTS[k % len(SHIFTS)] if len(way) > 1 else 0) for k, way in enumerate(ways)]
        marks = [(tuple(switch['tile']), '%d%s' % (number, chr(ord('a') + k % 26))) for k, switch in enumerate(fault.switches)]
        parts += [self.mark(at, text) for at, text in marks or [(way[0], str(number)) for way in ways[:1]]]
        return '<g class="fault" id="f%d"><title>fault %d: %s</title>%s</g>' % (number, number, escaped(cut_short(fault.line())), ''.join(parts))

    def mark(self, at, text):
        """A label in a tile; up to four have a corner each."""
        right, down = MARKS[self.marked[at] % len(MARKS)]
        self.marked[at] += 1
        x, y = self.centre(*at)
        return '<g class="mark"><circle cx="%d" cy="%d" r="11"/>%s</g>' % (x + right, y + down, label(x + right, y + down + 5, text))

    def coordinates(self):
        for x in range(self.chip.width):
            yield label(STEP * x + STEP // 2, self.height + 18, x, 'axis')
        for y in range(self.chip.height):
            yield label(-6, self.centre(0, y)[1] + 5, y, 'axis side')

    def svg(self):
        faults = self.verdict.faults + self.verdict.found
        used = sorted(self.tiles.words, key=lambda at: (-at[1], at[0]))  # as one reads, for the tab key
        parts = [PATTERNS, *self.coordinates(), *(self.square(at, kind) for at, kind in self.chip.kinds.items()), *self.refused_blocks(),
                 *(self.sign(at, kind) for at, kind in self.chip.kinds.items()), *(self.fault(k, fault) for k, fault in enumerate(faults, 1)),
                 *(self.tile(at, self.tiles.words[at]) for at in used)]
        box = '%d -4 %d %d' % (-MARGIN, self.width + MARGIN + 4, self.height + MARGIN + 4)
        return '<svg viewBox="%s" role="group" aria-label="the chip">%s</svg>' % (box, '\n'.join(parts))


# ---- the page

def block_table(verdict, evidence):
    """The answer for each block, a cell each, as the blocks lie on the chip."""
    cuts = verdict.cuts
    columns, rows = sorted({(cut.x, cut.w) for cut in cuts}), sorted({(cut.y, cut.h) for cut in cuts}, reverse=True)
    answers = {((cut.x, cut.w), (cut.y, cut.h)): (cover.name(cut), ground) for cut, (ground, _) in zip(cuts, verdict.answers)}

    def cell(column, row):
        name, ground = answers.get((column, row), ('', None))
        if ground is None:
            return '<td></td>'
        return '<td data-block="%s"%s>%s</td>' % (name, ' class="no"' * bool(ground), 'no, ground %d' % ground if ground else 'yes')

    head = ''.join('<th scope="col">x %d to %d</th>' % (x, x + w - 1) for x, w in columns)
    rows = [('y %d to %d' % (y, y + h - 1), ''.join(cell(column, (y, h)) for column in columns)) for y, h in rows]
    body = ''.join('<tr><th scope="row">%s</th>%s</tr>' % row for row in rows)
    caption = 'The proved answer for each block' if evidence.proved else 'The answer for each block, not proved'
    return '<table class="blocks"><caption>%s</caption><tr><td></td>%s</tr>%s</table>' % (caption, head, body)


def fault_list(verdict):
    faults = verdict.faults + verdict.found
    items = ''.join('<li>%s</li>' % escaped(cut_short(fault.line())) for fault in faults[:FAULTS])
    more = '<p>and %d more</p>' % (len(faults) - FAULTS) if len(faults) > FAULTS else ''
    return '<ol class="list">%s</ol>%s' % (items, more) if faults else ''


KEY = ('A number in a tile says how many of its cells are in use, a dot that only switches are. A frame of dashes is a block with a no. A thick '
       'line or ring is a wire of the fault whose number it bears; letters are the switches that drive it. Point at a tile in use for what it holds.')


MARK = 'ice40-card'  # the name of the element that holds what a card is about


def design_name(path):
    """What a card calls its design: no folder, as a card lies beside its design."""
    return file_name(path if path == '-' else os.path.basename(path))


def facts(entry, evidence, name, package):
    """What a card is about: what was judged, by what, and the answer. `shelf.py --verify` makes the card anew and compares."""
    chip = entry.verdict.design.chip
    return {'format': 1, 'file': name, 'sha256': entry.digest, 'answer': entry.answer, 'device': chip.device, 'package': package,
            'database_sha256': chip.digest, 'bundle_sha256': chip.bundle, **evidence.data()}


def evidence_words(entry, evidence):
    """The same for people."""
    lines = ['File: SHA-256 %s' % entry.digest, 'Library: SHA-256 %s, %s' % (evidence.digest or 'unknown', evidence.build())]
    return lines + ['Date: %s' % evidence.date] * bool(evidence.date)


def below(answers, held):
    """What stands below the drawing. Where what the blocks hold takes two tables, these stand by themselves."""
    key = '<div class="key"><p>%s</p><p>%s</p></div>' % (escaped(KEY), escaped(blockcard.KEY))
    rows = [[answers, *held, key]] if len(held) == 1 else [[answers, key], held]
    return ['<div class="below">%s</div>' % ''.join(parts) for parts in rows]


def page(entry, evidence, package=None, name=None):
    """The whole page; `package` is the one whose pins are named, `name` what the design is called, if not by its path."""
    verdict, name = entry.verdict, name or design_name(entry.path)
    counts = verdict.counts()
    switches = counted(counts['logic_switches'] + counts['other_switches'], 'switch', 'es')
    uses = 'iCE40 %s%s: %s, %s, %s and %s in use' % (verdict.design.device, ', package %s' % package if package else '', counted(counts['logic_tiles'], 'logic tile'),
                                                     counted(counts['other_tiles'], 'other tile'), switches, counted(counts['cells'], 'cell'))
    held = blockcard.tables(verdict, evidence, package)
    proved = [sentence(verdict.design.chip, evidence) + '.', *evidence_words(entry, evidence)]
    return '\n'.join([
        '<!DOCTYPE html>', '<html lang="en">', '<head>', '<meta charset="utf-8">',
        '<meta name="%s" content="%s">' % (MARK, escaped(json.dumps(facts(entry, evidence, name, package)))), '<meta name="viewport" content="width=device-width">',
        '<title>%s: %s</title>' % (escaped(name), entry.answer), '<style>%s</style>' % STYLE, '</head>', '<body>',
        '<h1>%s <strong class="answer">%s</strong></h1>' % (escaped(name), entry.answer.upper()), '<p class="uses">%s</p>' % escaped(uses),
        fault_list(verdict),
        '<div class="%s">' % ('chip' if len(held) == 1 else 'chip small'), Drawing(entry).svg(), '</div>', *below(block_table(verdict, evidence), held),
        '<p class="proved">%s</p>' % '<br>'.join(map(escaped, proved)), '</body>', '</html>', ''])
