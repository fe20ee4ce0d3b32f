#!/usr/bin/env python3
"""Looks at the pages of tools/shelf.py in a real browser, Debian's chromium without a window: each shows what the JSON says, a tile in use shows its
switches and cells when it is gone to, each block has what its shelf card says, nothing comes from elsewhere, and it prints on one sheet.

    python3 tests/cards.py                      needs the shared library (make lib), Debian's fpga-icestorm-chipdb, chromium and Python 3; fpga-icestorm
                                                for what icebox_explain says of each tile, yosys and nextpnr-ice40 for designs with pins
    python3 tests/cards.py --library FILE       the shared library, if not where `make lib` writes it
    python3 tests/cards.py --designs FOLDER     .asc files beyond those in tests/data

Without chromium the pages are looked at as they are written. It prints a line for each group of cases and ends with the number of differences.
"""
import argparse
import functools
import glob
import html.parser
import os
import random
import re
import shutil
import subprocess
import sys
import tempfile

sys.path.insert(0, os.path.dirname(os.path.abspath(__file__)))
import icebox  # noqa: E402
import shelf_model  # noqa: E402
import wire_numbers  # noqa: E402
from library import Count, run  # noqa: E402
from shelf_tool import GOOD, Shelf, database, undecodable  # noqa: E402
from tools import BUILT, contents, data  # noqa: E402

import ice40  # noqa: E402

STEP = 40  # units of the drawing for a tile
BROWSER = shutil.which('chromium') or shutil.which('chromium-browser')
ASK = """<script>
const tiles = [...document.querySelectorAll('.tile')], shown = () => tiles.filter(t => getComputedStyle(t.querySelector('.panel')).display != 'none').map(t => t.id);
const found = [shown().join()], outside = [], focused = [];
for (const t of tiles) {
    location.hash = t.id;
    found.push(shown().join());
    const p = t.querySelector('.panel rect').getBBox(), w = t.querySelector('.panel text').getBBox();
    if (w.x < p.x || w.x + w.width > p.x + p.width || w.y < p.y || w.y + w.height > p.y + p.height) outside.push(t.id);
    location.hash = '';
    t.focus();
    if (document.activeElement != t || document.hasFocus() && shown().join() != t.id) focused.push(t.id);
    t.blur();
}
document.body.setAttribute('data-found', found.join('|'));
document.body.setAttribute('data-outside', outside.join());
document.body.setAttribute('data-focused', focused.join());
</script>"""


class Page(html.parser.HTMLParser):
    """The parts of a page: by element, class or id."""

    def __init__(self, text):
        super().__init__()
        self.title, self.answer, self.blocks, self.items, self.lines, self.panels, self.frames, self.body = '', '', {}, [], [], {}, 0, {}
        self.cards, self.card, self.into, self.tile, self.fault = {}, None, None, None, None
        self.feed(text)

    def handle_starttag(self, tag, attributes):
        has = dict(attributes)
        kind = has.get('class', '')
        if tag == 'body':
            self.body = has
        elif tag == 'g' and kind == 'tile':
            self.tile = tuple(map(int, has['id'][1:].split('-')))
            self.panels[self.tile] = []
        elif tag == 'g' and kind == 'fault':
            self.lines.append([])
        elif tag == 'polyline' and kind == 'wire':
            self.lines[-1].append([tuple(map(int, point.split(','))) for point in has['points'].split()])
        elif tag == 'rect' and kind == 'refused':
            self.frames += 1
        elif tag == 'tspan':
            self.panels[self.tile].append('')
        self.into = tag if tag in ('title', 'tspan', 'li', 'strong', 'td') else None
        if tag == 'td' and 'data-block' in has:
            self.into = has['data-block']
        if 'data-card' in has:
            self.card = self.cards[has['data-card']] = []
        if self.card is not None:
            self.in_card(tag)
        elif tag == 'li':
            self.items.append('')

    def in_card(self, tag):
        """A card is a list for each cell of its row: a number or words, then the wires that are folded behind it."""
        if tag == 'td':
            self.card.append([''])
        elif tag == 'li':
            self.card[-1].append('')
        self.into = 'card' if tag in ('td', 'summary', 'li') else None

    def handle_endtag(self, tag):
        self.into = None
        if tag == 'tr':
            self.card = None

    def handle_data(self, text):
        if self.into == 'title' and not self.lines and not self.panels:
            self.title += text
        elif self.into == 'card':
            self.card[-1][-1] += text
        elif self.into == 'tspan':
            self.panels[self.tile][-1] += text
        elif self.into == 'li':
            self.items[-1] += text
        elif self.into == 'strong':
            self.answer += text
        elif self.into and self.into.startswith('('):
            self.blocks[self.into] = text


def browse(path, *options):
    """What chromium prints."""
    with tempfile.TemporaryDirectory() as folder:
        # it would pass over the many links that the script follows, as a flood
        switches = ['--headless', '--no-sandbox', '--disable-gpu', '--disable-ipc-flooding-protection', '--user-data-dir=' + folder]
        command = [BROWSER, *switches, *options, 'file://' + path]
        return subprocess.run(command, stdout=subprocess.PIPE, stderr=subprocess.DEVNULL, timeout=120, universal_newlines=True).stdout


def block_name(cut):
    return '(%d,%d)-(%d,%d)' % (*cut['corner'], *(corner + size - 1 for corner, size in zip(cut['corner'], cut['size'])))


def wire_tiles(wire):
    """The tiles that a wire passes: those with a name of its own, not of the column or the tile beside it."""
    return {(x, y) for x, y, name in wire if not name.startswith(('sp4_r_v_b', 'neigh_op', 'logic_op'))}


@functools.lru_cache(maxsize=None)
def ports_of(w, h, east):
    """The ports of each wire of a block, rising."""
    found = {}
    for port, wire in enumerate(wire_numbers.wires(w, h, east)):
        found.setdefault(wire, []).append(port)
    return found


def wire_names(cut, wire):
    """A wire by the chip's names: those of its own tiles, where there are any. A global net has one name."""
    names = []
    for port in ports_of(*cut['size'], cut['east'])[wire]:
        t, q = divmod(port, wire_numbers.PORTS)
        names.append((cut['corner'][0] + t % cut['size'][0], cut['corner'][1] + t // cut['size'][0], ice40.NAMES[q]))
    if 'glb_netwk' in names[0][2]:
        return names[0][2]
    own = [name for name in names if 'sp4_r_v_b' not in name[2] and 'neigh_op' not in name[2]]
    return ', '.join('(%d,%d) %s' % name for name in own or names)


def shown_card(cut):
    """The row of a block, by the JSON; what it says of pads and pins stands before the names."""
    card = cut['card']
    if card is None:
        return [['no, ground %d: no card' % cut['ground']]]
    lists = [['%d wire%s' % (len(wires), '' if len(wires) == 1 else 's') if wires else '0', *(wire_names(cut, wire) for wire in wires)]
             for wires in (card['leaving'], card['feeding'])]
    return [[str(card['cells'])], [str(card['flip_flops'])], *lists]


def is_empty(cut):
    return cut['card'] is not None and not any(cut['card'].values())


def without_pads(cells):
    return [[re.sub(r'^(from|to) [^:]*: ', '', words) for words in cell] for cell in cells]


def check_page(count, text, given, height):
    """A page against the JSON of its design."""
    page = Page(text)
    count.same((page.title, page.answer), ('%s: %s' % (os.path.basename(given['file']), given['answer']), given['answer'].upper()), given['file'])
    count.same(page.blocks, {block_name(cut): 'no, ground %d' % cut['ground'] if cut['ground'] else 'yes' for cut in given['blocks']}, given['file'])
    count.same({name: without_pads(cells) for name, cells in page.cards.items()}, {block_name(cut): shown_card(cut) for cut in given['blocks'] if not is_empty(cut)}, given['file'])
    empty = sum(map(is_empty, given['blocks']))
    count.same(re.findall(r'(\d+) other blocks?: no cells, no wires', text), [str(empty)] * bool(empty), given['file'])
    count.same(page.frames, sum(bool(cut['ground']) for cut in given['blocks']), given['file'])
    faults = given['faults'] + given['found']
    count.same((len(page.items), len(page.lines)), (min(len(faults), 6), len(faults)), given['file'])
    for fault, item in zip(faults, page.items):
        shown = ('ground %d at ' % fault['ground'] if fault['proved'] else 'found between blocks, not proved, at ') + fault['at'] + ': ' + fault['words']
        count.same((item.startswith(shown), all('(%d,%d) %s <- ' % (*switch['tile'], switch['destination']) in item for switch in fault['switches'])), (True, True), item)
    for fault, lines in zip(faults, page.lines):
        drawn = {frozenset((x // STEP, height - 1 - y // STEP) for x, y in line) for line in lines}
        count.same(drawn, {frozenset(wire_tiles(wire)) for wire in fault['wires'] if len(wire_tiles(wire)) > 1}, (given['file'], fault['at']))
    count.same(len(page.panels), given['counts']['logic_tiles'] + given['counts']['other_tiles'], given['file'])
    return page


def check_explained(count, page, path):
    """The switches and cells of every logic tile, against icebox_explain."""
    for at, lines in icebox.explained_tiles(path).items():
        tile = icebox.Tile(lines)
        shown = page.panels.get(at, [''])[1:]
        count.same({words for words in shown if ' <- ' in words}, {'%s <- %s' % switch for switch in tile.switches}, (path, at))
        cells = {words.replace(', no flags', '') for words in tile.cells}
        count.same({words for words in shown if ' <- ' not in words}, cells, (path, at))


def check_browser(count, path, page):
    """What a browser makes of a page: each tile shows its panel, and that alone, when a link or the keyboard goes to it; the words fit the panel; it
    prints on one sheet of paper."""
    asked = path[:-len('.html')] + '_asked.html'
    with open(asked, 'w', encoding='utf-8') as file:
        file.write(contents(path).replace('</body>', ASK + '</body>'))
    body = Page(browse(asked, '--dump-dom')).body
    order = sorted(page.panels, key=lambda at: (-at[1], at[0]))
    count.same(body.get('data-found', '').split('|'), [''] + ['t%d-%d' % at for at in order], path)
    count.same((body.get('data-outside'), body.get('data-focused')), ('', ''), path)
    paper = path[:-len('.html')] + '.pdf'
    browse(path, '--no-pdf-header-footer', '--print-to-pdf=' + paper)
    with open(paper, 'rb') as file:
        count.same(len(re.findall(rb'/Type */Page\b', file.read())), 1, path)


def check_pages(shelf, designs):
    count, explained, shown = Count('pages: what the JSON says'), Count('tiles: what icebox_explain says'), Count('in chromium: panels, one sheet of paper')
    folder = os.path.join(shelf.folder, 'cards')
    told = shelf.told(*designs)
    count.same(shelf.run('--cards', folder, *designs)[0], told['status'])
    for given in told['designs']:
        path = os.path.join(folder, os.path.basename(given['file'])[:-len('.asc')] + '.html')
        text = contents(path)
        count.same(re.findall(r'https?:|//|<script|<link|<img|@import|src=|url\((?!#hatch)', text), [], path)
        with open(database(given['device'])) as file:
            height = int(next(line for line in file if line.startswith('.device')).split()[3])
        page = check_page(count, browse(path, '--dump-dom') if BROWSER else text, given, height)
        if shutil.which('icebox_explain'):
            check_explained(explained, page, given['file'])
        if BROWSER:
            check_browser(shown, path, page)
    single = os.path.join(shelf.folder, 'single.html')
    count.same((shelf.run('--card', single, designs[0])[0], contents(single)), (0, contents(os.path.join(folder, os.path.basename(designs[0])[:-4] + '.html'))))
    count.same('/none/single.html: the folder is not there' in shelf.run('--card', '/none/single.html', designs[0])[2], True)
    return count.done() + explained.done() + shown.done()


# ---- pins

PINS = {'clk': '21', 'a': '1', 'b': '60', 'q': '101', 'r': '144'}  # of a tq144, all round the chip
INPUTS, OUTPUTS = {PINS[name] for name in ('clk', 'a', 'b')}, {PINS[name] for name in ('q', 'r')}
CLOCKS = {'routed': 'wire c = clk;',  # to the global network over an IO tile's switches
          'buffer': "wire c; SB_GB_IO #(.PIN_TYPE(6'b000001)) buffer(.PACKAGE_PIN(clk), .GLOBAL_BUFFER_OUTPUT(c));"}  # by the pad itself
VERILOG = '''module top(input clk, input a, input b, output q, output r);
    %s
    reg x = 0, y = 0;
    always @(posedge c) begin x <= a ^ b ^ y; y <= x & a; end
    assign q = x, r = y;
endmodule
'''


def made_with_pins(shelf, name):
    """The .asc file of a design whose ports are put to pins."""
    source, pins = shelf.write('pins/%s.v' % name, VERILOG % CLOCKS[name]), shelf.write('pins/pins.pcf', ''.join('set_io %s %s\n' % pin for pin in PINS.items()))
    stem = source[:-len('.v')]
    for command in (['yosys', '-q', '-p', 'read_verilog %s; synth_ice40 -top top -json %s.json' % (source, stem)],
                    ['nextpnr-ice40', '-q', '--hx1k', '--package', 'tq144', '--json', stem + '.json', '--pcf', pins, '--asc', stem + '.asc', '--seed', '1']):
        subprocess.run(command, check=True, stdout=subprocess.DEVNULL, stderr=subprocess.DEVNULL)
    return stem + '.asc'


def named_pins(page, way):
    """The pins that a page says wires come from or go to."""
    lines = [words for cells in page.cards.values() for cell in cells for words in cell[1:]]
    return {pin for words in lines for pin in re.findall(r'pin (\w+)', (re.match('%s ([^:]*): ' % way, words) or [0, ''])[1])}


def check_pins(shelf):
    """The pins of the package that a design was made for. A wire that goes on through other logic tiles names no pin."""
    count = Count('pins: those that the design was made for')
    path = os.path.join(shelf.folder, 'pins', 'page.html')
    count.same(shelf.run('--package', 'tq144', GOOD[0])[0], 2, 'no page')
    if not all(map(shutil.which, ('yosys', 'nextpnr-ice40'))):
        print('left out, no yosys and nextpnr-ice40: pins')
        return count.done()
    for name in CLOCKS:
        design = made_with_pins(shelf, name)
        count.same(shelf.run('--package', 'tq144', '--card', path, design)[0], 0, name)
        page = Page(contents(path))
        came, went = named_pins(page, 'from'), named_pins(page, 'to')
        count.same((came <= INPUTS, PINS['clk'] in came, bool(went), went <= OUTPUTS), (True,) * 4, (name, came, went))
        count.same(shelf.run('--verify', path, design)[0], 0, name)
        shelf.run('--card', path, design)
        count.same((named_pins(Page(contents(path)), 'from'), 'from pad (0,8) io_1: glb_netwk_' in contents(path)), (set(), True), 'no package, no pins')
        status, _, errors = shelf.run('--package', 'none', '--card', path, design)
        count.same((status, 'a 1k has no package none: cb121, ' in errors), (2, True), errors)
    return count.done()


def fighting(shelf, far):
    """A design with a second switch on a span wire, near the first or far from it."""
    text = contents(data('uart_tx.asc'))
    tiles = shelf_model.tiles_of(text)
    chip = shelf_model.Chip(database('1k'), shelf_model.in_use(tiles))
    choices = [choice for choice in shelf_model.second_switches(chip, tiles) if len(chip.names[choice[3]]) > 4 and choice[0] != choice[5][0]
               and (max(abs(choice[0][k] - choice[5][0][k]) for k in (0, 1)) > 7) == far]
    return shelf.write('placed/%s.asc' % ('far' if far else 'near'), shelf_model.with_switch(text, tiles, *random.choice(choices)[:3]))


def main():
    parser = argparse.ArgumentParser(description=__doc__, formatter_class=argparse.RawDescriptionHelpFormatter)
    parser.add_argument('--library', metavar='FILE', default=BUILT)
    parser.add_argument('--designs', metavar='FOLDER', action='append', default=[])
    arguments = parser.parse_args()
    if not os.path.exists(database('1k')):
        print('left out, no chip database (Debian has them in fpga-icestorm-chipdb): all of it')
        return run([], 1)
    if not BROWSER:
        print('left out, no chromium: panels and paper')
    random.seed(1)
    with tempfile.TemporaryDirectory() as folder:
        shelf = Shelf(arguments.library, folder)
        designs = GOOD + [fighting(shelf, False), fighting(shelf, True), shelf.write('placed/undecodable.asc', undecodable())]
        designs += sorted(path for each in arguments.designs for path in glob.glob(os.path.join(each, '*.asc')) if os.path.basename(path) not in map(os.path.basename, GOOD))
        return run([(check_pages, shelf, designs), (check_pins, shelf)], 1)


if __name__ == '__main__':
    sys.exit(main())
