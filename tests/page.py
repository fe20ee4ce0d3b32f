#!/usr/bin/env python3
"""Tries the page of web/ in a real browser, Debian's chromium without a window, from a local file: what it says of designs, good and damaged, against
tools/shelf.py and the native library; files that are not designs; many and long files; keyboard, narrow and dark screens; that it asks no network.

    python3 tests/page.py                       needs the page and the shared library (make page lib), Debian's chromium and
                                                fpga-icestorm-chipdb, node, Python 3
    python3 tests/page.py 500                   the same with so many damaged designs (120 unless said)
    python3 tests/page.py --pictures FOLDER     and pictures of the screen to look at
    python3 tests/page.py --designs FOLDER      .asc files beyond those in tests/data

It prints a line for each group of cases and ends with the number of differences.
"""
import argparse
import glob
import hashlib
import http.server
import json
import os
import random
import re
import shutil
import subprocess
import sys
import tempfile
import threading
import time
import unicodedata
from types import SimpleNamespace

sys.path.insert(0, os.path.dirname(os.path.abspath(__file__)))
import browser  # noqa: E402
import model  # noqa: E402
import shelf_model  # noqa: E402
from library import ROOT, Count, blocks, run  # noqa: E402
from shelf_tool import GOOD, Shelf, database, emptied, single_cell, undecodable  # noqa: E402
from tools import BUILT, contents, data, proved  # noqa: E402

import blockcard  # noqa: E402
import chip  # noqa: E402
import cover  # noqa: E402
import faults  # noqa: E402
from evidence import Evidence  # noqa: E402
from ice40 import POSITIONS, position_name  # noqa: E402
from tool import counted, shown_name  # noqa: E402

PAGE = os.path.join(ROOT, 'target', 'page', 'shelf.html')
WASM = os.path.join(ROOT, 'target', 'wasm', 'ice40.wasm')
DONE = "document.getElementById('progress').textContent.includes('could not be told')"
SHOWN = """[...document.querySelectorAll('.design')].map(design => {
    design.open = true;
    return {line: design.querySelector('summary').textContent, answer: design.className.split(' ')[1]};
})"""
INSIDE = """[...document.querySelectorAll('.design')].map(design => ({
    faults: [...design.querySelectorAll('.faults li')].map(item => item.textContent),
    blocks: Object.fromEntries([...design.querySelectorAll('td[data-block]')].map(cell => [cell.dataset.block, cell.textContent])),
    tiles: design.querySelectorAll('.tile').length, wires: design.querySelectorAll('.fault').length, frames: design.querySelectorAll('rect.refused').length,
    cards: Object.fromEntries([...design.querySelectorAll('tr[data-card]')].map(row => [row.dataset.card, [...row.querySelectorAll('td')].map(cell =>
        [cell.querySelector('summary')?.textContent ?? cell.textContent, ...[...cell.querySelectorAll('li')].map(item => item.textContent)])])),
    title: design.querySelector('.card h2')?.textContent, evidence: design.querySelector('.evidence')?.textContent,
    missing: design.querySelector('.missing')?.textContent}))"""
TIMED = """new Promise(done => {
    let start;
    addEventListener('drop', () => { start = performance.now(); }, {once: true, capture: true});
    const seen = new MutationObserver(() => requestAnimationFrame(() => { seen.disconnect(); window.taken = performance.now() - start; }));
    seen.observe(document.getElementById('designs'), {childList: true});
    done(0);
})"""  # the milliseconds from a drop to the next frame with a line
PLACED = {'latch_1x1': (6, 6), 'pwm_1x1': (4, 9), 'ripplediv_loc_2x2': (5, 8), 'shift_arst_2x2': (8, 5), 'counter32_2x4': (1, 11)}  # bundled blocks on a 1k


# ---- designs

def with_tile(text, at, rows):
    """A design's text with other rows in a tile."""
    head = re.search(r'^\.logic_tile %d %d\n' % at, text, re.MULTILINE)
    return text[:head.end()] + ''.join(row + '\n' for row in rows) + text[head.end() + len(rows) * (len(rows[0]) + 1):]


def with_block(text, name, corner):
    """A design's text with a bundled block at a corner."""
    w, _, _, _, bits = blocks()[name]
    for t in range(len(bits) // model.WORDS):
        rows = [''.join(str(row >> c & 1) for c in range(model.COLUMNS)) for row in bits[model.WORDS * t:model.WORDS * (t + 1)]]
        text = with_tile(text, (corner[0] + t % w, corner[1] + t // w), rows)
    return text


def damaged(text, switches):
    """A design's text with some switches of its used logic tiles changed, some carries, or some bits."""
    for _ in range(random.choice((1, 1, 2, 4))):
        tiles = shelf_model.tiles_of(text)
        at = random.choice([at for at in switches if len(tiles[at][0]) == model.COLUMNS])
        how = random.random()
        if how < .7:
            _, bits, patterns = random.choice(switches[at])
            text = shelf_model.with_switch(text, tiles, at, bits, random.choice(list(patterns)))
        else:
            place = model.lc(random.randrange(8), random.choice((8, 8, 9, 19))) if how < .9 else random.randrange(864)
            row, column = divmod(place, model.COLUMNS)
            text = shelf_model.with_switch(text, tiles, at, [(row, column)], '10'[int(tiles[at][row][column])])
    return text


def fighting(text, chip_of_text, rounds):
    """Texts of a design with a second switch on a net, near the first or far from it."""
    tiles = shelf_model.tiles_of(text)
    choices = [choice for choice in shelf_model.second_switches(chip_of_text, tiles) if len(tiles[choice[0]][0]) == model.COLUMNS]
    return [shelf_model.with_switch(text, tiles, *random.choice(choices)[:3]) for _ in range(rounds)]


def is_new(path):
    """Whether a file is a design of a 1k that is not bundled: of two files of one name a browser calls one otherwise."""
    with open(path, 'rb') as file:
        return b'.device 1k\n' in file.read(1 << 16) and os.path.basename(path) not in map(os.path.basename, GOOD)


def designs(shelf, rounds, more):
    """Paths of designs: the bundled ones, blocks that are refused, damaged ones."""
    paths, texts = list(GOOD), [contents(path) for path in GOOD]
    paths += [shelf.write('%s.asc' % name, with_block(emptied(texts[0]), name, corner)) for name, corner in PLACED.items()]
    paths.append(shelf.write('empty.asc', emptied(texts[0])))
    paths += [shelf.write('undecodable.asc', undecodable()), shelf.write('single.asc', single_cell())]
    every = texts + [contents(path) for path in paths[2:7]]
    chips = [shelf_model.Chip(database('1k'), shelf_model.in_use(shelf_model.tiles_of(text))) for text in every]
    for k in range(rounds):
        n = k % len(every)
        paths.append(shelf.write('damaged%03d.asc' % k, damaged(every[n], chips[n].switches)))
    paths += [shelf.write('fighting%03d.asc' % k, text) for k, text in enumerate(fighting(texts[1], chips[1], rounds // 4))]
    return paths + [path for folder in more for path in sorted(glob.glob(os.path.join(folder, '*.asc'))) if is_new(path)]


# ---- the page

class Page(browser.Browser):
    """The page, open and ready."""

    def __init__(self):
        super().__init__()
        self.again()

    def again(self):
        self.go(PAGE)
        self.until("!document.getElementById('files').disabled")

    def given(self, paths):
        """What it shows of files, each a dictionary."""
        self.drop(paths)
        self.until(DONE)
        lines = self.value(SHOWN)
        self.until("[...document.querySelectorAll('.design')].every(design => design.children.length > 1)")
        return [dict(line, **inside) for line, inside in zip(lines, self.value(INSIDE))]


def place_name(cut, ground, place):
    """The place of a no of a block, by the names that shelf.py has for it."""
    cut = cover.Cut(*cut['corner'], *cut['size'], cut['east'])
    at = cover.tiles(cut)
    if ground == 4:
        return faults.place_of(at[place // POSITIONS], position_name(place % POSITIONS))
    if ground == 8:
        return 'tile (%d,%d)' % at[place]
    return faults.Scene(None, None, SimpleNamespace(tiles=dict.fromkeys(at, 0)), cut).name(place)


def fault_lines(given):
    """What the page says of a refused design: the fights that shelf.py lists, and each other ground and place of a block, once."""
    refused = sorted((cut['ground'], k) for k, cut in enumerate(given['blocks']) if cut['ground'])
    fights = ['ground 5 at %s: %s: %s' % (fault['at'], fault['words'], *fault['trail']) for fault in given['faults'] if fault['ground'] == 5]
    lines = {ground: [] for ground, _ in refused}
    for ground, k in refused:
        lines[ground] += fights if ground == 5 else ['ground %d at %s: %s' % (ground, place_name(given['blocks'][k], ground, given['blocks'][k]['place']), faults.ground_words(ground))]
    return list(dict.fromkeys(line for each in lines.values() for line in each))


def card_row(cut):
    """The row of a block's shelf card, from what shelf.py says of it: a list for each cell, its words and then the names of wires."""
    if cut['ground']:
        return [['no, ground %d: no card' % cut['ground']]]
    card, names = cut['card'], blockcard.Names(cover.Cut(*cut['corner'], *cut['size'], cut['east']))
    if not (card['cells'] or card['leaving'] or card['feeding']):
        return [['no cells']]
    lists = [[counted(len(wires), 'wire') if wires else '0', *(blockcard.names_words(names.of(wire)) for wire in wires)] for wires in (card['leaving'], card['feeding'])]
    return [[str(card['cells'])], [str(card['flip_flops'])], *lists]


def expected_line(given, path=None):
    """The line of a design, from what shelf.py says of its blocks."""
    path, lines, counts = path or given['file'], fault_lines(given), given['counts']
    name, end = shown_name(os.path.basename(path)), '  SHA-256 %s  library SHA-256 %s' % (sha256(path), sha256(WASM))
    if lines:
        return 'no   %s  1k: %s%s%s' % (name, lines[0], ' (and %d more, below)' % (len(lines) - 1) if len(lines) > 1 else '', end)
    return 'yes  %s  1k: %s, %s in them and %s in use; wires between blocks not looked at%s' % (
        name, counted(counts['logic_tiles'], 'logic tile'), counted(counts['logic_switches'], 'switch', 'es'), counted(counts['cells'], 'cell'), end)


def block_name(cut):
    return '(%d,%d)-(%d,%d)' % (*cut['corner'], *(corner + size - 1 for corner, size in zip(cut['corner'], cut['size'])))


def sha256(path):
    with open(path, 'rb') as file:
        return hashlib.sha256(file.read()).hexdigest()


def check_designs(page, shelf, paths):
    count, grounds = Count('designs, good and damaged: every line, fault and block'), {}
    told, library = shelf.told(*paths)['designs'], sha256(WASM)
    start = time.perf_counter()
    shown = page.given(paths)
    taken = time.perf_counter() - start
    count.same(len(shown), len(paths))
    for given, got in zip(told, shown):
        lines = fault_lines(given)
        count.same(got['line'], expected_line(given), given['file'])
        count.same(got['answer'], 'no' if lines else 'yes', given['file'])
        count.same(got['faults'], lines, given['file'])
        for fault in given['faults']:  # whatever shelf.py shows of a block is here, but for what leads to it
            count.same(any(line.startswith('ground %d at %s: ' % (fault['ground'], fault['at'])) for line in got['faults']), True, (given['file'], fault['at']))
        count.same(got['blocks'], {block_name(cut): 'no, ground %d' % cut['ground'] if cut['ground'] else 'yes' for cut in given['blocks']}, given['file'])
        count.same(got['cards'], {block_name(cut): card_row(cut) for cut in given['blocks']}, given['file'])
        count.same((got['tiles'], got['wires'], got['frames']), (given['counts']['logic_tiles'], len(lines), sum(bool(cut['ground']) for cut in given['blocks'])))
        count.same((re.findall('SHA-256 ([0-9a-f]{64})', got['evidence'])[:2], Evidence(WASM).build() in got['evidence']), ([sha256(given['file']), library], True), given['file'])
        count.same((got['title'], 'wires between blocks' in got['missing']), ('%s %s' % (os.path.basename(given['file']), got['answer'].upper()), True))
        for cut in given['blocks']:
            grounds[cut['ground']] = grounds.get(cut['ground'], 0) + 1
    besides = sum(1 for given in told if not given['faults'] and given['found'])
    print('%-58s %s' % ('blocks by ground', ', '.join('%d: %d' % each for each in sorted(grounds.items()))))
    print('%-58s %7d' % ('designs that only the nets of shelf.py refuse', besides))
    print('%-58s %7.1f ms a design, with its card' % ('%d designs' % len(paths), 1000 * taken / len(paths)))
    count.same(set(grounds) >= {0, 4, 5, 6, 7, 8}, True, grounds)
    return count.done()


def show_time(page):
    """From a drop to the answer on the screen: the first on a page that was just opened, and the median of those after it."""
    for path in GOOD:
        times = []
        for k in range(8):
            if not k:
                page.again()
            page.value(TIMED)
            page.drop([path])
            page.until('window.taken')
            times.append(page.value('[window.taken, window.taken = 0][0]'))
        print('%-58s %7.1f ms, later %.1f ms' % ('from drop to answer, %s' % os.path.basename(path), times[0], sorted(times[1:])[3]))
    return 0


# ---- names of files

SPEAKING = ['a\nyes  divider.asc  1k: 10 logic tiles\n.asc', '\x1b[2K\ryes.asc', 'größe ✓.asc', '\u202eno.asc', 'two  blanks.asc', 'back\\slash.asc', 'tab\t.asc', '\u2028.asc',
            '\U000e0041.asc', '\xa0.asc', 'three   blanks.asc']
NAMING = """
import { shownName } from './web/words.mjs';
import { readFileSync } from 'node:fs';
console.log(JSON.stringify(JSON.parse(readFileSync(0, 'utf-8')).map(shownName)));
"""


def check_names(page, shelf):
    """A name says nothing of its own: the page shows it as shelf.py does."""
    count, folder = Count('names of files are shown as shelf.py shows them'), os.path.join(shelf.folder, 'names')
    os.makedirs(folder)
    paths = [shutil.copy(GOOD[0], os.path.join(folder, name)) for name in SPEAKING]
    told = shelf.run(folder)[1].splitlines()
    for path, got in zip(paths, page.given(paths)):
        shown = shown_name(os.path.basename(path))
        count.same((got['line'].startswith('yes  %s  1k: ' % shown), got['title']), (True, shown + ' YES'), got['line'])
        count.same(any('/%s  1k: ' % shown in line for line in told), True, shown)
    letters = [letter for letter in map(chr, range(0x110000)) if unicodedata.category(letter) not in ('Cn', 'Cs')]  # which letters there are depends on the year
    done = subprocess.run(['node', '--input-type=module', '-e', NAMING], cwd=ROOT, input=json.dumps(letters), stdout=subprocess.PIPE, encoding='utf-8')
    for letter, shown in zip(letters, json.loads(done.stdout)):
        count.same(shown, shown_name(letter), ascii(letter))
    return count.done()


# ---- files that are not designs

def not_designs():
    """Name to text."""
    text = contents(GOOD[0])
    lines = text.splitlines(keepends=True)
    tile = next(k for k, line in enumerate(lines) if line == '.logic_tile 5 7\n')
    return {
        'nothing.asc': '', 'blank.asc': '\n\n', 'words.asc': 'a letter to the committee\n', 'bitstream.bin': '\xff\x00\x00\xff\x7e\xaa\x99\x7e' * 400,
        'windows.asc': text.replace('\n', '\r\n'), 'other.asc': text.replace('.device 1k', '.device 8k'), 'twice.asc': text + ''.join(lines[tile:tile + 17]),
        'short_row.asc': ''.join(lines[:tile + 3] + [lines[tile + 3][1:]] + lines[tile + 4:]), 'a_letter.asc': ''.join(lines[:tile + 3] + ['x' + lines[tile + 3][1:]] + lines[tile + 4:]),
        'cut.asc': text[:len(text) // 2], 'no_line_feed.asc': text[:-1], 'two_devices.asc': text + '.device 1k\n', 'missing.asc': ''.join(lines[:tile] + lines[tile + 17:]),
        '<b>markup</b> & "quotes".asc': '<script>alert(1)</script>\n',
    }


HINTS = {'windows.asc': "\\r', a line end of Windows", 'other.asc': "'.device 8k', and files of a 1k are read", 'no_line_feed.asc': ', without a line feed',
         'missing.asc': 'the file ends', 'bitstream.bin': "'\\xff\\x00"}  # what the line of a file says besides


def refused_line(library, text, cuts):
    """The lowest line at which the native library refuses a file, 0 where it takes it."""
    lines = []
    for cut in cuts:
        try:
            library.asc_bits(text, (cut.x, cut.y), cut.w, cut.h)
        except proved.Refused as refused:
            lines.append(refused.place)
    return min(lines, default=0)


def check_not_designs(page, shelf, library, cuts):
    count, told = Count('files that are not designs: the line of ground 13'), shelf.told
    texts = not_designs()
    paths = [shelf.write('not/' + name, text) for name, text in texts.items()]
    answers = {given['file']: given['answer'] for given in told(*paths)['designs']}
    for path, got in zip(paths, page.given(paths)):
        with open(path, 'rb') as file:
            data_of = file.read()
        start = '?    %s  line %d: ' % (os.path.basename(path), refused_line(library, data_of, cuts))
        count.same((got['line'][:len(start)], 'ground 13' in got['line'], got['answer']), (start, True, 'unknown'), path)
        count.same((answers[path], got['faults'], got['tiles']), ('unknown', [], 0), path)
        count.same((HINTS.get(os.path.basename(path), '') in got['line'], got['line'].endswith('  SHA-256 %s  library SHA-256 %s' % (sha256(path), sha256(WASM)))), (True, True), got['line'])
    count.same(page.value("document.querySelectorAll('#designs b, #designs script').length"), 0)
    return count.done()


# ---- a page that fails

FAILING = """
import { faultsOf, lineOf } from './web/faults.mjs';
const cut = { x: 4, y: 1, w: 1, h: 1, east: 0 }, chip = { words: { 5: 'a fight', 7: 'a loop' } };
const judge = { chip, contentions: () => [], names: () => { throw new Error('spoilt'); } };
for (const ground of [0, 5, 7]) console.log(faultsOf(judge, { blocks: [{ cut, ground, place: 9 }], bits: [[]], settings: new Map() }).map(lineOf).join());
"""


def check_failing():
    """A no whose words the page does not find stays a no."""
    count = Count('a no is never lost, where its words are')
    done = subprocess.run(['node', '--input-type=module', '-e', FAILING], cwd=ROOT, stdout=subprocess.PIPE, universal_newlines=True)
    expected = ['', 'ground 5 at place 9 of block (4,1)-(4,1): a fight: the page finds no words for it: the library lists no contention',
                'ground 7 at place 9 of block (4,1)-(4,1): a loop: the page finds no words for it: spoilt']
    count.same(done.stdout.splitlines(), expected)
    return count.done()


# ---- long files and many

def check_long(page, shelf):
    count, text = Count('long files: 15 million bytes judged, 17 million refused'), contents(GOOD[0])
    name = '.sym 1 a_name_of_a_net_that_is_rather_long\n'
    long, longer = (shelf.write('long%d.asc' % n, text + name * (n * 1000000 // len(name))) for n in (15, 17))
    start = time.perf_counter()
    shown = page.given([long, longer])
    print('%-58s %7.2f s' % ('15 million bytes', time.perf_counter() - start))
    count.same([got['line'] for got in shown], [expected_line(shelf.told(GOOD[0])['designs'][0], long),
                                                '?    long17.asc  too long for an .asc file  library SHA-256 ' + sha256(WASM)])
    return count.done()


def check_folder(page, shelf):
    count = Count('a folder that is dropped: a clear line')
    count.same(page.given([shelf.folder])[0]['line'].startswith('?    %s  it cannot be read: ' % os.path.basename(shelf.folder)), True, page.value(SHOWN))
    return count.done()


def check_same(shelf):
    """The page made a second time."""
    count, path = Count('the page made again: the same bytes'), os.path.join(shelf.folder, 'again.html')
    done = subprocess.run([sys.executable, os.path.join(ROOT, 'web', 'page.py'), WASM, path], stdout=subprocess.PIPE, universal_newlines=True)
    with open(path, 'rb') as again, open(PAGE, 'rb') as file:
        text = file.read()
        count.same((done.returncode, again.read() == text, hashlib.sha256(text).hexdigest() in done.stdout), (0, True, True), done.stdout)
    print('%-58s %7d bytes' % ('the page', len(text)))
    return count.done()


def check_receipt(shelf):
    """A page is not made of a library that no receipt fits."""
    count, path = Count('no page of a library without a receipt'), os.path.join(shelf.folder, 'none.html')
    other = shutil.copy(WASM, os.path.join(shelf.folder, 'ice40.wasm'))
    done = subprocess.run([sys.executable, os.path.join(ROOT, 'web', 'page.py'), other, path], stdout=subprocess.PIPE, stderr=subprocess.PIPE, universal_newlines=True)
    count.same((done.returncode, 'no receipt of version' in done.stderr, os.path.exists(path)), (2, True, False), done.stderr)
    return count.done()


def check_many(page, shelf, paths):
    count = Count('two hundred files at once: each told, a line that goes on')
    many = [shelf.write('many/%03d.asc' % k, contents(paths[k % len(paths)])) for k in range(200)]
    page.value("window.lines = []; new MutationObserver(() => lines.push(document.getElementById('progress').textContent))"
               ".observe(document.getElementById('progress'), {childList: true, characterData: true, subtree: true}); 0")
    start = time.perf_counter()
    page.choose('#files', many)
    page.until(DONE)
    print('%-58s %7.2f s' % ('200 files', time.perf_counter() - start))
    lines, shown = page.value('lines'), page.value(SHOWN)
    count.same(lines[:-1], ['%d of 200: %03d.asc' % (k + 1, k) for k in range(200)])
    answers = [got['answer'] for got in shown]
    count.same(lines[-1], '%d yes, %d no, %d could not be told' % tuple(answers.count(answer) for answer in ('yes', 'no', 'unknown')))
    count.same([re.match(r'(?:yes|no|\?) +(\S+)', got['line'])[1] for got in shown], ['%03d.asc' % k for k in range(200)])
    return count.done()


# ---- whoever uses it

FOCUS = "(e => e.id || e.tagName.toLowerCase() + '.' + (e.getAttribute('class') || ''))(document.activeElement)"


def check_hands(page, shelf, pictures):
    """Keyboard alone, what a screen reader is told, narrow and dark screens."""
    count, path = Count('keyboard, labels, 390 pixels, dark and light'), shelf.write('divider.asc', '\n'.join(
        '%s1%s' % (line[:51], line[52:]) if k == 1322 else line for k, line in enumerate(contents(GOOD[0]).split('\n'))))
    page.press('Tab')
    count.same(page.value(FOCUS), 'files')
    page.given([path])
    page.press('Tab')
    count.same(page.value(FOCUS), 'summary.')
    page.press('Tab')
    count.same(page.value(FOCUS), 'g.tile')
    first = page.value("document.activeElement.getAttribute('aria-label')")
    count.same(page.value("[...document.querySelectorAll('.told span')].map(line => line.textContent).join('; ')"), first)
    page.press('ArrowDown')
    second = page.value("document.activeElement.getAttribute('aria-label')")
    count.same((second.startswith('tile ('), second != first, page.value("document.querySelectorAll('.tile[tabindex=\"0\"]').length")), (True, True, 1), second)
    tree = page.ask('Accessibility.getFullAXTree')['nodes']
    roles = {(node['role']['value'], node.get('name', {}).get('value', '')) for node in tree if not node.get('ignored')}
    names = {role: {name for each, name in roles if each == role} for role, _ in roles}
    count.same(any('.asc files on this page, or choose them' in name for name in names.get('button', ())), True, names.get('button'))
    count.same({'the designs'} <= names.get('list', set()), True, names.get('list'))
    count.same(any(name.startswith('the chip') for _, name in roles), True)
    for caption in ('The proved answer for each block', 'What the proved library finds in each block'):
        count.same(any(name == caption for _, name in roles), True, caption)
    seen = []
    for width, dark in ((1000, False), (1000, True), (390, False), (390, True)):
        page.screen(width, 844, dark)
        count.same(page.value('document.documentElement.scrollWidth <= %d' % width), True, (width, page.value('document.documentElement.scrollWidth')))
        seen.append(page.value("getComputedStyle(document.body).backgroundColor + getComputedStyle(document.body).color"))
        if pictures:
            page.picture(os.path.join(pictures, '%d-%s.png' % (width, 'dark' if dark else 'light')))
    count.same((seen[0] == seen[2], seen[1] == seen[3], seen[0] != seen[1]), (True, True, True), seen)
    page.screen(1000, 900)
    count.same(page.printed("['h1', '#progress', 'summary', '.card h2', '.card svg'].map(part => document.querySelector(part).getClientRects().length > 0)"),
               [False, False, False, True, True], 'a card that is open is printed alone')
    return count.done()


class Listener(http.server.BaseHTTPRequestHandler):
    """A server that remembers who asked."""
    asked = []

    def do_GET(self):
        self.asked.append(self.path)
        self.send_response(204)
        self.end_headers()

    do_POST = do_GET

    def log_message(self, *_):
        pass


# ways to ask a server for something, each a promise
ASKING = ["fetch(SERVER + 'fetch', {mode: 'no-cors'})", "import(SERVER + 'import')", "Promise.resolve(navigator.sendBeacon(SERVER + 'beacon', ''))",
          *("new Promise(done => { const part = document.createElement('%s'); part.onload = part.onerror = done; setTimeout(done, 500); part.%s = SERVER + '%s'; "
            "part.rel = 'stylesheet'; document.body.append(part); })" % (tag, attribute, tag)
            for tag, attribute in (('img', 'src'), ('script', 'src'), ('iframe', 'src'), ('link', 'href'), ('video', 'src'), ('object', 'data')))]


def asked_for(page, server):
    """What reaches a server when a page tries every way."""
    Listener.asked.clear()
    for each in ASKING:
        page.value("%s.then(() => 0, () => 0)" % each.replace('SERVER', repr('http://127.0.0.1:%d/' % server.server_port)))
    time.sleep(.5)
    return sorted(path.strip('/') for path in Listener.asked)


def check_closed(page):
    """No request but for the page itself, none that its policy would let through, and what it says of its library."""
    count = Count('no network: no request, and none would be let through')
    told = page.value("document.getElementById('library').textContent")
    count.same((sha256(WASM) in told, Evidence(WASM).build() in told, chip.chip_of('1k', None).origin() in told), (True, True, True), told)
    count.same(set(page.requests), {'file://' + PAGE})
    count.same(page.errors, [])
    server = http.server.ThreadingHTTPServer(('127.0.0.1', 0), Listener)
    threading.Thread(target=server.serve_forever, daemon=True).start()
    count.same(asked_for(page, server), [])
    count.same(page.value("Promise.resolve().then(() => { eval('1'); }).then(() => 'let through', () => 'refused')"), 'refused')
    page.go('/dev/null')
    count.same(len(asked_for(page, server)) >= 7, True, ('a page without a policy', Listener.asked))
    server.shutdown()
    return count.done()


def main():
    parser = argparse.ArgumentParser(description=__doc__, formatter_class=argparse.RawDescriptionHelpFormatter)
    parser.add_argument('rounds', metavar='ROUNDS', type=int, nargs='?', default=120)
    parser.add_argument('--pictures', metavar='FOLDER')
    parser.add_argument('--designs', metavar='FOLDER', action='append', default=[])
    arguments = parser.parse_args()
    for what, there in (('page (make page)', os.path.exists(PAGE)), ('library (make lib)', os.path.exists(BUILT)), ('chromium', browser.PROGRAM), ('node', shutil.which('node')),
                        ('chip database (Debian has them in fpga-icestorm-chipdb)', os.path.exists(database('1k')))):
        if not there:
            print('left out, no %s: all of it' % what)
            return run([], 1)
    if arguments.pictures:
        os.makedirs(arguments.pictures, exist_ok=True)
    random.seed(1)
    with tempfile.TemporaryDirectory() as folder:
        shelf, page, library = Shelf(BUILT, folder), Page(), proved.Library(BUILT)
        try:
            cuts = cover.blocks(chip.chip_of('1k', None))
            paths = designs(shelf, arguments.rounds, arguments.designs)
            tests = [(check_hands, page, shelf, arguments.pictures), (check_designs, page, shelf, paths), (check_names, page, shelf), (check_not_designs, page, shelf, library, cuts),
                     (show_time, page), (check_long, page, shelf), (check_folder, page, shelf), (check_many, page, shelf, paths)]
            fresh = [each for test in tests for each in ((lambda: page.again() or 0,), test)]
            return run([(check_same, shelf), (check_receipt, shelf), (check_failing,), *fresh, (check_closed, page)], 1)
        finally:
            page.end()


if __name__ == '__main__':
    sys.exit(main())
