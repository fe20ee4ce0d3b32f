#!/usr/bin/env python3
"""Compares tools/shelf.py with the library called block by block, with the nets of the chip databases and with icebox_vlog; tries bad files, the
cache, speed and memory. The pages are tried in tests/cards.py.

    python3 tests/shelf.py                      needs the shared library (make lib), Debian's fpga-icestorm-chipdb and Python 3; fpga-icestorm for
                                                what icebox_vlog and icebox_explain say, yosys and nextpnr-ice40 for designs of all devices
    python3 tests/shelf.py --library FILE       the shared library, if not where `make lib` writes it
    python3 tests/shelf.py --designs FOLDER     .asc files beyond those in tests/data

It prints a line for each group of cases and ends with the number of differences.
"""
import argparse
import ctypes
import glob
import hashlib
import json
import os
import random
import re
import resource
import shutil
import subprocess
import sys
import tempfile
import time

sys.path.insert(0, os.path.dirname(os.path.abspath(__file__)))
import icebox  # noqa: E402
import model  # noqa: E402
import nets  # noqa: E402
import shelf_model  # noqa: E402
from library import DATA, ROOT, Count  # noqa: E402
from library import run as run_tests  # noqa: E402
from shelf_tool import GOOD, Shelf, database, undecodable  # noqa: E402
from tools import BUILT, DEBIAN, TOOLS, contents, data  # noqa: E402

import cover  # noqa: E402
import proved  # noqa: E402

REAL = os.path.join(os.path.dirname(ROOT), 'shared', 'realdata', 'designs')
TABLE = {'1k': '1k', '384': '384', '5k': '5k', '8k': '8k', 'u4k': '8k', 'lm4k': '8k'}  # the bundled table of each device
PLACED, DRIVEN = 5, 3  # second switches that are put into a design: of each kind, and for icebox_vlog


# ---- the cover

class Logic:
    """What a cover is made from."""

    def __init__(self, device, kinds):
        self.device, self.logic = device, sorted((at for at, kind in kinds.items() if kind == 'logic'), key=lambda at: (at[1], at[0]))


def strip_of(kinds, x):
    """The first column of the strip that a logic column is in."""
    while kinds.get((x - 1, 1)) == 'logic':
        x -= 1
    return x


def check_cover():
    """Every span-4 net lies in one block with all logic tiles that it has in a strip."""
    count, spans = Count('the cover: all logic tiles, every span-4 net whole in one block'), 0
    for device in nets.DEVICES:
        if not os.path.exists(database(device)):
            print('left out, no chip database: %s' % device)
            continue
        chip = nets.Chip(database(device))
        cuts = cover.blocks(Logic(device, chip.kinds))
        blocks = [{(cut.x + a, cut.y + b) for a in range(cut.w) for b in range(cut.h)} for cut in cuts]
        logic = {at for at, kind in chip.kinds.items() if kind == 'logic'}
        count.same(set().union(*blocks), logic, device)
        for cut in cuts:
            east = {chip.kinds.get((cut.x + cut.w, cut.y + b)) for b in range(cut.h)}
            count.same((0 < cut.w <= 8, 0 < cut.h <= 8, cut.east), (True, True, int(east <= {'logic', 'ramb', 'ramt'})), (device, cut))
        tiles = {}
        for at in logic:
            for name, net in chip.nets[at].items():
                if name.startswith('sp4_'):
                    tiles.setdefault((net, strip_of(chip.kinds, at[0])), set()).add(at)
        spans += len(tiles)
        for key, touched in tiles.items():
            count.same(any(touched <= block for block in blocks), True, (device, key))
    print('%-58s %7d nets in strips' % ('span-4 nets', spans))
    return count.done()


# ---- against the library, block by block

def bits_of(cut, tiles):
    """The bits of a block of a design, as they are lent."""
    rows = [''.join(tiles[cut['corner'][0] + a, cut['corner'][1] + b]) for b in range(cut['size'][1]) for a in range(cut['size'][0])]
    return proved.lent_bits([int(digits[::-1], 2) for digits in rows])


def called(library, name, cut, table, lent):
    """The library's own answer for a block, by a call of our own; `lent` stands between the bits and the work room."""
    n, call = cut['size'][0] * cut['size'][1], getattr(ctypes.CDLL(library), name)
    call.restype = ctypes.c_uint64
    lent = [(ctypes.c_uint16 * len(table))(*table), *lent] + [(ctypes.c_uint16 * (length * n))() for length in (3542, 595, 506, 506, 3542, 506, 506)]
    slices = [word for array in lent for word in (ctypes.cast(array, ctypes.c_void_p), ctypes.c_size_t(len(array)))]
    return call(*(ctypes.c_uint32(number) for number in (*cut['size'], cut['east'])), *slices)


def answer_of(library, table, cut, tiles):
    answer = called(library, 'ice40_build', cut, table, [bits_of(cut, tiles)])
    return [answer >> 32, answer & 0xFFFFFFFF if answer >> 32 else 0]


def card_of(library, table, cut, tiles):
    """The numbers of a block's shelf card, or None."""
    card = (ctypes.c_uint16 * 65535)()
    answer = called(library, 'ice40_card', cut, table, [bits_of(cut, tiles), card])
    return None if answer >> 32 else card[:answer]


def told_card(cut):
    """The same, of what the JSON says of a block."""
    card = cut['card']
    return card and [*cut['size'], card['cells'], card['flip_flops'], len(card['leaving']), *card['leaving'], len(card['feeding']), *card['feeding']]


def check_blocks(shelf, designs):
    count, tables = Count('every block of every design: answers and cards of the library'), {}
    blocks = 0
    for given in shelf.told(*designs)['designs']:
        count.same(given['error'], None, given['file'])
        tiles = shelf_model.tiles_of(contents(given['file']))
        table = tables.setdefault(given['device'], model.parse(contents(data(TABLE[given['device']] + '.tab')))[3])
        for cut in given['blocks']:
            count.same([cut['ground'], cut['place']], answer_of(shelf.library, table, cut, tiles), (given['file'], cut))
            count.same(told_card(cut), card_of(shelf.library, table, cut, tiles), (given['file'], cut['corner']))
            if given['file'] in GOOD:
                count.same(told_card(cut), model.card(*cut['size'], cut['east'], table, list(bits_of(cut, tiles)), 1 << 20), (given['file'], cut['corner']))
        blocks += len(given['blocks'])
        refused = {cut['ground'] for cut in given['blocks']} - {0}
        count.same({fault['ground'] for fault in given['faults']}, refused, given['file'])
        count.same(given['answer'], 'no' if refused or given['found'] else 'yes', given['file'])
    print('%-58s %7d blocks of %d designs' % ('compared', blocks, len(designs)))
    return count.done()


# ---- contentions, in blocks and between them

def shown_contentions(given):
    """The tiles of the switches of each contention that is told, proved or not."""
    return sorted(sorted(tuple(switch['tile']) for switch in fault['switches']) for fault in given['faults'] + given['found'] if fault['switches'])


def check_contention(count, chip, changed, choice, given):
    """One design with a second switch on a net: both tiles and what they read, the whole wire; between blocks where no block holds both."""
    at, _, _, net, source, (other, first) = choice
    expected = shelf_model.contentions(chip, shelf_model.tiles_of(changed))
    count.same(shown_contentions(given), sorted(sorted(tile for tile, _ in ends) for ends in expected.values()), given['file'])
    fault = [fault for fault in given['faults'] + given['found'] if fault['switches']][0]
    for tile, read in ((at, source), (other, first)):
        shown = {switch['source'] for switch in fault['switches'] if tuple(switch['tile']) == tile}
        count.same(bool(shown & chip.names_in(read, tile)) or bool(shown - chip.known_in(tile)), True, (tile, shown))
    count.same({tuple(name) for name in fault['wires'][0]}, set(chip.names[net]), net)
    together = any(all(0 <= tile[k] - cut['corner'][k] < cut['size'][k] for tile in (at, other) for k in (0, 1)) for cut in given['blocks'])
    if not together:
        count.same((fault['proved'], fault['ground']), (False, None), (at, other))
    return fault['proved']


def vlog_drivers(path):
    """The nets that icebox_vlog gives two or more drivers."""
    text = subprocess.run(['icebox_vlog', '-D', path], stdout=subprocess.PIPE, stderr=subprocess.STDOUT, universal_newlines=True).stdout
    found = {net: drivers for net, count, drivers in re.findall(r'^(?://| )*(\w\S*) has (\d+) drivers: \[(.*)\]', text, re.MULTILINE) if int(count) > 1}
    return sorted(sorted(re.findall(r"'([^']+)'", drivers)) for drivers in found.values())


def distance(choice):
    return max(abs(choice[0][0] - choice[5][0][0]), abs(choice[0][1] - choice[5][0][1]))


def chosen(chip, tiles):
    """Some second switches at random: any, far from the first, in IO and RAM tiles, and with a cell's output at both ends, which icebox_vlog sees."""
    choices = [choice for choice in shelf_model.second_switches(chip, tiles) if len(chip.names[choice[3]]) > 1]
    outputs = [choice for choice in choices if is_output(chip, choice[4], choice[0]) and is_output(chip, choice[5][1], choice[5][0])]
    kinds = (choices, [choice for choice in choices if distance(choice) > 7], [choice for choice in choices if chip.kinds[choice[0]] != 'logic'])
    return [choice for kind in kinds for choice in random.sample(kind, min(len(kind), PLACED))], random.sample(outputs, min(len(outputs), DRIVEN))


def is_output(chip, net, at):
    return any(name.endswith('/out') for name in chip.names_in(net, at))


def check_between(shelf, designs):
    count, vlog = Count('a second switch on a net: named, proved or marked as found'), Count('the same by icebox_vlog -D: two drivers')
    sums = {'proved': 0, 'between blocks': 0, 'in IO, RAM or DSP tiles': 0}
    for path in designs:
        text, tiles = contents(path), shelf_model.tiles_of(contents(path))
        device = re.search(r'^\.device (\S+)', text, re.MULTILINE)[1]
        chip = shelf_model.Chip(database(device), shelf_model.in_use(tiles) | set(random.sample(sorted(tiles), 60)))
        count.same(shelf_model.contentions(chip, tiles), {}, path)
        any_kind, outputs = chosen(chip, tiles)
        changed = [shelf_model.with_switch(text, tiles, *choice[:3]) for choice in any_kind + outputs]
        placed = [shelf.write('between/%s_%d.asc' % (os.path.basename(path)[:-4], k), each) for k, each in enumerate(changed)]
        lines = shelf.run(*placed)[1].splitlines()
        for choice, each, line, given in zip(any_kind + outputs, changed, lines, shelf.told(*placed)['designs']):
            found = check_contention(count, chip, each, choice, given)
            count.same((line.startswith('no   ' + given['file']), 'found between blocks, not proved' in line), (True, not given['faults']), line)
            sums['proved' if found else 'between blocks'] += 1
            sums['in IO, RAM or DSP tiles'] += chip.kinds[choice[0]] != 'logic'
        if shutil.which('icebox_vlog') and device == '1k':
            vlog.same(vlog_drivers(path), [], path)
            for choice, each in zip(outputs, placed[len(any_kind):]):
                names = [name for tile, net in ((choice[0], choice[4]), choice[5]) for name in chip.names_in(net, tile) if name.endswith('/out')]
                vlog.same(vlog_drivers(each), [sorted(names)], each)
    print('%-58s %s' % ('placed', ', '.join('%d %s' % (number, what) for what, number in sums.items())))
    return count.done() + vlog.done()


def check_patterns(shelf):
    """Bits of an IO or RAM tile that are no pattern of a switch: found, and marked as not proved."""
    count = Count('patterns of other tiles that the database does not list')
    text, tiles = contents(GOOD[0]), shelf_model.tiles_of(contents(GOOD[0]))
    chip = shelf_model.Chip(database('1k'))
    for kind in ('io', 'ramb', 'ramt'):
        found = [(at, bits, patterns) for at, switches in chip.switches.items() if chip.kinds[at] == kind for _, bits, patterns in switches
                 if len(bits) > 1 and '1' not in ''.join(tiles[at][row][column] for row, column in bits)]
        for at, bits, patterns in random.sample(found, PLACED):
            pattern = random.choice([pattern for pattern in map(('{:0%db}' % len(bits)).format, range(1, 1 << len(bits))) if pattern not in patterns] or [None])
            if pattern is None:
                continue
            path = shelf.write('patterns/%d.asc' % count.cases, shelf_model.with_switch(text, tiles, at, bits, pattern))
            first = bits[pattern.index('1')]
            words = 'found in a tile of kind %s, not proved, at (%d,%d) B%d[%d]: a pattern that the database does not list' % (kind, *at, *first)
            status, output, _ = shelf.run(path)
            count.same((status, words in output), (1, True), output)
    return count.done()


# ---- the story of document 00

def check_story(shelf):
    """A divider with a second switch onto one wire, lodged among good designs, is named with its tile and both switches; the good ones pass."""
    count = Count('a divider with two switches on one wire among good designs')
    text = contents(data('counter8.asc'))
    tiles = shelf_model.tiles_of(text)
    chip = shelf_model.Chip(database('1k'), shelf_model.in_use(tiles))
    choices = [choice for choice in shelf_model.second_switches(chip, tiles)
               if is_output(chip, choice[4], choice[0]) and is_output(chip, choice[5][1], choice[5][0]) and choice[0] != choice[5][0]]
    at, bits, pattern, _, source, (other, first) = random.choice(choices)
    shelf.write('lodged/divider.asc', shelf_model.with_switch(text, tiles, at, bits, pattern))
    for path in GOOD:
        shutil.copy(path, os.path.join(shelf.folder, 'lodged'))
    status, output, errors = shelf.run(os.path.join(shelf.folder, 'lodged'))
    lines = output.splitlines()
    count.same((status, errors, [line[:5].strip() for line in lines[:3]], lines[-1]), (1, '', ['yes', 'no', 'yes'], '2 yes, 1 no, 0 could not be told'), output)
    count.same('divider.asc  1k: ground 5 at (' in lines[1] and 'two switches drive one wire' in lines[1], True, lines[1])
    for tile, read in ((at, source), (other, first)):
        words = [r'\(%d,%d\) \S+ <- %s(?![0-9])' % (*tile, re.escape(name)) for name in chip.names_in(read, tile)]
        count.same(any(re.search(each, lines[1]) for each in words), True, (tile, lines[1]))
    return count.done()


# ---- bad files, statuses, words

def check_bad(shelf):
    count = Count('bad files: named with the line, the others go on')
    text = contents(data('counter8.asc'))
    start = text.index('.logic_tile 5 6\n')
    row, end = text[:start].count('\n') + 2, text.count('\n') + 1
    device = text[:text.index('.device')].count('\n') + 1
    body = start + len('.logic_tile 5 6\n')
    cases = [('', 1, 'empty'), ('\n\n', 3, 'empty'), ('module top;\n' + text, 1, 'not an .asc file'), ('\x7fELF\0\1', 1, 'not an .asc file'),
             (text.replace('.device 1k', '.device 9k'), device, 'chipdb-9k.txt'), (text.replace('.device 1k\n', ''), end - 1, '.device'),
             (text.replace('.device 1k', '.device 1k\n.device 8k'), device + 1, 'second device'), (text.replace('.device 1k', '.device'), device, 'no device'),
             (text[:body + 55 * 3], row + 3, '16 rows'), (text[:body + 55 * 3 + 20], row + 3, '54 digits'), (text[:start], row - 1, 'missing'),
             (text[:body] + '2' + text[body + 1:], row, '54 digits'), (text[:body] + text[body + 1:], row, '54 digits'), (text[:body] + '0' * 54 + '\n' + text[body:], row + 16, '16 rows'),
             (text[:start] + text[start:].replace('.logic_tile 5 6', '.logic_tile 5 7', 1), None, 'twice'), (text.replace('.logic_tile 5 6', '.logic_tile 3 6'), row - 1, 'ramt_tile'),
             (text.replace('.logic_tile 5 6', '.io_tile 5 6'), row - 1, 'logic_tile'), (text.replace('.logic_tile 5 6', '.logic_tile 99 6'), row - 1, 'no such tile'),
             (text[:-1], None, 'line feed'), (text.replace('\n', '\r\n'), None, ''), (text.replace('.logic_tile 5 6', '.logic_tile 05 6'), row - 1, 'ground 13'),
             (text[:body] + ' ' + text[body:], row, '54 digits'), (text.replace('.device 1k', '.device 384'), None, 'a 384 has')]
    paths = [shelf.write('bad/%02d.asc' % k, changed) for k, (changed, _, _) in enumerate(cases)]
    for path, (_, line, words) in zip(paths, cases):
        status, output, errors = shelf.run(path, GOOD[0])
        lines = output.splitlines()
        count.same((status, errors, lines[0].startswith('?    %s  line ' % path), lines[1][:5], lines[-1]), (2, '', True, 'yes  ', '1 yes, 0 no, 1 could not be told'), output)
        count.same((words in lines[0], line is None or 'line %d:' % line in lines[0]), (True, True), (line, lines[0]))
    told = shelf.told(*paths, GOOD[0])
    count.same([entry['answer'] for entry in told['designs']], ['unknown'] * len(paths) + ['yes'])
    for entry, (_, line, words) in zip(told['designs'], cases):
        count.same((entry['error']['line'] == line or line is None, words in entry['error']['words'], entry['blocks']), (True, True, []), entry['error'])
    folder = os.path.join(shelf.folder, 'none')
    os.makedirs(folder)
    for path, words in ((folder, 'no .asc file'), ('/none.asc', 'No such file'), ('/dev/zero', 'too long'), (DATA + '/1k.tab', "line 1: '01")):
        status, output, _ = shelf.run(path, GOOD[0])
        count.same((status, words in output.splitlines()[0], output.splitlines()[1][:3]), (2, True, 'yes'), output)
    return count.done()


def check_words(shelf):
    """Statuses, the sentence on what was proved, the hash, loops by structure only, usage."""
    count = Count('statuses, what was proved, the hash, usage')
    with open(database('1k'), 'rb') as file:
        told = hashlib.sha256(file.read()).hexdigest()
    status, output, errors = shelf.run(*GOOD)
    count.same((status, errors, output.splitlines()[-1]), (0, '', '2 yes, 0 no, 0 could not be told'))
    sentence = output.splitlines()[-3]
    for words in ('1k, 2 designs: the proved library read from the file and judged each of the 9 blocks', 'cover the 160 logic tiles', 'with no proof', told):
        count.same(words in sentence, True, words)
    bad = shelf.write('bad/none.asc', '')
    refused = shelf.write('bad/refused.asc', undecodable())
    for given, expected in (([bad, GOOD[0]], 2), ([bad, refused], 1), ([refused, GOOD[0]], 1), ([GOOD[0]], 0), ([bad], 2)):
        count.same((shelf.run(*given)[0], shelf.told(*given)['status']), (expected, expected), given)
    count.same('ground 4 at (5,6) B0[50]: a tile cannot be decoded: B0[50]: set, and nothing claims it' in shelf.run(refused)[1], True)
    for arguments, words in ((['--card', os.path.join(shelf.folder, 'x.html'), *GOOD], 'one design'), ([], 'usage'), (['--nothing'], 'usage')):
        status, output, errors = shelf.run(*arguments)
        count.same((status, output, words in errors), (2, '', True), errors)
    status, output, errors = shelf.run(GOOD[0], **{proved.VARIABLE: ''})
    count.same((status, output, 'make lib' in errors), (2, '', True), errors)
    count.same(shelf.run('--chipdb', DEBIAN, GOOD[0])[1], shelf.run('--chipdb', database('1k'), GOOD[0])[1])
    count.same('is for a 384' in shelf.run('--chipdb', database('384'), GOOD[0])[1], True)
    return count.done()


def check_progress(shelf):
    """A terminal shows how far it is; what is not a terminal gets nothing."""
    import pty
    count = Count('progress on a terminal only')
    lead, follow = pty.openpty()
    command = [sys.executable, os.path.join(TOOLS, 'shelf.py'), *GOOD]
    done = subprocess.run(command, stdout=subprocess.PIPE, stderr=follow, env=shelf.environment(), universal_newlines=True)
    os.close(follow)
    shown = os.read(lead, 1 << 16).decode()
    os.close(lead)
    count.same((done.stdout, '1 of 2: ' in shown, '2 of 2: ' in shown, shown.endswith('\r\x1b[K')), (shelf.run(*GOOD)[1], True, True, True), shown)
    return count.done()


def check_cache(shelf):
    """What is kept counts for its own database alone; damaged, of another format, or where nothing can be kept, the answers are the same."""
    count = Count('the cache: damaged, stale, of another database, none')
    given = '--chipdb', DEBIAN, GOOD[1]  # the 1k is bundled, and asks no database
    expected = shelf.run(*given)
    folder = os.path.join(shelf.folder, 'cache', 'ice40')
    with open(database('1k'), 'rb') as file:
        text = file.read()
    kept = os.path.join(folder, 'chip-' + hashlib.sha256(text).hexdigest())
    with open(kept, 'rb') as file:
        whole = file.read()
    middle = len(whole) // 2
    for changed in (b'', whole[:-1], whole[:middle] + bytes([whole[middle] ^ 1]) + whole[middle + 1:], b'0' * 64 + whole[64:], whole[:200]):
        with open(kept, 'wb') as file:
            file.write(changed)
        count.same(shelf.run(*given), expected, len(changed))
        with open(kept, 'rb') as file:
            count.same(file.read(), whole, 'written again')
    other = shelf.write('own/chipdb-1k.txt', '# another\n' + text.decode())
    told = shelf.run('--chipdb', os.path.dirname(other), GOOD[1])[1]
    with open(other, 'rb') as file:
        count.same((hashlib.sha256(file.read()).hexdigest() in told, told.splitlines()[0]), (True, expected[1].splitlines()[0]))
    blocked = shelf.write('blocked', 'a file where a folder should be')
    for place in (blocked, '/proc/none', 'relative'):
        count.same(shelf.run(*given, XDG_CACHE_HOME=place), expected, place)
    return count.done()


# ---- speed and memory

def spent(command, environment=None):
    """The processor time of a command: the best of some runs."""
    times = []
    for _ in range(5):
        before = resource.getrusage(resource.RUSAGE_CHILDREN)
        subprocess.run(command, stdout=subprocess.DEVNULL, stderr=subprocess.DEVNULL, env=environment)
        after = resource.getrusage(resource.RUSAGE_CHILDREN)
        times.append(after.ru_utime + after.ru_stime - before.ru_utime - before.ru_stime)
    return min(times)


def check_speed(shelf):
    """A design of a 1k in less than a tenth of icebox_explain's time, both without the start of Python, which is the same for both."""
    count = Count('speed: below a tenth of icebox_explain')
    if not shutil.which('icebox_explain'):
        print('left out, no icebox_explain')
        return 0
    command = [sys.executable, os.path.join(TOOLS, 'shelf.py')]
    start, explain = spent([sys.executable, '-c', 'pass']), spent(['icebox_explain', GOOD[1]])
    one, many = spent(command + [GOOD[1]], shelf.environment()), spent(command + [GOOD[1]] * 20, shelf.environment())
    bare = [spent([sys.executable, '-S', program, GOOD[1]], shelf.environment()) for program in (shutil.which('icebox_explain'), command[1])]
    print('seconds with python3 -S: icebox_explain %.3f, the shelf of one design %.3f' % tuple(bare))
    print('seconds: Python alone %.3f, icebox_explain %.3f, the shelf of one design %.3f, of twenty %.3f (%.4f each)' % (start, explain, one, many, many / 20))
    count.same((one - start) * 10 < explain - start, True, (one, start, explain))
    count.same(many / 20 * 10 < explain, True, (many, explain))
    return count.done()


def peak(shelf, folder):
    """The most memory that a run on a folder took, in kilobytes."""
    code = 'import resource, subprocess, sys; subprocess.run(sys.argv[1:], stdout=subprocess.DEVNULL); print(resource.getrusage(resource.RUSAGE_CHILDREN).ru_maxrss)'
    command = [sys.executable, '-c', code, sys.executable, os.path.join(TOOLS, 'shelf.py'), folder]
    return int(subprocess.run(command, stdout=subprocess.PIPE, env=shelf.environment(), universal_newlines=True).stdout)


def check_memory(shelf):
    count, sizes = Count('200 designs in no more memory than 20'), {}
    texts = [contents(path) for path in GOOD] + [undecodable()]
    for number in (20, 200):
        for k in range(number):
            shelf.write('shelf%d/%03d.asc' % (number, k), texts[k % 3])
        begin = time.time()
        sizes[number] = peak(shelf, os.path.join(shelf.folder, 'shelf%d' % number))
        print('%-58s %7d kB, %.1f s' % ('%d designs' % number, sizes[number], time.time() - begin))
    count.same(sizes[200] < sizes[20] + 2000, True, sizes)
    return count.done()


def made_designs(folder):
    """The designs of tests/designs for three devices, where yosys and nextpnr are."""
    if not all(map(shutil.which, ('yosys', 'nextpnr-ice40'))):
        print('left out, no yosys and nextpnr-ice40: designs of all devices')
        return []
    return [icebox.make(source, device, folder) for source in sorted(glob.glob(os.path.join(ROOT, 'tests', 'designs', '*.v'))) for device in icebox.CHIPS]


def main():
    parser = argparse.ArgumentParser(description=__doc__, formatter_class=argparse.RawDescriptionHelpFormatter)
    parser.add_argument('--library', metavar='FILE', default=BUILT)
    parser.add_argument('--designs', metavar='FOLDER', action='append', default=[REAL])
    arguments = parser.parse_args()
    if not os.path.exists(database('1k')):
        print('left out, no chip database (Debian has them in fpga-icestorm-chipdb): all of it')
        return run_tests([], 1)
    with tempfile.TemporaryDirectory() as folder:
        shelf = Shelf(arguments.library, folder)
        designs = GOOD + sorted(path for each in arguments.designs for path in glob.glob(os.path.join(each, '*.asc'))) + made_designs(folder)
        tests = [(check_cover,), (check_blocks, shelf, designs), (check_between, shelf, [path for path in designs if '_8k' not in path][:6] + designs[-1:]),
                 (check_patterns, shelf), (check_story, shelf), (check_bad, shelf), (check_words, shelf), (check_progress, shelf), (check_cache, shelf), (check_speed, shelf), (check_memory, shelf)]
        return run_tests(tests, 1)


if __name__ == '__main__':
    sys.exit(main())
