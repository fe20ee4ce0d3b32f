#!/usr/bin/env python3
"""Compares what the report program and explain.py say of every logic tile of some designs with IceStorm's icebox_explain.

    python3 tests/icebox.py                 makes the designs of tests/designs for a 1k, an 8k and an UltraPlus; needs yosys, nextpnr-ice40,
                                            fpga-icestorm (all in Debian), target/bin/report and Python 3
    python3 tests/icebox.py FOLDER ..       the same on the .asc files of these folders, which need no yosys and nextpnr

Each logic tile with a bit set is a block of one tile; many have bits of column buffers only. A tile that is refused (loops and clocks of ordinary designs are) has no lines 06 and
07; there the switches and cells that explain.py works with are compared. It prints a line for each design and ends with the number of
differences.
"""
import glob
import os
import re
import shutil
import subprocess
import sys
import tempfile

sys.path.insert(0, os.path.dirname(os.path.abspath(__file__)))
from library import ROOT, Count, run  # noqa: E402
from report import own_program  # noqa: E402
from tools import data  # noqa: E402

import asc_to_frames  # noqa: E402
import explain  # noqa: E402
import frames  # noqa: E402
import ice40  # noqa: E402

CHIPS = {'1k': ['--hx1k', '--package', 'tq144'], '8k': ['--hx8k', '--package', 'ct256'], '5k': ['--up5k', '--package', 'sg48']}
FLAGS = {'CarryEnable': 'carry', 'DffEnable': 'flip-flop', 'Set_NoReset': 'set', 'AsyncSetReset': 'asynchronous'}


def make(source, device, folder):
    """The .asc file of a design for a device."""
    name = os.path.join(folder, '%s_%s' % (os.path.splitext(os.path.basename(source))[0], device))
    subprocess.run(['yosys', '-q', '-p', 'read_verilog %s; synth_ice40 -top top -json %s.json' % (source, name)], check=True, stdout=subprocess.DEVNULL,
                   stderr=subprocess.DEVNULL)
    subprocess.run(['nextpnr-ice40', '-q', *CHIPS[device], '--json', name + '.json', '--asc', name + '.asc', '--pcf-allow-unconstrained', '--seed', '1'],
                   check=True, stdout=subprocess.DEVNULL, stderr=subprocess.DEVNULL)
    return name + '.asc'


def explained_tiles(path):
    """What icebox_explain says of each logic tile: coordinates to lines."""
    text = subprocess.run(['icebox_explain', path], check=True, stdout=subprocess.PIPE, universal_newlines=True).stdout
    tiles, at = {}, None
    for line in text.splitlines():
        if line.startswith('.'):
            kind, x, y = line.split()
            at = (int(x), int(y)) if kind == '.logic_tile' else None
        elif line and at:
            tiles.setdefault(at, []).append(line)
    return tiles


class Tile:
    """One tile's switches (driven name, source name), cells and fields, in one form for both."""

    def __init__(self, lines):
        self.switches, self.cells, self.fields = set(), set(), set()
        for line in lines:
            words = line.split()
            if words[0] in ('buffer', 'routing'):
                if words[1:] == ['carry_in', 'carry_in_mux']:
                    self.fields.add('carry_in_mux <- carry_in')
                else:
                    self.switches.add((words[2], words[1]))
            elif words[0].startswith('LC_'):
                lut = sum(int(digit) << k for k, digit in enumerate(words[1]))
                self.cells.add('lutff_%s: table %04X, %s' % (words[0][3:], lut, ', '.join(FLAGS[word] for word in words[3:]) or 'no flags'))
            elif words[0] in ('NegClk', 'CarryInSet'):
                self.fields.add(words[0])


def named(text):
    """The names of a wire that explain prints."""
    return {name.split()[-1] for name in re.fullmatch(r'wire \d+ \[(.*)\]', text)[1].replace(' of every tile', '').split(', ')}


def compare_words(count, tile, lines, at):
    """Each switch of icebox_explain has exactly one line of explain with these names among its wires' names."""
    place = '(%d,%d) ' % at
    ways = [tuple(named(end) for end in line.split(' <- ')) for line in lines if line.startswith('wire ')]
    for driven, source in sorted(tile.switches):
        count.same(sum(driven in one and source in other for one, other in ways), 1, (at, driven, source))
    count.same(len(ways), len(tile.switches), at)
    rest = {line[len(place):] for line in lines if line.startswith(place)}
    count.same({line for line in rest if line.startswith('lutff_')}, tile.cells, at)
    count.same({line for line in rest if not line.startswith('lutff_')}, tile.fields, at)


def compare_trail(count, tile, scene, at):
    found = scene.trail
    switches = {(ice40.NAMES[driven % 506], ice40.NAMES[source % 506]) for driven, source, _ in found.switches}
    count.same(switches, tile.switches, at)
    count.same({explain.cell_words(scene.block, cell).split(' ', 1)[1] for cell in found.cells()}, tile.cells, at)
    count.same({words.split(' ', 1)[1] for words in found.field_words()}, tile.fields, at)


def compare_design(path, program):
    with open(path, 'rb') as file:
        device, tiles = asc_to_frames.read_design(file.read())
    table = ''.join(line + '\n' for line in frames.table_frames(frames.read_table(data('%s.tab' % device))))
    count, expected = Count(os.path.basename(path)), explained_tiles(path)
    totals = {'tiles': 0, 'of them in use': 0, 'switches': 0, 'cells': 0, 'fields': 0, 'refused': 0}
    for at, lines in sorted(expected.items()):
        tile = Tile(lines)
        text = table + ''.join(line + '\n' for line in asc_to_frames.block_frames(asc_to_frames.python_block(tiles, at, 1, 1), 1, 1))
        done = subprocess.run([program], input=text.encode(), stdout=subprocess.PIPE, check=True)
        scene, report = explain.Scene(None, path, at), explain.Report(done.stdout.decode())
        scene.text = text
        scene.check(report)
        if report.verdict[0]:
            compare_trail(count, tile, scene, at)
        else:
            compare_words(count, tile, list(explain.yes_words(report, scene)), at)
        for key, number in zip(totals, (1, bool(tile.switches or tile.cells), len(tile.switches), len(tile.cells), len(tile.fields), report.verdict[0] != 0)):
            totals[key] += number
    print('%-22s %s' % (os.path.basename(path), ', '.join('%d %s' % (number, key) for key, number in totals.items())))
    return count.done(), totals


def compare_all(paths, program):
    wrong, sums = 0, {}
    for path in paths:
        found, totals = compare_design(path, program)
        wrong += found
        sums = {key: sums.get(key, 0) + number for key, number in totals.items()}
    print('in all: %s' % ', '.join('%d %s' % (number, key) for key, number in sums.items()))
    return wrong


def missing():
    needed = ['icebox_explain'] + ([] if sys.argv[1:] else ['yosys', 'nextpnr-ice40'])
    return [name for name in needed if not shutil.which(name)]


def main():
    if missing():
        sys.exit('not here: %s (Debian: yosys, nextpnr-ice40, fpga-icestorm)' % ', '.join(missing()))
    with tempfile.TemporaryDirectory() as folder:
        paths = sorted(path for given in sys.argv[1:] for path in glob.glob(os.path.join(given, '*.asc')))
        if not sys.argv[1:]:
            sources = sorted(glob.glob(os.path.join(ROOT, 'tests', 'designs', '*.v')))
            paths = [make(source, device, folder) for source in sources for device in CHIPS]
        return run([(compare_all, paths, own_program())], 1)


if __name__ == '__main__':
    sys.exit(main())
