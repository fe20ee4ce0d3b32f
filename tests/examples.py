#!/usr/bin/env python3
"""Builds the examples in C and Rust and compares what they print with the models of tests/model.py and tests/cell_model.py; bad input, closed
and full output, the numbers of docs/LOOKUP.md, and the benchmark's scripts with bad words.

    python3 tests/examples.py             needs the Rattle kit (rt), a C compiler, rustc and Python 3
    python3 tests/examples.py FOLDER ..   the same on the inputs NAME.in of other folders, and with NAME.out beside them (NAME.full for a
                                          block above the programs' 3 by 3)

It prints a line for each group of cases and ends with the number of differences. Left out are inputs that the report program refuses by
their lines or by its own limit of 3 by 3 (grounds 11 and 1): the examples have the library's limit and no number for a bad line.
"""
import glob
import os
import random
import re
import subprocess
import sys
import tempfile

sys.path.insert(0, os.path.dirname(os.path.abspath(__file__)))
import cell_model  # noqa: E402
import model  # noqa: E402
from library import DATA, ROOT, Count, blocks, build_archive, present, run  # noqa: E402
from report import lines_of, sample, whole  # noqa: E402

sys.path.insert(0, os.path.join(ROOT, 'tools'))
import explain  # noqa: E402

STRICT = ['-std=c11', '-Wall', '-Wextra', '-Wpedantic', '-Werror']
YES, NO, COULD_NOT = 0, 1, 2
BUILDS, SHOWS = ('build.c', 'build.rs'), ('viewer.c', 'lookup.c', 'count.c', 'card.c')  # those that print a report, and those that show something else
WORDS = {'count.c': ['1000']}  # after the block


def build_programs(folder):
    """The examples, compiled against the static library: name to program."""
    archive = build_archive()
    rust = ['build.rs'] if present('rustc', 'the example in Rust') else []
    programs = {name: os.path.join(folder, name.replace('.', '_')) for name in ['build.c', *rust, *SHOWS]}
    for name in ('build.c',) + SHOWS:
        subprocess.run(['cc', *STRICT, '-Iinclude', 'examples/' + name, archive, '-o', programs[name]], cwd=ROOT, check=True)
    if rust:
        command = ['rustc', '-O', '-D', 'warnings', 'examples/build.rs', '-L', os.path.dirname(archive), '-l', 'static=capi', '-o', programs['build.rs']]
        subprocess.run(command, cwd=ROOT, check=True)
    return programs


def answer(command, **options):
    """Exit status, output and errors of a command, or of a line for the shell."""
    done = subprocess.run(command, stdout=subprocess.PIPE, stderr=subprocess.PIPE, timeout=60, **options)
    return done.returncode, done.stdout.decode(), done.stderr.decode()


def contents(path):
    with open(path, encoding='utf-8') as file:
        return file.read()


def modelled(path):
    """Exit status and output of the examples, by the model."""
    text = model.report(*model.parse(contents(path)))[0]
    return (YES if text.endswith('08000000\n') else NO), text


def expected_beside(path):
    """The report that was written beside an input, or None."""
    for end in ('.full', '.out'):
        if os.path.exists(path[:-3] + end):
            return contents(path[:-3] + end)
    return None


def left_out(path):
    """Whether the report program refuses an input for a reason that the examples do not have."""
    text = expected_beside(path)
    if text is None or text[:4] not in ('0801', '080B'):
        return False
    size = [frame[2:] for frame in contents(path).splitlines() if frame.startswith('04')]
    return text[:4] == '080B' or all(1 <= n <= 8 for n in bytes.fromhex(size[0])[:2])


def compare_all(programs, where):
    """The programs on the inputs of a folder."""
    paths = sorted(glob.glob(os.path.join(where, '*.in')))
    taken = [path for path in paths if not left_out(path)]
    print('%s: %d inputs, %d left out' % (os.path.relpath(where, ROOT) if where == DATA else where, len(paths), len(paths) - len(taken)))
    return sum(compare(name, program, taken, os.path.basename(where)) for name, program in programs.items() if name in BUILDS)


def compare(name, program, paths, where):
    count = Count('%s on %s: exit status, the report itself' % (name, where))
    for path in paths:
        found, beside = answer([program, path]), expected_beside(path)
        if beside is not None:
            count.same(found[1], beside, path)
        if beside != '08010000\n':  # after a refused size anything may follow, which the model does not read
            count.same(found, (*modelled(path), ''), path)
    return count.done()


def with_byte(name, program, folder):
    """The bundled blocks with a byte for the column to the east."""
    count, path = Count('%s with a byte for the column to the east' % name), os.path.join(folder, 'east.in')
    for block, (w, h, *_) in blocks().items():
        for east in ('00', '01'):
            size = '04%02X%02X' % (w, h)
            with open(path, 'w') as file:
                file.write(contents(os.path.join(DATA, block + '.in')).replace(size + '\n', size + east + '\n'))
            count.same(answer([program, path]), (*modelled(path), ''), (block, east))
    return count.done()


def explained(name, program):
    """Blocks above 3 by 3, which the report program does not take, in words."""
    count = Count('%s above 3 by 3, explained' % name)
    for block, words in (('big8_8x8', 'yes: 64 tiles, 828 enabled switches, 218 cells in use'), ('counter32_2x4', 'yes: 8 tiles, ')):
        path = os.path.join(DATA, block + '.in')
        status, text, errors = answer('%s %s | %s tools/explain.py --input %s' % (program, path, sys.executable, path), shell=True, cwd=ROOT)
        count.same((status, text.rstrip('\n').rpartition('\n')[2].startswith(words), errors), (YES, True, ''), block)
    return count.done()


def bad_inputs():
    """Texts that are no input, and the line at which that shows."""
    lines, whole_line = sample(), [line + '\n' for line in sample()]
    for k, line in enumerate(whole_line):
        before, after = ''.join(whole_line[:k]), ''.join(whole_line[k + 1:])
        for bad in ('', line[:-1], line[:-2] + '\n', ' ' + line, line[:-1] + ' \n', line[:-1] + '\r\n', line.lower().replace('0', 'a') + after, '\n' + line + after,
                    '06\n' + after, 'zz\n', '\0' * 700, '0' * 2000, '\xe9\n', line + line + line if line[:2] not in ('03', '05') else '01\n'):
            yield before + bad, None
        yield before, k + 1
    for extra in ('0', '\n', lines[-1], lines[-1] + '\n', lines[0] + '\n'):
        yield ''.join(whole_line) + extra, len(lines) + 1
    yield whole(lines_of([], [[]] * 3, 2, 2)).decode(), 7
    for rest in ('02', 'FF', '0', '1', '0000', '0001', '000000', '1 ', 'aa'):
        yield ''.join(whole_line[:4]) + '040101' + rest + '\n' + whole_line[5], 5
        yield ''.join(whole_line[:4]) + '040901' + rest + '\n', 5
    for rest in ('0241', '02410000'):
        yield whole_line[0] + rest + '\n', 2
    for rest in ('015009', '01500100210121'):
        yield ''.join(whole_line[:2]) + '03' + rest + '\n', 3
    yield ''.join(whole_line[:2]) + ''.join('03%04X01%04X01010194\n' % (336, p) for p in range(513)), 515


def bad_input(name, program, folder):
    """No file, and lines that are no frames: one line on standard error, exit status 2, nothing on standard output."""
    count = Count('%s on what is no input' % name)
    path = os.path.join(folder, 'bad.in')
    for text, line in bad_inputs():
        with open(path, 'w', encoding='latin-1', newline='') as file:
            file.write(text)
        status, output, errors = answer([program, path])
        count.same((status, output, errors.count('\n')), (COULD_NOT, '', 1), (text[-60:], errors))
        if line:
            count.same(errors, 'build: line %d: not the frame that is due there\n' % line, text[-60:])
    for arguments in ([], [path + '.none'], [folder], ['/dev/zero']):
        status, output, errors = answer([program] + arguments)
        count.same((status, output, errors.count('\n')), (COULD_NOT, '', 1), (arguments, errors))
    for size in ('040901', '04090100', '04000101'):
        with open(path, 'w') as file:
            file.write(''.join(line + '\n' for line in sample()[:4]) + size + '\nanything')
        count.same(answer([program, path]), (NO, '08010000\n', ''), 'a size that no call takes')
    return count.done()


def full_output(programs):
    """Standard output full or closed; /dev/null on purpose is neither, though Rust itself opens it, for reading and writing, in place of a
    closed one."""
    count = Count('closed and full output, /dev/null')
    block = os.path.join(DATA, 'uart_tx_3x3.in')
    for name, program in programs.items():
        given = ' '.join([block] * (name != 'lookup.c') + WORDS.get(name, []))
        for where in ('>/dev/full', '>&-', '>&- 2>&-', '<&- >&-'):
            status, output, errors = answer('%s %s %s' % (program, given, where), shell=True)
            count.same((status, output, errors.count('\n')), (COULD_NOT, '', int('2>' not in where)), (name, where, errors))
        for where in ('>/dev/null', '1<>/dev/null', '>/dev/null 2>&1'):
            count.same(answer('%s %s %s' % (program, given, where), shell=True), (YES, '', ''), (name, where))
    return count.done()


def viewer(program):
    count = Count('viewer.c')
    words = 'no, ground 20, a port, tile or lookup input is out of range: number'
    count.same(answer([program]), (0, 'wire of sp4_r_v_b_37, tile 2, 2 by 5: 639\nwire of port 506: %s 506\nlookup F0F0 at 4: 1\nlookup F0F0 at 16: %s 16\n'
                                   % (words, words), ''))
    for name, block in blocks().items():
        count.same(answer([program, os.path.join(DATA, name + '.in')]), (*settled_cells(*block), ''), name)
    return count.done()


def refused(no):
    """What the examples print for a no."""
    words, place = explain.GROUNDS[no[0]]
    return NO, 'this block: no, ground %d, %s: %s %d\n' % (no[0], words, place, no[1])


def settled_cells(w, h, east, table, bits):
    """What viewer.c prints for a block, by the model: each cell in use, with every flip-flop and every lent value 0."""
    rows = model.build(w, h, east, table, bits)
    if isinstance(rows, tuple):
        return refused(rows)
    settings, values, lines = model.read(w, h, table, bits), model.settle(w, h, east, rows, [0] * (8 * w * h), [0] * (506 * w * h)), []
    for t in range(w * h):
        for i in range(8):
            if any(settings[model.SETTINGS * t + 579 + 2 * i:][:2]):
                ins = values[506 * t + 372 + 4 * i:][:4]
                lines.append('(%d, %d) cell %d: in_3 .. in_0 = %s, out = %d\n' % (t % w, t // w, i, ''.join(map(str, ins[::-1])), values[506 * t + 404 + i]))
    return YES, ''.join(lines)


def counted_states(steps, w, h, east, table, bits):
    """What count.c prints for a block with `each`, by the model: the open wires that clock a flip-flop go from 0 to 1 in each step."""
    rows = model.build(w, h, east, table, bits)
    if isinstance(rows, tuple):
        return refused(rows)
    settings = model.read(w, h, table, bits)
    block, n = model.Block(w, h, east, table, settings), w * h
    low, high, state, lines = [0] * (506 * n), [0] * (506 * n), [0] * (8 * n), []
    for t in range(n):
        kind, wire = block.follow(block.at(t, 476))
        high[wire] |= kind == 1 and any(block.flag(t, i, 1) for i in range(8))
    for k in range(1, steps + 1):
        _, state = model.step(w, h, east, settings, rows, state, low, high)
        shown = (''.join(str(state[8 * t + i]) if block.flag(t, i, 1) else '.' for i in range(7, -1, -1)) for t in range(n))
        lines.append('%d: %s\n' % (k, ' '.join(shown)))
    return YES, ''.join(lines)


def counting(program):
    count = Count('count.c: 1,000 steps of a counter; other blocks step by step')
    counter = os.path.join(DATA, 'counter8_2x2.in')
    count.same(answer([program, counter, '1000']), (YES, '1000: ....0... ........ 1110100. ........\n', ''), '1,000 is 232 and three times 256')
    for name, block in blocks().items():
        if block[0] * block[1] <= 9:
            count.same(answer([program, os.path.join(DATA, name + '.in'), '20', 'each']), (*counted_states(20, *block), ''), name)
    for words in ([], [counter], [counter, '0'], [counter, '-1'], [counter, 'x'], [counter, '1', 'all'], [counter, '1', 'each', '1'], [counter, '9999999999']):
        count.same(answer([program, *words]), (COULD_NOT, '', 'usage: count FRAMES STEPS [each]\n'), words)
    return count.done()


def counted_wires(what, wires):
    return '%s: %d%s\n' % (what, len(wires), ', wire%s %s' % ('s' * (len(wires) > 1), ' '.join(map(str, wires))) if wires else '')


def carded(*block):
    """What card.c prints for a block, by the model."""
    numbers = model.card(*block, 1 << 20)
    if isinstance(numbers, tuple):
        return refused(numbers)
    leaving = numbers[5:5 + numbers[4]]
    text = '%d by %d tiles\ncells in use: %d\nflip-flops: %d\n' % tuple(numbers[:4])
    text += counted_wires('leaving the block', leaving)
    return YES, text + counted_wires('coming in, and used by a flip-flop or by what leaves', numbers[6 + len(leaving):])


def carding(program):
    count = Count('card.c: a shelf card in words')
    for name, block in blocks().items():
        count.same(answer([program, os.path.join(DATA, name + '.in')]), (*carded(*block), ''), name)
    return count.done()


def halving(table, inputs):
    """What lookup.c prints, by the model: what is left after each choice, in the columns where it stands in the table."""
    lines, from_left = ['%-22s%s  %04X' % ('sixteen bits', format(table, '016b'), table)], 0
    for name, choice, picked, left in zip(('in_3', 'in_2', 'in_1', 'in_0'), inputs, ('eight', 'four', 'two', 'one'), cell_model.halves(table, inputs)):
        from_left += 0 if choice == '1' else len(left)
        columns = ' ' * from_left + left + ' ' * (16 - from_left - len(left))
        lines.append('%-22s%s  %0*X' % ('%s = %s picks %s' % (name, choice, picked), columns, max(len(left) // 4, 1), int(left, 2)))
    at = int(inputs, 2)
    lines.append("the library's lookup of %04X at %d: %d" % (table, at, cell_model.table_bit(table, at)))
    return '\n'.join(lines) + '\n'


def lookup(program):
    count = Count('lookup.c: what is left after each choice')
    count.same(answer([program]), (0, halving(0xACFC, '1101'), ''))
    every = [format(n, '04b') for n in range(16)]
    pairs = [(0xACFC, inputs) for inputs in every] + [(1 << k, inputs) for k in range(16) for inputs in every]
    for table, inputs in pairs + [(random.randrange(65536), random.choice(every)) for _ in range(200)]:
        count.same(answer([program, '%04X' % table, inputs]), (0, halving(table, inputs), ''), (table, inputs))
    for words in (['ACFC'], ['ACF', '1101'], ['ACFCC', '1101'], ['acfc', '1101'], ['ACFG', '1101'], ['ACFC', '110'], ['ACFC', '11011'], ['ACFC', '1102'], ['', ''],
                  ['-ACF', '1101'], ['0xAC', '1101'], ['ACFC', '1101', '0']):
        status, output, errors = answer([program, *words])
        count.same((status, output, errors.count('\n')), (COULD_NOT, '', 1), words)
    return count.done()


def lookup_page():
    """The numbers of docs/LOOKUP.md: the cell is the block's, and each row of the table of all inputs is the model's."""
    count = Count('docs/LOOKUP.md: the cell, the halves, what they give')
    page = contents(os.path.join(ROOT, 'docs', 'LOOKUP.md'))
    cells = model.report(*model.parse(contents(os.path.join(DATA, 'uart_tx_3x3.in'))))[2]
    count.same((6, 3, 0xACFC, 6) in cells, True, 'tile 6 is (5,12): corner (5,10), 3 wide; cell 3; flip-flop, set')
    count.same('(5,12)' in page and 'lutff_3' in page, True)
    rows = re.findall(r'(?m)^\| ([01]) ([01]) ([01]) ([01]) \| ([0-9A-F]{2}) \| ([0-9A-F]) \| ([0-3]) \| ([01]) \|$', page)
    count.same([''.join(row[:4]) for row in rows], [format(n, '04b') for n in range(16)])
    for row in rows:
        numbers = [int(left, 2) for left in cell_model.halves(0xACFC, ''.join(row[:4]))]
        count.same([int(number, 16) for number in row[4:]], numbers, row)
        in3, in2, in1, in0 = (digit == '1' for digit in row[:4])
        count.same(bool(numbers[-1]), (in0 if in2 else in1) if in3 else in2 or in1, 'what the page says that the table does')
    for words, shown in re.findall(r'(?m)^    \$ target/lookup(.*)\n((?:    (?!\$).*\n)+)', page):
        table, inputs = words.split() or ('ACFC', '1101')
        count.same([line[4:] for line in shown.splitlines()], halving(int(table, 16), inputs).splitlines(), words)
    code, said = contents(os.path.join(ROOT, 'crates', 'cell', 'src', 'logic.rt')), contents(os.path.join(ROOT, 'crates', 'cell', 'specs', 'Halves.antt'))
    lines = re.findall(r'(?m)^\| in_\d picks .* \| `(let .*)` \| `(.*)` \| `(.*)` \|$', page)
    for line, bit, field in lines:
        count.same(('    %s\n' % line in code, 'pub %s : %s ≡ lookup_bit ' % (field, bit) in said), (True, True), line)
    count.same(len(lines), 4)
    swapped = [list(cell_model.halves(0xACFC, in2 + in3 + rest))[-1] for in3, in2, rest in (('1', '1', '01'), ('0', '1', '00'))]
    count.same(swapped, ['1', '0'], 'in_2 picks the eight: nothing changes at 1101, and 0 in place of 1 at 0100')
    return count.done()


def benchmark(folder):
    """The benchmark's own words, and those of report_time."""
    count = Count("the benchmark's scripts on bad words: exit status 2, one line")
    if not present('rustc', 'the benchmark'):
        return count.done()
    program = os.path.join(folder, 'bench')
    subprocess.run(['rustc', '-O', '--edition', '2021', 'bench/src/main.rs', '-L', 'native=target/staticlib', '-l', 'static=capi', '-o', program], cwd=ROOT,
                   check=True)
    frames, asc = os.path.join(DATA, 'sample.in'), os.path.join(DATA, 'counter8.asc')
    commands = [[program, DATA, *words.split()] for words in ('proved nosuch build 1', 'proved big8_8x8 nosuch 1', 'nosuch big8_8x8 build 1', 'proved big8_8x8 build -1',
                                                              'proved big8_8x8 build x', 'proved loop_8x8 step 1', 'proved loop_8x8 settle 1', 'proved loop_8x8 clock 1', 'baseline big8_8x8 card 1', 'proved',
                                                              'proved nosuch compare 1', 'nosuch big8_8x8 contentions 1', 'proved big8_8x8 contentions x')]
    commands += [[program], [program, folder]]
    time = [sys.executable, os.path.join(ROOT, 'bench', 'report_time')]
    commands += [time, [*time, program, frames, asc + '.none'], [*time, program, frames + '.none', asc], [*time, program + '.none', frames, asc], [*time, frames, frames, asc],
                 [*time, program, frames, asc, '-1'], [*time, program, frames, asc, '0'], [*time, program, frames, asc, 'x']]
    for command in commands:
        status, output, errors = answer(command)
        count.same((status, output, errors.count('\n')), (COULD_NOT, '', 1), (command, errors))
    for words in (['counter8_1x1', 'build'], ['counter8_1x1', 'card'], ['counter8_1x1', 'step'], ['counter8_1x1', 'settle'], ['counter8_1x1', 'clock'], ['big8_8x8, one bit', 'compare'], ['big8_8x8', 'contentions']):
        count.same(answer([program, DATA, 'proved', *words, '1']), (0, '', ''), words)
    return count.done()


def main():
    with tempfile.TemporaryDirectory() as folder:
        programs = build_programs(folder)
        builds = [(name, programs[name]) for name in BUILDS if name in programs]
        tests = [(compare_all, programs, where) for where in [DATA] + sys.argv[1:]] + [(explained, *build) for build in builds]
        tests += [(with_byte, *build, folder) for build in builds]
        return run(tests + [(bad_input, *build, folder) for build in builds] + [(full_output, programs), (viewer, programs['viewer.c']),
                                                                                (counting, programs['count.c']), (carding, programs['card.c']),
                                                                                (lookup, programs['lookup.c']), (lookup_page,), (benchmark, folder)], 1)


if __name__ == '__main__':
    sys.exit(main())
