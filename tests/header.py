#!/usr/bin/env python3
"""Holds include/ice40.h and include/ice40.rs against the papers' numbers and tries what the header says of memory, threads and stack.

    python3 tests/header.py             needs the Rattle kit (rt), C and C++ compilers, binutils and Python 3

The header is compiled as C99, C11 and C++17 with all warnings as errors, by each of gcc and clang that is there; a program in each of
the two languages is linked and run. It prints a line for each group of cases and ends with the number of differences.
"""
import os
import re
import shutil
import subprocess
import sys
import tempfile
from array import array

sys.path.insert(0, os.path.dirname(os.path.abspath(__file__)))
import model  # noqa: E402
import wire_numbers  # noqa: E402
from library import ROOT, Count, blocks, build_archive, present, run  # noqa: E402
from tools import contents  # noqa: E402

import explain  # noqa: E402
import frames  # noqa: E402
import ice40  # noqa: E402

HEADER, BINDING = os.path.join(ROOT, 'include', 'ice40.h'), os.path.join(ROOT, 'include', 'ice40.rs')
WARNINGS = ['-Wall', '-Wextra', '-Wpedantic', '-Werror', '-I', os.path.join(ROOT, 'include')]
LANGUAGES = [('cc', 'c', 'c99'), ('cc', 'c', 'c11'), ('gcc', 'c', 'c11'), ('clang', 'c', 'c11'), ('c++', 'c++', 'c++17'), ('g++', 'c++', 'c++17'),
             ('clang++', 'c++', 'c++17')]
# macros of the header by name, and what they should be; functions of a number are asked at 0 and at 5
PLAIN = {
    'VERSION': '"%s"' % '.'.join(re.findall(r'#define ICE40_VERSION_(?:MAJOR|MINOR|PATCH) (\d+)', contents(HEADER))), 'LIMIT': 8, 'TILES_LIMIT': 64,
    'TABLE_LENGTH': model.TABLE, 'TABLE_NEG_CLK': 0, 'TABLE_CARRY_IN_SET': 1, 'TABLE_CHAIN': 2, 'TABLE_PASSIVE_COUNT': 3, 'TABLE_GROUP_COUNT': 68,
    'GROUP_DESTINATION': 0, 'GROUP_POSITION_COUNT': 1, 'GROUP_ENTRY_COUNT': 10, 'PASSIVE_LIMIT': frames.PASSIVE_LIMIT, 'GROUP_LIMIT': frames.GROUP_LIMIT,
    'POSITION_LIMIT': frames.POSITION_LIMIT, 'ENTRY_LIMIT': frames.ENTRY_LIMIT, 'SETTINGS_NEG_CLK': 0, 'SETTINGS_CARRY_IN_SET': 1, 'SETTINGS_CHAIN': 2,
    'FLAG_CARRY': 1, 'FLAG_FLIP_FLOP': 2, 'FLAG_SET': 4, 'FLAG_ASYNCHRONOUS': 8, 'ROW_LENGTH': 7, 'ROW_KIND': 0, 'ROW_WIRE': 1, 'ROW_TABLE': 6,
    'KIND_LENT': 1, 'KIND_ZERO': 2, 'KIND_ONE': 3, 'KIND_FLIP_FLOP': 4, 'KIND_COPY': 5, 'KIND_LOOKUP': 6, 'KIND_MAJORITY': 7, 'CELLS': 8,
    'DIFFERENCE_LENGTH': 5, 'DIFFERENCE_TILE': 0, 'DIFFERENCE_KIND': 1, 'DIFFERENCE_INDEX': 2, 'DIFFERENCE_OLD': 3, 'DIFFERENCE_NEW': 4,
    'DIFFERS_FIELD': 1, 'DIFFERS_GROUP': 2, 'DIFFERS_CELL': 3, 'DIFFERS_PASSIVE': 4,
    'CONTENTION_LENGTH': 3, 'CONTENTION_WIRE': 0, 'CONTENTION_TILE': 1, 'CONTENTION_GROUP': 2,
    'CARD_W': 0, 'CARD_H': 1, 'CARD_CELLS': 2, 'CARD_FLIP_FLOPS': 3, 'CARD_LEAVING': 4,
    'PORTS': wire_numbers.PORTS, 'OPEN': 1, 'ZERO': 2, 'ONE': 3, 'CELL': 4, 'RING': 5, 'STACK_BYTES': 131072,
}
COUNTED = {'BITS_LENGTH': (0, model.WORDS), 'BYTES_LENGTH': (0, model.BYTES), 'SETTINGS_LENGTH': (0, 595), 'PORTS_LENGTH': (0, 506), 'LIST_LENGTH': (0, 3542), 'STATE_LENGTH': (0, 8),
           'SWITCHES_LENGTH': (0, 512), 'DIFFERENCES_LIMIT': (0, len(model.settings_of_kinds([0] * model.SETTINGS))), 'TABLE_PASSIVE': (4, 1), 'CARD_FEEDING': (5, 1),
           'TABLE_GROUP': (69, 75), 'GROUP_POSITION': (2, 1), 'GROUP_PATTERN': (11, 2), 'GROUP_SOURCE': (12, 2), 'SETTINGS_PASSIVE': (3, 1),
           'SETTINGS_GROUP': (67, 1), 'SETTINGS_CELL_TABLE': (579, 2), 'SETTINGS_CELL_FLAGS': (580, 2), 'ROW_OPERAND': (2, 1)}
PORT_NAMES = {name: 'NEIGH_OP_' + name.upper() if name in wire_numbers.SEES else name.upper() for name in wire_numbers.BASE}


def expected_values():
    """Expressions in C, and their values as text."""
    for name, value in PLAIN.items():
        yield 'ICE40_' + name, str(value).strip('"')
    for name, (start, step) in COUNTED.items():
        for k in (0, 5):
            yield 'ICE40_%s(%d)' % (name, k), str(start + step * k)
    for name, port in wire_numbers.BASE.items():
        yield 'ICE40_PORT_' + PORT_NAMES[name], str(port)
    for k, number in enumerate(('MAJOR', 'MINOR', 'PATCH')):
        yield 'ICE40_VERSION_' + number, PLAIN['VERSION'].strip('"').split('.')[k]
    answer = 7 << 32 | 0x162
    yield 'ICE40_GROUND(UINT64_C(%d))' % answer, '7'
    yield 'ICE40_VALUE(UINT64_C(%d))' % answer, str(0x162)
    yield 'ICE40_END(0x401BE)', '4'
    yield 'ICE40_END_WIRE(0x401BE)', str(0x1BE)


def printing_program():
    """A program that prints each value, and each ground with its words and its place."""
    lines = ['#include <stdio.h>', '#include "ice40.h"', '#include "ice40.h"', 'int main(void) {']
    for name, _ in expected_values():
        lines.append('    printf(%s);' % ('"%%s\\n", %s' % name if name == 'ICE40_VERSION' else '"%%lu\\n", (unsigned long)%s' % name))
    lines += ['    for (uint32_t g = 0; g < 300; g++)', '        if (ice40_ground_words(g)) printf("%u|%s|%s\\n", (unsigned)g, ice40_ground_words(g), ice40_place_words(g));']
    lines += ['#define NAMED(number, name, words, place) printf("%d %d\\n", ICE40_NO_##name, number);', '    ICE40_GROUNDS(NAMED)', '    return (int)ICE40_YES;', '}']
    return '\n'.join(lines) + '\n'


def compiled(compiler, language, standard, source, folder, *words):
    """A program of a source file, or what the compiler says."""
    program = os.path.join(folder, 'program')
    done = subprocess.run([compiler, '-x', language, '-std=' + standard, *WARNINGS, source, '-x', 'none', *words, '-o', program], stdout=subprocess.PIPE,
                          stderr=subprocess.STDOUT, universal_newlines=True)
    return (program, '') if done.returncode == 0 else (None, done.stdout)


def output_of(command):
    return subprocess.run(command, check=True, stdout=subprocess.PIPE, universal_newlines=True).stdout


def check_values(folder):
    count = Count('macros and grounds, in each language by each compiler')
    source = os.path.join(folder, 'values.c')
    with open(source, 'w') as file:
        file.write(printing_program())
    names, values = zip(*expected_values())
    grounds = ['%d|%s|%s' % (number, words, place or '') for number, (words, place) in explain.GROUNDS.items()]
    for compiler, language, standard in LANGUAGES:
        if not shutil.which(compiler):
            continue
        program, errors = compiled(compiler, language, standard, source, folder)
        if not count.same(errors, '', (compiler, standard)):
            continue
        lines = output_of([program]).splitlines()
        for name, got, value in zip(names, lines, values):
            count.same(got, value, (compiler, standard, name))
        count.same(lines[len(values):len(values) + len(grounds)], grounds, (compiler, standard))
        count.same(lines[len(values) + len(grounds):], ['%d %d' % (number, number) for number in explain.GROUNDS], (compiler, standard))
    return count.done()


def check_all_named():
    count = Count('every macro of the header is among those that are checked')
    checked = {name.split('(')[0] for name, _ in expected_values()} | {'ICE40_H', 'ICE40_GROUNDS', 'ICE40_GROUND_NAME', 'ICE40_GROUND_CASE', 'ICE40_PLACE_CASE'}
    count.same(set(re.findall(r'#define (ICE40_\w+)', contents(HEADER))) - checked, set())
    count.same([ice40.NAMES[port].split('/')[-1].split('_')[0] for port in (336, 372, 404, 476, 489, 497, 505)], ['local', 'in', 'out', 'clk', 'cout', 'lout', 'ltin'])
    return count.done()


def check_binding():
    count = Count("include/ice40.rs: the header's numbers and functions")
    binding, header = contents(BINDING), contents(HEADER)
    constants = dict(re.findall(r'pub const (\w+): \S+ = (.*);', binding))
    values = {name: str(value) for name, value in PLAIN.items()}
    values.update({'PORT_' + PORT_NAMES[name]: str(port) for name, port in wire_numbers.BASE.items()})
    values.update({name: str(start or step) for name, (start, step) in COUNTED.items()})
    values['GROUP_LENGTH'] = str(COUNTED['TABLE_GROUP'][1])
    for name, value in constants.items():
        count.same(value, values.get(name), name)

    def functions(text, kind, argument):
        """Each function's name and the names of its arguments, slices as two."""
        return {name: re.findall(argument, arguments) for name, arguments in re.findall(kind + r'(ice40_\w+)\(([^)]*)\)', text)}

    count.same(functions(binding, 'pub fn ', r'(\w+):'), functions(header, 'uint64_t ', r'(\w+)(?:,|$)'))
    return count.done()


def block_file(folder, block):
    """A block as tests/header.c reads it."""
    w, h, east, table, bits = block
    path = os.path.join(folder, 'block')
    with open(path, 'wb') as file:
        file.write(bytes([w, h, east]) + array('H', table).tobytes() + array('Q', bits).tobytes() + model.bytes_of(bits))
    return path


def check_calls(folder, archive):
    counts = {}
    for compiler, language, standard in (('cc', 'c', 'c11'), ('c++', 'c++', 'c++17')):
        if not present(compiler, "a program linked with the library"):
            continue
        program, errors = compiled(compiler, language, standard, os.path.join(ROOT, 'tests', 'header.c'), folder, archive, '-pthread')
        counts.setdefault('linked', Count('a program linked from C and from C++')).same(errors, '', compiler)
        for name, east in (('counter8_1x1', 0), ('uart_tx_3x3', 0), ('uart_tx_3x3', 1), ('latch_1x1', 1), ('big8_8x8', 1)):
            w, h, _, *block = blocks()[name]
            for line in output_of([program, block_file(folder, (w, h, east, *block))]).splitlines() if program else []:
                if line.startswith('  '):
                    print(line)
                    continue
                group, cases, wrong = line.split('\t')
                count = counts.setdefault(group, Count(group))
                count.cases, count.wrong = count.cases + int(cases), count.wrong + int(wrong)
    return sum(count.done() for count in counts.values())


def check_state(archive):
    count = Count('no variables in the library, no functions but the header\'s')
    if not present('nm', 'the symbols of the library'):
        return count.done()
    for line in output_of(['nm', archive]).splitlines():
        kind = line.split()[-2:-1]
        if kind and kind[0] in 'bBdDcCgGsS':
            count.same(line, '', 'a variable')
    count.same({line.split()[-1] for line in output_of(['nm', '-g', '--defined-only', archive]).splitlines() if ' T ' in line},
               set(re.findall(r'^uint64_t (ice40_\w+)\(', contents(HEADER), re.MULTILINE)))
    count.same({line.split()[-1] for line in output_of(['nm', '-u', archive]).splitlines() if ' U ' in line} - {'memcpy', 'memset', 'memmove', 'memcmp'}, set())
    return count.done()


def main():
    archive = build_archive()
    with tempfile.TemporaryDirectory() as folder:
        return run([(check_values, folder), (check_all_named,), (check_binding,), (check_calls, folder, archive), (check_state, archive)], 1)


if __name__ == '__main__':
    sys.exit(main())
