#!/usr/bin/env python3
"""Holds the declarations of include/ice40.h and include/ice40.rs against the code of crates/capi_c.

    python3 tests/signatures.py         needs Python 3 alone

The linker sees names and no types, so a header with two arguments swapped, a number of another width or a `const` too many links and
runs. Here every `extern "C"` function of capi_c is compared with both files: which functions there are, and for each argument its place,
its name, its width, whether it is a slice (a pointer and a length behind it) and whether it is written. The script then changes
declarations, one at a time, and sees that each change is noticed.
"""
import glob
import os
import re
import sys

sys.path.insert(0, os.path.dirname(os.path.abspath(__file__)))
from library import ROOT, Count, run  # noqa: E402

HEADER, BINDING = os.path.join(ROOT, 'include', 'ice40.h'), os.path.join(ROOT, 'include', 'ice40.rs')
SOURCES = sorted(glob.glob(os.path.join(ROOT, 'crates', 'capi_c', 'src', '*.rt')))

# An argument is (name, bits of a number, 'value', 'const' or 'mut'); a function is its arguments and the bits of its answer.
CODE = re.compile(r'pub extern "C" fn (ice40_\w+)\(([^)]*)\) -> u(\d+)')
IN_C = re.compile(r'^uint(\d+)_t (ice40_\w+)\(([^)]*)\);', re.M)
IN_RUST = re.compile(r'pub fn (ice40_\w+)\(([^)]*)\) -> u(\d+);')


def contents(path):
    with open(path, encoding='utf-8') as f:
        return f.read()


def parts(text):
    return [' '.join(part.split()) for part in text.split(',') if part.strip()]


def argument_of_code(text):
    name, kind = text.split(': ')
    slice_of = re.fullmatch(r'&(mut )?\[u(\d+)\]', kind)
    if slice_of:
        return name, int(slice_of.group(2)), 'mut' if slice_of.group(1) else 'const'
    return name, int(re.fullmatch(r'u(\d+)', kind).group(1)), 'value'


def joined(arguments, is_length):
    """The arguments with each pointer and the length behind it as one; a pointer whose length is not there has the way 'alone'."""
    found, i = [], 0
    while i < len(arguments):
        name, bits, way = arguments[i]
        if way in ('const', 'mut'):
            follows = i + 1 < len(arguments) and is_length(arguments[i + 1], name)
            found.append((name, bits, way if follows else 'alone'))
            i += 1 + follows
        else:
            found.append(arguments[i])
            i += 1
    return found


def argument_in_c(text):
    if text.startswith('size_t '):
        return text[len('size_t '):], 'size', 'value'
    found = re.fullmatch(r'(const )?uint(\d+)_t (\*?)(\w+)', text)
    if not found:
        return text, 0, 'not understood'
    way = 'value' if not found.group(3) else 'const' if found.group(1) else 'mut'
    return found.group(4), int(found.group(2)), way


def argument_in_rust(text):
    name, kind = text.split(': ')
    if kind == 'usize':
        return name, 'size', 'value'
    found = re.fullmatch(r'(?:\*(const|mut) )?u(\d+)', kind)
    return (name, int(found.group(2)), found.group(1) or 'value') if found else (name, 0, 'not understood')


def is_length(argument, name):
    return argument == (name + '_length', 'size', 'value')


def of_code():
    found = {}
    for path in SOURCES:
        for name, arguments, bits in CODE.findall(contents(path)):
            found[name] = ([argument_of_code(part) for part in parts(arguments)], int(bits))
    return found


def of_header(text):
    return {name: (joined([argument_in_c(part) for part in parts(arguments)], is_length), int(bits)) for bits, name, arguments in IN_C.findall(text)}


def of_binding(text):
    return {name: (joined([argument_in_rust(part) for part in parts(arguments)], is_length), int(bits)) for name, arguments, bits in IN_RUST.findall(text)}


def differing(code, declared):
    """What differs, a line each."""
    lines = ['%s is not in capi_c' % name for name in declared if name not in code]
    for name, (arguments, bits) in code.items():
        if name not in declared:
            lines.append('%s is not declared' % name)
            continue
        there, answer = declared[name]
        if answer != bits:
            lines.append('%s answers %d bits, declared %d' % (name, bits, answer))
        if len(there) != len(arguments):
            lines.append('%s has %d arguments, declared %d' % (name, len(arguments), len(there)))
        lines += ['%s, argument %d: %s, declared %s' % (name, i, one, other) for i, (one, other) in enumerate(zip(arguments, there)) if one != other]
    return lines


def check_declared(what, path, declarations):
    count = Count('%s against crates/capi_c' % what)
    code, declared = of_code(), declarations(contents(path))
    count.same(sorted(declared), sorted(code), 'the functions')
    for name in code:
        count.same(differing({name: code[name]}, {name: declared[name]} if name in declared else {}), [], name)
    return count.done()


# A change of a declaration: the file, what stands there, what is put in its place. Each links, and each would read or write the wrong memory or number.
CHANGES = [
    (HEADER, of_header, 'uint32_t *list, size_t list_length, uint16_t *before', 'uint16_t *list, size_t list_length, uint16_t *before'),
    (HEADER, of_header, 'ice40_lookup(uint16_t table, uint32_t inputs)', 'ice40_lookup(uint32_t inputs, uint16_t table)'),
    (HEADER, of_header, 'ice40_lookup(uint16_t table', 'ice40_lookup(uint32_t table'),
    (HEADER, of_header, 'const uint64_t *bits, size_t bits_length, uint32_t tile', 'uint64_t *bits, size_t bits_length, uint32_t tile'),
    (HEADER, of_header, 'const uint64_t *words, size_t words_length, uint8_t *bytes, size_t bytes_length',
     'uint8_t *bytes, size_t bytes_length, const uint64_t *words, size_t words_length'),
    (HEADER, of_header, 'uint64_t ice40_asc_length(', 'uint32_t ice40_asc_length('),
    (HEADER, of_header, 'const uint8_t *bytes, size_t bytes_length, uint64_t *words', 'const uint8_t *bytes, uint64_t *words'),
    (HEADER, of_header, 'uint64_t ice40_lookup(', 'uint64_t ice40_lookups('),
    (BINDING, of_binding, 'list: *mut u32, list_length: usize, before', 'list: *mut u16, list_length: usize, before'),
    (BINDING, of_binding, 'bits: *const u64, bits_length: usize, tile: u32', 'bits: *mut u64, bits_length: usize, tile: u32'),
    (BINDING, of_binding, 'ice40_lookup(table: u16, inputs: u32)', 'ice40_lookup(inputs: u32, table: u16)'),
    (BINDING, of_binding, 'pub fn ice40_lookup(table: u16, inputs: u32) -> u64', 'pub fn ice40_lookup(table: u16, inputs: u32) -> u32'),
]


def check_changes():
    count = Count('declarations changed, each noticed')
    code = of_code()
    for path, declarations, old, new in CHANGES:
        text = contents(path)
        count.same(text.count(old), 1, old)
        count.same(bool(differing(code, declarations(text.replace(old, new)))), True, new)
    return count.done()


if __name__ == '__main__':
    sys.exit(run([(check_declared, 'ice40.h', HEADER, of_header), (check_declared, 'ice40.rs', BINDING, of_binding), (check_changes,)], 0))
