#!/usr/bin/env python3
"""Packs the tables and nets of a device out of IceStorm's chip database, to be bundled: tools/chips/DEVICE.chip. Prints the SHA-256 of both.

    bundle_chip.py chipdb-1k.txt              writes tools/chips/1k.chip
    bundle_chip.py --check chipdb-1k.txt      compares it with the one that is there; status 1 where it is another

The packed form is that of tools/packed.py, compressed by zlib. Its SHA-256 is that of the form before it is compressed, so that it does not depend
on who compresses it.
"""
import os
import sys
import zlib

ROOT = os.path.dirname(os.path.dirname(os.path.abspath(__file__)))
sys.path.insert(0, os.path.join(ROOT, 'tools'))
import chip  # noqa: E402
import chipdb  # noqa: E402
import packed  # noqa: E402
from tool import bytes_of, parser_for, run  # noqa: E402


def main():
    parser = parser_for(__doc__)
    parser.add_argument('database', metavar='CHIPDB')
    parser.add_argument('--check', action='store_true', help='compare, and write nothing')
    arguments = parser.parse_args()
    data = bytes_of(arguments.database, chip.LONGEST, 'a chip database')
    whole = chipdb.packed_chip(data, packed.digest(data))
    parts = packed.Packed(whole)
    path = chip.bundle_path(parts.facts['device'])
    lines = ['%s, SHA-256 %s' % (arguments.database, parts.facts['database']), '%s, SHA-256 %s' % (os.path.relpath(path), parts.digest)]
    if arguments.check:
        there = chip.bundled(parts.facts['device'])
        same = there is not None and there.digest == parts.digest
        return lines + ['the same as is bundled' if same else 'not what is bundled'], 0 if same else 1
    os.makedirs(os.path.dirname(path), exist_ok=True)
    with open(path, 'wb') as file:
        file.write(zlib.compress(whole, 9))
    return lines, 0


if __name__ == '__main__':
    run(main)
