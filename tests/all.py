#!/usr/bin/env python3
"""Runs the scripts of tests/, one after the other, whatever one of them finds. `make test` runs it after the build.

    python3 tests/all.py                  all of them
    python3 tests/all.py shelf cards ..   only these
    python3 tests/all.py --strict         status 1 also where something was left out because a program or a package is not there

The last line but one says which packages were used and what was left out, the last which scripts found differences.
"""
import argparse
import os
import shutil
import subprocess
import sys

HERE = os.path.dirname(os.path.abspath(__file__))
SCRIPTS = ['believe', 'believe_changes', 'signatures', 'wire_numbers', 'nets', 'leaving', 'library', 'asc', 'compare', 'circuits', 'moments', 'contentions', 'report', 'tools', 'words', 'fights', 'changes', 'shelf', 'shelf_evidence',
           'cards', 'wasm', 'page', 'header', 'examples', 'starting', 'install', 'dist', 'readme']
PACKAGES = {'gcc': 'cc', 'g++': 'c++', 'binutils': 'nm', 'pkg-config': 'pkg-config', 'rustc': 'rustc', 'nodejs': 'node', 'chromium': 'chromium', 'fpga-icestorm': 'icebox_explain',
            'fpga-icestorm-chipdb': '/usr/share/fpga-icestorm/chipdb', 'yosys': 'yosys', 'nextpnr-ice40': 'nextpnr-ice40'}  # Debian's, and what a script looks for of each


def ran(name):
    """Runs a script: whether it found nothing, and the lines in which it says what it left out."""
    print('== tests/%s.py' % name, flush=True)
    left_out = []
    with subprocess.Popen([sys.executable, os.path.join(HERE, name + '.py')], stdout=subprocess.PIPE, stderr=subprocess.STDOUT, encoding='utf-8', errors='replace') as script:
        for line in script.stdout:
            sys.stdout.write(line)
            sys.stdout.flush()
            if line.startswith('left out, '):
                left_out.append('%s: %s' % (name, line[len('left out, '):].strip()))
    return script.returncode == 0, left_out


def packages():
    """Which packages the scripts could use, and which they could not."""
    there = {name: bool(os.path.isdir(found) if '/' in found else shutil.which(found)) for name, found in PACKAGES.items()}
    return ' '.join(name for name in there if there[name]) or 'none', ' '.join(name for name in there if not there[name]) or 'none'


def main():
    parser = argparse.ArgumentParser(description=__doc__, formatter_class=argparse.RawDescriptionHelpFormatter)
    parser.add_argument('names', nargs='*', metavar='SCRIPT', help='of these: %s' % ' '.join(SCRIPTS))
    parser.add_argument('--strict', action='store_true')
    arguments = parser.parse_args()
    if not set(arguments.names) <= set(SCRIPTS):
        parser.error('no such script: %s' % ' '.join(set(arguments.names) - set(SCRIPTS)))
    failed, left_out = [], []
    for name in arguments.names or SCRIPTS:
        fine, without = ran(name)
        failed += [] if fine else [name]
        left_out += without
    print("Debian's packages that were used: %s; not there: %s; left out: %s" % (*packages(), '; '.join(left_out) or 'nothing'))
    print('differences in: %s' % (', '.join(failed) or 'none'))
    return 1 if failed or arguments.strict and left_out else 0


if __name__ == '__main__':
    sys.exit(main())
