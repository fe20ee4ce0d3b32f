#!/usr/bin/env python3
"""Tries the Makefile: what it builds, what `make install` puts where, and that programs, libraries and tools work from there.

    python3 tests/install.py            needs make, the Rattle kit (rt), C and C++ compilers, pkg-config and Python 3

It prints a line for each group of cases and ends with the number of differences.
"""
import ctypes
import os
import re
import subprocess
import sys
import tempfile

sys.path.insert(0, os.path.dirname(os.path.abspath(__file__)))
from library import DATA, ROOT, Count, present, run  # noqa: E402

VIEWER = os.path.join(ROOT, 'examples', 'viewer.c')
TOOLS = ['shelf', 'explain', 'fights', 'compare', 'names', 'asc-to-frames', 'chipdb-to-frames']


def answer(command, **options):
    done = subprocess.run(command, stdout=subprocess.PIPE, stderr=subprocess.PIPE, universal_newlines=True, **options)
    return done.returncode, done.stdout, done.stderr


def make(*words):
    return answer(['make', '-C', ROOT, '--no-print-directory', *words])


def version():
    with open(os.path.join(ROOT, 'include', 'ice40.h')) as file:
        return re.search(r'#define ICE40_VERSION "(.*)"', file.read())[1]


def installed(folder):
    """Every file below a folder, by its path from there."""
    return {os.path.relpath(os.path.join(where, name), folder) for where, _, names in os.walk(folder) for name in names if not name.endswith('.pyc')}


def expected_files():
    full, short = version(), version().rsplit('.', 1)[0]
    yield from ('bin/ice40-' + name for name in ['report'] + TOOLS)
    yield from ('include/ice40.h', 'lib/libice40.a', 'lib/libice40.so', 'lib/libice40.so.' + short, 'lib/libice40.so.' + full, 'lib/pkgconfig/ice40.pc')
    yield from ('share/ice40/' + name for name in os.listdir(os.path.join(ROOT, 'tools')) if name.endswith('.py'))
    yield from ('share/ice40/ice40.rs', 'share/ice40/chips/1k.chip', 'lib/ice40.receipt')
    yield from ('share/man/man1/ice40-%s.1' % name for name in TOOLS)


def check_targets():
    count = Count('the targets: build, libraries, check, clean')
    count.same(make()[0], 0)
    count.same(make('lib')[0], 0)
    for name in ('bin/report', 'staticlib/libcapi.a', 'lib/libice40.a', 'lib/libice40.so', 'lib/libice40.so.' + version()):
        count.same(os.path.exists(os.path.join(ROOT, 'target', name)), True, name)
    count.same(make('all', 'lib', '--question')[0], 0, 'nothing is built a second time')
    count.same(make('--dry-run', 'check')[1].splitlines()[-1:], ['python3 scripts/prove.py gate .ci/run'])
    status, _, errors = make('check', 'RT=/none/rt')
    count.same((status, 'The Rattle kit' in errors), (2, True), 'no rt on the path')
    count.same(make('--dry-run', 'clean')[:2], (0, 'rm -rf target crates/*/out\n'))
    return count.done()


def check_files(folder):
    count = Count('files of make install and make uninstall, DESTDIR')
    for words, where, prefix in ((['PREFIX=' + folder + '/own'], folder + '/own', folder + '/own'),
                                 (['PREFIX=/opt/reader', 'DESTDIR=' + folder + '/stage'], folder + '/stage/opt/reader', '/opt/reader')):
        count.same(make('install', *words)[0], 0, words)
        count.same(installed(where), set(expected_files()), words)
        with open(os.path.join(where, 'lib', 'pkgconfig', 'ice40.pc')) as file:
            count.same(file.readline(), 'prefix=%s\n' % prefix)
    count.same(make('uninstall', 'PREFIX=/opt/reader', 'DESTDIR=' + folder + '/stage')[0], 0)
    count.same(installed(folder + '/stage'), set())
    return count.done()


def check_libraries(prefix, folder):
    count = Count('programs by pkg-config, static and shared, C and C++')
    if not all(present(program, 'programs that use what is installed') for program in ('pkg-config', 'c++', 'nm')):
        return count.done()
    environment = dict(os.environ, PKG_CONFIG_PATH=os.path.join(prefix, 'lib', 'pkgconfig'), LD_LIBRARY_PATH=os.path.join(prefix, 'lib'))
    count.same(answer(['pkg-config', '--modversion', 'ice40'], env=environment)[1], version() + '\n')
    flags = answer(['pkg-config', '--cflags', '--libs', 'ice40'], env=environment)[1].split()
    archive = ['-I' + os.path.join(prefix, 'include'), os.path.join(prefix, 'lib', 'libice40.a')]
    program, outputs = os.path.join(folder, 'viewer'), set()
    for compiler, language in (('cc', 'c'), ('c++', 'c++')):
        for words in (flags, archive):
            count.same(answer([compiler, '-x', language, VIEWER, '-x', 'none', *words, '-o', program])[0], 0, (compiler, words))
            outputs.add(answer([program], env=environment))
    count.same(len(outputs), 1)
    count.same([(status, text.count('\n')) for status, text, _ in outputs], [(0, 4)])
    shared = os.path.join(prefix, 'lib', 'libice40.so')
    count.same(ctypes.CDLL(shared).ice40_lookup(0xF0F0, 4), 1)
    with open(os.path.join(ROOT, 'include', 'ice40.h')) as file:
        names = set(re.findall(r'^uint64_t (ice40_\w+)\(', file.read(), re.MULTILINE))
    count.same({line.split()[-1] for line in answer(['nm', '-D', '--defined-only', shared])[1].splitlines()}, names)
    return count.done()


def check_programs(prefix, folder):
    count = Count('the installed programs, from another folder')
    environment = dict(os.environ, PATH=os.path.join(prefix, 'bin') + os.pathsep + os.environ['PATH'])
    for block, status, words in (('uart_tx_3x3', 0, 'yes: 9 tiles, 170 enabled switches, 29 cells in use\n'), ('latch_1x1', 1, 'every input that it goes through\n')):
        path = os.path.join(DATA, block + '.in')
        got, text, errors = answer('ice40-report <%s | ice40-explain --input %s' % (path, path), shell=True, cwd=folder, env=environment)
        count.same((got, text.endswith(words), errors), (status, True, ''), block)
    cut = 'ice40-asc-to-frames %s/counter8.asc 5 7 1 1 --east 0 --table %s/1k.tab' % (DATA, DATA)
    with open(os.path.join(DATA, 'counter8_1x1.in')) as file:
        note = 'note: %s/counter8.asc was read by the proved library\nnote: the column to the east, x = 6, is logic; --east 0 was given\n' % DATA
        count.same(answer(cut, shell=True, cwd=folder, env=environment), (0, file.read(), note))
    count.same(answer('ice40-names 1 1 wire 354', shell=True, cwd=folder, env=environment), (0, '(0,0) local_g2_2\n', ''))
    status, text, errors = answer('ice40-shelf %s/counter8.asc' % DATA, shell=True, cwd=folder, env=dict(environment, XDG_CACHE_HOME=folder))
    count.same((status, text.startswith('yes  %s/counter8.asc  1k: ' % DATA), '1k, 1 design: the proved library read' in text, errors), (0, True, True, ''), text)
    for name in TOOLS:
        count.same(answer('ice40-%s --version' % name, shell=True, cwd=folder, env=environment)[:2], (0, 'ice40-%s %s\n' % (name, version())), name)
        with open(os.path.join(prefix, 'share', 'man', 'man1', 'ice40-%s.1' % name)) as file:
            page = file.read()
        count.same((page.startswith('.TH ICE40-%s 1' % name.upper()), name.replace('-', '_') + '.py' in page), (True, False), name)
    count.same(answer('ice40-chipdb-to-frames --help', shell=True, cwd=folder, env=environment)[0], 0)
    return count.done()


def main():
    with tempfile.TemporaryDirectory() as folder:
        prefix = os.path.join(folder, 'own')
        return run([(check_targets,), (check_files, folder), (check_libraries, prefix, folder), (check_programs, prefix, folder)], 1)


if __name__ == '__main__':
    sys.exit(main())
