#!/usr/bin/env python3
"""Tries what `make dist` hands to members: its sums, that it comes out the same again, that the tarball and the .deb judge a bundled design with one
command where little else is there, that the page in it is the one that was made, and that nothing of the machine that built it is inside.

    python3 tests/dist.py               needs make and what `make lib page` built; Debian's dpkg for the .deb, pkg-config and a C compiler for a program

It prints a line for each group of cases and ends with the number of differences.
"""
import hashlib
import io
import os
import re
import shutil
import subprocess
import sys
import tarfile
import tempfile

sys.path.insert(0, os.path.dirname(os.path.abspath(__file__)))
from install import TOOLS, answer, expected_files, installed, make, version  # noqa: E402
from library import ROOT, Count, present, run  # noqa: E402
from readme import code_blocks, contents  # noqa: E402

DIST = os.path.join(ROOT, 'target', 'dist')
TARBALL, DEB = 'ice40-%s-linux-x86-64.tar.gz' % version(), 'ice40_%s_amd64.deb' % version()
DESIGNS = ['share/ice40/designs/counter8.asc', 'share/ice40/designs/uart_tx.asc']


def bytes_of(*names):
    with open(os.path.join(*names), 'rb') as file:
        return file.read()


def handed_out():
    """Every file that is handed out, by name: its bytes."""
    return {name: bytes_of(DIST, name) for name in installed(DIST)}


# ---- the files

def check_sums():
    count = Count('what is handed out, and SHA256SUMS')
    status, output, errors = make('dist')
    count.same(status, 0, errors)
    files = handed_out()
    count.same(set(files), {'shelf.html', 'SHA256SUMS', TARBALL, DEB} | {'man/ice40-%s.1' % name for name in TOOLS})
    sums = dict(line.split('  ')[::-1] for line in files.pop('SHA256SUMS').decode().splitlines())
    count.same(sums, {name: hashlib.sha256(data).hexdigest() for name, data in files.items()})
    count.same(answer(['sha256sum', '--check', '--quiet', 'SHA256SUMS'], cwd=DIST), (0, '', ''))
    count.same(files['shelf.html'] == bytes_of(ROOT, 'target', 'page', 'shelf.html'), True)
    for name, data in sorted(files.items()):
        print('  %-56s %9d bytes' % (name, len(data)))
    return count.done()


def check_again():
    """The same sources give the same bytes, at another time and for another user's mask."""
    count, before, mask = Count('made again: the same bytes'), handed_out(), os.umask(0o077)
    try:
        count.same(make('dist')[0], 0)
    finally:
        os.umask(mask)
    after = handed_out()
    count.same({name: hashlib.sha256(data).hexdigest() for name, data in after.items()}, {name: hashlib.sha256(data).hexdigest() for name, data in before.items()})
    return count.done()


# ---- at a member's

def unpacked_tarball(folder):
    with tarfile.open(os.path.join(DIST, TARBALL)) as tar:
        tar.extractall(folder)
    return os.path.join(folder, TARBALL[:-len('.tar.gz')])


def bare(folder):
    """An environment in which no program is there but Python."""
    programs = os.path.join(folder, 'programs')
    os.makedirs(programs, exist_ok=True)
    if not os.path.exists(os.path.join(programs, 'python3')):
        os.symlink(sys.executable, os.path.join(programs, 'python3'))
    return {'PATH': programs, 'HOME': folder, 'LANG': 'C.UTF-8'}


def judged(count, prefix, environment):
    """One command judges a design, with the library and the receipt that came with it."""
    receipt = re.search(rb'"commit": "([^"]*)"', bytes_of(prefix, 'lib', 'ice40.receipt'))[1].decode()
    for given, expected in ((DESIGNS[:1], '1 yes, 0 no, 0 could not be told'), (['share/ice40/designs'], '2 yes, 0 no, 0 could not be told')):
        status, output, errors = answer([os.path.join(prefix, 'bin', 'ice40-shelf'), *given], cwd=prefix, env=environment)
        count.same((status, errors, output.splitlines()[-1], 'the proved library read' in output, 'commit ' + receipt in output), (0, '', expected, True, True), output)
    design = os.path.join(prefix, 'divider.asc')
    lines = bytes_of(prefix, DESIGNS[0]).decode().split('\n')
    lines[1322] = lines[1322][:51] + '1' + lines[1322][52:]
    with open(design, 'w') as file:
        file.write('\n'.join(lines))
    status, output, errors = answer([os.path.join(prefix, 'bin', 'ice40-shelf'), design], cwd=prefix, env=environment)
    count.same((status, ': ground 5 at (5,4) sp4_v_t_36: two switches drive one wire' in output, errors), (1, True, ''), output)
    os.remove(design)
    for name in TOOLS:
        count.same(answer([os.path.join(prefix, 'bin', 'ice40-' + name), '--version'], env=environment)[:2], (0, 'ice40-%s %s\n' % (name, version())), name)


def check_tarball(folder):
    count, prefix, environment = Count('the tarball: one command, with Python alone'), unpacked_tarball(folder), bare(folder)
    more = {'LICENSE', 'share/ice40/shelf.html', *DESIGNS}
    count.same(installed(prefix), set(expected_files()) | more)
    judged(count, prefix, environment)
    if all(present(program, 'a program by what the tarball has') for program in ('pkg-config', 'cc')):
        words = answer(['pkg-config', '--cflags', '--libs', 'ice40'], env=dict(os.environ, PKG_CONFIG_PATH=os.path.join(prefix, 'lib', 'pkgconfig')))[1].split()
        program = os.path.join(folder, 'viewer')
        count.same(answer(['cc', os.path.join(ROOT, 'examples', 'viewer.c'), *words, '-o', program])[0], 0, words)
        count.same(answer([program], env={'LD_LIBRARY_PATH': os.path.join(prefix, 'lib')})[1].count('\n'), 4)
    with tarfile.open(os.path.join(DIST, TARBALL)) as tar:
        entries = tar.getmembers()
    count.same(({(entry.uid, entry.gid, entry.uname) for entry in entries}, len({entry.mtime for entry in entries})), ({(0, 0, 'root')}, 1))
    count.same([entry.name for entry in entries], sorted(entry.name for entry in entries))
    return count.done()


def check_package(folder):
    count, own, environment = Count('the .deb: one command, with Python alone'), os.path.join(folder, 'package'), bare(folder)
    if not present('dpkg-deb', 'the .deb'):
        return count.done()
    path = os.path.join(DIST, DEB)
    count.same(answer(['dpkg-deb', '--extract', path, own])[0], 0)
    prefix = os.path.join(own, 'usr')
    count.same(installed(own), {'usr/' + name for name in set(expected_files()) | {'share/doc/ice40/copyright', 'share/ice40/shelf.html', *DESIGNS}})
    judged(count, prefix, environment)
    fields = answer(['dpkg-deb', '--field', path, 'Package', 'Version', 'Architecture', 'Depends'])[1]
    count.same(fields, 'Package: ice40\nVersion: %s\nArchitecture: amd64\nDepends: python3 (>= 3.8), libc6 (>= 2.34)\n' % version())
    count.same(bytes_of(prefix, 'lib', 'pkgconfig', 'ice40.pc').splitlines()[0], b'prefix=/usr')
    return count.done()


def check_manual(folder):
    """The commands of the manual, as they stand there, in a folder with the tarball."""
    count, own = Count('the commands of docs/MANUAL.md, "Without the kit"'), os.path.join(folder, 'manual')
    os.makedirs(own)
    shutil.copy(os.path.join(DIST, TARBALL), own)
    shown = [block for block in code_blocks(contents('docs/MANUAL.md')) if block[0].startswith('tar ') or block[-1].endswith('could not be told')]
    done = answer(['bash', '-e', '-c', '\n'.join(shown[0])], cwd=own)
    count.same((done[0], done[1].splitlines()[-1:], done[2]), (0, shown[1][1:], ''), done[1])
    count.same('docs/MANUAL.md#without-the-kit' in ''.join(contents('README.md').splitlines(True)[:20]), True, "README's first lines")
    return count.done()


# ---- what is not in it

def kit_folder():
    """Where the kit is, or None."""
    program = shutil.which(os.environ.get('RT', 'rt'))
    return os.path.dirname(os.path.dirname(os.path.realpath(program))) if program else None


def check_nothing_more(folder):
    """No file of the kit, and no path of the machine on which it was built."""
    count, prefix, kit = Count('nothing of the kit, no path of this machine'), os.path.join(folder, TARBALL[:-len('.tar.gz')]), kit_folder()
    files = {name: bytes_of(prefix, name) for name in installed(prefix)}
    files.update((name, data) for name, data in handed_out().items() if name not in (TARBALL, DEB))
    with open(os.path.join(DIST, DEB), 'rb') as file:
        files['control'] = tarfile.open(fileobj=io.BytesIO(members_of(file.read())['control.tar.gz'])).extractfile('./control').read()
    paths = [path for path in (ROOT, os.path.realpath(ROOT), os.path.expanduser('~'), kit, tempfile.gettempdir() + '/') if path and len(path) > 4]
    for name, data in sorted(files.items()):
        count.same([path for path in paths if path.encode() in data], [], name)
    if kit:
        sizes = {}
        for name, data in files.items():
            sizes.setdefault(len(data), set()).add(hashlib.sha256(data).hexdigest())
        for where, _, names in os.walk(kit):
            for path in (os.path.join(where, name) for name in names):
                if os.path.isfile(path) and os.path.getsize(path) in sizes and os.path.getsize(path):
                    count.same(hashlib.sha256(bytes_of(path)).hexdigest() in sizes[os.path.getsize(path)], False, path)
    else:
        print('left out, no rt: whether a file of the kit is inside')
    return count.done()


def members_of(data):
    """The members of an ar file."""
    found, at = {}, 8
    while at < len(data):
        head, size = data[at:at + 60], int(data[at + 48:at + 58])
        found[head[:16].decode().strip()] = data[at + 60:at + 60 + size]
        at += 60 + size + size % 2
    return found


def main():
    with tempfile.TemporaryDirectory() as folder:
        return run([(check_sums,), (check_again,), (check_tarball, folder), (check_package, folder), (check_manual, folder), (check_nothing_more, folder)], 1)


if __name__ == '__main__':
    sys.exit(main())
