#!/usr/bin/env python3
"""Packs what the group hands to its members. `make dist` runs it after `make install` put everything below a folder.

    dist.py INSTALLED PAGE FOLDER       the page, the manual pages, a tarball and a .deb for Linux on x86-64, and SHA256SUMS, in FOLDER

The same installation gives the same bytes: names are in order, all is root's, and every time is that of the commit (SOURCE_DATE_EPOCH, if that is set).
"""
import gzip
import hashlib
import io
import os
import subprocess
import sys
import tarfile

ROOT = os.path.dirname(os.path.dirname(os.path.abspath(__file__)))
sys.path.insert(0, os.path.join(ROOT, 'tools'))
from tool import version  # noqa: E402

DESIGNS = ('counter8.asc', 'uart_tx.asc')
CONTROL = """Package: ice40
Version: %(version)s
Architecture: amd64
Maintainer: Novamandola maintainers <maintainers@users.noreply.novamandola.example>
Installed-Size: %(kilobytes)d
Depends: python3 (>= 3.8), libc6 (>= 2.34)
Section: electronics
Priority: optional
Description: proved reader of iCE40 logic tile configurations
 ice40-shelf judges designs for iCE40 devices: yes, or no with the reason and the
 first place. The library that answers is proved; its receipt is beside it.
"""
OWN = {'control': None, 'triggers': 'activate-noawait ldconfig\n', 'prerm': '#!/bin/sh\nrm -rf /usr/share/ice40/__pycache__\n'}  # of a .deb


def commit_time():
    """The time that all files have."""
    told = os.environ.get('SOURCE_DATE_EPOCH', '')
    if not told and os.path.isdir(os.path.join(ROOT, '.git')):
        told = subprocess.run(['git', 'log', '-1', '--format=%ct'], cwd=ROOT, stdout=subprocess.PIPE, universal_newlines=True).stdout
    return int(told.strip() or 0)


def bytes_of(path):
    with open(path, 'rb') as file:
        return file.read()


def contents_below(folder):
    """Every file below a folder, by its path from there: its bytes, whether it can be run, or where it points."""
    found = {}
    for where, folders, names in os.walk(folder):
        folders[:] = [name for name in folders if name != '__pycache__']
        for path in (os.path.join(where, name) for name in names):
            link = os.readlink(path) if os.path.islink(path) else None
            found[os.path.relpath(path, folder)] = (b'' if link else bytes_of(path), bool(os.stat(path).st_mode & 0o100), link)
    return found


def tarball(files, prefix, time):
    """The bytes of a compressed tar file. `files` are by path, each its bytes, whether it can be run, or where it points."""
    out = io.BytesIO()
    folders = {os.path.dirname(path) for path in files}
    folders |= {above for path in folders for above in [path[:k] for k, letter in enumerate(path) if letter == '/']}
    with gzip.GzipFile(fileobj=out, mode='wb', mtime=time) as packed, tarfile.open(fileobj=packed, mode='w', format=tarfile.GNU_FORMAT) as tar:
        for path in sorted(folders | set(files)):
            data, runs, link = files.get(path, (b'', True, None))
            entry = tarfile.TarInfo(os.path.normpath(prefix + '/' + path) if prefix != '.' else './' + path)
            entry.type = tarfile.REGTYPE if path in files else tarfile.DIRTYPE
            entry.size, entry.mode, entry.mtime, entry.uname, entry.gname = len(data), 0o755 if runs else 0o644, time, 'root', 'root'
            if link:
                entry.type, entry.linkname, entry.mode = tarfile.SYMTYPE, link, 0o777
            tar.addfile(entry, io.BytesIO(data))
    return out.getvalue()


def archive(members, time):
    """The bytes of an ar file, which is what a .deb is."""
    parts = [b'!<arch>\n']
    for name, data in members:
        parts.append(b'%-16s%-12d%-6d%-6d%-8s%-10d`\n' % (name.encode(), time, 0, 0, b'100644', len(data)))
        parts.append(data + b'\n' * (len(data) % 2))
    return b''.join(parts)


def package(files, time):
    """The bytes of a .deb whose files are below /usr."""
    kilobytes = sum(len(data) // 1024 + 1 for data, _, _ in files.values())
    sums = ''.join('%s  usr/%s\n' % (hashlib.md5(data).hexdigest(), path) for path, (data, _, link) in sorted(files.items()) if not link)
    own = dict(OWN, control=CONTROL % {'version': version(), 'kilobytes': kilobytes}, md5sums=sums)
    control = tarball({name: (text.encode(), name == 'prerm', None) for name, text in own.items()}, '.', time)
    data = tarball({'usr/' + path: file for path, file in files.items()}, '.', time)
    return archive([('debian-binary', b'2.0\n'), ('control.tar.gz', control), ('data.tar.gz', data)], time)


def packed(installed, page, time):
    """What is handed out, by its name."""
    files = contents_below(installed)
    files['share/ice40/shelf.html'] = (bytes_of(page), False, None)
    files.update(('share/ice40/designs/' + name, (bytes_of(os.path.join(ROOT, 'tests', 'data', name)), False, None)) for name in DESIGNS)
    licence = bytes_of(os.path.join(ROOT, 'LICENSE'))
    name = 'ice40-%s-linux-x86-64' % version()
    config, _, _ = files['lib/pkgconfig/ice40.pc']
    anywhere = {'LICENSE': (licence, False, None), 'lib/pkgconfig/ice40.pc': (b'prefix=${pcfiledir}/../..\n' + config.partition(b'\n')[2], False, None)}
    yield 'shelf.html', bytes_of(page)
    yield from ((os.path.join('man', os.path.basename(path)), data) for path, (data, _, _) in sorted(files.items()) if path.startswith('share/man/'))
    yield name + '.tar.gz', tarball(dict(files, **anywhere), name, time)
    yield 'ice40_%s_amd64.deb' % version(), package(dict(files, **{'share/doc/ice40/copyright': (licence, False, None)}), time)


def main(installed, page, folder):
    sums = []
    for name, data in packed(installed, page, commit_time()):
        path = os.path.join(folder, name)
        os.makedirs(os.path.dirname(path), exist_ok=True)
        with open(path, 'wb') as file:
            file.write(data)
        sums.append('%s  %s\n' % (hashlib.sha256(data).hexdigest(), name))
        print('%9d bytes  %s' % (len(data), os.path.relpath(path, ROOT)))
    with open(os.path.join(folder, 'SHA256SUMS'), 'w') as file:
        file.writelines(sorted(sums, key=lambda line: line.split()[1]))


if __name__ == '__main__':
    main(*sys.argv[1:])
