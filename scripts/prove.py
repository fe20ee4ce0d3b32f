#!/usr/bin/env python3
"""Proves and builds the static library, says how far it is, and writes its receipt. `make` runs it.

    prove.py program RT CRATE PROGRAM   `rt run` in the crate's folder, with no input, and the program that it built
    prove.py library RT ARCHIVE         `rt lib` in that of capi_c, the archive, and its receipt beside it: libcapi.receipt
    prove.py shared RECEIPT ARCHIVE SHARED   the receipt of the shared library that was linked from that archive, on standard output, with the gate of these sources
    prove.py gate COMMAND ..            the gate, with its last line kept in target/gate for receipts of the same sources

On a terminal one line says which crate the kit is at; elsewhere there is a line for each. The kit's own lines are in target/prove.log at the end;
where the proof fails they are printed too.
"""
import hashlib
import json
import os
import re
import shutil
import subprocess
import sys

ROOT = os.path.dirname(os.path.dirname(os.path.abspath(__file__)))
sys.path.insert(0, os.path.join(ROOT, 'tools'))
from evidence import FORMAT, digest_of  # noqa: E402
from tool import version  # noqa: E402

LOG, GATE = 'target/prove.log', 'target/gate'


# ---- the sources

def crates():
    """Each listed crate, and the crates that it builds on."""
    with open('crates.txt', encoding='utf-8') as file:
        lines = [line.partition('#')[0] for line in file]
    return {name.split()[0]: words.split() for name, colon, words in (line.partition(':') for line in lines) if colon}


def below(name, listed):
    """A crate and all that it builds on."""
    found, waiting = set(), [name]
    while waiting:
        at = waiting.pop()
        if at in listed and at not in found:
            found.add(at)
            waiting += listed[at]
    return found


def files():
    """Every file below crates/ but what the kit made, in out/ of a crate."""
    for where, folders, names in os.walk('crates'):
        if os.path.dirname(where) == 'crates':
            folders[:] = [name for name in folders if name != 'out']
        yield from (os.path.join(where, name) for name in names)


def sources():
    """The SHA-256 of crates.txt and of every file below crates/, each with its path."""
    found = hashlib.sha256()
    for path in sorted(['crates.txt', *files()]):
        found.update(b'%s\0%s\n' % (os.fsencode(path), digest_of(path).encode()))
    return found.hexdigest()


def output_of(*command):
    """What a command prints, or nothing where it cannot be run."""
    try:
        return subprocess.run(command, stdout=subprocess.PIPE, stderr=subprocess.DEVNULL, universal_newlines=True).stdout.strip()
    except OSError:
        return ''


def commit():
    """The commit that is checked out, and whether the sources are not its own."""
    found = output_of('git', 'rev-parse', 'HEAD') if os.path.isdir('.git') else ''
    changed = output_of('git', 'status', '--porcelain', '--', 'crates', 'crates.txt') if found else ''
    return (found or 'unknown') + ' with changes' * bool(changed)


# ---- the run

class Shown:
    """What the kit is at: "crate 12 of 34: fabric proved", "edit 30 of 140: fabric/no_flip_in_join refused"."""

    def __init__(self, crates_to_come, edits_to_come=0):
        self.totals, self.counts, self.terminal = {'crate': crates_to_come, 'edit': edits_to_come}, {'crate': 0, 'edit': 0}, sys.stderr.isatty()
        self.at = None

    def take(self, line):
        """The gate names each crate and each edit in a line of its own; else the last line of a crate says that it is proved, and one before it which it is."""
        met = re.match(r'crate (\w+): modules ', line)
        if met:
            self.at = met[1]
        elif line.startswith('logic=') and self.at:
            if line.startswith('logic=proved'):
                self.show('crate', self.at, 'proved')
            self.at = None
        met = re.match(r'rt: (\w+) (?:proved|is (kept)\b)', line)
        if met:
            self.show('crate', met[1], met[2] or 'proved')
        met = re.match(r'rt: must-fail (\S+?)(?:\.edit)?: refused\b', line)
        if met:
            self.show('edit', met[1], 'refused')

    def show(self, what, name, how):
        self.counts[what] += 1
        words = '%s %d of %d: %s %s' % (what, self.counts[what], self.totals[what], name, how)
        sys.stderr.write('\r\033[K%s' % words if self.terminal else words + '\n')
        sys.stderr.flush()

    def end(self):
        if self.terminal:
            sys.stderr.write('\r\033[K')


def proved(command, folder, *totals):
    """Runs the kit in a folder: the last line that it prints. Ends the program where it fails."""
    shown, last = Shown(*totals), ''
    os.makedirs('target', exist_ok=True)
    with open(LOG, 'w', encoding='utf-8') as log:
        with subprocess.Popen(command, cwd=folder, stdin=subprocess.DEVNULL, stdout=subprocess.PIPE, stderr=subprocess.STDOUT, encoding='utf-8', errors='backslashreplace') as kit:
            for line in kit.stdout:
                log.write(line)
                shown.take(line)
                last = line.strip() or last
        shown.end()
    if kit.returncode:
        with open(LOG, encoding='utf-8') as log:
            sys.stderr.write(log.read())
        sys.stderr.write('prove.py: %s failed; what it said is above and in %s\n' % (' '.join(command), LOG))
        sys.exit(kit.returncode)
    return last


def gate_of(digest):
    """The last line of the gate, if it was passed with these sources."""
    try:
        with open(GATE, encoding='utf-8') as file:
            told, _, line = file.read().strip().partition(' ')
    except OSError:
        return None
    return line if told == digest else None


def write(path, text):
    """A file, whole or not at all."""
    own = path + '.part'
    with open(own, 'w', encoding='utf-8') as file:
        file.write(text)
    os.replace(own, path)


def text_of(receipt):
    return json.dumps(receipt, indent=1, sort_keys=True) + '\n'


def built(rt, verb, crate, name, path):
    """Has the kit prove and build a crate and what is below it, and copies what it made: how many crates those are, and the kit's last line."""
    count = len(below(crate, crates()))
    folder = os.path.join('crates', crate)
    last = proved([os.path.abspath(shutil.which(rt) or rt), verb], folder, count)
    os.makedirs(os.path.dirname(path), exist_ok=True)
    shutil.copy(os.path.join(folder, 'out', name), path)
    return count, last


def program(rt, crate, path):
    built(rt, 'run', crate, crate, path)


def library(rt, archive):
    before = sources()
    count, last = built(rt, 'lib', 'capi_c', 'libcapi_c.a', archive)
    if sources() != before:
        os.remove(archive)
        sys.exit('prove.py: the sources were changed while they were proved: once more')
    told = {'format': FORMAT, 'version': version(), 'commit': commit(), 'sources': before, 'kit': output_of(rt, 'version'), 'archive': digest_of(archive),
            'crates': count, 'check': last, 'gate': gate_of(before)}  # the kit builds a crate only where all below it are proved
    write(os.path.splitext(archive)[0] + '.receipt', text_of(told))


def shared(receipt, archive, path):
    with open(receipt, encoding='utf-8') as file:
        told = json.load(file)
    if told['archive'] != digest_of(archive):
        sys.exit('prove.py: %s is not the archive of its receipt: make clean, and once more' % archive)
    sys.stdout.write(text_of(dict(told, shared=digest_of(path), gate=gate_of(told['sources']))))


def gate(*command):
    before = sources()
    if os.path.exists(GATE):
        os.remove(GATE)
    edits = sum(path.endswith('.edit') for path in files())
    last = proved(list(command), '.', len(crates()), edits)
    print(last)
    if re.fullmatch(r'\d+ passed, 0 failed', last):
        write(GATE, '%s %s\n' % (before, last))


def main(what, *words):
    os.chdir(ROOT)
    {'program': program, 'library': library, 'shared': shared, 'gate': gate}[what](*words)


if __name__ == '__main__':
    main(*sys.argv[1:])
