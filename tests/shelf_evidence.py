#!/usr/bin/env python3
"""Tries what the answers of tools/shelf.py rest on: the receipt of the library, the SHA-256 of all that was judged, `--verify`, cards that replace
nothing but cards, names of files that would forge a line, answers that come as they are found, and the bundled chip.

    python3 tests/shelf_evidence.py                   needs the shared library with its receipt (make lib) and Python 3; a C compiler for a forged library,
                                                Debian's fpga-icestorm-chipdb to compare the bundled chip with
    python3 tests/shelf_evidence.py --library FILE    the shared library, if not where `make lib` writes it

It prints a line for each group of cases and ends with the number of differences.
"""
import argparse
import datetime
import hashlib
import html
import json
import os
import re
import resource
import shutil
import signal
import subprocess
import sys
import tempfile
import threading
from contextlib import contextmanager

sys.path.insert(0, os.path.dirname(os.path.abspath(__file__)))
from library import ROOT, Count, run  # noqa: E402
from shelf_tool import GOOD, Shelf, database, single_cell, undecodable  # noqa: E402
from tools import BUILT, TOOLS, contents  # noqa: E402

import proved  # noqa: E402

RECEIPT = 'ice40.receipt'
STUB = 'unsigned long long ice40_%s(void) { return 0; }\n'
CALLS = ('asc_read', 'read', 'build', 'card', 'contentions', 'compare', 'words_of_bytes')
LATIN = b'a\xff.asc'  # not UTF-8


def sha(path):
    with open(path, 'rb') as file:
        return hashlib.sha256(file.read()).hexdigest()


def bytes_of(path):
    with open(path, 'rb') as file:
        return file.read()


def told_by(page):
    """What a card says that it is about."""
    return json.loads(html.unescape(re.search('<meta name="ice40-card" content="([^"]*)">', page)[1]))


def own_library(shelf, name, receipt=None):
    """A copy of the library in a folder of its own, with this text for a receipt."""
    path = shelf.write('%s/libice40.so' % name, '')
    shutil.copy(shelf.library, path)
    if receipt is not None:
        shelf.write('%s/%s' % (name, RECEIPT), receipt)
    return path


# ---- the receipt

def check_receipt(shelf):
    count = Count('proved only of a library that fits its receipt')
    right = contents(os.path.join(os.path.dirname(os.path.realpath(shelf.library)), RECEIPT))
    fields = json.loads(right)
    count.same((fields['shared'], fields['archive']), (sha(shelf.library), sha(os.path.join(os.path.dirname(os.path.realpath(shelf.library)), 'libice40.a'))))
    refused = shelf.write('receipt/refused.asc', undecodable())
    wrong = [None, '', 'x', '[]', '{}', json.dumps(dict(fields, shared='0' * 64)), json.dumps(dict(fields, version='0.0.0')), json.dumps(dict(fields, format=2)),
             json.dumps({name: fields[name] for name in fields if name != 'commit'})]
    for k, (text, fits) in enumerate([(right, True)] + [(text, False) for text in wrong]):
        library = own_library(shelf, 'receipt%d' % k, text)
        status, output, errors = shelf.run(GOOD[0], refused, **{proved.VARIABLE: library})
        count.same((status, errors, '1k, 2 designs: the proved library read' in output, '1k, 2 designs: a library without a receipt read' in output),
                   (1, '', fits, not fits), (k, output))
        count.same(('proved by %s' % fields['kit'] in output, 'what it answers is not proved' in output, sha(library) in output), (fits, not fits, True), output)
        document = json.loads(shelf.run('--json', refused, **{proved.VARIABLE: library})[1])
        faults = document['designs'][0]['faults']
        count.same((document['proved'], document['receipt'], faults[0]['proved'], faults[0]['ground']), (fits, fields if fits else None, fits, 4), k)
        page = shelf.run('--card', '-', refused, **{proved.VARIABLE: library})[1]
        count.same(('The proved answer for each block' in page, 'without a receipt' in page, told_by(page)['receipt']), (fits, not fits, fields if fits else None), k)
    return count.done()


def check_forged(shelf):
    """Functions that answer yes to everything are not a proved library."""
    count = Count('a forged library is not called proved')
    if not shutil.which('cc'):
        print('left out, no cc: a forged library')
        return count.done()
    source, library = shelf.write('forged/stubs.c', ''.join(STUB % name for name in CALLS)), os.path.join(shelf.folder, 'forged', 'libice40.so')
    subprocess.run(['cc', '-shared', '-fPIC', source, '-o', library], check=True)
    for receipt in (None, contents(os.path.join(os.path.dirname(os.path.realpath(shelf.library)), RECEIPT))):
        if receipt:
            shelf.write('forged/' + RECEIPT, receipt)
        output = shelf.run(GOOD[0], **{proved.VARIABLE: library})[1]
        count.same(('the proved library' in output, 'a library without a receipt' in output), (False, True), output)
    return count.done()


# ---- what was judged

def check_hashes(shelf):
    count = Count('the SHA-256 of design, library and database: line, JSON, card; the date')
    bad = shelf.write('hashes/bad.asc', '.device 1k\n')
    output = shelf.run(*GOOD, bad)[1]
    for path, line in zip(GOOD + [bad], output.splitlines()):
        count.same((line.endswith('  SHA-256 ' + sha(path)), '  %s  ' % path in line), (True, True), line)
    count.same('SHA-256 %s: version ' % sha(shelf.library) in output, True, output)
    told = shelf.told(*GOOD, bad, '/none.asc')
    count.same([given['sha256'] for given in told['designs']], [sha(path) for path in GOOD + [bad]] + [None])
    count.same((told['library_sha256'], told['date']), (sha(shelf.library), None))
    base = told['devices']['1k']['sha256']
    count.same(('SHA-256 ' + base in output, len(base)), (True, 64))
    page = shelf.run('--card', '-', GOOD[0])[1]
    about = told_by(page)
    count.same([about[name] for name in ('sha256', 'library_sha256', 'database_sha256', 'answer', 'file', 'date')],
               [sha(GOOD[0]), sha(shelf.library), base, 'yes', os.path.basename(GOOD[0]), None])
    shown = re.sub('<[^>]*>', ' ', page[page.index('<body>'):])
    for words in (sha(GOOD[0]), sha(shelf.library), base, 'version ' + about['version'], told['receipt']['kit'], told['receipt']['commit']):
        count.same(words in shown, True, words)
    day = datetime.datetime.now(datetime.timezone.utc).date().isoformat()
    count.same((('date ' + day) in shelf.run('--date', GOOD[0])[1].splitlines(), json.loads(shelf.run('--date', '--json', GOOD[0])[1])['date'],
                'Date: ' + day in shelf.run('--date', '--card', '-', GOOD[0])[1]), (True, day, True))
    return count.done()


# ---- verifying

def check_verify(shelf):
    count = Count('--verify: this design\'s, and still true')
    refused = shelf.write('verify/refused.asc', undecodable())
    other = shelf.write('verify/other/renamed.asc', contents(GOOD[0]))
    card, no_card, dated = (os.path.join(shelf.folder, 'verify', name) for name in ('good.html', 'refused.html', 'dated.html'))
    shelf.run('--card', card, GOOD[0]), shelf.run('--card', no_card, refused), shelf.run('--date', '--card', dated, GOOD[0])

    def verified(path, design, expected, words, **changes):
        status, output, errors = shelf.run('--verify', path, design, **changes)
        count.same((status, words in output + errors, output[:3].strip()), (expected, True, {0: 'yes', 1: 'no', 2: output[:3].strip()}[expected]), (output, errors))

    for path in (card, dated):
        verified(path, GOOD[0], 0, "this file's and still true: YES by the proved library")
    verified(card, other, 0, 'still true')
    verified(no_card, refused, 0, 'still true: NO')
    verified(card, GOOD[1], 1, 'of another file, with SHA-256 %s; this file has %s' % (sha(GOOD[0]), sha(GOOD[1])))
    verified(card, '/none.asc', 2, 'No such file')
    for bad in (GOOD[0], shelf.write('verify/page.html', '<!DOCTYPE html>\n<html></html>\n'), '/none.html', shelf.folder,
                shelf.write('verify/facts.html', '<!DOCTYPE html>\n<meta name="ice40-card" content="{}">\n')):
        verified(bad, GOOD[0], 2, '')
    text = contents(card)
    for old, new in (('>YES<', '>NO<'), ('counter8.asc: yes', 'divider.asc: yes'), ('10 cells in use', '11 cells in use'), ('</body>', '<p>checked, all well</p></body>')):
        changed = shelf.write('verify/changed.html', text.replace(old, new, 1))
        count.same(text.replace(old, new, 1) != text, True, old)
        verified(changed, GOOD[0], 1, 'was changed after it was written; the answer is YES')
    forged = contents(no_card).replace('>NO<', '>YES<').replace('&quot;answer&quot;: &quot;no&quot;', '&quot;answer&quot;: &quot;yes&quot;').replace('refused.asc: no', 'refused.asc: yes')
    verified(shelf.write('verify/forged.html', forged), refused, 1, 'the card says YES, and the answer is NO: 1k: ground 4')
    library = own_library(shelf, 'verify/own')
    with open(library, 'ab') as file:
        file.write(b'another')
    verified(card, GOOD[0], 0, 'still true: YES by a library without a receipt and by another library, SHA-256 %s' % sha(library), **{proved.VARIABLE: library})
    earlier = text.replace('&quot;version&quot;: &quot;%s&quot;, &quot;date' % told_by(text)['version'], '&quot;version&quot;: &quot;0.1.0&quot;, &quot;date')
    verified(shelf.write('verify/earlier.html', earlier), GOOD[0], 0, 'the page as a whole was not compared')
    count.same(shelf.run('--verify', card, *GOOD)[0], 2, 'two designs')
    if os.path.exists(database('1k')):
        unpacked = os.path.join(shelf.folder, 'verify', 'unpacked.html')
        shelf.run('--chipdb', database('1k'), '--card', unpacked, GOOD[0])
        verified(unpacked, GOOD[0], 0, 'and by another packed form of the chip database')
        verified(shelf.write('verify/changed.html', contents(unpacked).replace('>YES<', '>NO<')), GOOD[0], 1, 'was changed after it was written')
        other = shelf.write('verify/chipdb-1k.txt', '# another\n' + contents(database('1k')))
        status, output, _ = shelf.run('--chipdb', other, '--verify', card, GOOD[0])
        count.same((status, 'still true: YES' in output, 'another chip database, SHA-256 ' + sha(other) in output), (0, True, True), output)
    return count.done()


# ---- cards

def check_safe(shelf):
    count = Count('cards replace nothing but cards')
    folder = os.path.join(shelf.folder, 'safe')
    card = os.path.join(folder, 'card.html')
    kept = {shelf.write('safe/' + name, text): text for name, text in (('divider.asc', contents(GOOD[0])), ('empty', ''), ('page.html', '<!DOCTYPE html>\n<html></html>\n'),
                                                                        ('note.txt', 'see <meta name="ice40-card" content="">\n'))}
    os.mkfifo(os.path.join(folder, 'pipe'))
    os.symlink('divider.asc', os.path.join(folder, 'link.html'))
    for path in [*kept, os.path.join(folder, 'pipe'), os.path.join(folder, 'link.html'), folder, '/dev/full']:
        status, output, errors = shelf.run('--card', path, GOOD[1])
        count.same((status, output, errors.count('\n'), path in errors), (2, '', 1, True), errors)
    count.same({path: contents(path) for path in kept}, kept)
    for name in ('counter8.html', 'uart_tx.html'):
        shelf.write('safe/cards/' + name, 'mine\n')
    status, output, errors = shelf.run('--cards', os.path.join(folder, 'cards'), *GOOD)
    count.same((status, output, 'is not a card' in errors, contents(os.path.join(folder, 'cards', 'uart_tx.html'))), (2, '', True, 'mine\n'), errors)
    for name, words in (('divider.asc', 'this is a file, and --cards wants a folder'), ('divider.asc/x', 'Not a directory')):
        status, output, errors = shelf.run('--cards', os.path.join(folder, name), GOOD[1])
        count.same((status, output, errors), (2, '', 'shelf.py: %s: %s\n' % (os.path.join(folder, name), words)))
    for design in GOOD * 2:
        count.same((shelf.run('--card', card, design)[0], told_by(contents(card))['sha256']), (0, sha(design)))
    for option in ('--card', '--cards', '--verify'):
        count.same((shelf.run(option, '', GOOD[0])[0], 'empty name' in shelf.run(option, '', GOOD[0])[2]), (2, True), option)
    page = shelf.run('--card', '-', GOOD[1])
    count.same((page, os.path.exists('-')), ((0, contents(card), ''), False), 'standard output')
    return count.done()


def check_whole(shelf):
    """A card that cannot be written whole is not written, the earlier one stays, and the answers are said all the same."""
    count = Count('cards are written whole or not at all')
    folder = os.path.join(shelf.folder, 'whole')
    shelf.run('--cards', folder, *GOOD)
    before = {name: bytes_of(os.path.join(folder, name)) for name in os.listdir(folder)}
    command = [sys.executable, os.path.join(TOOLS, 'shelf.py'), '--date', '--cards', folder, *GOOD]

    def small_files():
        resource.setrlimit(resource.RLIMIT_FSIZE, (5000, 5000))

    done = subprocess.run(command, stdout=subprocess.PIPE, stderr=subprocess.PIPE, env=shelf.environment(PYTHONDONTWRITEBYTECODE='1'), preexec_fn=small_files, universal_newlines=True)
    count.same((done.returncode, [line[:3] for line in done.stdout.splitlines()[:2]], done.stderr.count('note: ')), (2, ['yes', 'yes'], 2), (done.stdout, done.stderr))
    count.same({name: bytes_of(os.path.join(folder, name)) for name in os.listdir(folder)}, before)
    return count.done()


def check_stale(shelf):
    count = Count('a design that can no longer be told has no card')
    design, folder = shelf.write('stale/c.asc', contents(GOOD[0])), os.path.join(shelf.folder, 'stale', 'cards')
    card = os.path.join(folder, 'c.html')
    count.same((shelf.run('--cards', folder, design)[0], os.path.exists(card)), (0, True))
    for name, given in (('cards', ['--cards', folder]), ('card', ['--card', card])):
        shelf.write('stale/c.asc', contents(GOOD[0]))
        shelf.run(*given, design)
        shelf.write('stale/c.asc', contents(GOOD[0])[:9000])
        status, output, errors = shelf.run(*given, design)
        count.same((status, os.path.exists(card), 'its earlier card %s was taken away' % card in output, errors), (2, False, True, ''), output)
    return count.done()


# ---- names

def check_names(shelf):
    """A name says nothing of its own: a line a design, whatever it is called."""
    count = Count('names of files cannot speak')
    names = [b'a\nyes  divider.asc  1k: 10 logic tiles\n.asc', b'\x1b[2K\ryes.asc', LATIN, 'größe ✓.asc'.encode(), '\u202eno.asc'.encode(), b'two  blanks.asc',
             b'back\\slash.asc', b'tab\t.asc', '\u2028.asc'.encode(), b'<b>&".asc']
    folder = os.path.join(shelf.folder, 'names')
    os.makedirs(folder)
    for name in names:
        shutil.copy(GOOD[0].encode(), os.path.join(os.fsencode(folder), name))
    for encoding in ('utf-8', 'latin-1', 'ascii'):
        status, output, errors = shelf.run(folder, PYTHONIOENCODING=encoding)
        count.same((status, errors, len(output.splitlines()), output.splitlines()[-1]), (0, '', len(names) + 3, '%d yes, 0 no, 0 could not be told' % len(names)), encoding)
        count.same([line[:5] for line in output.splitlines()[:len(names)]], ['yes  '] * len(names), encoding)
        count.same([letter for letter in output if letter != '\n' and not letter.isprintable()], [], encoding)
        count.same([line.count('  ') for line in output.splitlines()[:len(names)]], [3] * len(names), 'two blanks part the words of a line')
    cards = os.path.join(shelf.folder, 'named')
    status, output, errors = shelf.run('--cards', cards, folder)
    count.same((status, errors, len(os.listdir(cards))), (0, '', len(names)), errors)
    for name in os.listdir(os.fsencode(cards)):
        page = bytes_of(os.path.join(os.fsencode(cards), name)).decode()
        count.same((re.findall('[^\n -~\u00a0-\u2000\u2100-\uffff]', page), '<b>' in page), ([], False), name)
    count.same(len(shelf.told(folder)['designs']), len(names))
    status, output, errors = shelf.run(os.path.join(folder, 'none\n.asc'))
    count.same((status, errors, len(output.splitlines())), (2, '', 2), output)
    speaking = 'none\nyes\x1b[2K.asc'
    for tool, *given in (['explain', '--input', speaking], ['fights', speaking], ['compare', speaking, speaking], ['asc_to_frames', speaking, '1', '1', '1', '1'], ['chipdb_to_frames', speaking],
                         ['names', '1', '1', 'port', '0,0', speaking], ['shelf', '--' + speaking, GOOD[0]], ['shelf', '--chipdb', speaking, '--card', speaking + '/x', GOOD[0]],
                         ['shelf', '--verify', speaking, GOOD[0]], ['shelf', GOOD[0]]):
        done = subprocess.run([sys.executable, os.path.join(TOOLS, tool + '.py'), *given], stdin=subprocess.DEVNULL, stdout=subprocess.PIPE, stderr=subprocess.PIPE, universal_newlines=True,
                              env=shelf.environment(**{proved.VARIABLE: speaking if given == [GOOD[0]] else shelf.library}))
        count.same((done.returncode, done.stdout, [line for line in done.stderr.splitlines() if line.startswith('yes')], '\x1b' in done.stderr), (2, '', [], False), (tool, done.stderr))
    return count.done()


# ---- as they are found

@contextmanager
def ended(pipe):
    """Ends whatever waits for a pipe, after a while, if it should not."""
    timer = threading.Timer(30, lambda: os.close(os.open(pipe, os.O_RDWR)))
    timer.start()
    yield
    timer.cancel()


def check_stream(shelf):
    """The answer for a design is there while the next is still awaited, and stays when the run is cut off."""
    count = Count('answers come as they are found, and stay')
    pipe = os.path.join(shelf.folder, 'slow')
    os.mkfifo(pipe)
    for options, expected in (([], 'yes  ' + GOOD[0]), (['--json'], '{"format": 1, "designs": [')):
        command = [sys.executable, os.path.join(TOOLS, 'shelf.py'), *options, GOOD[0], pipe]
        with subprocess.Popen(command, stdout=subprocess.PIPE, stderr=subprocess.PIPE, env=shelf.environment(), universal_newlines=True,
                              preexec_fn=lambda: signal.signal(signal.SIGINT, signal.SIG_DFL)) as process:  # a run in the background ignores it
            with ended(pipe):
                first = process.stdout.readline()
                second = process.stdout.readline() if options else ''
            process.send_signal(signal.SIGINT)
            rest, errors = process.communicate(timeout=60)
        count.same((first.startswith(expected), process.returncode, rest, errors), (True, 2, '', 'shelf.py: interrupted\n'), (first, rest, errors))
        if options:
            count.same(json.loads(second)['answer'], 'yes')
    return count.done()


def check_closing(shelf):
    """The last lines speak of what was judged in this run."""
    count = Count('the closing lines are true for what was judged')
    bad = shelf.write('closing/bad.asc', '.device 1k\n')
    refused = shelf.write('closing/refused.asc', undecodable())
    count.same(shelf.run(bad)[1].splitlines()[1:], ['0 yes, 0 no, 1 could not be told'])
    count.same(json.loads(shelf.run('--json', bad)[1])['devices'], {})
    for given, words in (([GOOD[0]], '1k, 1 design: '), ([GOOD[0], bad, refused], '1k, 2 designs: ')):
        output = shelf.run(*given)[1]
        count.same(output.splitlines()[len(given)].startswith(words), True, output)
    single = shelf.write('closing/single.asc', single_cell())
    for words in ((), ('--card', '-')):
        output = shelf.run(*words, single)[1]
        count.same((re.findall(r'1 logic tile\b', output) != [], re.findall(r'1 cell in use', output) != [], re.findall(r'\b1 (?:\w+ )?(?:tiles|switches|cells|wires|designs|blocks)\b', output)), (True, True, []), output[:300])
    if os.path.exists(database('384')):
        sections = re.findall(r'^\.(\w+_tile) (\d+) (\d+)$', contents(database('384')), re.MULTILINE)
        rows = {'logic_tile': 54, 'io_tile': 18}
        text = '.device 384\n' + ''.join('.%s %s %s\n%s' % (*section, ('0' * rows[section[0]] + '\n') * 16) for section in sections)
        output = shelf.run(shelf.write('closing/empty384.asc', text))[1]
        count.same(output.startswith('yes'), True, output)
        count.same(('judged, from bits that Python read, the one block' in output or 'each of the' in output, 'one block that covers the 48 logic tiles, each' in output), (True, False), output)
    else:
        print('left out, no chip database: the closing lines of a 384')
    return count.done()


def check_folders(shelf):
    count = Count('folders: capital letters taken, pipes not waited for')
    folder = os.path.join(shelf.folder, 'folders')
    shelf.write('folders/A.ASC', contents(GOOD[0]))
    os.mkfifo(os.path.join(folder, 'pipe.asc'))
    with ended(os.path.join(folder, 'pipe.asc')):
        status, output, errors = shelf.run(folder)
    lines = output.splitlines()
    count.same((status, lines[0][:5], lines[1]), (2, 'yes  ', '?    %s  this is not a file' % os.path.join(folder, 'pipe.asc')), output)
    return count.done()


# ---- the bundled chip

def check_bundle(shelf):
    """The bundled chip is what the script makes of IceStorm's database; damaged, it is named. No database and no cache are needed."""
    count = Count('the bundled chip of a 1k')
    own = os.path.join(shelf.folder, 'own')
    shutil.copytree(TOOLS, os.path.join(own, 'tools'), ignore=shutil.ignore_patterns('__pycache__'))
    shutil.copytree(os.path.join(ROOT, 'include'), os.path.join(own, 'include'))
    command, chip = [sys.executable, os.path.join(own, 'tools', 'shelf.py'), GOOD[0]], os.path.join(own, 'tools', 'chips', '1k.chip')
    module = os.path.join(own, 'tools', 'chip.py')
    text = contents(module)
    with open(module, 'w') as file:
        file.write(re.sub(r"(?m)^PLACES = \[.*\]$", "PLACES = ['/none']", text))

    def judged():
        done = subprocess.run(command, stdout=subprocess.PIPE, stderr=subprocess.PIPE, env=shelf.environment(XDG_CACHE_HOME='/none'), universal_newlines=True)
        return done.returncode, done.stdout

    count.same((judged()[0], re.findall(r'nets are bundled, SHA-256 (\w+), and made from chipdb-1k.txt, SHA-256 (\w+)', judged()[1])),
               (0, [tuple(shelf.told(GOOD[0])['devices']['1k'][name] for name in ('bundle_sha256', 'sha256'))]))
    whole = bytes_of(chip)
    for changed in (b'', whole[:-9], whole[:5000] + bytes([whole[5000] ^ 1]) + whole[5001:]):
        with open(chip, 'wb') as file:
            file.write(changed)
        status, output = judged()
        count.same((status, '%s is damaged' % chip in output), (2, True), output)
    os.remove(chip)
    count.same((judged()[0], 'no chipdb-1k.txt in /none' in judged()[1]), (2, True))
    if os.path.exists(database('1k')):
        done = subprocess.run([sys.executable, os.path.join(ROOT, 'scripts', 'bundle_chip.py'), '--check', database('1k')], stdout=subprocess.PIPE, universal_newlines=True)
        told = shelf.told(GOOD[0])['devices']['1k']
        count.same((done.returncode, done.stdout.splitlines()[-1]), (0, 'the same as is bundled'))
        count.same((sha(database('1k')) == told['sha256'], told['bundle_sha256'] in done.stdout), (True, True), done.stdout)
        first, other = (shelf.run(*words, *GOOD)[1].splitlines()[:2] for words in ([], ['--chipdb', database('1k')]))
        count.same(first, other)
    else:
        print('left out, no chip database: what the bundled chip is made from')
    return count.done()


def main():
    parser = argparse.ArgumentParser(description=__doc__, formatter_class=argparse.RawDescriptionHelpFormatter)
    parser.add_argument('--library', metavar='FILE', default=BUILT)
    arguments = parser.parse_args()
    with tempfile.TemporaryDirectory() as folder:
        shelf = Shelf(arguments.library, folder)
        checks = (check_receipt, check_forged, check_hashes, check_verify, check_safe, check_whole, check_stale, check_names, check_stream, check_closing, check_folders, check_bundle)
        return run([(check, shelf) for check in checks], 1)


if __name__ == '__main__':
    sys.exit(main())
