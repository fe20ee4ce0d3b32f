#!/usr/bin/env python3
"""Tries how one starts: `make shelf`, `make check` and `make help`, what is looked for before the proofs begin, the receipt that a build writes, `make test`
where programs are missing, and the pages that a newcomer meets first.

    python3 tests/starting.py           needs make, a C compiler, the static library (make lib) and Python 3

A kit of its own stands in the place of the Rattle kit: it proves nothing and hands out the archive that is there. It prints a line for each group of
cases and ends with the number of differences.
"""
import json
import os
import re
import shutil
import subprocess
import sys
import tempfile

sys.path.insert(0, os.path.dirname(os.path.abspath(__file__)))
import vectors  # noqa: E402
from library import ROOT, Count, build_archive, run  # noqa: E402
from tools import contents  # noqa: E402

# what the kit prints, and the notes between that nobody needs
KIT = """#!/bin/sh
echo "$@" >>'%(folder)s/calls'
case $1 in
version) echo 'kit of the tests' ;;
lib)
    (cd ../.. && %(change)s) || exit
    for crate in lists refusal digits; do
        echo 'x.antt:1:1: note: large solution: ..'
        echo "fn $crate::f: proved"
        echo "crate $crate: modules loaded=0 checked=1"
        echo 'logic=proved functions=1 of the tests'
    done
    mkdir -p out
    cp '%(archive)s' out/libcapi_c.a ;;
ci)
    echo 'rt: lists proved'
    echo 'rt: digits is kept: an earlier run on this machine proved the same files over the same libraries'
    echo 'rt: must-fail lists/x.edit: refused, as it must be: note: ..'
    echo 'rt: ok; handles allowed: none; must-fail edits: 1 refused%(bad)s; every proof and must-fail edit was done in this run'
    echo '%(verdict)s'
    %(end)s ;;
*) echo 'error: no such proof'; exit 1 ;;
esac
"""
ALWAYS = ('sh', 'env', 'bash', 'make', 'id', 'sed', 'find', 'mkdir', 'touch', 'cp', 'ln', 'rm', 'echo', 'cat', 'dirname', 'readlink', 'chmod', 'sha256sum', 'mktemp', 'tee', 'grep')
README_LINES = 120


def listed():
    """Each crate that crates.txt lists, and those that it builds on."""
    rows = [line.partition(':') for line in contents(os.path.join(ROOT, 'crates.txt')).splitlines() if not line.startswith('#')]
    return {name.split()[0]: below.split() for name, _, below in rows if name.strip()}


def below_capi():
    """How many crates the library has: capi_c and all that it builds on."""
    of, found = listed(), {'capi_c'}
    while True:
        more = found | {name for crate in found for name in of[crate]}
        if more == found:
            return len(found)
        found = more


def edits():
    """How many edits the two crates have that a tree copies."""
    return sum(name.endswith('.edit') for crate in ('lists', 'capi_c') for _, _, names in os.walk(os.path.join(ROOT, 'crates', crate)) for name in names)


class Tree:
    """A copy of what a build needs, with a kit and a PATH of its own."""

    def __init__(self, folder, archive):
        self.folder, self.archive, self.root, self.bin = folder, archive, os.path.join(folder, 'tree'), os.path.join(folder, 'bin')
        os.makedirs(self.bin)
        for name in ('scripts', 'tools', 'include', '.ci'):
            shutil.copytree(os.path.join(ROOT, name), os.path.join(self.root, name), ignore=shutil.ignore_patterns('__pycache__'))
        for name in ('Makefile', 'crates.txt'):
            shutil.copy(os.path.join(ROOT, name), self.root)
        for name in ('lists', 'capi_c'):
            shutil.copytree(os.path.join(ROOT, 'crates', name), os.path.join(self.root, 'crates', name), ignore=shutil.ignore_patterns('out'))
        os.makedirs(os.path.join(self.root, 'tests'))
        shutil.copytree(os.path.join(ROOT, 'tests', 'data'), os.path.join(self.root, 'tests', 'data'))
        self.own('python3', '#!/bin/sh\nexec %s "$@"\n' % sys.executable)
        self.programs(*ALWAYS, 'cc', 'gcc', 'ld', 'as', 'collect2')
        self.kit()

    def programs(self, *names):
        for name in names:
            if shutil.which(name):
                os.symlink(shutil.which(name), os.path.join(self.bin, name))

    def own(self, name, text):
        path = os.path.join(self.bin, name)
        if os.path.lexists(path):
            os.remove(path)
        with open(path, 'w') as file:
            file.write(text)
        os.chmod(path, 0o755)

    def without(self, *names):
        for name in names:
            os.remove(os.path.join(self.bin, name))

    def kit(self, change=':', verdict='12 passed, 0 failed', end='exit 0', bad=''):
        self.own('rt', KIT % {'folder': self.folder, 'archive': self.archive, 'change': change, 'verdict': verdict, 'end': end, 'bad': bad})

    def calls(self):
        """What the kit was called for since the last time."""
        path = os.path.join(self.folder, 'calls')
        found = contents(path).split('\n')[:-1] if os.path.exists(path) else []
        if found:
            os.remove(path)
        return found

    def make(self, *words):
        """Exit status, output and errors."""
        environment = {'PATH': self.bin, 'HOME': self.folder, 'LANG': 'C.UTF-8'}
        done = subprocess.run([os.path.join(self.bin, 'make'), '--no-print-directory', *words], cwd=self.root, env=environment, stdout=subprocess.PIPE,
                              stderr=subprocess.PIPE, universal_newlines=True)
        return done.returncode, done.stdout, done.stderr

    def path(self, *names):
        return os.path.join(self.root, *names)


def check_needs(tree):
    """What is missing is said, or installed, before the kit is asked for anything."""
    count = Count('what is missing is looked for before the proofs begin')
    tree.own('id', '#!/bin/sh\necho 1000\n')
    tree.without('cc')
    for target in ('lib', 'shelf'):
        status, output, errors = tree.make(target)
        count.same((status, '    sudo apt-get install -y gcc libc6-dev\n' in errors, tree.calls()), (2, True, []), errors)
    tree.own('id', '#!/bin/sh\necho 0\n')
    tree.own('apt-get', '#!/bin/sh\necho "apt-get $@" >>%s/calls\n[ "$1" = update ] || ln -s %s %s/cc\n' % (tree.folder, shutil.which('cc'), tree.bin))
    status, output, errors = tree.make('lib')
    count.same((status, tree.calls()), (0, ['apt-get update -qq', 'apt-get install -y -qq --no-install-recommends gcc libc6-dev', 'lib', 'version']), errors)
    tree.without('rt')
    for target in ('check', 'lib'):
        if target == 'lib':
            shutil.rmtree(tree.path('target'))
        status, output, errors = tree.make(target)
        count.same((status, 'rt is not there' in errors, 'The Rattle kit' in errors, tree.calls()), (2, True, True, []), errors)
    tree.kit()
    return count.done()


def check_shelf(tree):
    count = Count('make shelf does everything, make help lists it')
    shutil.rmtree(tree.path('target'), ignore_errors=True)
    status, output, errors = tree.make('shelf')
    lines = output.splitlines()
    judged = ['yes  tests/data/%s.asc' % name for name in ('counter8', 'uart_tx')]
    count.same((status, [line.partition('  1k')[0] for line in lines if line.startswith('yes')], lines[-1]), (0, judged, '2 yes, 0 no, 0 could not be told'), output + errors)
    count.same(re.findall(r'crate \d+ of \d+: \w+', errors), ['crate %d of %d: %s' % (k, below_capi(), name) for k, name in enumerate(('lists', 'refusal', 'digits'), 1)], errors)
    count.same('large solution' in output + errors, False)
    count.same((tree.calls(), tree.make('shelf', 'DESIGNS=tests/data/uart_tx.asc')[1].splitlines()[-1], tree.calls()),
               (['lib', 'version'], '1 yes, 0 no, 0 could not be told', []), 'nothing is proved twice')
    listed = re.findall(r'^    make ?(\w*)', tree.make('help')[1], re.MULTILINE)
    phony = re.search(r'^\.PHONY: (.*)$', contents(os.path.join(ROOT, 'Makefile')), re.MULTILINE)[1].split()
    count.same(set(listed), set(phony) - {'all'} | {''})
    return count.done()


def check_receipts(tree):
    """What a build writes down, and when it writes nothing."""
    count = Count('the receipt of a build')
    shutil.rmtree(tree.path('target'), ignore_errors=True)
    receipt = tree.path('target', 'lib', 'ice40.receipt')
    count.same(tree.make('lib')[0], 0)
    told = json.loads(contents(receipt))
    count.same((told['kit'], told['crates'], told['check'], told['gate'], told['commit']), ('kit of the tests', below_capi(), 'logic=proved functions=1 of the tests', None, 'unknown'))
    count.same(tree.make('lib', '--question')[0], 0, 'nothing is built a second time')
    status, output, errors = tree.make('check')
    count.same((status, output.splitlines()[-1]), (0, '12 passed, 0 failed'), output + errors)
    count.same(re.findall(r'^(?:crate|edit) .*$', errors, re.MULTILINE),
               ['crate 1 of %d: lists proved' % len(listed()), 'crate 2 of %d: digits kept' % len(listed()), 'edit 1 of %d: lists/x refused' % edits()], errors)
    count.same((tree.make('lib')[0], json.loads(contents(receipt))['gate']), (0, '12 passed, 0 failed'), 'the gate was passed with these sources')
    with open(tree.path('crates.txt'), 'a') as file:
        file.write('# changed\n')
    count.same((tree.make('lib')[0], json.loads(contents(receipt))['gate'], json.loads(contents(receipt))['sources'] != told['sources']), (0, None, True), 'with others')
    tree.kit(verdict='11 passed, 1 failed', end='exit 1')
    status, output, errors = tree.make('check')
    count.same((status, '11 passed, 1 failed' in errors, os.path.exists(tree.path('target', 'gate'))), (2, True, False), output + errors)
    tree.kit(bad=', 1 bad')
    status, output, errors = tree.make('check')
    count.same((status, 'a must-fail edit is bad' in errors), (2, True), output + errors)
    shutil.rmtree(tree.path('target'))
    tree.kit(change='echo "# changed" >>crates.txt')
    status, output, errors = tree.make('lib')
    count.same((status, 'the sources were changed while they were proved' in errors, os.path.exists(receipt)), (2, True, False), errors)
    tree.kit(change='echo "error: not proved"; exit 1')
    status, output, errors = tree.make('lib')
    count.same((status, 'error: not proved' in errors, os.path.exists(tree.path('target', 'lib'))), (2, True, False), errors)
    tree.kit()
    count.same(tree.make('lib')[0], 0)
    with open(tree.path('target', 'lib', 'libice40.a'), 'ab') as file:
        file.write(b'x')
    os.remove(receipt)
    status, output, errors = tree.make('lib')
    count.same((status, 'is not the archive of its receipt' in errors, os.path.exists(receipt)), (2, True, False), errors)
    return count.done()


def check_runner(folder):
    """tests/all.py goes on after a failure, says what was left out, and is strict where it is asked."""
    count = Count('make test: goes on, says what was left out, STRICT')
    own = os.path.join(folder, 'runner')
    os.makedirs(own)
    shutil.copy(os.path.join(ROOT, 'tests', 'all.py'), own)
    for name, text in (('believe', "print('left out, no chromium: pages')"), ('nets', 'raise SystemExit(1)'), ('asc', "print('0 differences')")):
        with open(os.path.join(own, name + '.py'), 'w') as file:
            file.write(text + '\n')
    for words, expected, left_out, failed in ((['asc'], 0, 'nothing', 'none'), (['believe', 'asc'], 0, 'believe: no chromium: pages', 'none'), (['nets', 'asc'], 1, 'nothing', 'nets'),
                                              (['--strict', 'believe', 'asc'], 1, 'believe: no chromium: pages', 'none'), (['--strict', 'asc'], 0, 'nothing', 'none')):
        done = subprocess.run([sys.executable, os.path.join(own, 'all.py'), *words], stdout=subprocess.PIPE, universal_newlines=True)
        lines = done.stdout.splitlines()
        count.same((done.returncode, lines[-2].endswith('; left out: ' + left_out), lines[-1], '== tests/asc.py' in lines), (expected, True, 'differences in: ' + failed, True), done.stdout)
    empty = os.path.join(own, 'empty')
    os.makedirs(empty)
    for path, used, missing in ((empty, 'used: (none|fpga-icestorm-chipdb);', 'not there: gcc g\\+\\+ '), (os.environ['PATH'], 'used: gcc ', 'not there: (?!gcc)')):
        done = subprocess.run([sys.executable, os.path.join(own, 'all.py'), 'asc'], stdout=subprocess.PIPE, universal_newlines=True, env=dict(os.environ, PATH=path))
        line = done.stdout.splitlines()[-2]
        count.same((bool(re.search(used, line)), bool(re.search(missing, line))), (True, True), line)
    makefile = contents(os.path.join(ROOT, 'Makefile'))
    count.same('tests/all.py $(if $(STRICT),--strict)' in makefile, True)
    return count.done()


def check_without(folder):
    """No script ends in a traceback for a program that is not there."""
    count = Count('programs that are missing are named, and no script stops')
    own = os.path.join(folder, 'few')
    os.makedirs(own)
    for name in (*ALWAYS, 'cc', 'as', 'ld'):
        if shutil.which(name):
            os.symlink(shutil.which(name), os.path.join(own, name))
    for script, programs in (('header', ['c++', 'nm']), ('examples', ['rustc'])):
        done = subprocess.run([sys.executable, os.path.join(ROOT, 'tests', script + '.py')], stdout=subprocess.PIPE, stderr=subprocess.STDOUT, universal_newlines=True,
                              env=dict(os.environ, PATH=own))
        found = set(re.findall(r'^left out, no (\S+):', done.stdout, re.MULTILINE))
        count.same((done.returncode, 'Traceback' in done.stdout, found), (0, False, set(programs)), done.stdout[-500:])
    return count.done()


def check_vectors():
    """The users' vectors that the scripts name are bundled."""
    count = Count("the users' vectors are bundled")
    for name in sorted(os.listdir(os.path.join(ROOT, 'tests'))):
        if name.endswith('.py') and name != 'vectors.py':
            for call in re.findall(r"(?:vectors\.cases|plain_cases)\([\w.]+, ([^)]*)\)", contents(os.path.join(ROOT, 'tests', name))):
                for asked in re.findall(r"'([^']+)'", call):
                    count.same(any(True for _ in vectors.cases(vectors.FOLDER, asked)), True, (name, asked))
    count.same(vectors.FOLDER.startswith(os.path.join(ROOT, 'tests')), True)
    return count.done()


def check_pages():
    count = Count('README, MANUAL, CONTRIBUTING, CHANGELOG, LICENSE')
    version = re.search(r'#define ICE40_VERSION "(.*)"', contents(os.path.join(ROOT, 'include', 'ice40.h')))[1]
    readme = contents(os.path.join(ROOT, 'README.md'))
    count.same(len(readme.splitlines()) <= README_LINES, True, len(readme.splitlines()))
    for words in ('make shelf', 'make check', 'docs/MANUAL.md', 'CONTRIBUTING.md', 'CHANGELOG.md', 'LICENSE', 'The Rattle kit'):
        count.same(words in readme, True, words)
    count.same('## %s' % version in contents(os.path.join(ROOT, 'CHANGELOG.md')), True, version)
    licence = contents(os.path.join(ROOT, 'LICENSE'))
    count.same(('Permission to use, copy, modify, and/or distribute this software for any purpose with or without fee is hereby granted' in re.sub(r'\s+', ' ', licence),
                'Copyright' in licence), (True, True))
    for words in ('specs', 'must-fail', 'vectors', 'docs/landings', 'tests/all.py', 'make check'):
        count.same(words in contents(os.path.join(ROOT, 'CONTRIBUTING.md')), True, words)
    return count.done()


def main():
    archive = build_archive()
    with tempfile.TemporaryDirectory() as folder:
        tree = Tree(folder, archive)
        return run([(check_needs, tree), (check_shelf, tree), (check_receipts, tree), (check_runner, folder), (check_without, folder), (check_vectors,), (check_pages,)], 1)


if __name__ == '__main__':
    sys.exit(main())
