#!/usr/bin/env python3
"""Runs the commands that README.md, docs/MANUAL.md and docs/LOOKUP.md show and compares what they print with what is shown; looks at the shape, the
links and the lists of docs/ARCHITECTURE.md.

    python3 tests/readme.py             needs a build (make), a C compiler, pkg-config and Python 3; fpga-icestorm-chipdb for one command

In a code block that begins with `$ ` a command stands after each `$ `, and what follows is all that it prints. A block that begins with `..` is
the end of what the last command before it prints. In any other block each line is a command. A command must end with status 0, or with 1
where it prints a no. Commands that build or prove are left out. It prints a line for each group of cases and ends with the number of
differences.
"""
import os
import re
import shutil
import subprocess
import sys
import tempfile

sys.path.insert(0, os.path.dirname(os.path.abspath(__file__)))
from library import DATA, ROOT, Count, run  # noqa: E402
from tools import DEBIAN, without_notes  # noqa: E402

LEFT_OUT = ('make', 'make check', 'make test', 'make lib', 'make shelf', 'make page', 'sudo ', 'tar ', 'ice40-*/bin/')  # make install builds what it needs; dist.py runs the last two
COMMANDS = ['README.md', 'docs/MANUAL.md', 'docs/LOOKUP.md']
ODD = ['ends so:', "that the wire's name tells", 'written apart from it', 'How the folders follow']


def contents(name):
    with open(os.path.join(ROOT, name)) as file:
        return file.read()


def code_blocks(text):
    """The code blocks of a page, each a list of lines."""
    blocks, inside = [], False
    for line in text.splitlines():
        if line.startswith('    '):
            if not inside:
                blocks.append([])
            blocks[-1].append(line[4:])
        inside = line.startswith('    ')
    return blocks


def commands(text):
    """The commands of a page, each with the lines that it is shown to print, or None where none are shown."""
    found = []
    for block in code_blocks(text):
        if block[0] == '..':
            found[-1] = found[-1][0], block
        elif not block[0].startswith('$ '):
            found += [(line, None) for line in block]
        else:
            for line in block:
                if line.startswith('$ '):
                    found.append((line[2:], []))
                else:
                    found[-1][1].append(line)
    return found


def workshop(folder):
    """A folder in which the commands can write: links to what they read."""
    for name in ('tools', 'scripts', 'tests', 'target', 'examples', 'include', 'Makefile', 'crates', 'crates.txt'):
        os.symlink(os.path.join(ROOT, name), os.path.join(folder, name))
    return dict(os.environ, HOME=os.path.join(folder, 'home'))


def is_left_out(command):
    return any(command == words or words.endswith((' ', '/')) and command.startswith(words) for words in LEFT_OUT)


def says_no(command, printed):
    """Whether a command that ends with its own status prints a no: explain.py's or the shelf's."""
    return printed.startswith('no,') or printed.startswith('no  ') and '|' not in command


def check_commands(page):
    count = Count('commands of %s, and what they print' % page)
    if not os.path.exists(os.path.join(ROOT, 'target', 'bin', 'report')):
        sys.exit('target/bin/report is not there: make')
    with tempfile.TemporaryDirectory() as folder:
        environment = workshop(folder)
        for command, shown in commands(contents(page)):
            if is_left_out(command):
                continue
            if DEBIAN in command and not os.path.isdir(DEBIAN):
                shutil.copy(os.path.join(DATA, '1k.tab'), folder)
                print('left out, no chip database: %s' % command)
                continue
            done = subprocess.run(['bash', '-c', command], cwd=folder, env=environment, stdout=subprocess.PIPE, stderr=subprocess.PIPE, universal_newlines=True)
            printed = done.stdout.splitlines()
            if shown is None:
                shown = printed
            elif shown[0] == '..':
                printed, shown = printed[len(printed) - len(shown) + 1:], shown[1:]
            count.same((done.returncode, printed, without_notes(done.stderr)), (int(says_no(command, done.stdout)), shown, ''), command)
    return count.done()


def check_status():
    """A no ends a chain of commands, a yes goes on, and the words of another block's report are not taken."""
    count = Count('report | explain.py && echo yes')
    ask = 'target/bin/report < tests/data/%s.in | tools/explain.py --input tests/data/%s.in > /dev/null 2>&1 && echo yes'
    for given, asked, words in (('uart_tx_3x3', 'uart_tx_3x3', 'yes\n'), ('latch_1x1', 'latch_1x1', ''), ('pwm_1x1', 'pwm_1x1', ''), ('ripplediv_loc_2x2',) * 2 + ('',),
                                ('counter8_1x1', 'latch_1x1', ''), ('counter8_2x2', 'shift_arst_2x2', ''), ('big8_8x8', 'big8_8x8', '')):
        done = subprocess.run(['bash', '-c', ask % (given, asked)], cwd=ROOT, stdout=subprocess.PIPE, universal_newlines=True)
        count.same(done.stdout, words, (given, asked))
    return count.done()


def check_shape():
    count = Count('shape: no table in README, odd words, links')
    pages = [name for name in os.listdir(ROOT) if name.endswith('.md')] + ['docs/' + name for name in os.listdir(os.path.join(ROOT, 'docs')) if name.endswith('.md')]
    count.same('\n|' in contents('README.md'), False)
    for page in pages:
        for words in ODD:
            count.same(words in contents(page), False, (page, words))
        for link, head in re.findall(r'\]\(([^)#]*)(?:#([^)]*))?\)', contents(page)):
            to = os.path.normpath(os.path.join(os.path.dirname(page), link)) if link else page
            count.same(os.path.exists(os.path.join(ROOT, to)), True, (page, link))
            if head and to.endswith('.md'):
                count.same(head in heads_of(to), True, (page, link, head))
    return count.done()


def heads_of(page):
    """The headings of a page, as links name them."""
    return {re.sub(r'[^a-z0-9 _-]', '', line.lstrip('# ').lower()).replace(' ', '-') for line in contents(page).splitlines() if line.startswith('#')}


def check_yes_words():
    """README says of a yes what it does not cover, and on what an answer rests."""
    count = Count('README.md and the manual on what a yes does not say')
    readme, manual = (re.sub(r'\s+', ' ', contents(page)) for page in ('README.md', 'docs/MANUAL.md'))
    for words in ('two switches in different blocks can drive one wire, and every block gets a yes', 'A span-12 wire lies in thirteen tiles', 'on one net there too, but that is not proved', 'RAM column',
                  '20 to 25 minutes', 'rt version', 'five minutes on two free cores and 2.4 GB', 'a library without a receipt', 'replaces nothing but an earlier card'):
        count.same(words in readme, True, words)
    for words in ('always ends with status 0', 'ignores the input', 'seven minutes', 'A design that can no longer be judged has its earlier card taken away'):
        count.same(words in manual, True, words)
    return count.done()


def check_architecture():
    count = Count('docs/ARCHITECTURE.md: every crate, every folder')
    text = contents('docs/ARCHITECTURE.md')
    crates = {line.split(':')[0].split()[0] for line in contents('crates.txt').splitlines() if ':' in line and not line.startswith('#')}
    rows = text[text.index('## The crates'):text.index('## The folders')]
    listed = set(re.findall(r'`(\w+)`', ' '.join(line.split('|')[1] for line in rows.splitlines() if line.startswith('|'))))
    count.same(crates - listed, set())
    count.same(listed - crates - {'ports', 'texts'}, set())
    drawn = text[:text.index('## The crates')]
    for crate in crates - {'lists', 'digits', 'refusal', 'theorem', 'names', 'cell_run', 'report_run'}:
        count.same(bool(re.search(r'\b%s\b' % crate, drawn)), True, crate)
    for folder in ('include', 'examples', 'tools', 'web', 'scripts', 'tests', 'bench', 'docs'):
        count.same('`%s/`' % folder in text, True, folder)
    for name in os.listdir(os.path.join(ROOT, 'tools')) + os.listdir(os.path.join(ROOT, 'scripts')):
        if name.endswith(('.py', '.sh')):
            count.same('`%s`' % name in text, True, name)
    for name in os.listdir(os.path.join(ROOT, 'web')):
        if not name.startswith('_'):
            count.same('`%s`' % name in text, True, name)
    return count.done()


def main():
    return run([*((check_commands, page) for page in COMMANDS), (check_status,), (check_shape,), (check_yes_words,), (check_architecture,)], 1)


if __name__ == '__main__':
    sys.exit(main())
