#!/usr/bin/env python3
"""Changes what has to be believed, one thing at a time in a copy, and sees that tests/believe.py notices.

    python3 tests/believe_changes.py    needs Python 3 alone

Each change keeps names and lines: a bound within a line, a hypothesis that nobody can meet, a law that says less under its name, a clause
that says less under its label, a row of a table written by hand, an entry point that asks for something or leaves memory open.
"""
import contextlib
import io
import os
import shutil
import sys
import tempfile

sys.path.insert(0, os.path.dirname(os.path.abspath(__file__)))
import believe  # noqa: E402
from library import Count, run  # noqa: E402

# what is changed, the file below the project's folder, what stands there (once at least; the first is changed), what is put in its place
CHANGES = [
    ('a bound within a believed line', 'crates/fabric/specs/Joins.antt', 'k < 36', 'k < 35'),
    ('a hypothesis that nobody can meet', 'crates/theorem/specs/Demand3.antt', 'pub six_exactly : (B : Block)', 'pub six_exactly : ⊥ → (B : Block)'),
    ('a law that says less', 'crates/fabric/proofs/WireLaws.antt', 'pub wire_lowest : ', 'pub wire_lowest : ⊥ → '),
    ('the parameters that a law is stated over', 'crates/config/proofs/BlocksLaws.antt', 'module _ (', 'module _ (never : ⊥) ('),
    ('what a name means', 'crates/fabric/specs/Joins.antt', 'use Rattle.std.specs.Prelude.{', 'use Rattle.other.specs.Prelude.{'),
    ('a clause that says less', 'crates/config/src/lib.rt', 'ensures settings { ', 'ensures settings { ⊥ → '),
    ('a table written by hand', 'docs/BELIEVE.md', '| `loop_exactly` | "passes checks 1 to 6": `PassesSix` |', '| `loop_exactly` | none |'),
    ('a field that the table leaves out', 'docs/BELIEVE.md', '| `step_means` |', '| |'),
    ('an entry point that asks for something', 'crates/sim/src/lib.rt', '    ensures answer', '    requires { ⊥ }\n    ensures answer'),
    ('an entry point that nobody listed', 'crates/capi_c/src/lib.rt', 'pub extern "C" fn ice40_lookup(', 'pub extern "C" fn ice40_other() -> u64 { 0 }\npub extern "C" fn ice40_lookup('),
    ('a slice whose contents nothing says', 'crates/sim/src/lib.rt', '    ensures marks {', '    ensures wires2 {'),
]


def copied(folder):
    """The files that believe.py reads, in a folder."""
    for name in os.listdir(believe.CRATES):
        for part in ('specs', 'src', 'proofs'):
            there = os.path.join(believe.CRATES, name, part)
            if os.path.isdir(there):
                os.makedirs(os.path.join(folder, 'crates', name, part))
                for file in os.listdir(there):
                    if os.path.isfile(os.path.join(there, file)):
                        shutil.copy(os.path.join(there, file), os.path.join(folder, 'crates', name, part, file))
    os.makedirs(os.path.join(folder, 'docs'))
    shutil.copy(believe.PAGE, os.path.join(folder, 'docs'))


def status():
    with contextlib.redirect_stdout(io.StringIO()):
        return believe.main()


def check_noticed():
    count = Count('changes of what is believed, each noticed')
    with tempfile.TemporaryDirectory() as folder:
        copied(folder)
        believe.CRATES, believe.PAGE = os.path.join(folder, 'crates'), os.path.join(folder, 'docs', 'BELIEVE.md')
        count.same(status(), 0, 'unchanged')
        for what, file, old, new in CHANGES:
            path = os.path.join(folder, file)
            text = believe.read(path)
            if count.same(old in text, True, 'stands in %s: %s' % (file, old)):
                with open(path, 'w', encoding='utf-8') as f:
                    f.write(text.replace(old, new, 1))
                count.same(status(), 1, what)
                with open(path, 'w', encoding='utf-8') as f:
                    f.write(text)
    return count.done()


if __name__ == '__main__':
    sys.exit(run([(check_noticed,)], 0))
