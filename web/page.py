#!/usr/bin/env python3
"""Puts the page together: web/page.py FILE.wasm PAGE.html

One file: the library as WebAssembly, the chip's table, blocks and names as the tools know them, the modules of web/ one after the other, and the
style. The modules share one space of names; what stands in two of them is refused here. The policy of the page forbids every request and
every script but its own.
"""
import base64
import hashlib
import html
import json
import os
import re
import sys

WEB = os.path.dirname(os.path.abspath(__file__))
sys.path.insert(0, os.path.join(os.path.dirname(WEB), 'tools'))
import blockcard  # noqa: E402
import cover  # noqa: E402
import proved  # noqa: E402
from chip import chip_of  # noqa: E402
from evidence import Evidence  # noqa: E402
from explain import GROUNDS  # noqa: E402
from ice40 import FLAGS, NAMES, POSITIONS  # noqa: E402
from tool import Mistake, run  # noqa: E402

MAIN = 'page.mjs'  # the module that takes in all others
LAYOUT = ('BUILD_ROOM', 'TILE_PORTS', 'TILE_GROUPS', 'TILE_SETTINGS', 'TILE_NUMBERS', 'COLUMNS', 'TABLE_LENGTH', 'PASSIVE_COUNT', 'GROUP_COUNT', 'GROUPS_FROM',
          'GROUP_LENGTH', 'ENTRIES_FROM', 'SETTINGS_GROUPS', 'SETTINGS_CELLS', 'ASC_LINE', 'CARD_CELLS', 'CARD_FLIP_FLOPS', 'CARD_LEAVING', 'CARD_COUNTS')
IMPORT = re.compile(r"^import \{[^}]*\} from '\./(\w+\.mjs)';\n", re.MULTILINE)
TOP = re.compile(r'^(?:export )?(?:async )?(?:function|class|const|let) (\w+)', re.MULTILINE)
MISSING = ('Not looked at: wires between blocks, and so two switches on one wire of which no block holds both, as can be on span-12 wires and on wires that cross a '
           'RAM column or end at an IO tile; IO and RAM tiles; loops, carries and clocks that lead from block to block. tools/shelf.py looks besides, with no '
           'proof, for two switches on one net of the whole chip, and shows what leads to a no (the way round a loop, where a clock comes from, what reads a carry) and '
           'which pins wires come from and go to.')


def contents(name):
    with open(os.path.join(WEB, name), encoding='utf-8') as file:
        return file.read()


# ---- the script

def in_order(name, found):
    """The modules, each after those that it takes in."""
    if name not in found:
        for other in IMPORT.findall(contents(name)):
            in_order(other, found)
        found.append(name)
    return found


def script():
    """All modules as one."""
    modules = {name: IMPORT.sub('', contents(name)) for name in in_order(MAIN, [])}
    names = [name for text in modules.values() for name in TOP.findall(text)]
    twice = {name for name in names if names.count(name) > 1}
    if twice or any(re.search(r'^(import|export (default|\{|\*))', text, re.MULTILINE) for text in modules.values()):
        raise Mistake('the modules cannot be put together: %s' % (', '.join(sorted(twice)) or 'an import or export of another form'))
    return '\n' + '\n'.join(re.sub(r'^export ', '', text, flags=re.MULTILINE) for text in modules.values())


# ---- what the page knows of the chip

def built(path):
    """What made the library, by the receipt beside it. A page calls its library proved, so that one without a receipt is not taken."""
    evidence = Evidence(path)
    if not evidence.proved:
        raise Mistake('%s: %s; make page writes one' % (path, evidence.build()))
    return evidence.build()


def facts(chip, build):
    table = bytes(chip.table)[:2 * (proved.GROUPS_FROM + proved.GROUP_LENGTH * chip.table[proved.GROUP_COUNT])]
    return {
        'device': chip.device, 'build': build, 'width': chip.width, 'height': chip.height, 'kinds': [chip.kinds.get(at, '') for at in chip.places()],
        'cuts': [cut._asdict() for cut in cover.blocks(chip)], 'names': NAMES, 'flags': FLAGS, 'positions': POSITIONS,
        'table': base64.b64encode(table).decode(), 'words': {number: words for number, (words, _) in GROUNDS.items()}, 'missing': MISSING, 'counts_words': blockcard.COUNTS,
        'layout': {name: getattr(proved, name) for name in LAYOUT},
        'table_words': 'The routing table and the names are %s.' % chip.origin()}


def proved_words(chip):
    return ('A yes is about each of the %d blocks of up to 8 by 8 tiles that cover the %d logic tiles of a %s, each by itself: the proved library read it from the file, '
            'and no ground for a no is there.' % (len(cover.blocks(chip)), len(chip.logic), chip.device))


# ---- the page

def hash_of(text):
    return "'sha256-%s'" % base64.b64encode(hashlib.sha256(text.encode()).digest()).decode()


def page(wasm, chip, build):
    code, style = script(), contents('style.css')
    policy = "default-src 'none'; script-src %s 'wasm-unsafe-eval'; style-src %s; base-uri 'none'; form-action 'none'" % (hash_of(code), hash_of(style))
    parts = {'policy': policy, 'style': style, 'script': code, 'wasm': base64.b64encode(wasm).decode(), 'device': chip.device, 'proved': html.escape(proved_words(chip)),
             'missing': html.escape(MISSING), 'facts': json.dumps(facts(chip, build), separators=(',', ':')).replace('<', '\\u003c')}
    return re.sub('@(%s)@' % '|'.join(parts), lambda match: parts[match[1]], contents('shelf.html'))


def main():
    if len(sys.argv) != 3:
        raise Mistake('usage: web/page.py FILE.wasm PAGE.html')
    with open(sys.argv[1], 'rb') as file:
        wasm = file.read()
    text = page(wasm, chip_of(proved.ASC_DEVICE, None), built(sys.argv[1]))
    with open(sys.argv[2], 'w', encoding='utf-8', newline='\n') as file:
        file.write(text)
    return ['%s: %d bytes, SHA-256 %s' % (sys.argv[2], len(text.encode()), hashlib.sha256(text.encode()).hexdigest())], 0


if __name__ == '__main__':
    run(main)
