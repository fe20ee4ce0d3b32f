"""The designs of a shelf: their files, the judges of all devices that are met, and what is said of each design in a line and as JSON."""
import json
import os
import sys
from collections import Counter

import cover
from chip import chip_of
from design import Design
from judge import Judge
from packed import digest
from proved import ASC_DEVICE
from tool import Mistake, bytes_of, counted, file_name, say

YES, NO, UNKNOWN = 'yes', 'no', 'unknown'
STATUS = {YES: 0, NO: 1, UNKNOWN: 2}
WORDS = {YES: 'yes ', NO: 'no  ', UNKNOWN: '?   '}
LONGEST = 1 << 24  # bytes of a design; that of an 8k has a million


class Progress:
    """A line on a terminal that says how far a long run is, and that the next line of output takes away. Elsewhere there is none."""

    def __init__(self, total):
        self.total, self.shown = total, sys.stderr is not None and sys.stderr.isatty()

    def tell(self, words):
        if self.shown:
            try:
                sys.stderr.write('\r\033[K' + words[:78])
                sys.stderr.flush()
            except OSError:
                self.shown = False

    def at(self, k, path):
        self.tell('%d of %d: %s' % (k, self.total, file_name(path)))

    def clear(self):
        self.tell('')


# ---- the designs

def asc_files(folder):
    """What is named .asc below a folder, in order, with what is wrong with it already: a pipe there would be waited for."""
    for where, folders, names in os.walk(folder):
        folders.sort()
        for path in (os.path.join(where, name) for name in sorted(names) if name.lower().endswith('.asc')):
            yield path, None if os.path.isfile(path) or not os.path.exists(path) else 'this is not a file'


def listed(given):
    """Each file that is given or below a folder that is given, with what is wrong with it already."""
    for path in given:
        if not os.path.isdir(path):
            yield path, None
            continue
        yield from list(asc_files(path)) or [(path, 'no .asc file is in this folder')]


class Shelf:
    """The chips and judges of all devices that were met, and how many designs of each were judged. A chip that could not be had is a Mistake, told
    for each of its designs."""

    def __init__(self, library, evidence, told, progress):
        self.library, self.evidence, self.told, self.progress, self.chips, self.judges, self.judged = library, evidence, told, progress, {}, {}, Counter()

    def chip(self, device):
        if device not in self.chips:
            try:
                self.chips[device] = chip_of(device, self.told, self.progress.tell)
            except Mistake as mistake:
                self.chips[device] = mistake
        if isinstance(self.chips[device], Mistake):
            raise Mistake(str(self.chips[device]))
        return self.chips[device]

    def met(self):
        """The chips of all designs that were judged, by device."""
        return {device: self.chips[device] for device in sorted(self.judged)}

    def judge(self, data):
        """The verdict on a file's bytes, or a Mistake."""
        design = Design(data, self.chip)
        if design.device not in self.judges:
            self.judges[design.device] = Judge(self.library, design.chip)
        verdict = self.judges[design.device].judge(design)
        self.judged[design.device] += 1
        return verdict


# ---- one design in a line and as JSON

class Entry:
    """What is said of one file: the SHA-256 of its bytes where they could be read, and a verdict, or the mistake why there is none. `remark` is what
    else there is to say."""

    def __init__(self, path):
        self.path, self.digest, self.verdict, self.mistake, self.remark = path, None, None, None, ''

    @property
    def answer(self):
        return UNKNOWN if self.mistake else YES if self.verdict.is_yes else NO

    def words(self):
        if self.mistake:
            return str(self.mistake)
        if self.answer == YES:
            counts = self.verdict.counts()
            switches = counted(counts['logic_switches'] + counts['other_switches'], 'switch', 'es')
            tiles, cells = counted(counts['logic_tiles'], 'logic tile'), counted(counts['cells'], 'cell')
            return '%s: %s, %s and %s in use' % (self.verdict.design.device, tiles, switches, cells)
        faults = self.verdict.faults + self.verdict.found
        more = len(faults) - 1
        return '%s: %s%s' % (self.verdict.design.device, faults[0].line(), ' (and %d more: --json lists %s)' % (more, 'it' if more == 1 else 'them') if more else '')

    def line(self):
        parts = [WORDS[self.answer] + ' ' + file_name(self.path), self.words() + self.remark, 'SHA-256 ' + self.digest if self.digest else '']
        return '  '.join(part for part in parts if part)

    def data(self, proved):
        """`proved` is whether the library is."""
        found = {'file': self.path, 'sha256': self.digest, 'answer': self.answer, 'device': None, 'read_by': None, 'error': None,
                 'blocks': [], 'faults': [], 'found': [], 'counts': {}}
        if self.mistake:
            found['error'] = {'line': getattr(self.mistake, 'line', None), 'words': getattr(self.mistake, 'words', str(self.mistake))}
            return found
        device = self.verdict.design.device
        blocks = [{'corner': [cut.x, cut.y], 'size': [cut.w, cut.h], 'east': cut.east, 'ground': ground, 'place': place, 'card': card and card._asdict()}
                  for cut, (ground, place), card in zip(self.verdict.cuts, self.verdict.answers, self.verdict.cards)]
        return dict(found, device=device, read_by='library' if device == ASC_DEVICE else 'python', blocks=blocks, counts=self.verdict.counts(),
                    faults=[fault.data(proved) for fault in self.verdict.faults], found=[fault.data(False) for fault in self.verdict.found])


def entry_for(shelf, path, wrong=None):
    entry = Entry(path)
    try:
        if wrong:
            raise Mistake(wrong)
        data = bytes_of(path, LONGEST, 'an .asc file')
        entry.digest = digest(data)
        entry.verdict = shelf.judge(data)
    except Mistake as mistake:
        entry.mistake = mistake
    return entry


# ---- what was proved, and of what

def sentence(chip, evidence, designs=''):
    """What was proved for designs of a device and what was looked at besides."""
    count, tiles = len(cover.blocks(chip)), len(chip.logic)
    blocks = 'each of the %d blocks of up to 8 by 8 that cover the %d logic tiles, each by itself' % (count, tiles) if count > 1 else (
        'the one block that covers the %d logic tiles' % tiles)
    how = 'read from the file and judged' if chip.device == ASC_DEVICE else 'judged, from bits that Python read,'
    return ('%s%s: %s %s %s; Python looked besides, with no proof, '
            'for two switches on one net of the whole chip, those of IO, RAM and other tiles among them, and followed no loop, carry or clock from '
            'block to block; routing table and nets are %s' % (chip.device, designs, evidence.library(), how, blocks, chip.origin()))


def sentences(shelf):
    return {device: sentence(chip, shelf.evidence, ', ' + counted(shelf.judged[device], 'design')) for device, chip in shelf.met().items()}


def summary(counts):
    return '%d yes, %d no, %d could not be told' % (counts[YES], counts[NO], counts[UNKNOWN])


def status_of(counts):
    """A no decides for the whole shelf, as one that could not be told would not change it."""
    return STATUS[NO] if counts[NO] else STATUS[UNKNOWN] if counts[UNKNOWN] or not counts[YES] else STATUS[YES]


# ---- as they are found

class Lines:
    """A line for each design; then what was proved, of what, when, and the counts."""

    def begin(self):
        pass

    def take(self, entry, proved):
        say(entry.line())

    def end(self, shelf, counts, status):
        for line in [*sentences(shelf).values(), *([shelf.evidence.line()] if shelf.judged else []), *(['date ' + shelf.evidence.date] if shelf.evidence.date else [])]:
            say(line)
        say(summary(counts))


class Document:
    """One JSON document, a line for each design. What is known at the end stands at its end."""

    def __init__(self):
        self.first = True

    def begin(self):
        say('{"format": 1, "designs": [')

    def take(self, entry, proved):
        say(',' * (not self.first) + json.dumps(entry.data(proved)))
        self.first = False

    def end(self, shelf, counts, status):
        said = sentences(shelf)
        devices = {device: {'chipdb': chip.path, 'sha256': chip.digest, 'bundle_sha256': chip.bundle, 'logic_tiles': len(chip.logic),
                            'blocks': len(cover.blocks(chip)), 'designs': shelf.judged[device], 'proved': said[device]} for device, chip in shelf.met().items()}
        rest = {'status': status, 'counts': counts, 'library': shelf.library.path, 'proved': shelf.evidence.proved, **shelf.evidence.data(), 'devices': devices}
        say('], ' + json.dumps(rest)[1:])
