"""Cards as files. A card is written whole or not at all, and only where nothing is, or an earlier card: never over a design. A design that can no longer
be told has its earlier card taken away. `--verify` makes a card anew, and so trusts nothing that it says.
"""
import copy
import html
import json
import os
import re

import card
from evidence import FIELDS, Evidence
from lodging import NO, STATUS, UNKNOWN, YES, entry_for
from tool import Mistake, about, bytes_of, file_name, note, shown_name, version

HEAD = 1 << 12  # bytes at the start of a card that hold what it is about
LONGEST = 1 << 26  # bytes of a card; that of an 8k has some millions
FACTS = re.compile('<meta name="%s" content="([^"]*)">' % card.MARK)
NEEDED = {'file', 'sha256', 'answer', 'package', 'database_sha256', 'bundle_sha256', 'library_sha256', 'receipt', 'version', 'date'}


def is_card(path):
    with open(path, 'rb') as file:
        head = file.read(HEAD)
    return head.startswith(b'<!DOCTYPE html>') and FACTS.search(head.decode('utf-8', 'replace')) is not None


def check(path):
    """A Mistake where a card must not be written."""
    try:
        if not os.path.isdir(os.path.dirname(path) or '.'):
            raise Mistake('the folder is not there')
        if os.path.lexists(path) and not os.path.isfile(path):
            raise Mistake('this is not a file, and no card is written there')
        if os.path.lexists(path) and not is_card(path):
            raise Mistake('this is there and is not a card, and stays as it is')
    except OSError as error:
        raise Mistake(error.strerror) from None


def write(path, text):
    """Writes a card, whole or not at all."""
    check(path)
    own = '%s.%d.part' % (path, os.getpid())
    try:
        try:
            with open(own, 'x', encoding='utf-8', newline='\n') as file:
                file.write(text)
            os.replace(own, path)
        finally:
            if os.path.lexists(own):
                os.remove(own)
    except OSError as error:
        raise Mistake(error.strerror) from None


def named_paths(folder, paths):
    """Where in a folder the card of each design goes; designs of one name in several folders have numbers."""
    found, taken = {}, set()
    for path in paths:
        stem = name = 'design' if path == '-' else os.path.splitext(os.path.basename(path))[0]
        while name in taken:
            name = '%s-%d' % (stem, len(taken))
        taken.add(name)
        found[path] = os.path.join(folder, name + '.html')
    return found


def made_folder(folder):
    try:
        os.makedirs(folder, exist_ok=True)
    except OSError as error:
        words = 'this is a file, and --cards wants a folder' if os.path.exists(folder) else error.strerror
        raise Mistake('%s: %s' % (shown_name(folder), words)) from None


class Cards:
    """The cards that a run is asked for, by design."""

    def __init__(self, single, folder, paths, evidence, package=None):
        self.evidence, self.package, self.failed = evidence, package, False
        if folder is not None:
            made_folder(folder)
        self.paths = named_paths(folder, paths) if folder is not None else {paths[0]: single} if single else {}
        for path in self.paths.values():
            with about(path):
                check(path)

    def take(self, entry):
        """Writes the card of a design. One that cannot be told has none any more."""
        path = self.paths.get(entry.path)
        if path is None:
            return
        try:
            if entry.verdict:
                write(path, card.page(entry, self.evidence, self.package))
            elif os.path.lexists(path) and is_card(path):
                os.remove(path)
                entry.remark = ' (its earlier card %s was taken away)' % shown_name(path)
        except (Mistake, OSError) as error:
            self.failed = True
            note('%s: %s' % (shown_name(path), getattr(error, 'strerror', error)))


# ---- verifying

class Recorded(Evidence):
    """The evidence that a card has, as it says."""

    def __init__(self, told):
        self.path, self.digest, self.receipt, self.date, self.version = '', told['library_sha256'], told['receipt'], told['date'], told['version']

    def data(self):
        return dict(super().data(), version=self.version)


def read_card(path):
    """A card's text, and what it says that it is about."""
    with about(path):
        text = bytes_of(path, LONGEST, 'a card').decode('utf-8', 'replace')
        found = FACTS.search(text[:HEAD]) if text.startswith('<!DOCTYPE html>') else None
        try:
            told = json.loads(html.unescape(found[1]))
            if not (NEEDED <= set(told) and isinstance(told['file'], str) and isinstance(told['package'], (str, type(None))) and (told['receipt'] is None or set(FIELDS) <= set(told['receipt']))):
                raise ValueError
        except (TypeError, ValueError):
            raise Mistake('not a card of the shelf') from None
    return text, told


def other_evidence(told, entry, evidence):
    """What of a card's evidence is not what was used now."""
    chip = entry.verdict.design.chip
    pairs = (('library', told['library_sha256'], evidence.digest), ('chip database', told['database_sha256'], chip.digest),
             ('packed form of the chip database', told['bundle_sha256'], chip.bundle))
    return ['another %s, SHA-256 %s, than the card, which has %s' % (what, now or 'none', then or 'none') for what, then, now in pairs if then != now]


def recorded_entry(entry, told):
    """An entry whose chip comes from where a card says that its own did."""
    entry, verdict, design, chip = map(copy.copy, (entry, entry.verdict, entry.verdict.design, entry.verdict.design.chip))
    chip.digest, chip.bundle = told['database_sha256'], told['bundle_sha256']
    design.chip, verdict.design, entry.verdict = chip, design, verdict
    return entry


def verdict_on(text, told, entry, evidence):
    """Whether a card is a design's and still true, and why not or by what."""
    if told['sha256'] != entry.digest:
        return NO, 'the card is of another file, with SHA-256 %s; this file has %s' % (told['sha256'], entry.digest)
    if told['answer'] != entry.answer:
        return NO, 'the card says %s, and the answer is %s: %s' % (str(told['answer']).upper(), entry.answer.upper(), entry.words())
    others = other_evidence(told, entry, evidence)
    if told['version'] != version():
        others.append('version %s of the tools, and the card is of %s, so that the page as a whole was not compared' % (version(), told['version']))
    elif card.page(recorded_entry(entry, told), Recorded(told), told['package'], told['file']) != text:
        words = 'the page is not the one that is made now, and was changed after it was written' if told['database_sha256'] == entry.verdict.design.chip.digest else (
            'the page is not the one that is made now, with another chip database')
        return NO, '%s; the answer is %s' % (words, entry.answer.upper())
    return YES, "the card is this file's and still true: %s by %s" % (entry.answer.upper(), ' and by '.join([evidence.library()] + others))


def verify(shelf, card_path, path):
    """The line on a card and a design, and the exit status."""
    text, told = read_card(card_path)
    entry = entry_for(shelf, path)
    answer, words = (UNKNOWN, str(entry.mistake)) if entry.mistake else verdict_on(text, told, entry, shelf.evidence)
    return ['%-4s %s  %s  %s' % ('?' if answer == UNKNOWN else answer, file_name(card_path), file_name(path), words), shelf.evidence.line()], STATUS[answer]
