"""What an answer rests on: the bytes of the library and its receipt, the version of the tools, and the date where one is asked for.

`make lib` proves the library and writes a receipt beside it (scripts/prove.py): the commit, the SHA-256 of the sources, the kit, how many crates it proved and
its last line, that of the gate where the gate was passed with these sources, and the SHA-256 of the archive and of the shared library. A library is called proved only if it has a receipt of this version that names the SHA-256 of its own bytes. A
receipt is a note of the build and not a signature: whoever doubts it builds the same commit with the same kit and compares the archives.
"""
import json
import os

from packed import file_digest
from tool import shown_name, version

RECEIPT = 'ice40.receipt'  # beside the library
FORMAT = 1
FIELDS = ('format', 'version', 'commit', 'sources', 'kit', 'crates', 'check', 'gate', 'archive', 'shared')


def digest_of(path):
    """The SHA-256 of a file, or None where it cannot be read."""
    try:
        with open(path, 'rb') as file:
            return file_digest(file)
    except OSError:
        return None


def receipt_of(path, digest):
    """The receipt of the library at a path, if it is there, well formed, of this version and of these bytes."""
    try:
        with open(os.path.join(os.path.dirname(os.path.realpath(path)), RECEIPT), encoding='utf-8') as file:
            receipt = json.load(file)
    except (OSError, ValueError):
        return None
    if not isinstance(receipt, dict) or set(receipt) != set(FIELDS) or receipt['format'] != FORMAT:
        return None
    return receipt if digest and (receipt['shared'], receipt['version']) == (digest, version()) else None


class Evidence:
    def __init__(self, path, date=None):
        self.path, self.date, self.digest = path, date, digest_of(path)
        self.receipt = receipt_of(path, self.digest)

    @property
    def proved(self):
        return self.receipt is not None

    def library(self):
        """The library, as a sentence begins."""
        return 'the proved library' if self.proved else 'a library without a receipt'

    def build(self):
        """What made the library, in words."""
        if not self.proved:
            return 'no receipt of version %s beside it fits its bytes, so that nothing says what it is: what it answers is not proved' % version()
        told = self.receipt
        gate = '; the gate: %s' % told['gate'] if told['gate'] else ''
        return 'version %s, commit %s, %s crates proved by %s%s' % (told['version'], told['commit'], told['crates'], told['kit'], gate)

    def line(self):
        """All of it in one line."""
        return 'library %s, SHA-256 %s: %s' % (shown_name(self.path), self.digest or 'unknown', self.build())

    def data(self):
        """The same for JSON and for a card: nothing of where the library is on this machine."""
        return {'library_sha256': self.digest, 'receipt': self.receipt, 'version': version(), 'date': self.date}


def today():
    """The date, as the world's time has it."""
    import datetime  # takes a while, and few ask
    return datetime.datetime.now(datetime.timezone.utc).date().isoformat()
