"""A file of named parts, kept in the user's cache folder: what was worked out of a chip database once, so that it is not worked out in every run.

The first line is the SHA-256 of all that follows. The second is a header in JSON: some facts, and the length of each part. The parts follow in that
order. A file that is damaged, or of another format, is as good as none.
"""
import hashlib
import json
import os

FORMAT = 2  # goes up whenever the meaning of a fact or of a part changes
DIGEST = 64  # digits of a SHA-256
PIECE = 1 << 18  # bytes that are hashed at a time


class Damaged(Exception):
    """The file is not what was written."""


def digest(data):
    return hashlib.sha256(data).hexdigest()


def file_digest(file):
    """The SHA-256 of a file, read by pieces into one buffer: that is twice as fast as reading it whole."""
    found, piece = hashlib.sha256(), memoryview(bytearray(PIECE))
    for count in iter(lambda: file.readinto(piece), 0):
        found.update(piece[:count])
    return found.hexdigest()


def pack(facts, parts):
    """The bytes of a file."""
    header = json.dumps({'format': FORMAT, 'facts': facts, 'lengths': {name: len(data) for name, data in parts.items()}})
    rest = b''.join([header.encode(), b'\n', *parts.values()])
    return digest(rest).encode() + b'\n' + rest


class Packed:
    """The facts of a file, and its parts by name."""

    def __init__(self, data):
        first, second = data.find(b'\n') + 1, data.find(b'\n', DIGEST + 1) + 1
        whole = memoryview(data)
        if first != DIGEST + 1 or data[:DIGEST] != digest(whole[first:]).encode():
            raise Damaged
        header = json.loads(data[first:second])
        if header['format'] != FORMAT:
            raise Damaged
        self.digest, self.facts, self.parts = data[:DIGEST].decode(), header['facts'], {}
        for name, length in header['lengths'].items():
            self.parts[name] = whole[second:second + length]
            second += length


# ---- the cache folder

def folder():
    """The user's cache folder, as the XDG base directories have it; None for a user without a home."""
    base = os.environ.get('XDG_CACHE_HOME') or os.path.expanduser('~/.cache')
    return os.path.join(base, 'ice40') if os.path.isabs(base) else None


def kept(name):
    """A file of the cache folder, or None where there is none that can be used."""
    try:
        with open(os.path.join(folder(), name), 'rb') as file:
            return Packed(file.read())
    except (OSError, TypeError, Damaged):
        return None


def keep(name, data):
    """Writes a file to the cache folder, whole or not at all; where that cannot be, goes on without. Gives the file."""
    try:
        os.makedirs(folder(), exist_ok=True)
        path = os.path.join(folder(), name)
        own = '%s.%d' % (path, os.getpid())
        with open(own, 'wb') as file:
            file.write(data)
        os.replace(own, path)
    except (OSError, TypeError):
        pass
    return Packed(data)
