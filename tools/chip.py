"""A chip, by its database: which tile is where, the routing table of its logic tiles, the nets that the switches of each tile join, and the
names of every net.

The board's own device is bundled (tools/chips, made by scripts/bundle_chip.py) and needs no database. That of another device is worked out once and
kept in the user's cache folder (packed.py). The database is read for its SHA-256 in every run, and what is kept counts only for a database with the
same one.
"""
import bisect
import ctypes
import functools
import json
import os
import sys
import zlib

import packed
from tool import Mistake, about, bytes_of, opened

# where Debian's package fpga-icestorm-chipdb and IceStorm's own installation put the databases
PLACES = ['/usr/share/fpga-icestorm/chipdb', '/usr/local/share/icebox', '/usr/share/icebox']
LONGEST = 1 << 28  # bytes of a database; the longest has 38 million
DATABASE = 'chipdb-%s.txt'  # by the device
NAME = 'chip-%s'  # of a file in the cache folder, by the SHA-256 of its database
NO_SHAPE = 255
KINDS = ['', 'logic', 'io', 'ramb', 'ramt', 'dsp0', 'dsp1', 'dsp2', 'dsp3', 'ipcon']  # of tiles; '' is for none


class Switch:
    """A section of a tile's switches: the destination's net, and for each pattern of its bits a source."""

    def __init__(self, positions, patterns):
        self.positions, self.patterns = positions, patterns
        self.mask = sum(1 << p for p in positions)

    def pattern(self, tile):
        return sum((tile >> p & 1) << k for k, p in enumerate(self.positions))


class Chip:
    """`path` is where it comes from; `bundle` is the SHA-256 of the bundled form, or None."""

    def __init__(self, packed_parts, path, bundle=None):
        facts, parts = packed_parts.facts, packed_parts.parts
        self.bundle = bundle
        self.facts, self.parts, self.path, self.digest, self.columns = facts, parts, path, facts['database'], facts['columns']
        self.device, self.width, self.height = facts['device'], facts['width'], facts['height']
        self.kinds = dict(zip(self.places(), map(KINDS.__getitem__, parts['kinds'])))
        self.kinds = {at: kind for at, kind in self.kinds.items() if kind}
        self.logic = [at for at, kind in self.kinds.items() if kind == 'logic']  # by row and column
        self.table = (ctypes.c_uint16 * (len(parts['table']) // 2)).from_buffer_copy(parts['table'])

    def origin(self):
        """Where routing table and nets come from, for people: nothing of where that is on this machine."""
        words = 'those of' if self.bundle is None else 'bundled, SHA-256 %s, and made from' % self.bundle
        return '%s %s, SHA-256 %s' % (words, DATABASE % self.device, self.digest)

    def places(self):
        return [(x, y) for y in range(self.height) for x in range(self.width)]

    def numbers(self, name, kind='I'):
        """A part as numbers: of four bytes, or of another kind of `array`."""
        return self.parts[name].cast(kind)

    # ---- switches

    @functools.cached_property
    def logic_nets(self):
        """For each logic tile the nets on which the switches of its groups end."""
        nets = self.numbers('logic')
        groups = len(nets) // len(self.logic)
        return [nets[at:at + groups] for at in range(0, len(nets), groups)]

    @functools.lru_cache(maxsize=None)
    def shape(self, k):
        return [Switch(*section) for section in json.loads(bytes(self.parts['shape%d' % k]))]

    @functools.lru_cache(maxsize=None)
    def mask(self, k):
        """The bits of all switches of a shape."""
        mask = 0
        for switch in self.shape(k):
            mask |= switch.mask
        return mask

    @functools.cached_property
    def others(self):
        """For each tile that is not logic: its shape, and where its destinations and sources begin."""
        found, section, entry = {}, 0, 0
        for at, k in zip(self.places(), self.parts['shape_of']):
            if k != NO_SHAPE:
                found[at] = k, section, entry
                section += self.facts['sections'][k]
                entry += self.facts['entries'][k]
        return found

    @functools.cached_property
    def destinations(self):
        return self.numbers('destinations')

    def enabled(self, at, tile):
        """The enabled switches of a tile that is not logic: section, destination net and pattern. A pattern that the database does not list
        has the net None."""
        k, start, _ = self.others[at]
        if tile & self.mask(k):
            for section, switch in enumerate(self.shape(k)):
                if tile & switch.mask:
                    pattern = switch.pattern(tile)
                    yield section, self.destinations[start + section] if pattern in switch.patterns else None, pattern

    def source(self, at, section, pattern):
        """The net that an enabled switch of a tile that is not logic reads."""
        k, _, entry = self.others[at]
        shape = self.shape(k)
        entry += sum(len(switch.patterns) for switch in shape[:section]) + shape[section].patterns.index(pattern)
        return self.numbers('sources')[entry]

    # ---- nets

    @functools.cached_property
    def names(self):
        return bytes(self.parts['names']).decode().split('\n')

    def net(self, number):
        """Every name of a net: x, y, name."""
        start, end = self.numbers('starts')[number:number + 2]
        parts = [self.numbers(name, kind)[start:end] for name, kind in (('xs', 'B'), ('ys', 'B'), ('labels', 'H'))]
        return [(x, y, self.names[label]) for x, y, label in zip(*parts)]

    def nets_named(self, pattern):
        """Each net with a name that a pattern matches: x, y, the match, net."""
        wanted = {label: match for label, match in enumerate(map(pattern.match, self.names)) if match}
        starts, xs, ys = self.numbers('starts'), self.numbers('xs', 'B'), self.numbers('ys', 'B')
        for k, label in enumerate(self.numbers('labels', 'H')):
            if label in wanted:
                yield xs[k], ys[k], wanted[label], bisect.bisect_right(starts, k) - 1

    @functools.cached_property
    def pads(self):
        """The pins of each package with the pad of each (pin, x, y, 0 or 1), the IO tiles that can drive a global network (x, y, its number), and the bits
        by which a pad drives one itself (its number, then the bit)."""
        return json.loads(bytes(self.parts['pads']))

    def name_in(self, at, number):
        """A name that a net has in a tile."""
        names = [name for x, y, name in self.net(number) if (x, y) == at]
        return names[0] if names else 'net %d' % number


# ---- finding and keeping

def database_path(device, told):
    """The database of a device: `told` is the user's word for it, a file or a folder, or None."""
    name = DATABASE % device
    if told and not os.path.isdir(told):
        return told
    for folder in [told] if told else PLACES:
        if os.path.exists(os.path.join(folder, name)):
            return os.path.join(folder, name)
    raise Mistake('no %s in %s (Debian has it in fpga-icestorm-chipdb; --chipdb says where it is)' % (name, told or ' or '.join(PLACES)))


def worked_out(data):
    """The parts of a chip from its database, kept for the next time."""
    import chipdb  # takes in much that a run with a kept chip never needs
    digest = packed.digest(data)
    return packed.keep(NAME % digest, chipdb.packed_chip(data, digest))


def bundle_path(device):
    return os.path.join(os.path.dirname(os.path.realpath(__file__)), 'chips', device + '.chip')


def bundled(device):
    """The parts of a chip that is bundled, or None."""
    try:
        with open(bundle_path(device), 'rb') as file:
            parts = packed.Packed(zlib.decompress(file.read()))
        return parts if parts.facts['order'] == sys.byteorder else None
    except FileNotFoundError:
        return None
    except (OSError, zlib.error, packed.Damaged):
        raise Mistake('%s is damaged: take it from the repository again, or say --chipdb' % bundle_path(device)) from None


def chip_of(device, told, tell=lambda words: None):
    """The chip of a device: of the database that the user told, bundled, or of a database where one is found. `tell` is told when this takes a while."""
    parts = None if told else bundled(device)
    if parts:
        return Chip(parts, bundle_path(device), parts.digest)
    path = database_path(device, told)
    with about(path):
        with opened(path) as file:
            digest = packed.file_digest(file)
        parts = packed.kept(NAME % digest)
        if not parts or (parts.facts['database'], parts.facts['order']) != (digest, sys.byteorder):
            tell('working out %s, once' % path)
            parts = worked_out(bytes_of(path, LONGEST, 'a chip database'))
        chip = Chip(parts, path)
    if chip.device != device:
        raise Mistake('%s is for a %s, the design for a %s' % (path, chip.device, device))
    return chip
