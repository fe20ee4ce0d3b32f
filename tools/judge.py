"""A whole design judged: every block that covers its logic tiles by the proved library, and the nets of the whole chip besides.

The library answers for each block by itself. A wire that is longer than a block, crosses a RAM column or ends at an IO tile is looked at here
with the nets of the chip database: the library reads the settings of each logic tile, Python those of the other tiles, and a net on which two
enabled switches end is found. That is not proved.
"""
import functools
from collections import Counter
from itertools import compress

import cover
import proved
from design import BadLine, shown
from tool import Mistake

UNDECODABLE = 4  # the lowest ground that is about a design


class Verdict:
    """The answer for one design.

    `cuts` are the blocks; `answers` has ground and place of each, zeros for a yes. `settings` has the entry of each group and the table and flags
    of each cell, for each logic tile with a bit set that can be decoded. `others` are the enabled switches of tiles that are not logic: tile,
    section, destination net, pattern. `fought` are the nets on which two enabled switches end, `unlisted` the switches whose pattern the database lacks.
    `faults` are found in the blocks, `found` besides; both say why (faults.py).
    """

    def __init__(self, judge, design, bits, answers, settings, others, fought):
        self.judge, self.design, self.bits, self.cuts = judge, design, bits, judge.cuts
        self.answers, self.settings, self.fought = answers, settings, fought
        self.others = [switch for switch in others if switch[2] is not None]
        self.unlisted = [switch for switch in others if switch[2] is None]
        self.faults, self.found = [], []

    @property
    def is_yes(self):
        return not any(ground for ground, _ in self.answers) and not self.fought and not self.unlisted

    @functools.cached_property
    def cards(self):
        """The library's shelf card of each block, None for one with a no. Pages and JSON alone ask for them."""
        return [None if ground else self.judge.card(cut, bits) for cut, bits, (ground, _) in zip(self.cuts, self.bits, self.answers)]

    def counts(self):
        """What the design uses: tiles with a switch or a cell, enabled switches, cells that are not all zero."""
        switches = {at: sum(map(bool, entries)) for at, (entries, _) in self.settings.items()}
        cells = {at: sum(1 for i in range(0, len(cells), 2) if cells[i] or cells[i + 1]) for at, (_, cells) in self.settings.items()}
        outside = Counter(switch[0] for switch in self.others)
        used = sum(1 for at in switches if switches[at] or cells[at])
        return {'logic_tiles': used, 'other_tiles': len(outside), 'logic_switches': sum(switches.values()), 'other_switches': sum(outside.values()),
                'cells': sum(cells.values())}


class Judge:
    """Judges the designs of one chip."""

    def __init__(self, library, chip):
        self.library, self.chip, self.cuts = library, chip, cover.blocks(chip)
        homes = cover.homes(self.cuts)
        self.homes = [homes[at] for at in chip.logic]
        self.nets = dict(zip(chip.logic, chip.logic_nets))
        self.read = functools.lru_cache(maxsize=1024)(self.read_tile)  # many tiles are alike, and one answer serves for the same bits

    def bits(self, design):
        """The bits of each block: those of a 1k by the library from the file, others from Python's tiles."""
        if design.device != proved.ASC_DEVICE:
            return [proved.lent_bits([design.tiles[at] for at in cover.tiles(cut)]) for cut in self.cuts]
        try:
            return [self.library.asc_bits(design.text, (cut.x, cut.y), cut.w, cut.h) for cut in self.cuts]
        except proved.Refused as refused:
            lines = design.text.split(b'\n', refused.place)
            line = lines[refused.place - 1] if refused.place <= len(lines) else b''
            raise BadLine(refused.place, '%s: the library refuses the file with ground %d' % (shown(line), refused.ground)) from None

    def answer(self, cut, bits):
        """Ground and place of a block's no, zeros for a yes."""
        try:
            self.library.build(cut.w, cut.h, cut.east, self.chip.table, bits)
            return 0, 0
        except proved.Refused as refused:
            if refused.ground < UNDECODABLE:  # the table's fault and not the design's
                words = 'the library refuses the routing table of %s with ground %d, place %d'
                raise Mistake(words % (self.chip.path, refused.ground, refused.place)) from None
            return refused.ground, refused.place

    def card(self, cut, bits):
        """The shelf card of a block with a yes."""
        return proved.asked(self.library.card, cut.w, cut.h, cut.east, self.chip.table, bits)

    def read_tile(self, bits):
        """The settings of a tile, or None where it cannot be decoded."""
        try:
            return self.library.settings(self.chip.table, proved.bits_from(bits))
        except proved.Refused:
            return None

    def settings(self, bits):
        """The settings of each logic tile with a bit set."""
        found = {}
        for at, (k, t) in zip(self.chip.logic, self.homes):
            tile = proved.part_of(bits[k], t)
            if any(tile):
                found[at] = self.read(tile)
        return {at: read for at, read in found.items() if read}

    def judge(self, design):
        bits = self.bits(design)
        answers = [self.answer(cut, each) for cut, each in zip(self.cuts, bits)]
        settings = self.settings(bits)
        others = [(at, *switch) for at in self.chip.others for switch in self.chip.enabled(at, design.tiles[at])]
        ends = [net for at, (entries, _) in settings.items() for net in compress(self.nets[at], entries)]
        ends += [net for _, _, net, _ in others if net is not None]
        fought = {net for net, count in Counter(ends).items() if count > 1} if len(set(ends)) < len(ends) else set()
        verdict = Verdict(self, design, bits, answers, settings, others, fought)
        if not verdict.is_yes:
            import faults  # takes in what only a no needs
            faults.explain(self, verdict, bits)
        return verdict
