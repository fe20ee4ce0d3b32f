"""Why a design is refused, in the chip's names: the place of each fault, the switches that fight, the wires that lead to it.

A fault that the library answered is proved to be there; the words for it are Python's. What is found besides, with the nets of the whole
chip, is not proved.
"""
import copy
import functools
from itertools import groupby

import cover
import proved
from explain import GROUNDS
from frames import Group, Table
from ice40 import NAMES, POSITIONS, Block, position_name
from rules import pattern_of, undecodable
from tool import Mistake
from trail import Trail

TILE_OWN = ('local_', 'lutff_', 'carry_in', 'glb2local_')  # names of wires that lie in one tile: the same in every block


class Fault:
    """One thing that is wrong.

    `ground` is None where no ground is about it; `at` is the place; `words` what is wrong; `trail` what leads to it, a line each; `switches` those
    that drive the wire; `wires` the wires to be drawn, each its names as (x, y, name); `structure_only` is for a loop that no signal goes
    round; `where` says where something was found that no block has.
    """

    def __init__(self, ground, at, words, key, cut=None, place=None, trail=(), switches=(), wires=(), structure_only=False, where='between blocks'):
        self.ground, self.at, self.words, self.key, self.cut, self.place, self.where = ground, at, words, key, cut, place, where
        self.trail, self.switches, self.wires, self.structure_only = list(trail), list(switches), list(wires), structure_only

    def line(self):
        """All of it in one line."""
        head = 'ground %d at %s' % (self.ground, self.at) if self.cut else 'found %s, not proved, at %s' % (self.where, self.at)
        return '%s: %s%s' % (head, self.words, ': ' + '; '.join(self.trail) if self.trail else '')

    def data(self, proved):
        """The same for JSON; `proved` is whether a proved library answered it."""
        return {'ground': self.ground, 'proved': proved, 'at': self.at, 'words': self.words, 'trail': self.trail,
                'block': cover.name(self.cut) if self.cut else None, 'place': self.place, 'structure_only': self.structure_only,
                'switches': self.switches, 'wires': [[list(name) for name in wire] for wire in self.wires]}


def table_from(numbers):
    """A routing table from the form that it is lent in."""
    passive = proved.PASSIVE_COUNT + 1
    groups = []
    for g in range(numbers[proved.GROUP_COUNT]):
        row = numbers[proved.GROUPS_FROM + proved.GROUP_LENGTH * g:proved.GROUPS_FROM + proved.GROUP_LENGTH * (g + 1)]
        entries = row[proved.ENTRIES_FROM + 1:proved.ENTRIES_FROM + 1 + 2 * row[proved.ENTRIES_FROM]]
        groups.append(Group(row[0], row[2:2 + row[1]], list(zip(entries[::2], entries[1::2]))))
    return Table(numbers[:proved.PASSIVE_COUNT], numbers[passive:passive + numbers[proved.PASSIVE_COUNT]], groups)


@functools.lru_cache(maxsize=16)
def sized_block(w, h, east):
    return Block(w, h, east=east)


def ground_words(ground):
    """A ground in a few words: the first of explain.py's."""
    return GROUNDS[ground][0].split(':')[0]


def place_of(at, name):
    return '(%d,%d) %s' % (*at, name)


def switch_words(switch):
    return '(%d,%d) %s <- %s' % (*switch['tile'], switch['destination'], switch['source'])


class Scene:
    """A refused block of a design, with what Python knows of it."""

    def __init__(self, chip, table, design, cut):
        self.chip, self.table, self.cut, self.at = chip, table, cut, cover.tiles(cut)
        self.tiles = [design.tiles[at] for at in self.at]

    @functools.cached_property
    def block(self):
        block = copy.copy(sized_block(self.cut.w, self.cut.h, self.cut.east))
        block.corner = self.cut.x, self.cut.y
        return block

    @functools.cached_property
    def trail(self):
        return Trail(self.block, self.table, self.tiles)

    def names(self, wire):
        """The names of a wire: x, y, name. A global net, which has its name in every tile, has it here once."""
        names = [(*self.at[port // len(NAMES)], NAMES[port % len(NAMES)]) for port in self.block.ports(wire)]
        return names[:1] if names[0][2].startswith('glb_netwk') else names

    def name(self, wire):
        """One name of a wire: its own where a cell drives it, else the first."""
        names = self.names(wire)
        own = [name for name in names if name[2].startswith('lutff_')] or [name for name in names if not name[2].startswith('neigh_op')] or names
        return place_of(own[0][:2], own[0][2])

    def own_names(self, wires):
        """Those names of wires that are the same in whatever block they are seen."""
        return frozenset(name for wire in wires for name in self.names(wire) if name[2].startswith(TILE_OWN)) or frozenset(self.names(min(wires)))

    # ---- each ground

    def undecodable(self, place):
        t, position = divmod(place, POSITIONS)
        at = self.at[t]
        words = ['%s: %s' % (position_name(p), words) for p, words in undecodable(self.table, self.tiles[t], in_input=False)]
        return Fault(4, place_of(at, position_name(position)), ground_words(4), (4, at, position), self.cut, place, words, wires=[[(*at, '')]])

    def disabled_carry(self, wire):
        readers = ['read by ' + reader for reader in self.trail.carry_readers(wire)]
        return Fault(6, self.name(wire), ground_words(6), (6, self.own_names([wire])), self.cut, wire, readers, wires=[self.names(wire)])

    def loop(self, wire):
        way, real = self.trail.way_round(wire)
        structure_only = not real and not self.trail.loops(live=True)
        words = ground_words(7) + ' by structure only: no signal goes round it' * structure_only
        way_words = 'each reads the next: ' + ', '.join(self.name(each) for each in way)
        return Fault(7, self.name(wire), words, (7, self.own_names(way)), self.cut, wire, [way_words],
                     wires=[self.names(each) for each in dict.fromkeys(way)], structure_only=structure_only)

    def cell_clock(self, t):
        ways = self.trail.clock_ways(t)
        words = [' <- '.join(self.name(wire) for wire in way) for way in ways]
        return Fault(8, 'tile (%d,%d)' % self.at[t], ground_words(8), (8, self.at[t]), self.cut, t, words,
                     wires=[self.names(wire) for way in ways for wire in way])

    def single(self, ground, place):
        """The fault of a ground other than 5."""
        return {4: self.undecodable, 6: self.disabled_carry, 7: self.loop, 8: self.cell_clock}[ground](place)


class Explainer:
    """The faults of one design."""

    def __init__(self, judge, verdict, bits):
        self.judge, self.verdict, self.bits, self.chip, self.design = judge, verdict, bits, judge.chip, verdict.design
        self.table = table_from(self.chip.table)

    def logic_switch(self, at, g):
        """A switch of a logic tile, for words and JSON."""
        group, tile = self.table.groups[g], self.design.tiles[at]
        source = dict(group.entries)[pattern_of(group, tile)]
        return {'tile': list(at), 'kind': 'logic', 'group': g, 'destination': NAMES[group.destination], 'source': NAMES[source],
                'bits': [position_name(p) for p in group.positions if tile >> p & 1]}

    def other_switch(self, at, section, net, pattern):
        """The same for another tile."""
        shape, columns, kind = self.chip.shape(self.chip.others[at][0]), self.chip.columns[self.chip.kinds[at]], self.chip.kinds[at]
        source = self.chip.name_in(at, self.chip.source(at, section, pattern)) if net is not None else 'a pattern that the database does not list'
        bits = ['B%d[%d]' % divmod(p, columns) for p in shape[section].positions if self.design.tiles[at] >> p & 1]
        destination = self.chip.name_in(at, self.chip.destinations[self.chip.others[at][1] + section])
        return {'tile': list(at), 'kind': kind, 'group': section, 'destination': destination, 'source': source, 'bits': bits}

    def contention(self, switches, net, cut=None, place=None, at=None):
        key = frozenset((tuple(switch['tile']), switch['group']) for switch in switches)
        names, many = self.chip.net(net), 'two' if len(switches) == 2 else len(switches)
        return Fault(5 if cut else None, at or place_of(names[0][:2], names[0][2]), '%s switches drive one wire' % many, key, cut, place,
                     [' and '.join(switch_words(switch) for switch in switches)], switches, [names])

    def block_faults(self, k):
        """The faults of a refused block: every contention, or the one place of another ground."""
        (ground, place), cut = self.verdict.answers[k], self.judge.cuts[k]
        if proved.tiles_of(self.bits[k]) != [self.design.tiles[at] for at in cover.tiles(cut)]:
            raise Mistake('the library and Python disagree on the bits of %s: one of them is wrong' % cover.name(cut))
        scene = Scene(self.chip, self.table, self.design, cut)
        if ground != 5:
            return [scene.single(ground, place)]
        rows = self.judge.library.contentions(cut.w, cut.h, cut.east, self.chip.table, scene.tiles)
        found = []
        for wire, fighting in groupby(rows, lambda row: row[0]):
            ends = [(scene.at[t], g) for _, t, g in fighting]
            at = place_of(scene.at[wire // len(NAMES)], NAMES[wire % len(NAMES)])
            found.append(self.contention([self.logic_switch(*end) for end in ends], self.judge.nets[ends[0][0]][ends[0][1]], cut, wire, at))
        return found

    def ends_on(self, net):
        """Every enabled switch that ends on a net."""
        for at, (entries, _) in self.verdict.settings.items():
            for g, (end, entry) in enumerate(zip(self.judge.nets[at], entries)):
                if entry and end == net:
                    yield self.logic_switch(at, g)
        yield from (self.other_switch(*switch) for switch in self.verdict.others if switch[2] == net)

    def found(self, seen):
        """What the nets show and no block: `seen` are the switches of each contention that the library answered."""
        for net in sorted(self.verdict.fought):
            fault = self.contention(list(self.ends_on(net)), net)
            if not any(fault.key <= key for key in seen):
                yield fault
        for at, section, net, pattern in self.verdict.unlisted:
            switch = self.other_switch(at, section, net, pattern)
            yield Fault(None, place_of(at, switch['bits'][0]), 'a pattern that the database does not list', (at, section), wires=[[(*at, '')]],
                        trail=['%s set, for the switches onto %s' % (' '.join(switch['bits']), switch['destination'])],
                        where='in a tile of kind %s' % switch['kind'])


def distinct(faults):
    """Each fault once: overlapping blocks see the same, and of one wire the block counts that sees most of its switches."""
    kept = {}
    for fault in faults:
        covered = [key for key in kept if isinstance(key, frozenset) and isinstance(fault.key, frozenset) and (fault.key <= key or key <= fault.key)]
        if not covered:
            kept.setdefault(fault.key, fault)
        elif covered[0] < fault.key:
            del kept[covered[0]]
            kept[fault.key] = fault
    return list(kept.values())


def explain(judge, verdict, bits):
    """Puts the faults of a refused design to its verdict, by ground and block."""
    explainer = Explainer(judge, verdict, bits)
    refused = sorted((ground, k) for k, (ground, _) in enumerate(verdict.answers) if ground)
    verdict.faults = distinct(fault for _, k in refused for fault in explainer.block_faults(k))
    verdict.found = list(explainer.found([fault.key for fault in verdict.faults if fault.ground == 5]))
