"""Which pads of the chip the wires of a block come from or go to, and what pin of a package each pad is.

From a pad's own nets the enabled switches of IO tiles are followed, and the global networks that they drive; nothing is followed through logic or RAM
tiles. All of it is Python's, by the chip database: not proved.
"""
import functools
import re

from tool import Mistake

NAMED = re.compile(r'(?:io_(?P<pad>[01])/D_(?P<way>IN|OUT)_[01]|padin_(?P<buffer>[01])|fabout)$')  # nets of pads, and those that drive global networks
NETWORK = 'glb_netwk_'
EXTRA = re.compile(rb'^\.extra_bit (\d+) (\d+) (\d+)$', re.M)  # outside of all tiles


def check_package(chip, package):
    if package is not None and package not in chip.pads['packages']:
        raise Mistake('a %s has no package %s: %s' % (chip.device, package[:20], ', '.join(sorted(chip.pads['packages']))))


class Pads:
    """The pads of a design's nets; a pad is x, y and 0 or 1."""

    def __init__(self, verdict, package=None):
        self.verdict, self.chip, self.package = verdict, verdict.design.chip, package
        check_package(self.chip, package)
        self.pins = {tuple(pad): pin for pin, *pad in self.chip.pads['packages'].get(package, ())}

    def word(self, pad):
        """A pad for people: its pin where a package is given, else its IO tile and which of the two there."""
        return 'pin %s' % self.pins[pad] if pad in self.pins else 'pad (%d,%d) io_%d' % pad

    def words(self, pads):
        return ' and '.join(map(self.word, sorted(pads)))

    # ---- nets

    @functools.cached_property
    def named(self):
        """The nets by which pads are found: x, y, name, net."""
        return [(x, y, match.groupdict(), net) for x, y, match, net in self.chip.nets_named(NAMED)]

    @functools.cached_property
    def networks(self):
        """The net of each global network, with the pad that can drive it."""
        found = {}
        for x, y, name, net in self.named:
            if name['buffer']:
                number = next(label[len(NETWORK):] for _, _, label in self.chip.net(net) if label.startswith(NETWORK))
                found[int(number)] = net, (x, y, int(name['buffer']))
        return found

    @functools.cached_property
    def steps(self):
        """What drives what in IO tiles: destination net, source net."""
        found = [(net, self.chip.source(at, section, pattern)) for at, section, net, pattern in self.verdict.others if self.chip.kinds[at] == 'io']
        driven = {(x, y): self.networks[n][0] for x, y, n in self.chip.pads['globals'] if n in self.networks}
        ends = {net for net, _ in found}
        return found + [(driven[x, y], net) for x, y, name, net in self.named if not any(name.values()) and (x, y) in driven and net in ends]

    def of_names(self, found, steps):
        """The pads of every name of the nets that are found and of those to which steps lead from them."""
        moved = True
        while moved:
            moved = False
            for end, start in steps:
                more = found.get(start, set()) - found.get(end, set())
                if more:
                    found.setdefault(end, set()).update(more)
                    moved = True
        return {name: pads for net, pads in found.items() for name in self.chip.net(net)}

    def of_way(self, way):
        found = {}
        for x, y, name, net in self.named:
            if name['way'] == way:
                found.setdefault(net, set()).add((x, y, int(name['pad'])))
        return found

    @functools.cached_property
    def inputs(self):
        """The pads that each name comes from."""
        found, on = self.of_way('IN'), {tuple(map(int, bit)) for bit in EXTRA.findall(self.verdict.design.text)}
        for n, *bit in self.chip.pads['buffers']:
            if tuple(bit) in on and n in self.networks:
                found.setdefault(self.networks[n][0], set()).add(self.networks[n][1])
        return self.of_names(found, self.steps)

    @functools.cached_property
    def outputs(self):
        """The pads that each name goes to."""
        return self.of_names(self.of_way('OUT'), [(start, end) for end, start in self.steps])

    # ---- wires, by their names in a block

    def sources(self, names):
        return self.words(set().union(*(self.inputs.get(name, ()) for name in names)))

    def reached(self, names):
        return self.words(set().union(*(self.outputs.get(name, ()) for name in names)))
