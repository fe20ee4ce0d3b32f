// Why a design is refused, in the chip's names: ground and place of each fault that the library answered, and the switches that it lists. What leads
// to a place, as the way round a loop, is left to tools/shelf.py.
import { blockName, placeOf, tileName, tilesOf } from './chip.mjs';
import { UNDECODABLE } from './judge.mjs';

const CONTENTION = 5, CELL_CLOCK = 8;

/** A fault in one line. */
export function lineOf(fault) {
  return `ground ${fault.ground} at ${fault.at}: ${fault.words}`;
}

/** A refused block of a design. */
class Scene {
  constructor(judge, verdict, k) {
    const { cut, ground, place } = verdict.blocks[k];
    Object.assign(this, { judge, chip: judge.chip, settings: verdict.settings, cut, ground, place, bits: verdict.bits[k], tiles: tilesOf(cut) });
    [this.words] = this.chip.words[ground].split(':');
  }

  /** @param wires those to be drawn, each its names */
  fault(at, wires, rest = {}) {
    return { ground: this.ground, at, words: this.words, key: `${this.ground} ${at}`, switches: [], wires, ...rest };
  }

  names(wire) {
    return this.judge.names(this.cut, wire);
  }

  /** One name of a wire: its own where a cell drives it, else the first. */
  name(wire) {
    const names = this.names(wire);
    const own = names.find(([,, name]) => name.startsWith('lutff_')) || names.find(([,, name]) => !name.startsWith('neigh_op')) || names[0];
    return placeOf(own, own[2]);
  }

  // ---- each ground

  undecodable() {
    const at = this.tiles[Math.floor(this.place / this.chip.positions)];
    return this.fault(placeOf(at, this.chip.positionName(this.place % this.chip.positions)), [[[...at, '']]]);
  }

  cellClock() {
    const at = this.tiles[this.place];
    return this.fault(`tile ${tileName(at)}`, [[[...at, '']]]);
  }

  /** A carry that is read, or a wire of a loop. */
  wire() {
    return this.fault(this.name(this.place), [this.names(this.place)]);
  }

  /** Every contention of the block, a fault for each wire. */
  contentions() {
    const ends = new Map(), { names, ports } = this.chip;
    for (const [wire, t, g] of this.judge.contentions(this.cut, this.bits)) ends.set(wire, [...(ends.get(wire) || []), { t, g }]);
    return [...ends].map(([wire, fighting]) => {
      const switches = fighting.map(({ t, g }) => {
        const { destination, entries } = this.chip.groups[g], settings = this.settings.get(String(this.tiles[t]));
        const { source } = entries[settings[this.chip.layout.SETTINGS_GROUPS + g] - 1];
        return { tile: this.tiles[t], group: g, words: `${placeOf(this.tiles[t], names[destination])} <- ${names[source]}` };
      });
      const words = `${switches.length === 2 ? 'two' : switches.length} switches drive one wire: ${switches.map((each) => each.words).join(' and ')}`;
      const at = placeOf(this.tiles[Math.floor(wire / ports)], names[wire % ports]);
      return this.fault(at, [this.names(wire)], { words, switches, key: new Set(switches.map(({ tile, group }) => `${tile} ${group}`)) });
    });
  }

  faults() {
    if (this.ground === CONTENTION) return this.contentions();
    return [this.ground === UNDECODABLE ? this.undecodable() : this.ground === CELL_CLOCK ? this.cellClock() : this.wire()];
  }

  /** The faults in words; where the page fails to find them, the library's own answer, for a no is never lost. */
  told() {
    try {
      const found = this.faults();
      if (found.length) return found;
      throw new Error('the library lists no contention');
    } catch (error) {
      const at = `place ${this.place} of block ${blockName(this.cut)}`;
      return [this.fault(at, [[[this.cut.x, this.cut.y, '']]], { words: `${this.words}: the page finds no words for it: ${error.message}` })];
    }
  }
}

function isWithin(one, other) {
  return [...one].every((each) => other.has(each));
}

/** Each fault once: overlapping blocks see the same, and of one wire the block counts that sees most of its switches. */
function distinct(faults) {
  const kept = new Map();
  for (const fault of faults) {
    const { key } = fault;
    if (!(key instanceof Set)) {
      if (!kept.has(key)) kept.set(key, fault);
      continue;
    }
    const covered = [...kept.keys()].find((other) => other instanceof Set && (isWithin(key, other) || isWithin(other, key)));
    if (covered && covered.size < key.size) kept.delete(covered);
    if (!covered || covered.size < key.size) kept.set(key, fault);
  }
  return [...kept.values()];
}

/** The faults of a design, by ground and block. */
export function faultsOf(judge, verdict) {
  const refused = [...verdict.blocks.keys()].filter((k) => verdict.blocks[k].ground).sort((one, other) => verdict.blocks[one].ground - verdict.blocks[other].ground || one - other);
  return distinct(refused.flatMap((k) => new Scene(judge, verdict, k).told()));
}
