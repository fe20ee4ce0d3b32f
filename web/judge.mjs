// A design judged: the proved library reads each block that covers the logic tiles out of the file and judges it. Nothing is decided here.
import { Room } from './library.mjs';
import { tilesOf } from './chip.mjs';

export const UNDECODABLE = 4; // the lowest ground that is about a design and not about what was lent
const LINE_FEED = 10, RETURN = 13;
const SHOWN = 40; // bytes of a line

/** A file that is not a design, and why. */
export class Unreadable extends Error {}

/** A byte as it is shown: what cannot be seen is written out. */
function shownByte(byte) {
  const escape = { 9: '\\t', 13: '\\r', 39: "\\'", 92: '\\\\' }[byte];
  return escape || (byte >= 32 && byte < 127 ? String.fromCharCode(byte) : `\\x${byte.toString(16).padStart(2, '0')}`);
}

/** A line of a file's bytes as it stands, cut short, and what is often wrong with such a line. */
function shownLine(text, line, device) {
  let start = 0;
  for (let k = 1; k < line && start >= 0; k += 1) start = text.indexOf(LINE_FEED, start) + 1 || -1;
  if (start < 0 || start >= text.length) return 'the file ends';
  const feed = text.indexOf(LINE_FEED, start), end = feed < 0 ? text.length : feed;
  const shown = [...text.subarray(start, Math.min(end, start + SHOWN))].map(shownByte).join('');
  const other = shown.startsWith('.device ') && shown !== `.device ${device}`;
  const why = text[end - 1] === RETURN ? ', a line end of Windows' : feed < 0 ? ', without a line feed' : other ? `, and files of a ${device} are read` : '';
  return `'${shown}'${end > start + SHOWN ? ' ..' : ''}${why}`;
}

function lentWrong(ground, place) {
  return new Error(`the library refuses what the page lends with ground ${ground}, place ${place}`);
}

export class Judge {
  constructor(library, chip) {
    this.library = library;
    this.chip = chip;
    this.table = library.keep(chip.table);
    this.joined = new Map(); // by size and east: the ports of each wire
  }

  numbers(cut) {
    return [cut.w, cut.h, cut.east];
  }

  /** Work room of so many numbers a tile. */
  rooms(cut, lengths) {
    return lengths.map((length) => new Room(Uint16Array, length * cut.w * cut.h));
  }

  /** The bits of each block, or the lowest line at which the library refuses the file. */
  bits(text) {
    const { layout: { ASC_LINE, TILE_NUMBERS }, words, device } = this.chip;
    let refused = Infinity;
    const bits = this.chip.cuts.map((cut) => {
      const lent = new BigUint64Array(TILE_NUMBERS * cut.w * cut.h);
      const { ground, value } = this.library.call('ice40_asc_read', cut.w, cut.h, cut.x, cut.y, text, lent);
      if (ground && ground !== ASC_LINE) throw lentWrong(ground, value);
      if (ground) refused = Math.min(refused, value);
      return lent;
    });
    if (refused === Infinity) return bits;
    throw new Unreadable(`line ${refused}: ${shownLine(text, refused, device)}: the library refuses the file with ground ${ASC_LINE}: ${words[ASC_LINE]}`);
  }

  /** Ground and place of a block's no, zeros for a yes. */
  answer(cut, bits) {
    const { ground, value } = this.library.call('ice40_build', ...this.numbers(cut), this.table, bits, ...this.rooms(cut, this.chip.layout.BUILD_ROOM));
    if (ground && ground < UNDECODABLE) throw lentWrong(ground, value);
    return { cut, ground, place: ground ? value : 0 };
  }

  /** The settings of each logic tile with a bit set that can be decoded, by its name: as ice40_read writes them. */
  settings(bits) {
    const found = new Map(), { TILE_NUMBERS, TILE_SETTINGS } = this.chip.layout;
    this.chip.cuts.forEach((cut, k) => tilesOf(cut).forEach((at, t) => {
      const own = bits[k].slice(TILE_NUMBERS * t, TILE_NUMBERS * (t + 1));
      if (found.has(String(at)) || !own.some(Boolean)) return;
      const settings = new Uint16Array(TILE_SETTINGS);
      if (!this.library.call('ice40_read', 1, 1, this.table, own, settings).ground) found.set(String(at), settings);
    }));
    return found;
  }

  /** Each enabled switch on a wire on which two or more end: wire, tile and group, rising. */
  contentions(cut, bits) {
    const { TILE_SETTINGS, TILE_PORTS, TILE_GROUPS } = this.chip.layout, list = new Uint16Array(3 * TILE_GROUPS * cut.w * cut.h);
    const room = this.rooms(cut, [TILE_SETTINGS, TILE_PORTS, TILE_PORTS, TILE_GROUPS]);
    const { value } = this.library.call('ice40_contentions', ...this.numbers(cut), this.table, bits, list, ...room);
    return Array.from({ length: value }, (_, r) => [...list.subarray(3 * r, 3 * r + 3)]);
  }

  /** The ports of each wire of a block, rising, by the wire's number. */
  members(cut) {
    const key = String(this.numbers(cut)), { ports } = this.chip;
    if (!this.joined.has(key)) {
      const found = new Map();
      for (let port = 0; port < ports * cut.w * cut.h; port += 1) {
        const { value: wire } = this.library.call('ice40_wire_number', ...this.numbers(cut), Math.floor(port / ports), port % ports);
        if (!found.has(wire)) found.set(wire, []);
        found.get(wire).push(port);
      }
      this.joined.set(key, found);
    }
    return this.joined.get(key);
  }

  /** The names of a wire of a block, x, y, name. A global net, which has its name in every tile, has it here once. */
  names(cut, wire) {
    const { names, ports } = this.chip, tiles = tilesOf(cut);
    const found = this.members(cut).get(wire).map((port) => [...tiles[Math.floor(port / ports)], names[port % ports]]);
    return found[0][2].startsWith('glb_netwk') ? found.slice(0, 1) : found;
  }

  /** The shelf card of a block with a yes: how many cells and flip-flops, the wires that leave it and the open ones that feed it. */
  card(cut, bits) {
    const { CARD_CELLS, CARD_FLIP_FLOPS, CARD_LEAVING, CARD_COUNTS, TILE_PORTS, BUILD_ROOM } = this.chip.layout;
    const card = new Uint16Array(CARD_COUNTS + 2 * TILE_PORTS * cut.w * cut.h);
    const { ground, value } = this.library.call('ice40_card', ...this.numbers(cut), this.table, bits, card, ...this.rooms(cut, BUILD_ROOM));
    if (ground) throw lentWrong(ground, value);
    const from = (at) => [...card.subarray(at + 1, at + 1 + card[at])], leaving = from(CARD_LEAVING);
    return { cells: card[CARD_CELLS], flipFlops: card[CARD_FLIP_FLOPS], leaving, feeding: from(CARD_LEAVING + 1 + leaving.length) };
  }

  /** The answer for each block of a design, its bits and its settings, or Unreadable. */
  judge(text) {
    const bits = this.bits(text);
    return { bits, blocks: this.chip.cuts.map((cut, k) => this.answer(cut, bits[k])), settings: this.settings(bits) };
  }
}

/** What a design uses of the logic tiles: tiles with a switch or a cell, enabled switches, cells that are not all zero. */
export function countsOf(verdict, chip) {
  const counts = { tiles: 0, switches: 0, cells: 0 };
  for (const settings of verdict.settings.values()) {
    const switches = enabledOf(settings, chip).length, cells = cellsOf(settings, chip).length;
    counts.tiles += switches + cells > 0 ? 1 : 0;
    counts.switches += switches;
    counts.cells += cells;
  }
  return counts;
}

/** The enabled switches of a tile: group and entry. */
export function enabledOf(settings, chip) {
  const from = chip.layout.SETTINGS_GROUPS;
  return chip.groups.map((group, g) => ({ g, group, entry: group.entries[settings[from + g] - 1] })).filter(({ entry }) => entry);
}

/** The cells of a tile that are not all zero: number, table and flags. */
export function cellsOf(settings, chip) {
  const cells = [...settings.subarray(chip.layout.SETTINGS_CELLS)];
  return cells.map((table, k) => ({ i: k / 2, table, flags: cells[k + 1] })).filter((cell, k) => k % 2 === 0 && (cell.table || cell.flags));
}
