// The chip as a picture, as tools/card.py has it: the tiles in use, a frame for each refused block, and the wires of each fault. One tile at a time
// can be gone to by the tab key, and the arrow keys go from one to the next.
import { SEEN, tileName } from './chip.mjs';
import { cellsOf, enabledOf } from './judge.mjs';
import { lineOf } from './faults.mjs';

const STEP = 40; // units of the picture for a tile
const MARGIN = 26; // for the coordinates
const MARKS = [[10, -10], [-10, -10], [10, 10], [-10, 10]]; // where in a tile labels of faults stand
const SHIFTS = [-11, -3, 5]; // from the middle of a tile, so that wires on one way lie side by side
const ARROWS = { ArrowLeft: [-1, 0], ArrowRight: [1, 0], ArrowUp: [0, 1], ArrowDown: [0, -1] };
const DRAWN = new Set(['svg', 'g', 'rect', 'text', 'circle', 'polyline', 'title']);

/** An element with its attributes, and what stands in it. */
export function make(tag, attributes = {}, ...children) {
  const made = DRAWN.has(tag) ? document.createElementNS('http://www.w3.org/2000/svg', tag) : document.createElement(tag);
  for (const [name, value] of Object.entries(attributes)) made.setAttribute(name, value);
  made.append(...children);
  return made;
}

/** What a logic tile holds: its cells that are not all zero, and its enabled switches. */
function wordsOf(settings, chip) {
  const flags = (cell) => chip.flags.filter((_, k) => cell.flags >> k & 1).map((name) => `, ${name}`).join('');
  const cells = cellsOf(settings, chip).map((cell) => `lutff_${cell.i}: table ${cell.table.toString(16).toUpperCase().padStart(4, '0')}${flags(cell)}`);
  return [...cells, ...enabledOf(settings, chip).map(({ group, entry }) => `${chip.names[group.destination]} <- ${chip.names[entry.source]}`)];
}

/** The tiles that a wire passes, in order. From those where its name is one of SEEN it is only seen. */
function wayOf(names) {
  const own = names.filter(([,, name]) => !SEEN.test(name)), left = [...new Set((own.length ? own : names).map(([x, y]) => String([x, y])))];
  const tiles = left.map((at) => at.split(',').map(Number)).sort(([a, b], [c, d]) => a - c || b - d), way = tiles.splice(0, 1);
  const far = (at) => Math.abs(at[0] - way.at(-1)[0]) + Math.abs(at[1] - way.at(-1)[1]);
  while (tiles.length) way.push(...tiles.splice(tiles.reduce((best, at, k) => (far(at) < far(tiles[best]) ? k : best), 0), 1));
  return way;
}

class Picture {
  constructor(chip, verdict) {
    Object.assign(this, { chip, verdict, marked: new Map() });
    this.words = new Map([...verdict.settings].map(([at, settings]) => [at, wordsOf(settings, chip)]).filter(([, words]) => words.length));
  }

  /** The upper left corner of a tile: y counts from the south. */
  corner([x, y]) {
    return [STEP * x, STEP * (this.chip.height - 1 - y)];
  }

  rectangle([left, top], width, height, look) {
    return make('rect', { x: left, y: top, width, height, class: look });
  }

  square(at, kind) {
    const look = kind.startsWith('ram') ? 'ram' : kind, [left, top] = this.corner(at), used = this.words.has(String(at));
    const cells = used ? cellsOf(this.verdict.settings.get(String(at)), this.chip).length : 0;
    const sign = make('text', { x: left + STEP / 2, y: top + STEP - 6, class: 'sign' }, kind === 'logic' ? (used ? String(cells || '·') : '') : look);
    return make('g', { class: used ? 'used' : '' }, this.rectangle([left, top], STEP, STEP, look), sign);
  }

  refused() {
    return this.verdict.blocks.filter(({ ground }) => ground).map(({ cut }, k) => {
      const [left, top] = this.corner([cut.x, cut.y + cut.h - 1]), inset = 2 + 4 * (k % 3); // blocks overlap
      return this.rectangle([left + inset, top + inset], STEP * cut.w - 2 * inset, STEP * cut.h - 2 * inset, 'refused');
    });
  }

  wire(way, shift) {
    const points = way.map((at) => this.corner(at).map((edge) => edge + STEP / 2 + shift));
    if (points.length === 1) return [make('circle', { cx: points[0][0], cy: points[0][1], r: 8, class: 'wire' })];
    return ['halo', 'wire'].map((look) => make('polyline', { points: points.join(' '), class: look }));
  }

  /** A label in a tile; up to four have a corner each. */
  mark(at, text) {
    const count = this.marked.get(String(at)) || 0, [right, down] = MARKS[count % MARKS.length], [left, top] = this.corner(at);
    this.marked.set(String(at), count + 1);
    const x = left + STEP / 2 + right, y = top + STEP / 2 + down;
    return make('g', { class: 'mark' }, make('circle', { cx: x, cy: y, r: 11 }), make('text', { x, y: y + 5 }, text));
  }

  /** The wires of a fault, its number at the place, and a letter at each switch that fights. */
  fault(fault, k) {
    const ways = fault.wires.map(wayOf).filter((way, n, all) => all.findIndex((other) => String(other) === String(way)) === n);
    const marks = fault.switches.map(({ tile }, n) => [tile, `${k + 1}${String.fromCharCode(97 + n % 26)}`]);
    const lines = ways.flatMap((way, n) => this.wire(way, way.length > 1 ? SHIFTS[n % SHIFTS.length] : 0));
    const labels = (marks.length ? marks : [[ways[0][0], String(k + 1)]]).map((mark) => this.mark(...mark));
    return make('g', { class: 'fault' }, make('title', {}, `fault ${k + 1}: ${lineOf(fault)}`), ...lines, ...labels);
  }

  coordinates() {
    const columns = Array.from({ length: this.chip.width }, (_, x) => make('text', { x: STEP * x + STEP / 2, y: STEP * this.chip.height + 18, class: 'axis' }, x));
    const rows = Array.from({ length: this.chip.height }, (_, y) => make('text', { x: -14, y: this.corner([0, y])[1] + STEP / 2 + 5, class: 'axis' }, y));
    return [...columns, ...rows];
  }

  /** The tiles in use, to be pointed at or gone to; `tell` is told what one holds. */
  tiles(tell) {
    const used = [...this.words.keys()].map((at) => at.split(',').map(Number)).sort(([a, b], [c, d]) => d - b || a - c); // as one reads
    const made = new Map(used.map((at, k) => {
      const words = [`tile ${tileName(at)}`, ...this.words.get(String(at))], tab = k ? -1 : 0;
      const tile = make('g', { class: 'tile', tabindex: tab, role: 'img', 'aria-label': words.join('; ') }, this.rectangle(this.corner(at), STEP, STEP, 'over'));
      for (const event of ['focus', 'pointerenter', 'click']) tile.addEventListener(event, () => tell(words));
      tile.addEventListener('keydown', (event) => this.go(event, at, made));
      return [String(at), tile];
    }));
    return [...made.values()];
  }

  /** Goes to the nearest tile in use that lies in the direction of an arrow key. */
  go(event, [x, y], made) {
    const [right, up] = ARROWS[event.key] || [0, 0];
    if (!right && !up) return;
    event.preventDefault();
    const ahead = [...made].map(([at, tile]) => ({ tile, by: [at.split(',')[0] - x, at.split(',')[1] - y] })).filter(({ by }) => by[0] * right + by[1] * up > 0);
    const next = ahead.sort((one, other) => cost(one.by, right) - cost(other.by, right))[0];
    if (!next) return;
    for (const tile of made.values()) tile.setAttribute('tabindex', tile === next.tile ? 0 : -1);
    next.tile.focus();
  }

  svg(faults, tell) {
    const { chip } = this, places = chip.kinds.map((kind, k) => [[k % chip.width, Math.floor(k / chip.width)], kind]).filter(([, kind]) => kind);
    const box = [-MARGIN, -4, STEP * chip.width + MARGIN + 4, STEP * chip.height + MARGIN + 4].join(' ');
    return make('svg', { viewBox: box, role: 'group', 'aria-label': 'the chip; the arrow keys go from tile to tile' }, ...this.coordinates(),
      ...places.map((place) => this.square(...place)), ...this.refused(), ...faults.map((fault, k) => this.fault(fault, k)), ...this.tiles(tell));
  }
}

/** How far a tile is: those in the arrow's own row or column come first. */
function cost(by, right) {
  const [along, across] = right ? by : [by[1], by[0]];
  return Math.abs(along) + 4 * Math.abs(across);
}

/** The picture of a judged design. */
export function pictureOf(chip, verdict, faults, tell) {
  return new Picture(chip, verdict).svg(faults, tell);
}
