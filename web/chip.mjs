// A chip as the page knows it: which tile is where, the blocks that cover its logic tiles, the routing table and the names of ports. All of it
// is made by web/page.py from what the tools know, and `layout` is that of tools/proved.py.

export function numbersOf(base64) {
  return Uint8Array.from(atob(base64), (letter) => letter.charCodeAt(0));
}

/** A group of the routing table: its destination, and the source of each entry. */
function groupAt(table, at, layout) {
  const count = table[at + layout.ENTRIES_FROM], first = at + layout.ENTRIES_FROM + 1;
  return { destination: table[at], entries: Array.from({ length: count }, (_, e) => ({ source: table[first + 2 * e + 1] })) };
}

export class Chip {
  /** @param facts what web/page.py says of the chip */
  constructor(facts) {
    const { layout } = facts;
    Object.assign(this, facts);
    this.ports = facts.names.length; // of a tile
    this.table = new Uint16Array(layout.TABLE_LENGTH);
    this.table.set(new Uint16Array(numbersOf(facts.table).buffer));
    this.groups = Array.from({ length: this.table[layout.GROUP_COUNT] }, (_, g) => groupAt(this.table, layout.GROUPS_FROM + layout.GROUP_LENGTH * g, layout));
  }

  positionName(p) {
    return `B${Math.floor(p / this.layout.COLUMNS)}[${p % this.layout.COLUMNS}]`;
  }
}

/** The coordinates of a block's tiles, by index. */
export function tilesOf({ x, y, w, h }) {
  return Array.from({ length: w * h }, (_, t) => [x + (t % w), y + Math.floor(t / w)]);
}

/** Names of a wire of the column or the tile beside. */
export const SEEN = /^(sp4_r_v_b|neigh_op)/;

/** A name of a wire with its tile. */
export function placeOf(at, name) {
  return `${tileName(at)} ${name}`;
}

/** A tile by its coordinates, as (4,1). */
export function tileName([x, y]) {
  return `(${x},${y})`;
}

/** A block by its corners, as (4,1)-(9,8). */
export function blockName({ x, y, w, h }) {
  return `${tileName([x, y])}-${tileName([x + w - 1, y + h - 1])}`;
}
