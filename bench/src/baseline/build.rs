//! Building a block's list: grounds 1 to 8.
use super::codec::decode;
use super::order::order;
use super::table;
use super::wires::wires;
use super::*;

pub type Row = [u16; ROW];

/// The rows of a block in order of wires, and the row of each wire.
pub struct Rows {
    pub rows: Vec<Row>,
    pub index: Vec<u16>,
}

/// The wires that a row reads.
pub fn reads(row: &Row) -> &[u16] {
    let count = match row[0] {
        5 => 1,
        6 => 4,
        7 => 3,
        _ => 0,
    };
    &row[2..2 + count]
}

/// A block with decoded settings and the wire of each port.
struct Block {
    w: usize,
    h: usize,
    settings: Vec<u16>,
    wires: Vec<u16>,
}

impl Block {
    fn tiles(&self) -> usize {
        self.w * self.h
    }

    fn field(&self, t: usize, f: usize) -> bool {
        self.settings[SETTINGS * t + f] != 0
    }

    fn lut(&self, t: usize, i: usize) -> u16 {
        self.settings[SETTINGS * t + CELLS_FROM + 2 * i]
    }

    fn has(&self, t: usize, i: usize, flags: u16) -> bool {
        self.settings[SETTINGS * t + CELLS_FROM + 2 * i + 1] & flags == flags
    }

    fn wire(&self, t: usize, q: usize) -> u16 {
        self.wires[PORTS * t + q]
    }

    /// The wire that each wire's switch comes from, plus 1. Grounds 5 and 6.
    fn sources(&self, table: &[u16]) -> Result<Vec<u16>, No> {
        let ports = self.wires.len();
        let (mut fight, mut carry) = (ports, ports);
        let mut sources = vec![0; ports];
        let groups = table::groups(table);
        for (t, tile) in self.settings.chunks_exact(SETTINGS).enumerate() {
            for (&setting, group) in tile[GROUPS_FROM..CELLS_FROM].iter().zip(groups) {
                if setting == 0 {
                    continue;
                }
                let driven = self.wire(t, table::destination(group)) as usize;
                let source = self.wire(t, table::entries(group)[setting as usize - 1][1] as usize);
                if sources[driven] != 0 {
                    fight = fight.min(driven);
                }
                sources[driven] = source + 1;
                carry = carry.min(self.disabled(source, ports));
            }
            carry = carry.min(self.tile_carry(t, ports));
        }
        if fight < ports {
            return Err(no(5, fight));
        }
        if carry < ports {
            return Err(no(6, carry));
        }
        Ok(sources)
    }

    /// The wire, if it is the cout of a cell without carry, else `ports`.
    fn disabled(&self, wire: u16, ports: usize) -> usize {
        let (t, q) = (wire as usize / PORTS, wire as usize % PORTS);
        if (COUT..LOUT).contains(&q) && !self.has(t, q - COUT, CARRY) {
            wire as usize
        } else {
            ports
        }
    }

    /// The lowest disabled cout that the chain or a carry of the tile reads.
    fn tile_carry(&self, t: usize, ports: usize) -> usize {
        let mut lowest = ports;
        if self.field(t, 2) {
            lowest = self.disabled(self.wire(t, CARRY_IN), ports);
        }
        for i in 1..CELLS {
            if self.has(t, i, CARRY) && !self.has(t, i - 1, CARRY) {
                lowest = lowest.min(PORTS * t + COUT + i - 1);
            }
        }
        lowest
    }

    fn lookup(&self, wire: u16, t: usize, i: usize) -> Row {
        let at = PORTS * t + IN + 4 * i;
        let ins = &self.wires[at..at + 4];
        [6, wire, ins[0], ins[1], ins[2], ins[3], self.lut(t, i)]
    }

    fn out(&self, wire: u16, t: usize, i: usize) -> Row {
        if self.has(t, i, FLIP_FLOP) {
            [4, wire, (CELLS * t + i) as u16, 0, 0, 0, 0]
        } else {
            self.lookup(wire, t, i)
        }
    }

    fn cout(&self, wire: u16, t: usize, i: usize) -> Row {
        if !self.has(t, i, CARRY) {
            return plain(2, wire);
        }
        let carry = if i == 0 { CARRY_IN_MUX } else { COUT + i - 1 };
        let q = IN + 4 * i;
        [7, wire, self.wire(t, q + 1), self.wire(t, q + 2), self.wire(t, carry), 0, 0]
    }

    fn mux(&self, wire: u16, t: usize) -> Row {
        if self.field(t, 1) {
            plain(3, wire)
        } else if self.field(t, 2) {
            [5, wire, self.wire(t, CARRY_IN), 0, 0, 0, 0]
        } else {
            plain(2, wire)
        }
    }

    /// A name of an output of a neighbour: that cell's row, or an open wire.
    fn neighbour(&self, wire: u16, t: usize, q: usize) -> Row {
        let (dx, dy) = NEIGHBOURS[(q - NEIGH) / 8];
        let (x, y) = ((t % self.w) as i32 + dx, (t / self.w) as i32 + dy);
        if (x as usize) < self.w && (y as usize) < self.h {
            self.out(wire, y as usize * self.w + x as usize, (q - NEIGH) % 8)
        } else {
            plain(1, wire)
        }
    }

    /// The row of a wire from port q of a tile on which no switch ends.
    fn cell_row(&self, wire: u16, t: usize, q: usize) -> Row {
        match q {
            LOCAL..OUT => plain(2, wire),
            OUT..NEIGH => self.out(wire, t, q - OUT),
            NEIGH..CLK => self.neighbour(wire, t, q),
            CLK | S_R => plain(2, wire),
            CEN => plain(3, wire),
            CARRY_IN_MUX => self.mux(wire, t),
            COUT..LOUT => self.cout(wire, t, q - COUT),
            LOUT..LTIN => self.lookup(wire, t, q - LOUT),
            _ => plain(1, wire),
        }
    }

    /// The row of each wire, tile by tile; spans apart, as they are either lent or copies.
    fn rows(&self, sources: &[u16]) -> Rows {
        let mut rows = Vec::with_capacity(self.wires.len() / 2);
        let mut index = vec![0; self.wires.len()];
        for t in 0..self.tiles() {
            let (spans, cells) = (PORTS * t..PORTS * t + LOCAL, PORTS * t + LOCAL..PORTS * (t + 1));
            for p in spans {
                if self.wires[p] as usize == p {
                    index[p] = rows.len() as u16;
                    rows.push(if sources[p] == 0 { plain(1, p as u16) } else { copy(p, sources[p]) });
                }
            }
            for p in cells {
                if self.wires[p] as usize == p {
                    index[p] = rows.len() as u16;
                    rows.push(if sources[p] == 0 { self.cell_row(p as u16, t, p - PORTS * t) } else { copy(p, sources[p]) });
                }
            }
        }
        Rows { rows, index }
    }

    /// Whether a port comes from a cell; there are no rings.
    fn from_cell(&self, rows: &Rows, sources: &[u16], t: usize, q: usize) -> bool {
        let mut wire = self.wire(t, q) as usize;
        while sources[wire] != 0 {
            wire = sources[wire] as usize - 1;
        }
        let kind = rows.rows[rows.index[wire] as usize][0];
        matches!(kind, 4 | 6 | 7) || (CARRY_IN_MUX..LOUT).contains(&(wire % PORTS))
    }

    /// Ground 8.
    fn check_clocks(&self, rows: &Rows, sources: &[u16]) -> Result<(), No> {
        for t in 0..self.tiles() {
            let any = |flags| (0..CELLS).any(|i| self.has(t, i, flags));
            if any(FLIP_FLOP) && self.from_cell(rows, sources, t, CLK)
                || any(FLIP_FLOP | ASYNC) && self.from_cell(rows, sources, t, S_R)
            {
                return Err(no(8, t));
            }
        }
        Ok(())
    }
}

fn plain(kind: u16, wire: u16) -> Row {
    [kind, wire, 0, 0, 0, 0, 0]
}

/// The row of a wire on which a switch ends; `source` is one more than the wire that it comes from.
fn copy(wire: usize, source: u16) -> Row {
    [5, wire as u16, source - 1, 0, 0, 0, 0]
}

pub fn build(w: u32, h: u32, east: u32, table: &[u16], bits: &[u64], list: &mut [u16]) -> Answer {
    let n = joined_tiles(w, h, east)?;
    lengths(&[(table.len(), TABLE), (bits.len(), WORDS * n), (list.len(), ROW * PORTS * n)])?;
    let claims = table::check(table)?;
    let settings = decode(table, &claims, bits)?;
    let block = Block { w: w as usize, h: h as usize, settings, wires: wires(w, h, east) };
    let sources = block.sources(table)?;
    let rows = block.rows(&sources);
    let order = order(&rows).map_err(|wire| no(7, wire as usize))?;
    block.check_clocks(&rows, &sources)?;
    let (used, unused) = list.split_at_mut(ROW * order.len());
    for (row, &u) in used.as_chunks_mut().0.iter_mut().zip(&order) {
        *row = rows.rows[u as usize];
    }
    unused.fill(0);
    Ok(order.len() as u32)
}
