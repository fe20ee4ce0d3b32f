//! The wire of each port, in one pass: every join leads to a port whose wire is already known.
use super::*;

/// Spans of one length: names, how many go through a tile, how much higher they come out.
struct Span {
    names: usize,
    through: usize,
    shift: usize,
    h_l: usize,
    h_r: usize,
    v_t: usize,
    v_b: usize,
}

const SPAN4: Span = Span { names: 48, through: 36, shift: 12, h_l: 0, h_r: 48, v_t: 96, v_b: 144 };
const SPAN12: Span = Span { names: 24, through: 22, shift: 2, h_l: 240, h_r: 264, v_t: 288, v_b: 312 };
const SP4_R_V_B: usize = 192;

/// The wires so far, the width of the block, and whether the column to its east is logic or RAM.
struct Walk {
    wires: Vec<u16>,
    w: usize,
    east: bool,
}

impl Walk {
    /// Ports `to..` take the wires of ports `from..`, which stand in lower tiles or lower in this one.
    fn copy(&mut self, from: usize, to: usize, count: usize) {
        self.wires.copy_within(from..from + count, to);
    }

    /// The side on which a wire leaves a tile takes the names of the side on which it comes in.
    fn cross(&mut self, from: usize, to: usize, span: &Span) {
        for k in 0..span.through {
            self.wires[to + span.shift + (k ^ 1)] = self.wires[from + k];
        }
    }

    fn row(&mut self, at: usize, x: usize, span: &Span) {
        if x > 0 {
            self.copy(at - PORTS + span.h_r, at + span.h_l, span.names);
        }
        self.cross(at + span.h_l, at + span.h_r, span);
    }

    fn column(&mut self, at: usize, x: usize, y: usize, span: &Span) {
        if y > 0 {
            self.copy(at - PORTS * self.w + span.v_t, at + span.v_b, span.names);
        } else if x > 0 && span.names == 48 {
            self.copy(at - PORTS + SP4_R_V_B, at + span.v_b, span.names);
        } else {
            self.cross(at + span.v_t, at + span.v_b, span);
            return;
        }
        for k in 0..span.through {
            self.wires[at + span.v_t + k] = self.wires[at + span.v_b + span.shift + (k ^ 1)];
        }
    }

    /// sp4_r_v_b: what the tile to the east has as sp4_v_b. That tile may be outside: its wires come from the row below, crossed.
    fn right(&mut self, at: usize, x: usize, y: usize) {
        if y == 0 {
            return;
        }
        if x + 1 < self.w {
            self.copy(at - PORTS * (self.w - 1) + SPAN4.v_t, at + SP4_R_V_B, 48);
        } else if self.east {
            let below = at - PORTS * self.w + SP4_R_V_B + SPAN4.shift;
            for k in 0..SPAN4.through {
                self.wires[at + SP4_R_V_B + k] = self.wires[below + (k ^ 1)];
            }
        }
    }

    /// The lowest port of output 0 of a tile, be it outside: that of the tile of the block furthest south and west that sees it.
    fn output(&self, x: i32, y: i32) -> usize {
        let (from_x, from_y) = ((x - 1).max(0), (y - 1).max(0));
        let port = match (x - from_x + 3 * (y - from_y) + 4) as usize {
            4 => OUT,
            d => NEIGH + 8 * (d - (d > 4) as usize), // the tile itself stands between its neighbours
        };
        PORTS * (from_y as usize * self.w + from_x as usize) + port
    }

    fn outputs(&mut self, at: usize, x: usize, y: usize) {
        let (x, y) = (x as i32, y as i32);
        self.number(at + OUT, self.output(x, y), CELLS);
        for (d, (dx, dy)) in NEIGHBOURS.iter().enumerate() {
            self.number(at + NEIGH + 8 * d, self.output(x + dx, y + dy), CELLS);
        }
    }

    fn number(&mut self, at: usize, from: usize, count: usize) {
        for (i, wire) in self.wires[at..at + count].iter_mut().enumerate() {
            *wire = (from + i) as u16;
        }
    }

    fn tile(&mut self, x: usize, y: usize) {
        let at = PORTS * (y * self.w + x);
        for span in [SPAN4, SPAN12] {
            self.row(at, x, &span);
            self.column(at, x, y, &span);
        }
        self.right(at, x, y);
        self.outputs(at, x, y);
        self.number(at + GLB, GLB, 8);
        if y > 0 {
            let below = at - PORTS * self.w;
            self.number(at + CARRY_IN, below + COUT + 7, 1);
            self.number(at + LTIN, below + LOUT + 7, 1);
        }
    }
}

/// The lowest port of each port's wire.
pub fn wires(w: u32, h: u32, east: u32) -> Vec<u16> {
    let (w, h) = (w as usize, h as usize);
    let mut walk = Walk { wires: (0..(PORTS * w * h) as u16).collect(), w, east: east == 1 };
    for y in 0..h {
        for x in 0..w {
            walk.tile(x, y);
        }
    }
    walk.wires
}
