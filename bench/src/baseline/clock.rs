//! Clocking: grounds 1, 2, 3, 9, 10, and the next state of every cell.
use super::codec::check_settings;
use super::settle::check_bytes;
use super::table;
use super::*;

/// What clocking is lent, but for the output.
pub struct Clock<'a> {
    pub w: u32,
    pub h: u32,
    pub table: &'a [u16],
    pub settings: &'a [u16],
    pub state: &'a [u8],
    pub before: &'a [u8],
    pub after: &'a [u8],
}

/// The next state of a tile's cells, from the values of its own ports.
fn clock_tile(settings: &[u16; SETTINGS], before: &[u8; PORTS], after: &[u8; PORTS], state: &[u8], next: &mut [u8]) {
    let edge = if settings[0] == 0 { (0, 1) } else { (1, 0) };
    let tick = (before[CLK], after[CLK]) == edge;
    let enabled = before[CEN] == 1;
    for i in 0..CELLS {
        let (table, flags) = (settings[CELLS_FROM + 2 * i], settings[CELLS_FROM + 2 * i + 1]);
        let set = (flags & SET != 0) as u8;
        let lookup = || {
            let ins = (0..4).fold(0, |ins, j| ins | before[IN + 4 * i + j] << j);
            (table >> ins & 1) as u8
        };
        next[i] = if flags & FLIP_FLOP == 0 {
            state[i]
        } else if flags & ASYNC != 0 {
            match (tick, after[S_R] == 1) {
                (true, true) => set,
                (true, false) if enabled => lookup(),
                (false, true) if before[S_R] == 0 => set,
                _ => state[i],
            }
        } else if !tick || !enabled {
            state[i]
        } else if before[S_R] == 1 {
            set
        } else {
            lookup()
        };
    }
}

pub fn clock(c: &Clock, next: &mut [u8]) -> Answer {
    let n = tiles(c.w, c.h)?;
    lengths(&[(c.table.len(), TABLE), (c.settings.len(), SETTINGS * n), (c.state.len(), CELLS * n), (next.len(), CELLS * n)])?;
    lengths(&[(c.before.len(), PORTS * n), (c.after.len(), PORTS * n)])?;
    table::check(c.table)?;
    check_settings(c.table, c.settings)?;
    check_bytes(&[c.state, c.before, c.after])?;
    let tiles = c.settings.as_chunks().0.iter().zip(c.before.as_chunks().0).zip(c.after.as_chunks().0);
    let states = c.state.chunks_exact(CELLS).zip(next.chunks_exact_mut(CELLS));
    for (((settings, before), after), (state, next)) in tiles.zip(states) {
        clock_tile(settings, before, after, state, next);
    }
    Ok(0)
}
