//! A step: grounds 1, 2, 3, 9, 12, 10, the values before, and the next state.
use super::build::Row;
use super::codec::check_settings;
use super::table;
use super::wires::wires;
use super::*;

/// What a step is lent, but for the outputs.
pub struct Step<'a> {
    pub w: u32,
    pub h: u32,
    pub east: u32,
    pub table: &'a [u16],
    pub settings: &'a [u16],
    pub list: &'a [u16],
    pub state: &'a [u8],
    pub before: &'a [u8],
    pub after: &'a [u8],
}

/// A port that is no wire's number, one whose row is still to come, one whose row came.
const NO_WIRE: u8 = 0;
const TO_COME: u8 = 1;
const LISTED: u8 = 2;

/// Whether a row may come next; `marks` says which wires came before.
fn row_ok(row: &Row, cells: usize, marks: &[u8]) -> bool {
    let [kind, wire, a, b, c, d, table] = *row;
    let listed = |wire: u16| marks.get(wire as usize) == Some(&LISTED);
    if marks.get(wire as usize) != Some(&TO_COME) {
        return false;
    }
    match kind {
        1..=3 => a | b | c | d | table == 0,
        4 => (a as usize) < cells && b | c | d | table == 0,
        5 => listed(a) && b | c | d | table == 0,
        6 => listed(a) && listed(b) && listed(c) && listed(d),
        7 => listed(a) && listed(b) && listed(c) && d | table == 0,
        _ => false,
    }
}

/// The rows of the block's wires, or ground 12.
fn check_list<'a>(list: &'a [u16], cells: usize, wires: &[u16]) -> Result<&'a [Row], No> {
    let mut marks: Vec<u8> = wires.iter().enumerate().map(|(p, &wire)| (wire as usize == p) as u8).collect();
    let count = marks.iter().filter(|&&mark| mark != NO_WIRE).count();
    let (rows, rest) = list.as_chunks().0.split_at(count);
    for (i, row) in rows.iter().enumerate() {
        if !row_ok(row, cells, &marks) {
            return Err(no(12, i));
        }
        marks[row[1] as usize] = LISTED;
    }
    if rest.as_flattened().iter().fold(0, |any, number| any | number) != 0 {
        let i = rest.iter().position(|row| *row != [0; ROW]).unwrap();
        return Err(no(12, count + i));
    }
    Ok(rows)
}

/// Ground 10.
fn check_bytes(parts: [&[u8]; 3]) -> Result<(), No> {
    let mut from = 0;
    for part in parts {
        if part.iter().fold(0, |any, byte| any | byte) > 1 {
            return Err(no(10, from + part.iter().position(|&byte| byte > 1).unwrap()));
        }
        from += part.len();
    }
    Ok(())
}

/// Runs the list on before (weight 1) and after (weight 2) at once.
fn run(rows: &[Row], s: &Step) -> Vec<u8> {
    let mut values = vec![0u8; s.before.len()];
    for row in rows {
        let [kind, wire, a, b, c, d, table] = row.map(usize::from);
        values[wire] = match kind {
            1 => s.before[wire] | s.after[wire] << 1,
            2 => 0,
            3 => 3,
            4 => s.state[a] * 3,
            5 => values[a],
            6 => {
                let [a, b, c, d] = [values[a], values[b], values[c], values[d]];
                let before = a & 1 | (b & 1) << 1 | (c & 1) << 2 | (d & 1) << 3;
                let after = a >> 1 | b >> 1 << 1 | c >> 1 << 2 | d >> 1 << 3;
                (table >> before & 1 | (table >> after & 1) << 1) as u8
            }
            _ => {
                let [a, b, c] = [values[a], values[b], values[c]];
                a & b | a & c | b & c
            }
        };
    }
    values
}

/// The next state of a tile's cells.
fn clock_tile(settings: &[u16; SETTINGS], wires: &[u16; PORTS], values: &[u8], state: &[u8], next: &mut [u8]) {
    let value = |q: usize| values[wires[q] as usize];
    let (clk, s_r) = (value(CLK), value(S_R));
    let tick = clk == if settings[0] == 0 { 2 } else { 1 };
    let enabled = value(CEN) & 1 == 1;
    for i in 0..CELLS {
        let (table, flags) = (settings[CELLS_FROM + 2 * i], settings[CELLS_FROM + 2 * i + 1]);
        let set = (flags & SET != 0) as u8;
        let lookup = || {
            let ins = (0..4).fold(0, |ins, j| ins | (value(IN + 4 * i + j) & 1) << j);
            (table >> ins & 1) as u8
        };
        next[i] = if flags & FLIP_FLOP == 0 {
            state[i]
        } else if flags & ASYNC != 0 {
            match (tick, s_r & 2 != 0) {
                (true, true) => set,
                (true, false) if enabled => lookup(),
                (false, true) if s_r == 2 => set,
                _ => state[i],
            }
        } else if !tick || !enabled {
            state[i]
        } else if s_r & 1 == 1 {
            set
        } else {
            lookup()
        };
    }
}

pub fn step(s: &Step, values: &mut [u8], next: &mut [u8]) -> Answer {
    let n = joined_tiles(s.w, s.h, s.east)?;
    let ports = PORTS * n;
    lengths(&[(s.table.len(), TABLE), (s.settings.len(), SETTINGS * n), (s.list.len(), ROW * ports), (s.state.len(), CELLS * n)])?;
    lengths(&[(s.before.len(), ports), (s.after.len(), ports), (values.len(), ports), (next.len(), CELLS * n)])?;
    table::check(s.table)?;
    check_settings(s.table, s.settings)?;
    let wires = wires(s.w, s.h, s.east);
    let rows = check_list(s.list, CELLS * n, &wires)?;
    check_bytes([s.state, s.before, s.after])?;
    let both = run(rows, s);
    for (value, &wire) in values.iter_mut().zip(&wires) {
        *value = both[wire as usize] & 1;
    }
    let tiles = s.settings.as_chunks().0.iter().zip(wires.as_chunks().0);
    let states = s.state.chunks_exact(CELLS).zip(next.chunks_exact_mut(CELLS));
    for ((settings, wires), (state, next)) in tiles.zip(states) {
        clock_tile(settings, wires, &both, state, next);
    }
    Ok(0)
}
