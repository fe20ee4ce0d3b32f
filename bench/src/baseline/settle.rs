//! Settling: grounds 1, 2, 3, 9, 12, 10, and every port's value.
use super::build::Row;
use super::codec::check_settings;
use super::table;
use super::wires::wires;
use super::*;

/// What settling is lent, but for the output.
pub struct Settle<'a> {
    pub w: u32,
    pub h: u32,
    pub east: u32,
    pub table: &'a [u16],
    pub settings: &'a [u16],
    pub list: &'a [u16],
    pub state: &'a [u8],
    pub lent: &'a [u8],
}

/// A port that is no wire's number, one whose row is still to come, one whose row came.
const NO_WIRE: u8 = 0;
const TO_COME: u8 = 1;
const LISTED: u8 = 2;

/// Whether a row may come next; `marks` says which wires came before.
fn row_ok(row: &Row, cells: usize, marks: &[u8]) -> bool {
    let [kind, wire, a, b, c, d, table] = *row;
    let listed = |wire: u16| marks.get(wire as usize) == Some(&LISTED);
    if marks.get(wire as usize) != Some(&TO_COME) {
        return false;
    }
    match kind {
        1..=3 => a | b | c | d | table == 0,
        4 => (a as usize) < cells && b | c | d | table == 0,
        5 => listed(a) && b | c | d | table == 0,
        6 => listed(a) && listed(b) && listed(c) && listed(d),
        7 => listed(a) && listed(b) && listed(c) && d | table == 0,
        _ => false,
    }
}

/// The rows of the block's wires, or ground 12.
fn check_list<'a>(list: &'a [u16], cells: usize, wires: &[u16]) -> Result<&'a [Row], No> {
    let mut marks: Vec<u8> = wires.iter().enumerate().map(|(p, &wire)| (wire as usize == p) as u8).collect();
    let count = marks.iter().filter(|&&mark| mark != NO_WIRE).count();
    let (rows, rest) = list.as_chunks().0.split_at(count);
    for (i, row) in rows.iter().enumerate() {
        if !row_ok(row, cells, &marks) {
            return Err(no(12, i));
        }
        marks[row[1] as usize] = LISTED;
    }
    if rest.as_flattened().iter().fold(0, |any, number| any | number) != 0 {
        let i = rest.iter().position(|row| *row != [0; ROW]).unwrap();
        return Err(no(12, count + i));
    }
    Ok(rows)
}

/// Ground 10, over the parts joined.
pub fn check_bytes(parts: &[&[u8]]) -> Result<(), No> {
    let mut from = 0;
    for part in parts {
        if part.iter().fold(0, |any, byte| any | byte) > 1 {
            return Err(no(10, from + part.iter().position(|&byte| byte > 1).unwrap()));
        }
        from += part.len();
    }
    Ok(())
}

/// Runs the list: the value of each wire, at its number.
fn run(rows: &[Row], s: &Settle) -> Vec<u8> {
    let mut values = vec![0u8; s.lent.len()];
    for row in rows {
        let [kind, wire, a, b, c, d, table] = row.map(usize::from);
        values[wire] = match kind {
            1 => s.lent[wire],
            2 => 0,
            3 => 1,
            4 => s.state[a],
            5 => values[a],
            6 => (table >> (values[a] | values[b] << 1 | values[c] << 2 | values[d] << 3) & 1) as u8,
            _ => {
                let [a, b, c] = [values[a], values[b], values[c]];
                a & b | a & c | b & c
            }
        };
    }
    values
}

pub fn settle(s: &Settle, values: &mut [u8]) -> Answer {
    let n = joined_tiles(s.w, s.h, s.east)?;
    let ports = PORTS * n;
    lengths(&[(s.table.len(), TABLE), (s.settings.len(), SETTINGS * n), (s.list.len(), ROW * ports)])?;
    lengths(&[(s.state.len(), CELLS * n), (s.lent.len(), ports), (values.len(), ports)])?;
    table::check(s.table)?;
    check_settings(s.table, s.settings)?;
    let wires = wires(s.w, s.h, s.east);
    let rows = check_list(s.list, CELLS * n, &wires)?;
    check_bytes(&[s.state, s.lent])?;
    let settled = run(rows, s);
    for (value, &wire) in values.iter_mut().zip(&wires) {
        *value = settled[wire as usize];
    }
    Ok(0)
}
