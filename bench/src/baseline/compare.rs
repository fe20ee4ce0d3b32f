//! Every difference between the settings of two blocks: grounds 14 and 15.
use super::codec::decode;
use super::table;
use super::*;

/// Tile, kind, index, old and new setting.
type Row = [u32; CHANGE];

/// The rows of settings that are one number each.
fn numbers(t: usize, kind: u32, old: &[u16], new: &[u16], rows: &mut Vec<Row>) {
    for (i, (&before, &after)) in old.iter().zip(new).enumerate() {
        if before != after {
            rows.push([t as u32, kind, i as u32, before as u32, after as u32]);
        }
    }
}

/// The rows of cells: a table and flags each.
fn cells(t: usize, old: &[u16], new: &[u16], rows: &mut Vec<Row>) {
    let number = |cell: [u16; 2]| cell[0] as u32 | (cell[1] as u32) << 16;
    let pairs = old.as_chunks().0.iter().zip(new.as_chunks().0);
    for (i, (&before, &after)) in pairs.enumerate() {
        if before != after {
            rows.push([t as u32, 3, i as u32, number(before), number(after)]);
        }
    }
}

/// The rows of a tile whose settings differ.
fn tile(t: usize, old: &[u16], new: &[u16], rows: &mut Vec<Row>) {
    numbers(t, 1, &old[..PASSIVES_FROM], &new[..PASSIVES_FROM], rows);
    numbers(t, 2, &old[GROUPS_FROM..CELLS_FROM], &new[GROUPS_FROM..CELLS_FROM], rows);
    cells(t, &old[CELLS_FROM..], &new[CELLS_FROM..], rows);
    numbers(t, 4, &old[PASSIVES_FROM..GROUPS_FROM], &new[PASSIVES_FROM..GROUPS_FROM], rows);
}

/// Sizes are pairs of W and H.
pub fn compare(one: (u32, u32), other: (u32, u32), table: &[u16], first: &[u64], second: &[u64], list: &mut [u32]) -> Answer {
    let n = tiles(one.0, one.1)?;
    tiles(other.0, other.1)?;
    if one != other {
        return Err(no(14, 0));
    }
    lengths(&[(table.len(), TABLE), (first.len(), WORDS * n), (second.len(), WORDS * n)])?;
    let claims = table::check(table)?;
    let old = decode(table, &claims, first)?;
    let new = decode(table, &claims, second)?;
    let mut rows = Vec::new();
    for (t, (old, new)) in old.chunks_exact(SETTINGS).zip(new.chunks_exact(SETTINGS)).enumerate() {
        if old != new {
            tile(t, old, new, &mut rows);
        }
    }
    if list.len() < CHANGE * rows.len() {
        return Err(no(15, rows.len()));
    }
    let (used, unused) = list.split_at_mut(CHANGE * rows.len());
    used.copy_from_slice(rows.as_flattened());
    unused.fill(0);
    Ok(rows.len() as u32)
}
