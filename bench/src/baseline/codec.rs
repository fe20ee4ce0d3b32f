//! Bits and settings of tiles: reading, writing, and grounds 4 and 9.
use super::table::{self, Claims, Group, CELL_BITS, POSITIONS};
use super::*;

/// A tile's bits as they are lent, a row each.
type Rows = [u64; WORDS];

/// The same by position, 64 to a number, so that no position has to be divided by the columns; two numbers more than needed, so that an index of
/// four bits is never out of range.
type Packed = [u64; 16];

const IN_COLUMNS: u64 = (1 << COLUMNS) - 1;

/// Bits past the columns are left out.
fn pack(rows: &Rows) -> Packed {
    let mut packed = [0; 16];
    for (r, row) in rows.iter().enumerate() {
        let (at, from, row) = (COLUMNS * r / 64, COLUMNS * r % 64, row & IN_COLUMNS);
        packed[at] |= row << from;
        packed[at + 1] |= row >> 1 >> (63 - from);
    }
    packed
}

fn unpack(packed: &Packed) -> Rows {
    std::array::from_fn(|r| {
        let (at, from) = (COLUMNS * r / 64, COLUMNS * r % 64);
        (packed[at] >> from | packed[at + 1] << 1 << (63 - from)) & IN_COLUMNS
    })
}

fn bit(packed: &Packed, p: u16) -> u16 {
    (packed[(p >> 6) as usize & 15] >> (p & 63)) as u16 & 1
}

fn put(packed: &mut Packed, p: u16, value: u16) {
    packed[(p >> 6) as usize & 15] |= (value as u64) << (p & 63);
}

/// The pattern that a group's bits have.
fn pattern(packed: &Packed, group: &Group) -> u16 {
    let mut pattern = 0;
    for (k, &p) in table::positions(group).iter().enumerate() {
        pattern |= bit(packed, p) << k;
    }
    pattern
}

/// Reads a tile to settings that are all zero; whether it can be decoded.
fn decode_tile(table: &[u16], claims: &Claims, tile: &Rows, settings: &mut [u16]) -> bool {
    let packed = pack(tile);
    if stray(tile).is_some() || packed.iter().zip(claims).any(|(bits, claim)| bits & !claim != 0) {
        return false;
    }
    for (setting, &p) in settings.iter_mut().zip(table::fields(table)) {
        *setting = bit(&packed, p);
    }
    if settings[1] & settings[2] != 0 {
        return false;
    }
    for (setting, &p) in settings[PASSIVES_FROM..].iter_mut().zip(table::passives(table)) {
        *setting = bit(&packed, p);
    }
    for (setting, group) in settings[GROUPS_FROM..].iter_mut().zip(table::groups(table)) {
        let pattern = pattern(&packed, group);
        if pattern != 0 {
            match table::entries(group).iter().position(|entry| entry[0] == pattern) {
                Some(e) => *setting = e as u16 + 1,
                None => return false,
            }
        }
    }
    for (cell, positions) in settings[CELLS_FROM..].chunks_exact_mut(2).zip(&CELL_BITS) {
        let mut value = 0u32;
        for (j, &p) in positions.iter().enumerate() {
            value |= (bit(&packed, p) as u32) << j;
        }
        cell[0] = value as u16;
        cell[1] = (value >> 16) as u16;
    }
    true
}

/// The lowest position at fault in a tile, 864 where there is none: a group's first for an unlisted pattern, a set bit that nothing claims,
/// CarryInSet's for the carry pair, a row's last for a bit past its columns.
fn fault(table: &[u16], claims: &Claims, tile: &Rows) -> u16 {
    let packed = pack(tile);
    let unclaimed = (0..POSITIONS).filter(|&p| bit(&packed, p) == 1 && claims[p as usize / 64] >> (p % 64) & 1 == 0);
    let unlisted = table::groups(table).iter().filter(|group| {
        let pattern = pattern(&packed, group);
        pattern != 0 && table::entries(group).iter().all(|entry| entry[0] != pattern)
    });
    let fields = table::fields(table);
    let pair = (bit(&packed, fields[1]) & bit(&packed, fields[2]) == 1).then_some(fields[1]);
    let past = stray(tile).map(|p| p as u16);
    unclaimed.chain(unlisted.map(|group| table::positions(group)[0])).chain(pair).chain(past).min().unwrap_or(POSITIONS)
}

/// The settings of a block's bits, or ground 4. The position at fault is looked for after a no.
pub fn decode(table: &[u16], claims: &Claims, bits: &[u64]) -> Result<Vec<u16>, No> {
    let mut settings = vec![0; bits.len() / WORDS * SETTINGS];
    let tiles = settings.chunks_exact_mut(SETTINGS).zip(bits.as_chunks().0);
    for (t, (settings, bits)) in tiles.enumerate() {
        if !decode_tile(table, claims, bits, settings) {
            return Err(no(4, POSITIONS as usize * t + fault(table, claims, bits) as usize));
        }
    }
    Ok(settings)
}

pub fn read(w: u32, h: u32, table: &[u16], bits: &[u64], settings: &mut [u16]) -> Answer {
    let n = tiles(w, h)?;
    lengths(&[(table.len(), TABLE), (bits.len(), WORDS * n), (settings.len(), SETTINGS * n)])?;
    let claims = table::check(table)?;
    settings.copy_from_slice(&decode(table, &claims, bits)?);
    Ok(0)
}

/// The largest value of each setting of a tile.
fn limits(table: &[u16]) -> [u16; SETTINGS] {
    let mut limits = [0; SETTINGS];
    limits[..PASSIVES_FROM + table[3] as usize].fill(1);
    for (limit, group) in limits[GROUPS_FROM..].iter_mut().zip(table::groups(table)) {
        *limit = table::entries(group).len() as u16;
    }
    for cell in limits[CELLS_FROM..].chunks_exact_mut(2) {
        cell.copy_from_slice(&[u16::MAX, 15]);
    }
    limits
}

/// Ground 9.
pub fn check_settings(table: &[u16], settings: &[u16]) -> Result<(), No> {
    let limits = limits(table);
    for (t, tile) in settings.as_chunks::<SETTINGS>().0.iter().enumerate() {
        let above = tile.iter().zip(&limits).fold(false, |above, (setting, limit)| above | (setting > limit));
        if above || tile[1] & tile[2] != 0 {
            return Err(no(9, t));
        }
    }
    Ok(())
}

fn encode_tile(table: &[u16], settings: &[u16; SETTINGS]) -> Rows {
    let mut packed = [0; 16];
    for (&setting, &p) in settings.iter().zip(table::fields(table)) {
        put(&mut packed, p, setting);
    }
    for (&setting, &p) in settings[PASSIVES_FROM..].iter().zip(table::passives(table)) {
        put(&mut packed, p, setting);
    }
    for (&setting, group) in settings[GROUPS_FROM..].iter().zip(table::groups(table)) {
        if setting != 0 {
            let pattern = table::entries(group)[setting as usize - 1][0];
            for (k, &p) in table::positions(group).iter().enumerate() {
                put(&mut packed, p, pattern >> k & 1);
            }
        }
    }
    for (cell, positions) in settings[CELLS_FROM..].chunks_exact(2).zip(&CELL_BITS) {
        let value = cell[0] as u32 | (cell[1] as u32) << 16;
        for (j, &p) in positions.iter().enumerate() {
            put(&mut packed, p, (value >> j & 1) as u16);
        }
    }
    unpack(&packed)
}

pub fn write(w: u32, h: u32, table: &[u16], settings: &[u16], bits: &mut [u64]) -> Answer {
    let n = tiles(w, h)?;
    lengths(&[(table.len(), TABLE), (bits.len(), WORDS * n), (settings.len(), SETTINGS * n)])?;
    table::check(table)?;
    check_settings(table, settings)?;
    for (settings, bits) in settings.as_chunks().0.iter().zip(bits.as_chunks_mut().0) {
        *bits = encode_tile(table, settings);
    }
    Ok(0)
}
