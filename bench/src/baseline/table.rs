//! The lent routing table: its groups, and ground 3.
use super::{no, No, CELLS};

pub type Claims = [u64; 14];
pub type Group = [u16; 75];

pub const POSITIONS: u16 = 864;
const LC_BITS: [u16; 20] = [4, 14, 15, 5, 6, 16, 17, 7, 3, 13, 12, 2, 1, 11, 10, 0, 8, 9, 18, 19];

/// The positions of each cell's 20 bits: its table, then its flags.
pub const CELL_BITS: [[u16; 20]; CELLS] = cell_bits();
const CELL_CLAIMS: Claims = cell_claims();

const fn cell_bits() -> [[u16; 20]; CELLS] {
    let mut positions = [[0; 20]; CELLS];
    let mut at = 0;
    while at < 160 {
        let (i, k) = (at as u16 / 20, LC_BITS[at % 20]);
        positions[at / 20][at % 20] = if k < 10 { 54 * (2 * i) + 36 + k } else { 54 * (2 * i + 1) + 26 + k };
        at += 1;
    }
    positions
}

const fn cell_claims() -> Claims {
    let mut claims = [0; 14];
    let mut at = 0;
    while at < 160 {
        let p = CELL_BITS[at / 20][at % 20];
        claims[p as usize / 64] |= 1 << (p % 64);
        at += 1;
    }
    claims
}

pub fn fields(table: &[u16]) -> &[u16] {
    &table[..3]
}

pub fn passives(table: &[u16]) -> &[u16] {
    &table[4..4 + table[3] as usize]
}

/// The groups that the table has.
pub fn groups(table: &[u16]) -> &[Group] {
    let count = table[68] as usize;
    &table[69..].as_chunks::<75>().0[..count.min(512)]
}

pub fn destination(group: &Group) -> usize {
    group[0] as usize
}

pub fn positions(group: &Group) -> &[u16] {
    &group[2..2 + group[1] as usize]
}

/// Pairs of pattern and source.
pub fn entries(group: &Group) -> &[[u16; 2]] {
    &group[11..].as_chunks::<2>().0[..group[10] as usize]
}

fn is_destination(port: u16) -> bool {
    port < 404 || (476..=478).contains(&port)
}

fn is_source(port: u16) -> bool {
    port < 372 || (404..476).contains(&port) || (479..506).contains(&port)
}

fn claim(claims: &mut Claims, positions: &[u16]) -> bool {
    for &p in positions {
        if p >= POSITIONS {
            return false;
        }
        let (word, bit) = (&mut claims[p as usize / 64], 1 << (p % 64));
        if *word & bit != 0 {
            return false;
        }
        *word |= bit;
    }
    true
}

/// A group by itself.
fn is_group(group: &Group) -> bool {
    if !is_destination(group[0]) || !(1..=8).contains(&group[1]) || !(1..=32).contains(&group[10]) {
        return false;
    }
    let top = 1 << group[1];
    let mut seen = [0u64; 4];
    for &[pattern, source] in entries(group) {
        if pattern == 0 || pattern >= top || !is_source(source) {
            return false;
        }
        let (word, bit) = (&mut seen[pattern as usize / 64 % 4], 1 << (pattern % 64));
        if *word & bit != 0 {
            return false;
        }
        *word |= bit;
    }
    true
}

/// The claimed positions of a table that keeps the rules, or ground 3.
pub fn check(table: &[u16]) -> Result<Claims, No> {
    let mut claims = CELL_CLAIMS;
    if !claim(&mut claims, fields(table)) {
        return Err(no(3, 0));
    }
    if table[3] > 64 || !claim(&mut claims, passives(table)) {
        return Err(no(3, 1));
    }
    for (g, group) in groups(table).iter().enumerate() {
        if !is_group(group) || !claim(&mut claims, positions(group)) {
            return Err(no(3, 2 + g));
        }
    }
    if table[68] > 512 {
        return Err(no(3, 514));
    }
    Ok(claims)
}
