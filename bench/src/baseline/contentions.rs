//! Every enabled switch on a wire on which two or more end: ground 15. Switches are counted by wire and then put in their places, so that
//! nothing is sorted.
use super::codec::decode;
use super::table;
use super::wires::wires;
use super::*;

/// Driven wire, tile, group.
type Row = [u16; CONTENTION];

/// Each enabled switch, by tile and group.
fn switches(table: &[u16], settings: &[u16], wires: &[u16]) -> Vec<Row> {
    let mut switches = Vec::new();
    for (t, tile) in settings.chunks_exact(SETTINGS).enumerate() {
        let groups = tile[GROUPS_FROM..CELLS_FROM].iter().zip(table::groups(table));
        for (g, (_, group)) in groups.enumerate().filter(|(_, (&setting, _))| setting != 0) {
            switches.push([wires[PORTS * t + table::destination(group)], t as u16, g as u16]);
        }
    }
    switches
}

/// Where the rows of each wire begin, a number that is no place for a wire with fewer than two switches, and how many rows there are.
fn places(switches: &[Row], ports: usize) -> (Vec<u16>, usize) {
    let mut places = vec![0u16; ports];
    for row in switches {
        places[row[0] as usize] += 1;
    }
    let mut rows = 0;
    for place in &mut places {
        let count = *place;
        *place = u16::MAX;
        if count > 1 {
            *place = rows;
            rows += count;
        }
    }
    (places, rows as usize)
}

pub fn contentions(w: u32, h: u32, east: u32, table: &[u16], bits: &[u64], list: &mut [u16]) -> Answer {
    let n = joined_tiles(w, h, east)?;
    lengths(&[(table.len(), TABLE), (bits.len(), WORDS * n)])?;
    let claims = table::check(table)?;
    let settings = decode(table, &claims, bits)?;
    let switches = switches(table, &settings, &wires(w, h, east));
    let (mut places, rows) = places(&switches, PORTS * n);
    if list.len() < CONTENTION * rows {
        return Err(no(15, rows));
    }
    let (used, unused) = list.split_at_mut(CONTENTION * rows);
    let used = used.as_chunks_mut().0;
    for row in switches {
        let place = &mut places[row[0] as usize];
        if *place != u16::MAX {
            used[*place as usize] = row;
            *place += 1;
        }
    }
    unused.fill(0);
    Ok(rows as u32)
}
