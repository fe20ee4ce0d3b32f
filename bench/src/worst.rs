//! Made-up 8 by 8 blocks that ask most of the reader, with routing tables of their own.
use crate::baseline::{self, PORTS, SETTINGS, TABLE, WORDS};
use crate::inputs::{Block, Random};
use std::collections::BTreeMap;

const SIDE: usize = 8;
const TILES: usize = SIDE * SIDE;

/// Ports by name.
const LAST_TRACK: usize = 371;
const FIRST_IN: usize = 372;
const RELAY_IN: usize = 376;
const LAST_IN: usize = 403;
const RIGHT: usize = 444;
const TOP: usize = 460;
const LAST_LOUT: usize = 504;

/// The switches that each tile wants, as destination and source, and a table that has them all.
struct Plan {
    switches: Vec<Vec<(usize, usize)>>,
}

/// The positions that no cell has.
fn free_positions() -> Vec<u16> {
    (0..864).filter(|p| !(36..46).contains(&(p % 54))).collect()
}

/// The lowest port of each port's wire, as the library numbers them.
fn wires() -> Vec<usize> {
    extern "C" {
        fn ice40_wire_number(w: u32, h: u32, east: u32, tile: u32, port: u32) -> u64;
    }
    let side = SIDE as u32;
    (0..TILES as u32).flat_map(|t| (0..PORTS as u32).map(move |q| unsafe { ice40_wire_number(side, side, 0, t, q) as usize })).collect()
}

impl Plan {
    fn new() -> Plan {
        Plan { switches: vec![Vec::new(); TILES] }
    }

    /// One group for each destination, with the sources that any tile wants; its positions are just enough.
    fn groups(&self) -> BTreeMap<usize, Vec<usize>> {
        let mut groups: BTreeMap<usize, Vec<usize>> = BTreeMap::new();
        for &(destination, source) in self.switches.iter().flatten() {
            let sources = groups.entry(destination).or_default();
            if !sources.contains(&source) {
                sources.push(source);
            }
        }
        groups
    }

    fn block(&self, name: &str) -> Block {
        let mut table = Table::new();
        let groups = self.groups();
        for (&destination, sources) in &groups {
            let width = (sources.len() + 1).next_power_of_two().trailing_zeros() as usize;
            table.group(destination, width, sources);
        }
        let at: BTreeMap<usize, usize> = groups.keys().enumerate().map(|(g, &destination)| (destination, g)).collect();
        let mut settings = vec![0; SETTINGS * TILES];
        for (t, switches) in self.switches.iter().enumerate() {
            for (destination, source) in switches {
                let entry = groups[destination].iter().position(|s| s == source).unwrap();
                settings[SETTINGS * t + 67 + at[destination]] = entry as u16 + 1;
            }
        }
        table.block(name, &settings)
    }
}

/// A table that is being made.
struct Table {
    numbers: Vec<u16>,
    free: Vec<u16>,
}

impl Table {
    fn new() -> Table {
        let mut table = Table { numbers: vec![0; TABLE], free: free_positions() };
        for f in 0..3 {
            table.numbers[f] = table.free.pop().unwrap();
        }
        table
    }

    /// A group whose entry e has pattern e + 1.
    fn group(&mut self, destination: usize, width: usize, sources: &[usize]) {
        let at = 69 + 75 * self.numbers[68] as usize;
        self.numbers[68] += 1;
        self.numbers[at] = destination as u16;
        self.numbers[at + 1] = width as u16;
        for k in 0..width {
            self.numbers[at + 2 + k] = self.free.pop().expect("positions");
        }
        self.numbers[at + 10] = sources.len() as u16;
        for (e, &source) in sources.iter().enumerate() {
            self.numbers[at + 11 + 2 * e] = e as u16 + 1;
            self.numbers[at + 12 + 2 * e] = source as u16;
        }
    }

    fn block(self, name: &str, settings: &[u16]) -> Block {
        let mut bits = vec![0; WORDS * TILES];
        let side = SIDE as u32;
        assert!(baseline::write(side, side, &self.numbers, settings, &mut bits).is_ok(), "{name}");
        Block { name: name.to_string(), w: side, h: side, east: 0, table: self.numbers, bits }
    }
}

/// The names that one long span-12 wire of a row has in its first and its last tile.
fn row_link() -> (usize, usize) {
    let wires = wires();
    let last = PORTS * (SIDE - 1);
    (240..264).find_map(|near| (240..264).find(|far| wires[last + far] == near).map(|far| (near, far))).expect("a wire from end to end")
}

/// Every span, local and glb2local wire copies the next higher one, from tile to tile, so that rows come in falling order: the
/// last wire of a tile reads an output of the next tile, whose lookup reads that tile's first wire. From a row's end the way to
/// the next row leads through a cell of the tile above and a wire along that row.
fn chain() -> Plan {
    let (wires, (near, far)) = (wires(), row_link());
    let mut plan = Plan::new();
    for t in 0..TILES {
        let (x, y) = (t % SIDE, t / SIDE);
        let own: Vec<usize> = (0..=LAST_TRACK).filter(|&q| wires[PORTS * t + q] == PORTS * t + q && !(x == 0 && q == near)).collect();
        let tile = &mut plan.switches[t];
        tile.extend(own.windows(2).map(|pair| (pair[0], pair[1])));
        if x + 1 < SIDE {
            tile.push((LAST_TRACK, RIGHT));
        } else if y + 1 < SIDE {
            tile.push((LAST_TRACK, TOP + 1));
        }
        if x > 0 {
            tile.push((FIRST_IN, own[0]));
        } else {
            tile.push((near, own[0]));
        }
        if x + 1 == SIDE {
            tile.push((RELAY_IN, far));
        }
    }
    plan
}

pub fn chain_block() -> Block {
    chain().block("chain_8x8")
}

/// The chain, hanging on a loop of the highest wires: the last cell's lookup reads itself.
pub fn loop_block() -> Block {
    let mut plan = chain();
    plan.switches[TILES - 1].extend([(LAST_IN, LAST_LOUT), (LAST_TRACK, LAST_LOUT)]);
    plan.block("loop_8x8")
}

/// Settings that turn on a random entry of each group wherever no other switch ends on that wire and its source is lower, so that
/// there is neither contention nor a loop; cells at random.
fn busy_settings(table: &[u16], random: &mut Random) -> Vec<u16> {
    let wires = wires();
    let mut driven = vec![false; wires.len()];
    let mut settings = vec![0; SETTINGS * TILES];
    for t in 0..TILES {
        let tile = &mut settings[SETTINGS * t..SETTINGS * (t + 1)];
        for g in 0..table[68] as usize {
            let group = &table[69 + 75 * g..69 + 75 * (g + 1)];
            let e = random.below(group[10] as usize);
            let wire = wires[PORTS * t + group[0] as usize];
            if !driven[wire] && wires[PORTS * t + group[12 + 2 * e] as usize] < wire {
                driven[wire] = true;
                tile[67 + g] = e as u16 + 1;
            }
        }
        for i in 0..8 {
            tile[579 + 2 * i] = random.below(65536) as u16;
            tile[580 + 2 * i] = 1 + 2 * random.below(8) as u16;
        }
    }
    settings
}

/// A source that is no output of a cell, for many destinations lower than them.
fn any_source(random: &mut Random) -> usize {
    random.below(LAST_TRACK + 1)
}

/// 512 groups, the most that a table may have; what positions are left make some of them two positions wide.
pub fn groups_block() -> Block {
    let mut random = Random(7);
    let mut table = Table::new();
    let wide = table.free.len() - 512;
    let destinations: Vec<usize> = (0..404).chain(476..479).collect();
    for g in 0..512 {
        let width = if g < wide { 2 } else { 1 };
        let sources: Vec<usize> = (0..(1 << width) - 1).map(|_| any_source(&mut random)).collect();
        table.group(destinations[(g * 5) % destinations.len()], width, &sources);
    }
    let settings = busy_settings(&table.numbers, &mut random);
    table.block("groups_8x8", &settings)
}

/// Groups of five positions with every pattern listed: the most entries that a table may have.
pub fn entries_block() -> Block {
    let mut random = Random(9);
    let mut table = Table::new();
    let destinations: Vec<usize> = (264..404).collect();
    for g in 0..table.free.len() / 5 {
        let sources: Vec<usize> = (0..31).map(|_| any_source(&mut random)).collect();
        table.group(destinations[g], 5, &sources);
    }
    let settings = busy_settings(&table.numbers, &mut random);
    table.block("entries_8x8", &settings)
}

/// 512 groups of one position and one entry to these ports in turn, every switch of every tile on.
fn crowded_block(name: &str, destinations: &[usize]) -> Block {
    let mut table = Table::new();
    for g in 0..512 {
        table.group(destinations[g % destinations.len()], 1, &[LAST_LOUT]);
    }
    let mut tile = [0; SETTINGS];
    tile[67..579].fill(1);
    table.block(name, &tile.repeat(TILES))
}

/// Every switch of a tile ends on one wire.
pub fn tile_wire_block() -> Block {
    crowded_block("tile_wire_8x8", &[LAST_TRACK])
}

/// Every switch ends on a span-12 wire, in each tile under the eight names that the longest wire of a row has in its tiles: 64 switches of
/// each tile of the row end on that one.
pub fn row_wire_block() -> Block {
    let (wires, (near, _)) = (wires(), row_link());
    let names: Vec<usize> = (0..SIDE).filter_map(|x| (240..288).find(|q| wires[PORTS * x + q] == near)).collect();
    assert_eq!(names.len(), SIDE, "a name in each tile of the row");
    crowded_block("row_wire_8x8", &names)
}
