//! The two listings, what differs between two blocks and which switches contend: the same answers of both readers, then the time of each.
use crate::baseline::{self, CHANGE, CONTENTION, SETTINGS};
use crate::compare::agree;
use crate::inputs::{self, Block, Random};
use crate::proved;
use crate::timing::{self, Times};
use crate::{accepted_part, verdict, worst, BUDGET, SWEEPS};
use std::hint::black_box;
use std::path::Path;

const GOAL: f64 = 1.5;

/// As many rows as a tile can have: fields, groups, cells and passive bits; and a switch for each group.
const DIFFERENCES: usize = 3 + 512 + 8 + 64;
const SWITCHES: usize = 512;

// ---- the same answers

fn is_clean(room: &[Vec<u16>]) -> bool {
    room.iter().flatten().all(|&number| number == 0)
}

/// Both comparisons of two blocks under the first one's table, in a list of so many numbers.
fn compare(old: &Block, new: &Block, length: usize) -> Result<(u32, u32), String> {
    let (mut x, mut y, mut room) = (vec![0x33333333; length], vec![0x33333333; length], proved::compare_room(old.tiles()));
    let answer = proved::compare(old.size(), new.size(), &old.table, &old.bits, &new.bits, &mut x, &mut room);
    if !is_clean(&room) {
        return Err(format!("{} compare: work room", old.name));
    }
    let other = baseline::compare(old.size(), new.size(), &old.table, &old.bits, &new.bits, &mut y);
    agree(&old.name, "compare", (answer, x), (other, y))
}

fn contentions(block: &Block, length: usize) -> Result<(u32, u32), String> {
    let (mut x, mut y, mut room) = (vec![0x3333; length], vec![0x3333; length], proved::contentions_room(block.tiles()));
    let answer = proved::contentions(block.w, block.h, block.east, &block.table, &block.bits, &mut x, &mut room);
    if !is_clean(&room) {
        return Err(format!("{} contentions: work room", block.name));
    }
    let other = baseline::contentions(block.w, block.h, block.east, &block.table, &block.bits, &mut y);
    agree(&block.name, "contentions", (answer, x), (other, y))
}

/// A block with some settings changed, and sometimes a bit flipped, a bit set past the columns or a number of its table changed.
fn changed(block: &Block, random: &mut Random) -> Block {
    let mut settings = block.settings();
    for _ in 0..random.pick(&[0, 1, 5, 50, 300]) {
        let from = SETTINGS * random.below(block.tiles());
        let g = random.below(block.table[68] as usize);
        match random.below(8) {
            0 => settings[from + random.below(2)] = random.below(2) as u16,
            1 => settings[from + 3 + random.below(block.table[3].max(1) as usize)] = random.below(2) as u16,
            2 => settings[from + 579 + 2 * random.below(8)] = random.below(65536) as u16,
            3 => settings[from + 580 + 2 * random.below(8)] = random.below(16) as u16,
            _ => settings[from + 67 + g] = random.below(block.table[69 + 75 * g + 10] as usize + 1) as u16,
        }
    }
    let mut block = block.with(&settings);
    match random.below(12) {
        0 => block.flip(random.below(864 * block.tiles())),
        1 => block.stray(random.below(block.bits.len()), random.below(10)),
        2 => block.table[random.below(200)] = random.pick(&[0, 65, 404, 506, 863, 864, 65535]),
        _ => (),
    }
    block
}

/// Both listings in lists that are too short, just long enough and longer: what was met, by ground.
fn same_damaged(blocks: &[Block], rounds: usize) -> Result<[usize; 21], String> {
    let mut random = Random(11);
    let mut met = [0; 21];
    for _ in 0..rounds {
        let block = Block { east: random.below(2) as u32, ..random.pick(&blocks.iter().collect::<Vec<_>>()).clone() };
        let other = if random.below(10) == 0 { random.pick(&blocks.iter().collect::<Vec<_>>()).clone() } else { block.clone() };
        let (old, new) = (changed(&block, &mut random), changed(&other, &mut random));
        let short = random.pick(&[0, 1, 7, 500]);
        let first = [compare(&old, &new, short)?, contentions(&old, short)?];
        for (answer, row) in first.into_iter().zip([CHANGE, CONTENTION]) {
            met[answer.0 as usize] += 1;
            if answer.0 == 15 {
                for length in [row * answer.1 as usize - 1, row * answer.1 as usize, row * answer.1 as usize + 8] {
                    let again = if row == CHANGE { compare(&old, &new, length)? } else { contentions(&old, length)? };
                    met[again.0 as usize] += 1;
                }
            }
        }
    }
    Ok(met)
}

/// Both on every pair and block that is timed, and on damaged ones.
pub fn same(data: &Path) -> Result<(), String> {
    let rows = rows(data);
    for row in &rows {
        match row.call {
            "compare" => compare(&row.old, &row.new, row.length)?,
            _ => contentions(&row.old, row.length)?,
        };
    }
    let names = ["counter8_1x1", "latch_1x1", "counter8_2x2", "shift_arst_2x2", "ripplediv_loc_2x2", "uart_tx_3x3", "lfsr16_3x3"];
    let met = same_damaged(&names.map(|name| inputs::load(data, name)), 2000)?;
    let shown: Vec<String> = (0..21).filter(|&g| met[g] > 0).map(|g| format!("{g}: {}", met[g])).collect();
    println!("Listings: same answers and lists on the {} rows below and 2000 changed pairs and blocks (by ground: {}).\n", rows.len(), shown.join(", "));
    Ok(())
}

// ---- times

/// One call, timed. `compare` has two blocks, `contentions` one.
struct Row {
    what: String,
    call: &'static str,
    old: Block,
    new: Block,
    length: usize,
    times: Times,
}

impl Row {
    /// With a list that is just long enough, or as long as any block of that size needs.
    fn new(what: &str, call: &'static str, old: &Block, new: &Block, longest: bool) -> Row {
        let mut row = Row { what: what.to_string(), call, old: old.clone(), new: new.clone(), length: 0, times: Times::WORST };
        row.length = match (call, longest) {
            ("compare", true) => CHANGE * DIFFERENCES * old.tiles(),
            ("compare", false) => CHANGE * row.rows(),
            (_, true) => CONTENTION * SWITCHES * old.tiles(),
            (_, false) => CONTENTION * row.rows(),
        };
        row
    }

    /// How many rows the list has.
    fn rows(&self) -> usize {
        let (old, new) = (&self.old, &self.new);
        let answer = match self.call {
            "compare" => baseline::compare(old.size(), new.size(), &old.table, &old.bits, &new.bits, &mut vec![0; CHANGE * DIFFERENCES * old.tiles()]),
            _ => baseline::contentions(old.w, old.h, old.east, &old.table, &old.bits, &mut vec![0; CONTENTION * SWITCHES * old.tiles()]),
        };
        answer.ok().expect("a list") as usize
    }

    fn measure(&mut self) {
        let (mut one, mut other) = (self.proved(), self.baseline());
        self.times = self.times.best(timing::measure(BUDGET, &mut one, &mut other));
    }

    fn proved(&self) -> Box<dyn FnMut()> {
        let (old, new, length) = (self.old.clone(), self.new.clone(), self.length);
        if self.call == "compare" {
            let (mut list, mut room) = (vec![0; length], proved::compare_room(old.tiles()));
            return Box::new(move || drop(black_box(proved::compare(old.size(), new.size(), &old.table, &old.bits, &new.bits, &mut list, &mut room))));
        }
        let (mut list, mut room) = (vec![0; length], proved::contentions_room(old.tiles()));
        Box::new(move || drop(black_box(proved::contentions(old.w, old.h, old.east, &old.table, &old.bits, &mut list, &mut room))))
    }

    fn baseline(&self) -> Box<dyn FnMut()> {
        let (old, new, length) = (self.old.clone(), self.new.clone(), self.length);
        if self.call == "compare" {
            let mut list = vec![0; length];
            return Box::new(move || drop(black_box(baseline::compare(old.size(), new.size(), &old.table, &old.bits, &new.bits, &mut list))));
        }
        let mut list = vec![0; length];
        Box::new(move || drop(black_box(baseline::contentions(old.w, old.h, old.east, &old.table, &old.bits, &mut list))))
    }
}

/// A block with every cell's table and flags the other way round.
fn other_cells(block: &Block) -> Block {
    let mut settings = block.settings();
    for tile in settings.chunks_exact_mut(SETTINGS) {
        tile[579..].chunks_exact_mut(2).for_each(|cell| (cell[0], cell[1]) = (!cell[0], cell[1] ^ 15));
    }
    block.with(&settings)
}

/// A block with an entry of some more switches on, wherever they end.
fn with_contentions(block: &Block, switches: usize) -> Block {
    let (mut settings, mut random) = (block.settings(), Random(13));
    for _ in 0..switches {
        let g = random.below(block.table[68] as usize);
        settings[SETTINGS * random.below(block.tiles()) + 67 + g] = 1 + random.below(block.table[69 + 75 * g + 10] as usize) as u16;
    }
    block.with(&settings)
}

/// What `compare` is timed on.
fn comparisons(data: &Path) -> Vec<Row> {
    let [tile, small, big] = ["counter8_1x1", "uart_tx_3x3", "big8_8x8"].map(|name| inputs::load(data, name));
    let (part, groups, entries) = (accepted_part(&big, 4), worst::tile_wire_block(), worst::entries_block());
    let mut flipped = big.clone();
    flipped.flip(864 * 63 + 36); // a bit of a cell's table
    let row = |what: &str, old: &Block, new: &Block, longest| Row::new(what, "compare", old, new, longest);
    let mut rows: Vec<Row> = [&tile, &small, &part, &big].map(|block| row(&format!("{}, equal", block.name), block, block, false)).into();
    rows.push(row("big8_8x8, equal, the longest list", &big, &big, true));
    rows.push(row("big8_8x8, one bit", &big, &flipped, false));
    rows.push(row("big8_8x8, all cells", &big, &other_cells(&big), false));
    rows.push(row("big8_8x8, empty", &big, &big.empty(), false));
    rows.push(row("tile_wire_8x8, empty", &groups, &groups.empty(), false));
    rows.push(row("tile_wire_8x8, all groups and cells", &groups, &other_cells(&groups.empty()), true));
    rows.push(row("entries_8x8, empty", &entries, &entries.empty(), false));
    rows
}

/// What `contentions` is timed on.
fn contended(data: &Path) -> Vec<Row> {
    let [tile, small, big] = ["counter8_1x1", "uart_tx_3x3", "big8_8x8"].map(|name| inputs::load(data, name));
    let row = |what: &str, block: &Block, longest| Row::new(what, "contentions", block, block, longest);
    let made = [worst::groups_block(), worst::entries_block(), worst::tile_wire_block(), worst::row_wire_block()];
    let real = [tile, small, accepted_part(&big, 4), big.clone(), big.beside_logic(), big.empty()];
    let mut rows: Vec<Row> = real.iter().chain(&made).map(|block| row(&block.name, block, false)).collect();
    rows.push(row("empty_8x8, the longest list", &big.empty(), true));
    rows.push(row("big8_8x8 and 300 switches", &with_contentions(&big, 300), false));
    rows.push(row("big8_8x8 and 10000 switches", &with_contentions(&big, 10000), false));
    rows
}

fn rows(data: &Path) -> Vec<Row> {
    comparisons(data).into_iter().chain(contended(data)).collect()
}

pub fn measure(data: &Path) {
    println!("\n| blocks | call | rows | proved, us | baseline, us | ratio | goal | | proved, ns a tile |\n|---|---|---:|---:|---:|---:|---:|---|---:|");
    let mut rows = rows(data);
    for _ in 0..SWEEPS {
        rows.iter_mut().for_each(Row::measure);
    }
    for row in rows {
        let (Times { proved, baseline }, ratio) = (row.times, row.times.ratio());
        let each = proved * 1000.0 / row.old.tiles() as f64;
        println!("| {} | {} | {} | {proved:.1} | {baseline:.1} | {ratio:.2} | {GOAL} | {} | {each:.0} |", row.what, row.call, row.rows(), verdict(ratio, GOAL));
    }
}

/// Only calls, for a profiler: the row of that name.
pub fn profile(data: &Path, side: &str, what: &str, call: &str, times: u32) -> Result<(), String> {
    let row = rows(data).into_iter().find(|row| row.call == call && row.what == what).ok_or(format!("{what}: no such row of {call}"))?;
    let mut call = if side == "proved" { row.proved() } else { row.baseline() };
    (0..times).for_each(|_| call());
    Ok(())
}
