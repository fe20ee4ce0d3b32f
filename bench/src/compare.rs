//! Both readers on the same input: their answers and what they write must be the same.
use crate::baseline::{self, Answer, Clock, Settle, Step, CELLS, PORTS, ROW, SETTINGS, WORDS};
use crate::inputs::{Block, Random};
use crate::proved::{self, Room};

/// A block with all that its calls take and give.
pub struct Case {
    pub block: Block,
    pub settings: Vec<u16>,
    pub written: Vec<u64>,
    pub list: Vec<u16>,
    pub state: Vec<u8>,
    pub before: Vec<u8>,
    pub after: Vec<u8>,
    pub values: Vec<u8>,
    pub next: Vec<u8>,
    pub card: Vec<u16>,
    pub room: Room,
    /// The rows of the list, where the block is accepted.
    pub rows: Option<u32>,
}

impl Case {
    pub fn new(block: Block) -> Case {
        let n = block.tiles();
        let mut random = Random(3);
        let mut case = Case {
            settings: vec![0; SETTINGS * n],
            written: vec![0; WORDS * n],
            list: vec![0; ROW * PORTS * n],
            state: random.bits(CELLS * n),
            before: random.bits(PORTS * n),
            after: random.bits(PORTS * n),
            values: vec![0; PORTS * n],
            next: vec![0; CELLS * n],
            card: vec![0; 6 + 2 * PORTS * n],
            room: Room::new(n),
            rows: None,
            block,
        };
        let b = &case.block;
        let _ = baseline::read(b.w, b.h, &b.table, &b.bits, &mut case.settings);
        case.rows = baseline::build(b.w, b.h, b.east, &b.table, &b.bits, &mut case.list).ok();
        case
    }

    pub fn step(&self) -> Step<'_> {
        let b = &self.block;
        let (table, settings, list) = (&b.table[..], &self.settings[..], &self.list[..]);
        Step { w: b.w, h: b.h, east: b.east, table, settings, list, state: &self.state, before: &self.before, after: &self.after }
    }

    /// Settling with the values before.
    pub fn settle(&self) -> Settle<'_> {
        let b = &self.block;
        Settle { w: b.w, h: b.h, east: b.east, table: &b.table, settings: &self.settings, list: &self.list, state: &self.state, lent: &self.before }
    }

    /// Clocking what is handed: any values of 0 and 1 will do.
    pub fn clock(&self) -> Clock<'_> {
        let b = &self.block;
        Clock { w: b.w, h: b.h, table: &b.table, settings: &self.settings, state: &self.state, before: &self.before, after: &self.after }
    }
}

/// A ground and a place, or the value.
fn shown(answer: &Answer) -> (u32, u32) {
    match answer {
        Ok(value) => (0, *value),
        Err(no) => (no.ground, no.place),
    }
}

/// What both answered, if answers and outputs are the same.
pub fn agree<T: PartialEq>(name: &str, call: &str, a: (Answer, T), b: (Answer, T)) -> Result<(u32, u32), String> {
    let (proved, base) = (shown(&a.0), shown(&b.0));
    if proved != base {
        return Err(format!("{name} {call}: the proved library answers {proved:?}, the baseline {base:?}"));
    }
    if a.1 != b.1 {
        return Err(format!("{name} {call}: different outputs"));
    }
    Ok(proved)
}

fn junk<T: Clone>(value: T, like: usize) -> Vec<T> {
    vec![value; like]
}

pub fn read(case: &Case) -> Result<(u32, u32), String> {
    let b = &case.block;
    let both = [proved::read, baseline::read].map(|read| {
        let mut settings = junk(0x3333, case.settings.len());
        (read(b.w, b.h, &b.table, &b.bits, &mut settings), settings)
    });
    let [x, y] = both;
    agree(&b.name, "read", x, y)
}

pub fn write(case: &Case) -> Result<(u32, u32), String> {
    let b = &case.block;
    let both = [proved::write, baseline::write].map(|write| {
        let mut bits = junk(0x33, b.bits.len());
        (write(b.w, b.h, &b.table, &case.settings, &mut bits), bits)
    });
    let [x, y] = both;
    agree(&b.name, "write", x, y)
}

pub fn build(case: &Case) -> Result<(u32, u32), String> {
    let b = &case.block;
    let mut room = Room::new(b.tiles());
    let (mut x, mut y) = (junk(0x3333, case.list.len()), junk(0x3333, case.list.len()));
    let answer = proved::build(b.w, b.h, b.east, &b.table, &b.bits, &mut x, &mut room);
    if !room.built_clean() {
        return Err(format!("{} build: work room", b.name));
    }
    let other = baseline::build(b.w, b.h, b.east, &b.table, &b.bits, &mut y);
    agree(&b.name, "build", (answer, x), (other, y))
}

pub fn step(case: &Case) -> Result<(u32, u32), String> {
    let mut room = Room::new(case.block.tiles());
    let outputs = || (junk(0x33, case.values.len()), junk(0x33, case.next.len()));
    let (mut x, mut y) = (outputs(), outputs());
    let answer = proved::step(&case.step(), &mut x.0, &mut x.1, &mut room);
    if !room.stepped_clean() {
        return Err(format!("{} step: work room", case.block.name));
    }
    let other = baseline::step(&case.step(), &mut y.0, &mut y.1);
    agree(&case.block.name, "step", (answer, x), (other, y))
}

pub fn settle(case: &Case) -> Result<(u32, u32), String> {
    let mut room = Room::new(case.block.tiles());
    let (mut x, mut y) = (junk(0x33, case.values.len()), junk(0x33, case.values.len()));
    let answer = proved::settle(&case.settle(), &mut x, &mut room);
    if !room.settled_clean() {
        return Err(format!("{} settle: work room", case.block.name));
    }
    let other = baseline::settle(&case.settle(), &mut y);
    agree(&case.block.name, "settle", (answer, x), (other, y))
}

pub fn clock(case: &Case) -> Result<(u32, u32), String> {
    let (mut x, mut y) = (junk(0x33, case.next.len()), junk(0x33, case.next.len()));
    let answer = proved::clock(&case.clock(), &mut x);
    let other = baseline::clock(&case.clock(), &mut y);
    agree(&case.block.name, "clock", (answer, x), (other, y))
}

/// Every call on a block, as it is.
pub fn all(case: &Case) -> Result<(), String> {
    for call in [read, write, build] {
        call(case)?;
    }
    if case.rows.is_some() {
        step(case)?;
        settle(case)?;
        clock(case)?;
    }
    Ok(())
}

/// Damaged input: how often each ground was met.
pub fn damaged(blocks: &[Block], rounds: usize) -> Result<[usize; 21], String> {
    let mut random = Random(5);
    let mut met = [0; 21];
    for round in 0..rounds {
        let block = &blocks[random.below(blocks.len())];
        let mut case = Case::new(Block { east: random.below(2) as u32, ..block.clone() });
        let found = match round % 5 {
            0 => damage_bits(&mut case, &mut random),
            1 => damage_table(&mut case, &mut random),
            2 => damage_settings(&mut case, &mut random),
            3 => damage_list(&mut case, &mut random),
            _ => damage_routing(&mut case, &mut random),
        }?;
        met[found.0 as usize] += 1;
    }
    Ok(met)
}

fn damage_bits(case: &mut Case, random: &mut Random) -> Result<(u32, u32), String> {
    for _ in 0..1 + random.below(3) {
        let p = random.below(864 * case.block.tiles());
        case.block.flip(p);
    }
    if random.below(4) == 0 {
        let row = random.below(case.block.bits.len());
        case.block.stray(row, random.below(10));
    }
    read(case)?;
    build(case)
}

fn damage_table(case: &mut Case, random: &mut Random) -> Result<(u32, u32), String> {
    let table = &mut case.block.table;
    let group = 69 + 75 * random.below(table[68] as usize);
    let at = [random.below(69), 3, 68, group, group + 1, group + 2 + random.below(8), group + 10, group + 11 + random.below(64)];
    let at = random.pick(&at);
    let numbers = [0, 1, 8, 9, 32, 33, 64, 65, 403, 404, 476, 479, 505, 506, 512, 513, 863, 864, 65535];
    table[at] = if random.below(3) == 0 { table[group + 2] } else { random.pick(&numbers) };
    read(case)?;
    write(case)?;
    settle(case)?;
    clock(case)?;
    step(case)?;
    build(case)
}

fn damage_settings(case: &mut Case, random: &mut Random) -> Result<(u32, u32), String> {
    let from = SETTINGS * random.below(case.block.tiles());
    let at = [random.below(3), random.below(SETTINGS), 67 + random.below(254), 579 + random.below(16)];
    case.settings[from + random.pick(&at)] = random.pick(&[0, 1, 2, 15, 16, 33, 65535]);
    settle(case)?;
    clock(case)?;
    step(case)?;
    write(case)
}

fn damage_list(case: &mut Case, random: &mut Random) -> Result<(u32, u32), String> {
    let rows = case.rows.unwrap_or(1) as usize;
    let at = [random.below(ROW * rows), random.below(case.list.len())];
    let i = random.pick(&at);
    match random.below(6) {
        0 => case.list[i] = random.pick(&[0, 1, 4, 5, 7, 8, 336, 489, 65535]),
        1 => case.list.swap(i / ROW * ROW + 1, random.below(rows) * ROW + 1),
        2 => case.state[0] = 2,
        3 => case.before[random.below(PORTS)] = 255,
        4 => case.after[i / ROW] = 9,
        _ => case.before[i / ROW] = 1,
    }
    clock(case)?;
    settle(case)?;
    step(case)
}

/// Other switches, other flags: grounds 5 to 8.
fn damage_routing(case: &mut Case, random: &mut Random) -> Result<(u32, u32), String> {
    let b = &mut case.block;
    for _ in 0..1 + random.below(8) {
        let from = SETTINGS * random.below(b.tiles());
        let g = random.below(b.table[68] as usize);
        if random.below(4) > 0 {
            case.settings[from + 67 + g] = random.below(b.table[69 + 75 * g + 10] as usize + 1) as u16;
        } else {
            case.settings[from + 580 + 2 * random.below(8)] ^= random.pick(&[1, 2, 8]);
        }
    }
    let _ = baseline::write(b.w, b.h, &b.table, &case.settings, &mut b.bits);
    settle(case)?;
    clock(case)?;
    step(case)?;
    build(case)
}
