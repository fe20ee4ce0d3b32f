//! The blocks that are measured: real ones from files of frames, parts of them, and an empty one.
use crate::baseline::{self, COLUMNS, SETTINGS, TABLE, WORDS};
use std::fs;
use std::path::Path;

/// A block's size, whether the column to its east is logic or RAM, its routing table and its bits.
#[derive(Clone)]
pub struct Block {
    pub name: String,
    pub w: u32,
    pub h: u32,
    pub east: u32,
    pub table: Vec<u16>,
    pub bits: Vec<u64>,
}

impl Block {
    pub fn tiles(&self) -> usize {
        (self.w * self.h) as usize
    }

    /// The s by s tiles whose lowest corner is the tile (x, y).
    pub fn part(&self, x: u32, y: u32, s: u32) -> Block {
        let mut bits = Vec::new();
        for row in y..y + s {
            let from = WORDS * (row * self.w + x) as usize;
            bits.extend(&self.bits[from..from + WORDS * s as usize]);
        }
        Block { name: format!("big8_{s}x{s}"), w: s, h: s, east: self.east, table: self.table.clone(), bits }
    }

    pub fn size(&self) -> (u32, u32) {
        (self.w, self.h)
    }

    /// The settings of a block that can be decoded.
    pub fn settings(&self) -> Vec<u16> {
        let mut settings = vec![0; SETTINGS * self.tiles()];
        assert!(baseline::read(self.w, self.h, &self.table, &self.bits, &mut settings).is_ok(), "{}", self.name);
        settings
    }

    /// The same block with other settings; as it is where no bits have them.
    pub fn with(&self, settings: &[u16]) -> Block {
        let mut block = self.clone();
        let _ = baseline::write(self.w, self.h, &self.table, settings, &mut block.bits);
        block
    }

    /// Flips a bit: position p of the block, 864 a tile.
    pub fn flip(&mut self, p: usize) {
        self.bits[p / COLUMNS] ^= 1 << (p % COLUMNS);
    }

    /// Sets a bit past the columns of a row, which is wrong.
    pub fn stray(&mut self, row: usize, column: usize) {
        self.bits[row] |= 1 << (COLUMNS + column);
    }

    /// The same block beside a column of logic or RAM.
    pub fn beside_logic(&self) -> Block {
        Block { name: format!("{}_east", self.name), east: 1, ..self.clone() }
    }

    /// The same table with no bit set.
    pub fn empty(&self) -> Block {
        Block { name: format!("empty_{}x{}", self.w, self.h), bits: vec![0; self.bits.len()], ..self.clone() }
    }
}

/// The block of a file of frames, as the report program takes them.
pub fn load(folder: &Path, name: &str) -> Block {
    let path = folder.join(format!("{name}.in"));
    let text = fs::read_to_string(&path).unwrap_or_else(|e| panic!("{}: {e}", path.display()));
    let mut block = Block { name: name.to_string(), w: 0, h: 0, east: 0, table: vec![0; TABLE], bits: Vec::new() };
    for line in text.lines() {
        let bytes: Vec<u8> = (0..line.len() / 2).map(|i| u8::from_str_radix(&line[2 * i..2 * i + 2], 16).unwrap()).collect();
        frame(&mut block, &bytes);
    }
    block
}

fn pair(bytes: &[u8]) -> u16 {
    u16::from_be_bytes([bytes[0], bytes[1]])
}

fn frame(block: &mut Block, bytes: &[u8]) {
    let (kind, data) = (bytes[0], &bytes[1..]);
    match kind {
        1 => (0..3).for_each(|f| block.table[f] = pair(&data[2 * f..])),
        2 => {
            block.table[3] = data[0] as u16;
            data[1..].chunks_exact(2).enumerate().for_each(|(j, p)| block.table[4 + j] = pair(p));
        }
        3 => group(&mut block.table, data),
        4 => (block.w, block.h, block.east) = (data[0] as u32, data[1] as u32, data.get(2).copied().unwrap_or(0) as u32),
        _ => block.bits.extend(rows(data)),
    }
}

/// The rows of a tile, from its bytes.
fn rows(tile: &[u8]) -> [u64; WORDS] {
    let mut rows = [0; WORDS];
    for p in (0..WORDS * COLUMNS).filter(|p| tile[p / 8] >> (p % 8) & 1 == 1) {
        rows[p / COLUMNS] |= 1 << (p % COLUMNS);
    }
    rows
}

fn group(table: &mut [u16], data: &[u8]) {
    let at = 69 + 75 * table[68] as usize;
    let width = data[2] as usize;
    table[68] += 1;
    table[at] = pair(data);
    table[at + 1] = width as u16;
    for k in 0..width {
        table[at + 2 + k] = pair(&data[3 + 2 * k..]);
    }
    let rest = &data[3 + 2 * width..];
    table[at + 10] = rest[0] as u16;
    for (e, entry) in rest[1..].chunks_exact(3).enumerate() {
        table[at + 11 + 2 * e] = entry[0] as u16;
        table[at + 12 + 2 * e] = pair(&entry[1..]);
    }
}

/// A small generator of numbers, the same in every run.
pub struct Random(pub u64);

impl Random {
    pub fn below(&mut self, n: usize) -> usize {
        self.0 ^= self.0 << 13;
        self.0 ^= self.0 >> 7;
        self.0 ^= self.0 << 17;
        (self.0 >> 16) as usize % n
    }

    pub fn pick<T: Copy>(&mut self, items: &[T]) -> T {
        items[self.below(items.len())]
    }

    pub fn bits(&mut self, n: usize) -> Vec<u8> {
        (0..n).map(|_| self.below(2) as u8).collect()
    }
}
