//! The reader once more, without proofs: safe Rust over the same lent layouts, written for speed and apart from the proved text.
//!
//! Each call makes the checks of document 01 in their order and answers a value or a ground with its place. It takes memory from the
//! heap where the proved library is lent a work room.
mod asc;
mod build;
mod clock;
mod codec;
mod compare;
mod contentions;
mod order;
mod settle;
mod step;
mod table;
mod wires;

pub use asc::{asc_length, asc_read, asc_write, Area};
pub use build::build;
pub use clock::{clock, Clock};
pub use codec::{read, write};
pub use compare::compare;
pub use contentions::contentions;
pub use settle::{settle, Settle};
pub use step::{step, Step};

/// A ground's number and place.
pub struct No {
    pub ground: u32,
    pub place: u32,
}

pub type Answer = Result<u32, No>;

pub const PORTS: usize = 506;
pub const CELLS: usize = 8;
/// Words of a tile, a row each, and the columns of a row.
pub const WORDS: usize = 16;
pub const COLUMNS: usize = 54;
pub const SETTINGS: usize = 595;
pub const TABLE: usize = 38469;
pub const ROW: usize = 7;

/// The length of a row of `compare`'s list, and of `contentions`'.
pub const CHANGE: usize = 5;
pub const CONTENTION: usize = 3;

/// Where passive bits, groups and cells stand in a tile's settings.
const PASSIVES_FROM: usize = 3;
const GROUPS_FROM: usize = 67;
const CELLS_FROM: usize = 579;

/// First ports of the ranges that are named in the code.
const LOCAL: usize = 336;
const IN: usize = 372;
const OUT: usize = 404;
const NEIGH: usize = 412;
const CLK: usize = 476;
const CEN: usize = 477;
const S_R: usize = 478;
const GLB: usize = 479;
const CARRY_IN: usize = 487;
const CARRY_IN_MUX: usize = 488;
const COUT: usize = 489;
const LOUT: usize = 497;
const LTIN: usize = 505;

/// Flags of a cell.
const CARRY: u16 = 1;
const FLIP_FLOP: u16 = 2;
const SET: u16 = 4;
const ASYNC: u16 = 8;

/// The neighbours in the order of their ports, as steps east and north.
const NEIGHBOURS: [(i32, i32); 8] = [(-1, -1), (0, -1), (1, -1), (-1, 0), (1, 0), (-1, 1), (0, 1), (1, 1)];

fn no(ground: u32, place: usize) -> No {
    No { ground, place: place as u32 }
}

/// The number of tiles, or ground 1.
fn tiles(w: u32, h: u32) -> Result<usize, No> {
    let good = 1..=8;
    if good.contains(&w) && good.contains(&h) {
        Ok((w * h) as usize)
    } else {
        Err(no(1, 0))
    }
}

/// The same for a call that rests on joins: `east` is 1 where the column to the east of the block is logic or RAM, else 0.
fn joined_tiles(w: u32, h: u32, east: u32) -> Result<usize, No> {
    if east < 2 {
        tiles(w, h)
    } else {
        Err(no(1, 0))
    }
}

/// Where a set bit past the columns of a row is at fault, if one is: the lowest such row, at its last column.
fn stray(bits: &[u64]) -> Option<usize> {
    bits.iter().position(|row| row >> COLUMNS != 0).map(|r| COLUMNS * r + COLUMNS - 1)
}

/// Ground 2, from pairs of a length and what it must be.
fn lengths(pairs: &[(usize, usize)]) -> Result<(), No> {
    if pairs.iter().all(|(a, b)| a == b) {
        Ok(())
    } else {
        Err(no(2, 0))
    }
}
