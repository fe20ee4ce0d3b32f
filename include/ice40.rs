// include/ice40.h for Rust: the functions, lengths and layouts, under the same names without the ICE40_ of the macros. What a call does,
// what `east` says, which slices may overlap, threads and stack stand in the header. A slice is a pointer and a length in numbers.
//
//     #[path = "../include/ice40.rs"]
//     mod ice40;
#![allow(dead_code)]

pub const VERSION: &str = "0.5.0";
pub const STACK_BYTES: usize = 131072;

/// The ground of an answer: 0 for a yes.
pub fn ground(answer: u64) -> u32 {
    (answer >> 32) as u32
}

/// The place of a no, or the value of a yes.
pub fn value(answer: u64) -> u32 {
    answer as u32
}

// Exact lengths, in numbers; a block has as many of each but the table's for every tile. Bits are u64, a row of a tile each with column c at
// weight 2^c; bytes are what frames hold.
pub const LIMIT: u32 = 8;
pub const TILES_LIMIT: usize = 64;
pub const TABLE_LENGTH: usize = 38469;
pub const BITS_LENGTH: usize = 16;
pub const BYTES_LENGTH: usize = 108;
pub const SETTINGS_LENGTH: usize = 595;
pub const PORTS_LENGTH: usize = 506;
pub const LIST_LENGTH: usize = 3542;
pub const STATE_LENGTH: usize = 8;
pub const SWITCHES_LENGTH: usize = 512;

// A routing table: where its parts stand, and within a group from `table_group`.
pub const TABLE_NEG_CLK: usize = 0;
pub const TABLE_CARRY_IN_SET: usize = 1;
pub const TABLE_CHAIN: usize = 2;
pub const TABLE_PASSIVE_COUNT: usize = 3;
pub const TABLE_PASSIVE: usize = 4;
pub const TABLE_GROUP_COUNT: usize = 68;
pub const TABLE_GROUP: usize = 69;
pub const GROUP_LENGTH: usize = 75;
pub const GROUP_DESTINATION: usize = 0;
pub const GROUP_POSITION_COUNT: usize = 1;
pub const GROUP_POSITION: usize = 2;
pub const GROUP_ENTRY_COUNT: usize = 10;
pub const GROUP_PATTERN: usize = 11;
pub const GROUP_SOURCE: usize = 12;
pub const PASSIVE_LIMIT: usize = 64;
pub const GROUP_LIMIT: usize = 512;
pub const POSITION_LIMIT: usize = 8;
pub const ENTRY_LIMIT: usize = 32;

/// Where group g of a table begins.
pub fn table_group(g: usize) -> usize {
    TABLE_GROUP + GROUP_LENGTH * g
}

// A tile's settings.
pub const SETTINGS_NEG_CLK: usize = 0;
pub const SETTINGS_CARRY_IN_SET: usize = 1;
pub const SETTINGS_CHAIN: usize = 2;
pub const SETTINGS_PASSIVE: usize = 3;
pub const SETTINGS_GROUP: usize = 67;
pub const SETTINGS_CELL_TABLE: usize = 579;
pub const SETTINGS_CELL_FLAGS: usize = 580;
pub const FLAG_CARRY: u16 = 1;
pub const FLAG_FLIP_FLOP: u16 = 2;
pub const FLAG_SET: u16 = 4;
pub const FLAG_ASYNCHRONOUS: u16 = 8;

// A list: rows of seven numbers.
pub const ROW_LENGTH: usize = 7;
pub const ROW_KIND: usize = 0;
pub const ROW_WIRE: usize = 1;
pub const ROW_OPERAND: usize = 2;
pub const ROW_TABLE: usize = 6;
pub const KIND_LENT: u16 = 1;
pub const KIND_ZERO: u16 = 2;
pub const KIND_ONE: u16 = 3;
pub const KIND_FLIP_FLOP: u16 = 4;
pub const KIND_COPY: u16 = 5;
pub const KIND_LOOKUP: u16 = 6;
pub const KIND_MAJORITY: u16 = 7;

// A list of differences: rows of five numbers, DIFFERENCES_LIMIT of them a tile at most.
pub const DIFFERENCE_LENGTH: usize = 5;
pub const DIFFERENCE_TILE: usize = 0;
pub const DIFFERENCE_KIND: usize = 1;
pub const DIFFERENCE_INDEX: usize = 2;
pub const DIFFERENCE_OLD: usize = 3;
pub const DIFFERENCE_NEW: usize = 4;
pub const DIFFERS_FIELD: u32 = 1;
pub const DIFFERS_GROUP: u32 = 2;
pub const DIFFERS_CELL: u32 = 3;
pub const DIFFERS_PASSIVE: u32 = 4;
pub const DIFFERENCES_LIMIT: usize = 587;

// A list of contentions: rows of three numbers.
pub const CONTENTION_LENGTH: usize = 3;
pub const CONTENTION_WIRE: usize = 0;
pub const CONTENTION_TILE: usize = 1;
pub const CONTENTION_GROUP: usize = 2;

// A shelf card: five numbers, the leaving wires, `card_feeding`, the feeding wires, zeros.
pub const CARD_W: usize = 0;
pub const CARD_H: usize = 1;
pub const CARD_CELLS: usize = 2;
pub const CARD_FLIP_FLOPS: usize = 3;
pub const CARD_LEAVING: usize = 4;
pub const fn card_feeding(leaving: usize) -> usize {
    5 + leaving
}

// The ends of following a driver: `end` of the value is one of these, `end_wire` the wire.
pub const OPEN: u32 = 1;
pub const ZERO: u32 = 2;
pub const ONE: u32 = 3;
pub const CELL: u32 = 4;
pub const RING: u32 = 5;

pub fn end(value: u32) -> u32 {
    value >> 16
}

pub fn end_wire(value: u32) -> u32 {
    value & 0xFFFF
}

// The ports of a tile that a program asks for most; the header has them all.
pub const CELLS: usize = 8;
pub const PORTS: usize = 506;
pub const PORT_LOCAL: u32 = 336;
pub const PORT_IN: u32 = 372;
pub const PORT_OUT: u32 = 404;
pub const PORT_CLK: u32 = 476;
pub const PORT_CEN: u32 = 477;
pub const PORT_S_R: u32 = 478;
pub const PORT_GLB_NETWK: u32 = 479;
pub const PORT_CARRY_IN: u32 = 487;
pub const PORT_CARRY_IN_MUX: u32 = 488;
pub const PORT_COUT: u32 = 489;
pub const PORT_LOUT: u32 = 497;
pub const PORT_LTIN: u32 = 505;

#[rustfmt::skip]
extern "C" {
    pub fn ice40_wire_number(w: u32, h: u32, east: u32, tile: u32, port: u32) -> u64;
    pub fn ice40_lookup(table: u16, inputs: u32) -> u64;
    pub fn ice40_read(w: u32, h: u32, table: *const u16, table_length: usize, bits: *const u64, bits_length: usize,
                      settings: *mut u16, settings_length: usize) -> u64;
    pub fn ice40_write(w: u32, h: u32, table: *const u16, table_length: usize, settings: *const u16, settings_length: usize,
                       bits: *mut u64, bits_length: usize) -> u64;
    pub fn ice40_bit_count(w: u32, h: u32, bits: *const u64, bits_length: usize, tile: u32) -> u64;
    pub fn ice40_words_of_bytes(w: u32, h: u32, bytes: *const u8, bytes_length: usize, words: *mut u64, words_length: usize) -> u64;
    pub fn ice40_bytes_of_words(w: u32, h: u32, words: *const u64, words_length: usize, bytes: *mut u8, bytes_length: usize) -> u64;
    pub fn ice40_compare(w1: u32, h1: u32, w2: u32, h2: u32, table: *const u16, table_length: usize,
                         first: *const u64, first_length: usize, second: *const u64, second_length: usize,
                         list: *mut u32, list_length: usize, before: *mut u16, before_length: usize,
                         after: *mut u16, after_length: usize) -> u64;
    pub fn ice40_tile_part(w1: u32, h1: u32, w2: u32, h2: u32, first: *const u64, first_length: usize,
                           second: *const u64, second_length: usize, which: u32, tile: u32) -> u64;
    pub fn ice40_build(w: u32, h: u32, east: u32, table: *const u16, table_length: usize, bits: *const u64, bits_length: usize,
                       list: *mut u16, list_length: usize, settings: *mut u16, settings_length: usize,
                       wires: *mut u16, wires_length: usize, sources: *mut u16, sources_length: usize,
                       rows: *mut u16, rows_length: usize, marks: *mut u16, marks_length: usize,
                       queue: *mut u16, queue_length: usize) -> u64;
    pub fn ice40_follow(w: u32, h: u32, east: u32, table: *const u16, table_length: usize, settings: *const u16, settings_length: usize,
                        tile: u32, port: u32, wires: *mut u16, wires_length: usize, sources: *mut u16, sources_length: usize,
                        marks: *mut u16, marks_length: usize) -> u64;
    pub fn ice40_contentions(w: u32, h: u32, east: u32, table: *const u16, table_length: usize, bits: *const u64, bits_length: usize,
                             list: *mut u16, list_length: usize, settings: *mut u16, settings_length: usize,
                             wires: *mut u16, wires_length: usize, heads: *mut u16, heads_length: usize,
                             nexts: *mut u16, nexts_length: usize) -> u64;
    pub fn ice40_step(w: u32, h: u32, east: u32, table: *const u16, table_length: usize, settings: *const u16, settings_length: usize,
                      list: *const u16, list_length: usize, state: *const u8, state_length: usize,
                      before: *const u8, before_length: usize, after: *const u8, after_length: usize,
                      values: *mut u8, values_length: usize, next: *mut u8, next_length: usize,
                      wires: *mut u16, wires_length: usize, own: *mut u16, own_length: usize,
                      marks: *mut u16, marks_length: usize, first: *mut u8, first_length: usize,
                      second: *mut u8, second_length: usize) -> u64;
    pub fn ice40_card(w: u32, h: u32, east: u32, table: *const u16, table_length: usize, bits: *const u64, bits_length: usize,
                      card: *mut u16, card_length: usize, list: *mut u16, list_length: usize, settings: *mut u16, settings_length: usize,
                      wires: *mut u16, wires_length: usize, sources: *mut u16, sources_length: usize,
                      rows: *mut u16, rows_length: usize, marks: *mut u16, marks_length: usize,
                      queue: *mut u16, queue_length: usize) -> u64;
    pub fn ice40_settle(w: u32, h: u32, east: u32, table: *const u16, table_length: usize, settings: *const u16, settings_length: usize,
                        list: *const u16, list_length: usize, state: *const u8, state_length: usize,
                        lent: *const u8, lent_length: usize, values: *mut u8, values_length: usize,
                        wires: *mut u16, wires_length: usize, own: *mut u16, own_length: usize,
                        marks: *mut u16, marks_length: usize) -> u64;
    pub fn ice40_clock(w: u32, h: u32, table: *const u16, table_length: usize, settings: *const u16, settings_length: usize,
                       state: *const u8, state_length: usize, before: *const u8, before_length: usize,
                       after: *const u8, after_length: usize, next: *mut u8, next_length: usize) -> u64;
    pub fn ice40_asc_read(w: u32, h: u32, x: u32, y: u32, text: *const u8, text_length: usize, bits: *mut u64, bits_length: usize) -> u64;
    pub fn ice40_asc_length(w: u32, h: u32, x: u32, y: u32) -> u64;
    pub fn ice40_asc_write(w: u32, h: u32, x: u32, y: u32, bits: *const u64, bits_length: usize, text: *mut u8, text_length: usize) -> u64;
}
