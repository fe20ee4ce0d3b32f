// The report program once more, from Rust and for blocks up to 8 by 8: reads the frames of an input (01 to 05) and prints the report's own
// lines, for tools/explain.py. Exit status: 0 a yes, 1 a no, 2 it could not be told.
//
//     make && rustc -O examples/build.rs -L target/staticlib -l static=capi -o target/build_rs
//     target/build_rs block.frames | tools/explain.py --input block.frames
#[path = "../include/ice40.rs"]
mod ice40;

use std::io::{Read, Write};
use std::process::ExitCode;
use std::sync::atomic::{AtomicBool, Ordering};

const READ_LIMIT: u64 = 1 << 20; // bytes that are looked at; the longest whole input has 134,621

struct Input {
    w: u32,
    h: u32,
    east: u32, // whether the column to the east of the block is logic or RAM
    table: Vec<u16>,
    bytes: Vec<u8>, // as the frames have them
    bits: Vec<u64>,
}

impl Input {
    fn tiles(&self) -> usize {
        self.bytes.len() / ice40::BYTES_LENGTH
    }

    fn has_size(&self) -> bool {
        [self.w, self.h].iter().all(|n| (1..=ice40::LIMIT).contains(n))
    }

    fn has_all_tiles(&self) -> bool {
        self.tiles() == (self.w * self.h) as usize
    }

    /// The bytes that were taken, as the library reads them. A size that this refuses is refused by building too.
    fn with_bits(mut self) -> Input {
        self.bits = vec![0; ice40::BITS_LENGTH * self.tiles()];
        let (bytes, bits) = (&self.bytes, &mut self.bits);
        unsafe { ice40::ice40_words_of_bytes(self.w, self.h, bytes.as_ptr(), bytes.len(), bits.as_mut_ptr(), bits.len()) };
        self
    }

    /// The wire of a port that is there: the call has no reason for a no.
    fn wire(&self, tile: usize, port: u16) -> u32 {
        ice40::value(unsafe { ice40::ice40_wire_number(self.w, self.h, self.east, tile as u32, port.into()) })
    }
}

/// What is left of a frame; its numbers are taken from the left. `None` where a frame is not what it should be.
struct Frame<'a>(&'a str);

impl<'a> Frame<'a> {
    fn take(&mut self, width: usize) -> Option<u16> {
        let digits = self.0.get(..width).filter(|text| text.bytes().all(|d| b"0123456789ABCDEF".contains(&d)))?;
        self.0 = &self.0[width..];
        u16::from_str_radix(digits, 16).ok()
    }

    /// A count of what follows it; the table has no room for a larger one.
    fn count(&mut self, limit: usize) -> Option<u16> {
        self.take(2).filter(|&count| count as usize <= limit)
    }

    /// The size, and a byte for the column to the east, which may be left out.
    fn size(&mut self, input: &mut Input) -> Option<()> {
        (input.w, input.h) = (self.take(2)?.into(), self.take(2)?.into());
        input.east = if self.0 == "\n" { 0 } else { self.take(2).filter(|&byte| byte <= 1)?.into() };
        Some(())
    }

    fn positions(&mut self, to: &mut [u16]) -> Option<()> {
        to.iter_mut().try_for_each(|position| Some(*position = self.take(4)?))
    }

    fn group(&mut self, group: &mut [u16]) -> Option<()> {
        group[ice40::GROUP_DESTINATION] = self.take(4)?;
        let count = self.count(ice40::POSITION_LIMIT)?;
        group[ice40::GROUP_POSITION_COUNT] = count;
        self.positions(&mut group[ice40::GROUP_POSITION..][..count as usize])?;
        let entries = self.count(ice40::ENTRY_LIMIT)?;
        group[ice40::GROUP_ENTRY_COUNT] = entries;
        for e in 0..entries as usize {
            group[ice40::GROUP_PATTERN + 2 * e] = self.take(2)?;
            group[ice40::GROUP_SOURCE + 2 * e] = self.take(4)?;
        }
        Some(())
    }

    /// Takes a whole frame, which may come after one of the kind `last`: one 01, one 02, the 03s, one 04, the 05s. Its kind.
    fn add_to(&mut self, input: &mut Input, last: u16) -> Option<u16> {
        let kind = self.take(2)?;
        let again = kind == last && (kind == 3 || kind == 5 && !input.has_all_tiles());
        if !(kind == last + 1 || again || (last, kind) == (2, 4)) {
            return None;
        }
        match kind {
            1 => self.positions(&mut input.table[..3])?,
            2 => {
                let count = self.count(ice40::PASSIVE_LIMIT)?;
                input.table[ice40::TABLE_PASSIVE_COUNT] = count;
                self.positions(&mut input.table[ice40::TABLE_PASSIVE..][..count as usize])?
            }
            3 => {
                let at = ice40::table_group(input.table[ice40::TABLE_GROUP_COUNT] as usize);
                self.group(input.table.get_mut(at..at + ice40::GROUP_LENGTH)?)?;
                input.table[ice40::TABLE_GROUP_COUNT] += 1
            }
            4 => self.size(input)?,
            5 => for _ in 0..ice40::BYTES_LENGTH { input.bytes.push(self.take(2)? as u8) },
            _ => return None,
        }
        if self.0 == "\n" { Some(kind) } else { None }
    }
}

fn parse(text: &str) -> Result<Input, String> {
    let mut input = Input { w: 0, h: 0, east: 0, table: vec![0; ice40::TABLE_LENGTH], bytes: vec![], bits: vec![] };
    let (mut last, mut lines) = (0, 0);
    for line in text.split_inclusive('\n') {
        lines += 1;
        last = Frame(line).add_to(&mut input, last).ok_or_else(|| not_due(lines))?;
        if last == 4 && !input.has_size() {
            return Ok(input.with_bits()); // no call takes this size: what follows is not looked at
        }
    }
    if last == 5 && input.has_all_tiles() { Ok(input.with_bits()) } else { Err(not_due(lines + 1)) }
}

fn not_due(line: usize) -> String {
    format!("line {}: not the frame that is due there", line)
}

/// The answer of building: the ground of a no (0 for a yes), and its place or the row count.
fn build(input: &Input) -> (u32, u32) {
    let tiles = input.tiles();
    let [mut list, mut rows] = [(); 2].map(|_| vec![0u16; ice40::LIST_LENGTH * tiles]);
    let [mut wires, mut sources, mut marks, mut queue] = [(); 4].map(|_| vec![0u16; ice40::PORTS_LENGTH * tiles]);
    let mut settings = vec![0u16; ice40::SETTINGS_LENGTH * tiles];
    let answer = unsafe {
        ice40::ice40_build(input.w, input.h, input.east, input.table.as_ptr(), input.table.len(), input.bits.as_ptr(), input.bits.len(),
                           list.as_mut_ptr(), list.len(), settings.as_mut_ptr(), settings.len(), wires.as_mut_ptr(), wires.len(),
                           sources.as_mut_ptr(), sources.len(), rows.as_mut_ptr(), rows.len(), marks.as_mut_ptr(), marks.len(),
                           queue.as_mut_ptr(), queue.len())
    };
    (ice40::ground(answer), ice40::value(answer))
}

/// The settings of a block that is accepted, and so is read: there is no no to look for.
fn settings(input: &Input) -> Vec<u16> {
    let mut settings = vec![0u16; ice40::SETTINGS_LENGTH * input.tiles()];
    unsafe {
        ice40::ice40_read(input.w, input.h, input.table.as_ptr(), input.table.len(), input.bits.as_ptr(), input.bits.len(),
                          settings.as_mut_ptr(), settings.len());
    }
    settings
}

/// Lines 06: driven wire and source wire of each enabled switch, rising by the first.
fn switch_lines(input: &Input, settings: &[u16]) -> String {
    let mut switches = vec![];
    for (t, tile) in settings.chunks(ice40::SETTINGS_LENGTH).enumerate() {
        for g in 0..input.table[ice40::TABLE_GROUP_COUNT] as usize {
            let group = &input.table[ice40::table_group(g)..];
            if let Some(e) = (tile[ice40::SETTINGS_GROUP + g] as usize).checked_sub(1) {
                switches.push((input.wire(t, group[ice40::GROUP_DESTINATION]), input.wire(t, group[ice40::GROUP_SOURCE + 2 * e])));
            }
        }
    }
    switches.sort();
    switches.iter().map(|(driven, source)| format!("06{:04X}{:04X}\n", driven, source)).collect()
}

/// Lines 07: tile, cell, table and flags of each cell that is not all zero.
fn cell_lines(settings: &[u16]) -> String {
    let mut lines = String::new();
    for (t, tile) in settings.chunks(ice40::SETTINGS_LENGTH).enumerate() {
        for i in 0..ice40::CELLS {
            let (lut, flags) = (tile[ice40::SETTINGS_CELL_TABLE + 2 * i], tile[ice40::SETTINGS_CELL_FLAGS + 2 * i]);
            if (lut, flags) != (0, 0) {
                lines += &format!("07{:02X}{:02X}{:04X}{:02X}\n", t, i, lut, flags);
            }
        }
    }
    lines
}

/// Whether standard output was closed when the program was started. Rust's runtime opens /dev/null in its place before main, so that main
/// cannot tell; what stands in .init_array runs before the runtime does.
static CLOSED: AtomicBool = AtomicBool::new(false);

#[used]
#[link_section = ".init_array"]
static LOOK: extern "C" fn() = look;

extern "C" fn look() {
    extern "C" {
        fn fcntl(descriptor: i32, command: i32, ...) -> i32;
    }
    const F_GETFD: i32 = 1;
    CLOSED.store(unsafe { fcntl(1, F_GETFD) } == -1, Ordering::Relaxed);
}

/// Prints the report of a file of frames; whether it is a yes.
fn report() -> Result<bool, String> {
    let path = std::env::args().nth(1).ok_or("usage: build FRAMES")?;
    let mut text = String::new();
    let file = std::fs::File::open(&path).map_err(|error| format!("{}: {}", path, error))?;
    file.take(READ_LIMIT).read_to_string(&mut text).map_err(|error| format!("{}: {}", path, error))?;
    let input = parse(&text)?;
    let (lines, yes) = match build(&input) {
        (0, _) => (switch_lines(&input, &settings(&input)) + &cell_lines(&settings(&input)) + "08000000\n", true),
        (ground, place) => (format!("08{:02X}{:04X}\n", ground, place), false),
    };
    if CLOSED.load(Ordering::Relaxed) {
        return Err("standard output: it is closed".into());
    }
    let mut out = std::io::stdout();
    out.write_all(lines.as_bytes()).and_then(|()| out.flush()).map_err(|error| format!("standard output: {}", error))?;
    Ok(yes)
}

fn main() -> ExitCode {
    match report() {
        Ok(yes) => ExitCode::from(if yes { 0 } else { 1 }),
        Err(text) => {
            eprintln!("build: {}", text);
            ExitCode::from(2)
        }
    }
}
