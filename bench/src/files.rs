//! ASCII files: both readers and writers on the same texts, then the time of each.
use crate::baseline::{self, Answer, Area, COLUMNS, WORDS};
use crate::inputs::Random;
use crate::proved;
use crate::timing::{self, Times};
use crate::{verdict, BUDGET, SWEEPS};
use std::fs;
use std::hint::black_box;
use std::path::Path;

const GOAL: f64 = 1.5;
const DESIGN: &str = "uart_tx";

fn load(data: &Path, name: &str) -> Vec<u8> {
    let path = data.join(format!("{name}.asc"));
    fs::read(&path).unwrap_or_else(|e| panic!("{}: {e}", path.display()))
}

fn tiles(area: Area) -> usize {
    (area.w * area.h) as usize
}

fn area(w: u32, h: u32, x: u32, y: u32) -> Area {
    Area { w, h, x, y }
}

/// The blocks that are timed: the bundled one, and the largest of logic tiles alone.
const AREAS: [Area; 2] = [Area { w: 3, h: 3, x: 5, y: 10 }, Area { w: 6, h: 8, x: 4, y: 9 }];

/// A text and, many times, its bytes once more in sections of other names.
fn longer(text: &[u8], times: usize) -> Vec<u8> {
    let other = String::from_utf8(text.to_vec()).expect("an ASCII file").replace(".device", ".Device").replace(".logic", ".Logic");
    let mut long = text.to_vec();
    (1..times).for_each(|_| long.extend(other.as_bytes()));
    long
}

// ---- the same answers

fn same<T: PartialEq>(what: &str, proved: (Answer, T), baseline: (Answer, T)) -> Result<u32, String> {
    let shown = |answer: &Answer| answer.as_ref().map(|value| *value).map_err(|no| (no.ground, no.place));
    let (one, other) = (shown(&proved.0), shown(&baseline.0));
    if one != other || proved.1 != baseline.1 {
        return Err(format!("{what}: the proved library answers {one:?}, the baseline {other:?}, or their outputs differ"));
    }
    Ok(one.err().map_or(0, |no| no.0))
}

fn compare_read(area: Area, text: &[u8], length: usize) -> Result<u32, String> {
    let [one, other] = [proved::asc_read, baseline::asc_read].map(|read| {
        let mut bits = vec![0x33; length];
        (read(area, text, &mut bits), bits)
    });
    same("asc_read", one, other)
}

fn compare_write(area: Area, bits: &[u64], length: usize) -> Result<u32, String> {
    let [one, other] = [proved::asc_write, baseline::asc_write].map(|write| {
        let mut text = vec![0x33; length];
        (write(area, bits, &mut text), text)
    });
    same("asc_write", one, other)
}

/// So many rows at random.
fn rows_at_random(count: usize, random: &mut Random) -> Vec<u64> {
    (0..count).map(|_| (random.below(1 << 32) as u64) << 22 ^ random.below(1 << 32) as u64).collect()
}

/// A file of a block with a fault in it, most times.
fn damaged(area: Area, random: &mut Random) -> Vec<u8> {
    let bits = rows_at_random(WORDS * tiles(area), random);
    let mut text = vec![0; baseline::asc_length(area).unwrap_or(0) as usize];
    let _ = baseline::asc_write(area, &bits, &mut text);
    let mut lines: Vec<Vec<u8>> = text.split(|&b| b == b'\n').map(<[u8]>::to_vec).collect();
    let pieces: [&[u8]; 12] =
        [b"", b" ", b".", b".comment", b".device 1k", b".device 8k", b".logic_tile 0 0", b".logic_tile 01 1", b".logic_tile 256 1", b".logic_tile 1 1 ", b"x", b"\r"];
    for _ in 0..random.below(3) {
        let (at, other) = (random.below(lines.len()), random.below(lines.len()));
        match random.below(6) {
            0 if lines.len() > 1 => drop(lines.remove(at)),
            1 => lines.insert(at, lines[other].clone()),
            2 => lines.swap(at, other),
            3 | 4 => lines.insert(at, random.pick(&pieces).to_vec()),
            _ if lines[at].is_empty() => (),
            _ => {
                let c = random.below(lines[at].len());
                lines[at][c] = random.pick(b"012 .\rk");
            }
        }
    }
    lines.join(&b'\n')
}

/// Both readers and writers on real files and on damaged ones.
pub fn compare(data: &Path) -> Result<(), String> {
    let mut random = Random(7);
    let mut real = 0;
    for name in ["counter8", DESIGN] {
        let text = load(data, name);
        for (x, y) in (0..14).flat_map(|x| (0..18).map(move |y| (x, y))) {
            for (w, h) in [(1, 1), (3, 3), (6, 8)] {
                compare_read(area(w, h, x, y), &text, WORDS * (w * h) as usize)?;
                real += 1;
            }
        }
    }
    let mut met = [0; 21];
    for _ in 0..4000 {
        let (w, h) = random.pick(&[(1, 1), (2, 1), (1, 2), (2, 2), (3, 2), (1, 1), (2, 1), (9, 1)]);
        let area = area(w, h, random.pick(&[0, 1, 5, 9, 98, 99, 253, 254, u32::MAX]), random.pick(&[0, 1, 7, 9, 98, 254]));
        let text = damaged(area, &mut random);
        let length = WORDS * tiles(area) + (random.below(20) == 0) as usize;
        met[compare_read(area, &text, length)? as usize] += 1;
        let mut bits = rows_at_random(length, &mut random);
        if random.below(4) == 0 {
            let row = random.below(length);
            bits[row] |= 1 << (COLUMNS + random.below(10));
        }
        let length = baseline::asc_length(area).unwrap_or(0) as usize + (random.below(20) == 0) as usize;
        met[compare_write(area, &bits, length)? as usize] += 1;
        same("asc_length", (proved::asc_length(area), ()), (baseline::asc_length(area), ()))?;
    }
    let shown: Vec<String> = (0..21).filter(|&g| met[g] > 0).map(|g| format!("{g}: {}", met[g])).collect();
    println!("ASCII files: same answers and outputs on {real} blocks of real files, 4000 damaged files and 4000 blocks written (by ground: {}).\n", shown.join(", "));
    Ok(())
}

// ---- times

/// One call, timed: reading a text, or writing a block.
struct Row {
    what: String,
    call: &'static str,
    area: Area,
    text: Vec<u8>,
    bits: Vec<u64>,
    times: Times,
}

impl Row {
    fn new(what: &str, call: &'static str, area: Area, text: Vec<u8>) -> Row {
        let mut bits = vec![0; WORDS * tiles(area)];
        assert!(proved::asc_read(area, &text, &mut bits).is_ok(), "{what}: a block of the file");
        let length = baseline::asc_length(area).unwrap_or(0) as usize;
        let text = if call == "asc_write" { vec![0; length] } else { text };
        Row { what: what.to_string(), call, area, text, bits, times: Times::WORST }
    }

    fn measure(&mut self) {
        let (area, text, bits) = (self.area, self.text.clone(), self.bits.clone());
        let times = if self.call == "asc_read" {
            let (mut one, mut other) = (bits.clone(), bits);
            let mut proved = || drop(black_box(proved::asc_read(area, &text, &mut one)));
            let mut baseline = || drop(black_box(baseline::asc_read(area, &text, &mut other)));
            timing::measure(BUDGET, &mut proved, &mut baseline)
        } else {
            let (mut one, mut other) = (text.clone(), text);
            let mut proved = || drop(black_box(proved::asc_write(area, &bits, &mut one)));
            let mut baseline = || drop(black_box(baseline::asc_write(area, &bits, &mut other)));
            timing::measure(BUDGET, &mut proved, &mut baseline)
        };
        self.times = self.times.best(times);
    }
}

fn rows(data: &Path) -> Vec<Row> {
    let text = load(data, DESIGN);
    let mut rows = Vec::new();
    for area in AREAS {
        let what = format!("{DESIGN}.asc, {}x{}", area.w, area.h);
        rows.push(Row::new(&what, "asc_read", area, text.clone()));
        rows.push(Row::new(&format!("{what}, 16 times the bytes"), "asc_read", area, longer(&text, 16)));
        rows.push(Row::new(&what, "asc_write", area, text.clone()));
    }
    rows
}

/// Reading the file as it is and 16 times as long, and writing its blocks.
pub fn measure(data: &Path) {
    println!("\n| file, block | call | bytes | proved, us | baseline, us | ratio | goal | | proved, ns a byte |\n|---|---|---:|---:|---:|---:|---:|---|---:|");
    let mut rows = rows(data);
    for _ in 0..SWEEPS {
        rows.iter_mut().for_each(Row::measure);
    }
    for Row { what, call, text, times, .. } in rows {
        let (ratio, bytes) = (times.ratio(), text.len());
        let each = times.proved * 1000.0 / bytes as f64;
        println!("| {what} | {call} | {bytes} | {:.1} | {:.1} | {ratio:.2} | {GOAL} | {} | {each:.2} |", times.proved, times.baseline, verdict(ratio, GOAL));
    }
}

/// Only calls, for a profiler.
pub fn profile(data: &Path, side: &str, call: &str, times: u32) {
    let row = Row::new(DESIGN, if call == "asc_read" { "asc_read" } else { "asc_write" }, AREAS[0], load(data, DESIGN));
    let (mut bits, mut text) = (row.bits.clone(), row.text.clone());
    for _ in 0..times {
        let _ = black_box(match (side, row.call) {
            ("proved", "asc_read") => proved::asc_read(row.area, &row.text, &mut bits),
            ("proved", _) => proved::asc_write(row.area, &row.bits, &mut text),
            (_, "asc_read") => baseline::asc_read(row.area, &row.text, &mut bits),
            _ => baseline::asc_write(row.area, &row.bits, &mut text),
        });
    }
}
