//! The proved library against a baseline without proofs: first the same answers, then the time of each.
//!
//!     bench DATA                          compares, measures and prints the tables; DATA is the folder of the blocks
//!     bench DATA files                    the same for ASCII files alone
//!     bench DATA listings                 the same for comparing two blocks and listing contentions
//!     bench DATA proved BLOCK CALL N      only calls N times (or `baseline`), for a profiler; BLOCK `asc` with the calls asc_read, asc_write;
//!                                         the calls compare and contentions with a row's name as BLOCK
mod baseline;
mod compare;
mod files;
mod inputs;
mod listings;
mod proved;
mod timing;
mod worst;

use compare::Case;
use inputs::Block;
use std::hint::black_box;
use std::path::Path;
use std::process::ExitCode;
use std::time::Duration;
use timing::Times;

const USAGE: &str = "usage: bench DATA [files | listings | proved|baseline BLOCK CALL N]";
const CALLS: [&str; 6] = ["read", "write", "step", "settle", "clock", "build"];
/// Those that need a list, so that a block which building refuses has none of them.
const LISTED: [&str; 3] = ["step", "settle", "clock"];

/// How often everything is measured, and how long each time.
const SWEEPS: u32 = 4;
const BUDGET: Duration = Duration::from_millis(100);

/// The blocks that are measured, and whether each is real or made to be hard.
fn blocks(data: &Path) -> Vec<(Block, bool)> {
    let big = inputs::load(data, "big8_8x8");
    let mut blocks: Vec<(Block, bool)> = ["counter8_1x1", "uart_tx_3x3"].map(|name| (inputs::load(data, name), true)).into();
    blocks.push((accepted_part(&big, 4), true));
    blocks.push((big.clone(), true));
    blocks.push((big.beside_logic(), true));
    blocks.push((big.empty(), true));
    let made = [worst::chain_block(), worst::loop_block(), worst::groups_block(), worst::entries_block()];
    let crowded = [worst::tile_wire_block(), worst::row_wire_block()];
    blocks.extend(made.into_iter().chain(crowded).map(|block| (block, false)));
    blocks
}

/// A part of a block that is accepted by itself, from the lowest corner that has one.
fn accepted_part(big: &Block, s: u32) -> Block {
    let corners = (0..=big.h - s).flat_map(|y| (0..=big.w - s).map(move |x| (x, y)));
    corners.map(|(x, y)| big.part(x, y, s)).find(|part| Case::new(part.clone()).rows.is_some()).expect("an accepted part")
}

/// One call by the proved library, and one by the baseline.
fn call_proved(case: &mut Case, call: &str) {
    let mut room = std::mem::replace(&mut case.room, proved::Room::new(0));
    let b = &case.block;
    let _ = black_box(match call {
        "read" => proved::read(b.w, b.h, &b.table, &b.bits, &mut case.settings),
        "write" => proved::write(b.w, b.h, &b.table, &case.settings, &mut case.written),
        "build" => proved::build(b.w, b.h, b.east, &b.table, &b.bits, &mut case.list, &mut room),
        "card" => proved::card(b.w, b.h, b.east, &b.table, &b.bits, &mut case.card, &mut room),
        "step" => {
            let (mut values, mut next) = (std::mem::take(&mut case.values), std::mem::take(&mut case.next));
            let answer = proved::step(&case.step(), &mut values, &mut next, &mut room);
            (case.values, case.next) = (values, next);
            answer
        }
        "settle" => {
            let mut values = std::mem::take(&mut case.values);
            let answer = proved::settle(&case.settle(), &mut values, &mut room);
            case.values = values;
            answer
        }
        _ => {
            let mut next = std::mem::take(&mut case.next);
            let answer = proved::clock(&case.clock(), &mut next);
            case.next = next;
            answer
        }
    });
    case.room = room;
}

fn call_baseline(case: &mut Case, call: &str) {
    let b = &case.block;
    let _ = black_box(match call {
        "read" => baseline::read(b.w, b.h, &b.table, &b.bits, &mut case.settings),
        "write" => baseline::write(b.w, b.h, &b.table, &case.settings, &mut case.written),
        "build" => baseline::build(b.w, b.h, b.east, &b.table, &b.bits, &mut case.list),
        "step" => {
            let (mut values, mut next) = (std::mem::take(&mut case.values), std::mem::take(&mut case.next));
            let answer = baseline::step(&case.step(), &mut values, &mut next);
            (case.values, case.next) = (values, next);
            answer
        }
        "settle" => {
            let mut values = std::mem::take(&mut case.values);
            let answer = baseline::settle(&case.settle(), &mut values);
            case.values = values;
            answer
        }
        _ => {
            let mut next = std::mem::take(&mut case.next);
            let answer = baseline::clock(&case.clock(), &mut next);
            case.next = next;
            answer
        }
    });
}

/// A block, a call and the best times so far.
struct Measured {
    block: Block,
    call: &'static str,
    times: Times,
}

impl Measured {
    fn measure(&mut self) {
        let (mut a, mut b) = (Case::new(self.block.clone()), Case::new(self.block.clone()));
        let call = self.call;
        let times = timing::measure(BUDGET, &mut || call_proved(&mut a, call), &mut || call_baseline(&mut b, call));
        self.times = self.times.best(times);
    }
}

/// Every call on every block, in several sweeps, so that a slow moment of the machine does not spoil a whole row.
fn measure<'a>(blocks: impl Iterator<Item = &'a Block>) -> Vec<Measured> {
    let mut all = Vec::new();
    for block in blocks {
        let accepted = Case::new(block.clone()).rows.is_some();
        let calls = CALLS.iter().filter(|&call| accepted || !LISTED.contains(call));
        all.extend(calls.map(|call| Measured { block: block.clone(), call, times: Times::WORST }));
    }
    for _ in 0..SWEEPS {
        all.iter_mut().for_each(Measured::measure);
    }
    all
}

/// The largest ratio that is aimed at.
fn goal(call: &str, real: bool) -> f64 {
    match (call, real) {
        ("build", true) => 2.0,
        ("build", false) => 4.0,
        _ => 1.5,
    }
}

fn verdict(value: f64, goal: f64) -> &'static str {
    if value <= goal {
        "ok"
    } else {
        "above"
    }
}

fn compare_all(blocks: &[(Block, bool)], data: &Path) -> Result<(), String> {
    for (block, _) in blocks {
        compare::all(&Case::new(block.clone()))?;
    }
    let small: Vec<Block> = ["counter8_1x1", "latch_1x1", "counter8_2x2", "shift_arst_2x2", "ripplediv_loc_2x2", "uart_tx_3x3"].map(|name| inputs::load(data, name)).into();
    let met = compare::damaged(&small, 4000)?;
    let shown: Vec<String> = (0..21).filter(|&g| met[g] > 0).map(|g| format!("{g}: {}", met[g])).collect();
    println!("Same answers and outputs on {} blocks and 4000 damaged inputs (by ground: {}).\n", blocks.len(), shown.join(", "));
    Ok(())
}

fn ratios(blocks: &[(Block, bool)]) {
    println!("| block | call | proved, us | baseline, us | ratio | goal | |\n|---|---|---:|---:|---:|---:|---|");
    for Measured { block, call, times } in measure(blocks.iter().map(|(block, _)| block)) {
        let real = blocks.iter().any(|(b, real)| b.name == block.name && *real);
        let (ratio, goal) = (times.ratio(), goal(call, real));
        println!("| {} | {call} | {:.1} | {:.1} | {ratio:.2} | {goal} | {} |", block.name, times.proved, times.baseline, verdict(ratio, goal));
    }
}

/// A shelf card against building the same block, both by the proved library.
fn cards(blocks: &[(Block, bool)]) {
    println!("\n| block | card, us | build, us | ratio | goal | |\n|---|---:|---:|---:|---:|---|");
    for (block, _) in blocks.iter().filter(|(block, _)| Case::new(block.clone()).rows.is_some()) {
        let (mut a, mut b) = (Case::new(block.clone()), Case::new(block.clone()));
        let mut best = Times::WORST;
        for _ in 0..SWEEPS {
            best = best.best(timing::measure(BUDGET, &mut || call_proved(&mut a, "card"), &mut || call_proved(&mut b, "build")));
        }
        println!("| {} | {:.1} | {:.1} | {:.2} | 1.5 | {} |", block.name, best.proved, best.baseline, best.ratio(), verdict(best.ratio(), 1.5));
    }
}

/// The proved library on parts of the real 8 by 8 block, and its growth from 4 by 4.
fn growth(big: &Block) {
    println!("\n| size | wires | read, us | write, us | step, us | settle, us | clock, us | build, us | build, ns a wire |\n|---|---:|---:|---:|---:|---:|---:|---:|---:|");
    let parts = [1, 2, 3, 4, 6, 8].map(|s| accepted_part(big, s));
    let all = measure(parts.iter());
    let mut four = [0.0; CALLS.len()];
    let mut eight = [0.0; CALLS.len()];
    for (part, times) in parts.iter().zip(all.chunks(CALLS.len())) {
        let wires = Case::new(part.clone()).rows.unwrap();
        let times = [0, 1, 2, 3, 4, 5].map(|call: usize| times[call].times.proved);
        let [read, write, step, settle, clock, build] = times;
        let (w, h) = (part.w, part.h);
        println!("| {w}x{h} | {wires} | {read:.1} | {write:.1} | {step:.1} | {settle:.1} | {clock:.1} | {build:.1} | {:.1} |", build * 1000.0 / wires as f64);
        match w {
            4 => four = times,
            8 => eight = times,
            _ => (),
        }
    }
    println!("\n| growth, 8x8 / 4x4 | ratio | goal | |\n|---|---:|---:|---|");
    for ((call, four), eight) in CALLS.iter().zip(four).zip(eight) {
        println!("| {call} | {:.2} | 6 | {} |", eight / four, verdict(eight / four, 6.0));
    }
}

/// One of the words that may stand in a place, or what those are.
fn one_of(what: &str, word: &str, words: &[&str]) -> Result<(), String> {
    if words.contains(&word) {
        return Ok(());
    }
    Err(format!("{word} is no {what}: {}", words.join(", ")))
}

/// How often a reader is called, where it is one.
fn calls(side: &str, times: &str) -> Result<u32, String> {
    one_of("reader", side, &["proved", "baseline"])?;
    times.parse().map_err(|_| format!("{times} is no number of times"))
}

fn profile(blocks: Vec<(Block, bool)>, side: &str, name: &str, call: &str, times: &str) -> Result<(), String> {
    let times = calls(side, times)?;
    one_of("block", name, &blocks.iter().map(|(block, _)| block.name.as_str()).collect::<Vec<_>>())?;
    let known: Vec<&str> = CALLS.into_iter().chain((side == "proved").then_some("card")).collect(); // a card has no baseline
    one_of("call", call, &known)?;
    let (block, _) = blocks.into_iter().find(|(block, _)| block.name == name).unwrap();
    let mut case = Case::new(block);
    if call == "step" && case.rows.is_none() {
        return Err(format!("{name} is refused by building and has no step"));
    }
    if LISTED.contains(&call) && case.rows.is_none() {
        return Err(format!("{name} is refused by building and has no list to {call} with"));
    }
    for _ in 0..times {
        match side {
            "proved" => call_proved(&mut case, call),
            _ => call_baseline(&mut case, call),
        }
    }
    Ok(())
}

fn profile_listing(data: &Path, side: &str, what: &str, call: &str, times: &str) -> Result<(), String> {
    listings::profile(data, side, what, call, calls(side, times)?)
}

fn profile_files(data: &Path, side: &str, call: &str, times: &str) -> Result<(), String> {
    let times = calls(side, times)?;
    one_of("call", call, &["asc_read", "asc_write"])?;
    files::profile(data, side, call, times);
    Ok(())
}

fn run(words: &[String]) -> Result<(), String> {
    let (data, rest) = words.split_first().ok_or(USAGE)?;
    let data = Path::new(data);
    if !data.join("big8_8x8.in").exists() {
        return Err(format!("{}: the blocks are not there", data.display()));
    }
    match rest {
        [] => (),
        [word] if word == "files" => {
            files::compare(data)?;
            files::measure(data);
            return Ok(());
        }
        [word] if word == "listings" => {
            listings::same(data)?;
            listings::measure(data);
            return Ok(());
        }
        [side, name, call, times] if call == "compare" || call == "contentions" => return profile_listing(data, side, name, call, times),
        [side, name, call, times] if name == "asc" => return profile_files(data, side, call, times),
        [side, name, call, times] => return profile(blocks(data), side, name, call, times),
        _ => return Err(USAGE.to_string()),
    }
    let blocks = blocks(data);
    compare_all(&blocks, data)?;
    files::compare(data)?;
    listings::same(data)?;
    ratios(&blocks);
    cards(&blocks);
    growth(&inputs::load(data, "big8_8x8"));
    files::measure(data);
    listings::measure(data);
    Ok(())
}

fn main() -> ExitCode {
    let words: Vec<String> = std::env::args().skip(1).collect();
    match run(&words) {
        Ok(()) => ExitCode::SUCCESS,
        Err(text) => {
            eprintln!("bench: {text}");
            ExitCode::from(2)
        }
    }
}
