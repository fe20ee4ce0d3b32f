//! The proved library, as include/ice40.rs declares it: a slice goes as a pointer and a length.
#[path = "../../include/ice40.rs"]
mod ice40;

use crate::baseline::{Answer, Area, Clock, No, Settle, Step, PORTS, ROW, SETTINGS};
use ice40::{
    ice40_asc_length, ice40_asc_read, ice40_asc_write, ice40_build, ice40_card, ice40_clock, ice40_compare, ice40_contentions, ice40_read, ice40_settle,
    ice40_step, ice40_write,
};

/// The work room of a block: what building needs, what a card needs besides, what a step needs, and what settling needs.
pub struct Room {
    build: [Vec<u16>; 6],
    list: Vec<u16>,
    step: [Vec<u16>; 3],
    bytes: [Vec<u8>; 2],
    settle: [Vec<u16>; 3],
}

impl Room {
    /// Work room for n tiles, full of something.
    pub fn new(n: usize) -> Room {
        let ports = PORTS * n;
        Room {
            build: [SETTINGS * n, ports, ports, ROW * ports, ports, ports].map(|length| vec![0x5555; length]),
            list: vec![0x5555; ROW * ports],
            step: [(); 3].map(|_| vec![0x5555; ports]),
            bytes: [(); 2].map(|_| vec![0x55; ports]),
            settle: [(); 3].map(|_| vec![0x5555; ports]),
        }
    }

    /// Whether a build left zeros; whether a step did; whether settling did.
    pub fn built_clean(&self) -> bool {
        self.build.iter().flatten().all(|&number| number == 0)
    }

    pub fn stepped_clean(&self) -> bool {
        self.step.iter().flatten().all(|&number| number == 0) && self.bytes.iter().flatten().all(|&byte| byte == 0)
    }

    pub fn settled_clean(&self) -> bool {
        self.settle.iter().flatten().all(|&number| number == 0)
    }
}

/// The work room of `compare`, and of `contentions`, for n tiles, full of something.
pub fn compare_room(n: usize) -> [Vec<u16>; 2] {
    [(); 2].map(|_| vec![0x5555; SETTINGS * n])
}

pub fn contentions_room(n: usize) -> [Vec<u16>; 4] {
    [SETTINGS, PORTS, PORTS, 512].map(|length| vec![0x5555; length * n])
}

/// The ground and the place of a no, or the value of a yes.
fn unpack(answer: u64) -> Answer {
    match ice40::ground(answer) {
        0 => Ok(ice40::value(answer)),
        ground => Err(No { ground, place: ice40::value(answer) }),
    }
}

pub fn read(w: u32, h: u32, table: &[u16], bits: &[u64], settings: &mut [u16]) -> Answer {
    unpack(unsafe {
        ice40_read(w, h, table.as_ptr(), table.len(), bits.as_ptr(), bits.len(), settings.as_mut_ptr(), settings.len())
    })
}

pub fn write(w: u32, h: u32, table: &[u16], settings: &[u16], bits: &mut [u64]) -> Answer {
    unpack(unsafe {
        ice40_write(w, h, table.as_ptr(), table.len(), settings.as_ptr(), settings.len(), bits.as_mut_ptr(), bits.len())
    })
}

pub fn build(w: u32, h: u32, east: u32, table: &[u16], bits: &[u64], list: &mut [u16], room: &mut Room) -> Answer {
    let [settings, wires, sources, rows, marks, queue] = &mut room.build;
    unpack(unsafe {
        ice40_build(
            w, h, east,
            table.as_ptr(), table.len(),
            bits.as_ptr(), bits.len(),
            list.as_mut_ptr(), list.len(),
            settings.as_mut_ptr(), settings.len(),
            wires.as_mut_ptr(), wires.len(),
            sources.as_mut_ptr(), sources.len(),
            rows.as_mut_ptr(), rows.len(),
            marks.as_mut_ptr(), marks.len(),
            queue.as_mut_ptr(), queue.len(),
        )
    })
}

/// Sizes are pairs of W and H.
pub fn compare(one: (u32, u32), other: (u32, u32), table: &[u16], first: &[u64], second: &[u64], list: &mut [u32], room: &mut [Vec<u16>; 2]) -> Answer {
    let [before, after] = room;
    unpack(unsafe {
        ice40_compare(
            one.0, one.1, other.0, other.1,
            table.as_ptr(), table.len(),
            first.as_ptr(), first.len(),
            second.as_ptr(), second.len(),
            list.as_mut_ptr(), list.len(),
            before.as_mut_ptr(), before.len(),
            after.as_mut_ptr(), after.len(),
        )
    })
}

pub fn contentions(w: u32, h: u32, east: u32, table: &[u16], bits: &[u64], list: &mut [u16], room: &mut [Vec<u16>; 4]) -> Answer {
    let [settings, wires, heads, nexts] = room;
    unpack(unsafe {
        ice40_contentions(
            w, h, east,
            table.as_ptr(), table.len(),
            bits.as_ptr(), bits.len(),
            list.as_mut_ptr(), list.len(),
            settings.as_mut_ptr(), settings.len(),
            wires.as_mut_ptr(), wires.len(),
            heads.as_mut_ptr(), heads.len(),
            nexts.as_mut_ptr(), nexts.len(),
        )
    })
}

pub fn step(s: &Step, values: &mut [u8], next: &mut [u8], room: &mut Room) -> Answer {
    let [wires, own, marks] = &mut room.step;
    let [first, second] = &mut room.bytes;
    unpack(unsafe {
        ice40_step(
            s.w, s.h, s.east,
            s.table.as_ptr(), s.table.len(),
            s.settings.as_ptr(), s.settings.len(),
            s.list.as_ptr(), s.list.len(),
            s.state.as_ptr(), s.state.len(),
            s.before.as_ptr(), s.before.len(),
            s.after.as_ptr(), s.after.len(),
            values.as_mut_ptr(), values.len(),
            next.as_mut_ptr(), next.len(),
            wires.as_mut_ptr(), wires.len(),
            own.as_mut_ptr(), own.len(),
            marks.as_mut_ptr(), marks.len(),
            first.as_mut_ptr(), first.len(),
            second.as_mut_ptr(), second.len(),
        )
    })
}

pub fn card(w: u32, h: u32, east: u32, table: &[u16], bits: &[u64], card: &mut [u16], room: &mut Room) -> Answer {
    let [settings, wires, sources, rows, marks, queue] = &mut room.build;
    let list = &mut room.list;
    unpack(unsafe {
        ice40_card(
            w, h, east,
            table.as_ptr(), table.len(),
            bits.as_ptr(), bits.len(),
            card.as_mut_ptr(), card.len(),
            list.as_mut_ptr(), list.len(),
            settings.as_mut_ptr(), settings.len(),
            wires.as_mut_ptr(), wires.len(),
            sources.as_mut_ptr(), sources.len(),
            rows.as_mut_ptr(), rows.len(),
            marks.as_mut_ptr(), marks.len(),
            queue.as_mut_ptr(), queue.len(),
        )
    })
}

pub fn settle(s: &Settle, values: &mut [u8], room: &mut Room) -> Answer {
    let [wires, own, marks] = &mut room.settle;
    unpack(unsafe {
        ice40_settle(
            s.w, s.h, s.east,
            s.table.as_ptr(), s.table.len(),
            s.settings.as_ptr(), s.settings.len(),
            s.list.as_ptr(), s.list.len(),
            s.state.as_ptr(), s.state.len(),
            s.lent.as_ptr(), s.lent.len(),
            values.as_mut_ptr(), values.len(),
            wires.as_mut_ptr(), wires.len(),
            own.as_mut_ptr(), own.len(),
            marks.as_mut_ptr(), marks.len(),
        )
    })
}

pub fn clock(c: &Clock, next: &mut [u8]) -> Answer {
    unpack(unsafe {
        ice40_clock(
            c.w, c.h,
            c.table.as_ptr(), c.table.len(),
            c.settings.as_ptr(), c.settings.len(),
            c.state.as_ptr(), c.state.len(),
            c.before.as_ptr(), c.before.len(),
            c.after.as_ptr(), c.after.len(),
            next.as_mut_ptr(), next.len(),
        )
    })
}

pub fn asc_read(a: Area, text: &[u8], bits: &mut [u64]) -> Answer {
    unpack(unsafe { ice40_asc_read(a.w, a.h, a.x, a.y, text.as_ptr(), text.len(), bits.as_mut_ptr(), bits.len()) })
}

pub fn asc_length(a: Area) -> Answer {
    unpack(unsafe { ice40_asc_length(a.w, a.h, a.x, a.y) })
}

pub fn asc_write(a: Area, bits: &[u64], text: &mut [u8]) -> Answer {
    unpack(unsafe { ice40_asc_write(a.w, a.h, a.x, a.y, bits.as_ptr(), bits.len(), text.as_mut_ptr(), text.len()) })
}
