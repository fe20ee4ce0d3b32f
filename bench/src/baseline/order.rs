//! The order of rows, and combinational loops.
use super::build::{reads, Rows};
use std::cmp::Reverse;
use std::collections::BinaryHeap;

const NONE: u16 = u16::MAX;

/// Who reads each row, as linked lists in one vector, and how many readings each row still waits for.
struct Readers {
    first: Vec<u16>,
    links: Vec<(u16, u16)>,
    waits: Vec<u8>,
}

fn readers(rows: &Rows) -> Readers {
    let n = rows.rows.len();
    let mut readers = Readers { first: vec![NONE; n], links: Vec::with_capacity(n), waits: vec![0; n] };
    for (u, row) in rows.rows.iter().enumerate() {
        for &wire in reads(row) {
            let first = &mut readers.first[rows.index[wire as usize] as usize];
            readers.links.push((u as u16, *first));
            *first = readers.links.len() as u16 - 1;
            readers.waits[u] += 1;
        }
    }
    readers
}

/// The rows in order, or the lowest wire that depends on itself. Rows that get ready behind the cursor wait in the heap; all of
/// them are lower than what is ready ahead of it.
pub fn order(rows: &Rows) -> Result<Vec<u16>, u16> {
    let Readers { first, links, mut waits } = readers(rows);
    let n = waits.len();
    let mut order = Vec::with_capacity(n);
    let mut behind = BinaryHeap::new();
    let mut cursor = 0;
    loop {
        let u = match behind.pop() {
            Some(Reverse(u)) => u,
            None => {
                while cursor < n && waits[cursor] != 0 {
                    cursor += 1;
                }
                if cursor == n {
                    break;
                }
                cursor += 1;
                cursor as u16 - 1
            }
        };
        order.push(u);
        let mut link = first[u as usize];
        while link != NONE {
            let (v, next) = links[link as usize];
            waits[v as usize] -= 1;
            if waits[v as usize] == 0 && (v as usize) < cursor {
                behind.push(Reverse(v));
            }
            link = next;
        }
    }
    if order.len() == n {
        Ok(order)
    } else {
        Err(rows.rows[lowest_loop(rows, &waits)][1])
    }
}

/// The lowest row on a loop, among the rows that still wait: Tarjan's components, with a stack of its own.
fn lowest_loop(rows: &Rows, waits: &[u8]) -> usize {
    let n = waits.len();
    let mut seen = vec![0u32; n];
    let mut low = vec![0u32; n];
    let mut open = vec![false; n];
    let mut component = Vec::new();
    let mut path: Vec<(usize, usize)> = Vec::new();
    let (mut time, mut lowest) = (0, n);
    for root in 0..n {
        if waits[root] == 0 || seen[root] != 0 {
            continue;
        }
        path.push((root, 0));
        while let Some(top) = path.last_mut() {
            let (u, j) = *top;
            if j == 0 {
                time += 1;
                seen[u] = time;
                low[u] = time;
                open[u] = true;
                component.push(u);
            }
            top.1 += 1;
            if let Some(&wire) = reads(&rows.rows[u]).get(j) {
                let d = rows.index[wire as usize] as usize;
                if waits[d] == 0 {
                    continue;
                }
                if d == u {
                    lowest = lowest.min(u);
                } else if seen[d] == 0 {
                    path.push((d, 0));
                } else if open[d] {
                    low[u] = low[u].min(seen[d]);
                }
                continue;
            }
            path.pop();
            if let Some(&(parent, _)) = path.last() {
                low[parent] = low[parent].min(low[u]);
            }
            if low[u] == seen[u] {
                let from = component.iter().rposition(|&v| v == u).unwrap();
                if component.len() - from > 1 {
                    lowest = component[from..].iter().fold(lowest, |a, &v| a.min(v));
                }
                for v in component.drain(from..) {
                    open[v] = false;
                }
            }
        }
    }
    lowest
}
