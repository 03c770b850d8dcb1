//! Writes the dump of the same rows as `rs_dump` does, as a plain program would: it is the baseline of the ratio.
//!
//! usage: plain MESSAGES ROWS ROUNDS DUMP
#[path = "../plain/dump.rs"]
mod dump;
#[allow(dead_code)]
#[path = "../plain/tables.rs"]
mod tables;
#[allow(dead_code)]
#[path = "../plain/update.rs"]
mod update;

use dump::{write_dump, Row};
use std::hint::black_box;
use std::io::{self, Write};
use std::time::Instant;
use tables::Plan;
use update::{updates, Update};

// How far apart, among the rows as they were announced, rows are that follow each other: a prime.
const STRIDE: usize = 611953;

#[derive(Default)]
struct Counter {
    writes: u64,
    octets: u64,
}

impl Write for Counter {
    fn write(&mut self, piece: &[u8]) -> io::Result<usize> {
        self.writes += 1;
        self.octets += black_box(piece).len() as u64;
        Ok(piece.len())
    }

    fn flush(&mut self) -> io::Result<()> {
        Ok(())
    }
}

fn rows(updates: &[Update], count: usize) -> Vec<Row<'_>> {
    let mut rows = Vec::new();
    for (number, update) in updates.iter().enumerate() {
        if let Some(attributes) = &update.attributes {
            for prefix in &update.nlri {
                rows.push(Row {
                    prefix: *prefix,
                    peer: (number % 4) as u16,
                    time: number as u32,
                    attributes,
                });
            }
        }
    }
    rows.truncate(count);
    rows
}

// The same rows in a scattered order, as prefixes in ascending order scatter over the UPDATEs that announced them.
fn scattered<'a>(rows: &[Row<'a>]) -> Vec<Row<'a>> {
    (0..rows.len()).map(|number| rows[number.wrapping_mul(STRIDE) % rows.len()]).collect()
}

fn main() -> io::Result<()> {
    let words: Vec<String> = std::env::args().collect();
    let updates: Vec<Update> = updates(&std::fs::read(&words[1])?).collect();
    let announced = rows(&updates, words[2].parse().expect("ROWS"));
    let rows = scattered(&announced);
    let plan = Plan::of_equals(4, 64501, 0xC000_020B);
    for (order, rows) in [("announced", &announced), ("scattered", &rows)] {
        for _ in 0..words[3].parse().expect("ROUNDS") {
            let mut out = Counter::default();
            let start = Instant::now();
            write_dump(&mut out, "a", &plan, 0, rows.iter().copied())?;
            let elapsed = start.elapsed();
            println!("{order} {} {} {} {}", rows.len(), out.writes, out.octets, elapsed.as_nanos());
        }
    }
    write_dump(&mut std::fs::File::create(&words[4])?, "a", &plan, 0, rows.iter().copied())?;
    Ok(())
}
