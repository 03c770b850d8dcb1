//! Writes realistic UPDATE messages to standard output: 1 to 8 prefixes of /16 to /24, AS_PATHs of 3 to 6,
//! communities in most, MED in some, and now and then a withdrawal. The same number always gives the same
//! messages. With PEERS each route is for two clients alone: its communities are (0, 64500), which refuses it
//! to all, and (64500, AS) of two of so many peers, whose AS numbers begin at 64512.
//!
//! usage: generate COUNT [PEERS] > messages
#[path = "../random.rs"]
mod random;

use random::Random;
use std::io::{self, BufWriter, Write};

fn prefix(random: &mut Random, out: &mut Vec<u8>) {
    let len = 16 + random.below(9) as u8;
    let octets = (1 + random.below(200) as u8, random.next() as u8, random.next() as u8);
    out.push(len);
    out.extend_from_slice(&[octets.0, octets.1]);
    if len > 16 {
        out.push(octets.2);
    }
}

fn attribute(flags: u8, kind: u8, value: &[u8], out: &mut Vec<u8>) {
    out.extend_from_slice(&[flags, kind, value.len() as u8]);
    out.extend_from_slice(value);
}

// The communities of a route for two clients alone.
fn scope(number: u64, peers: u64) -> Vec<u8> {
    let first = 64512 + number % peers;
    let second = 64512 + (number * 7 + 3) % peers;
    let values = [64500, 64500 << 16 | first, 64500 << 16 | second];
    values.iter().flat_map(|value| (*value as u32).to_be_bytes()).collect()
}

fn attributes(random: &mut Random, scope: Option<Vec<u8>>, out: &mut Vec<u8>) {
    attribute(0x40, 1, &[if random.below(10) == 0 { 2 } else { 0 }], out);
    let hops = 3 + random.below(4);
    let mut path = vec![2, hops as u8];
    for hop in 0..hops {
        let number = if hop == 0 { 64501 } else { 1000 + random.below(60000) as u32 };
        path.extend_from_slice(&number.to_be_bytes());
    }
    attribute(0x40, 2, &path, out);
    attribute(0x40, 3, &[192, 0, 2, 11], out);
    if random.below(4) == 0 {
        attribute(0x80, 4, &(random.below(200) as u32).to_be_bytes(), out);
    }
    if let Some(values) = scope {
        attribute(0xC0, 8, &values, out);
    } else if random.below(4) != 0 {
        let mut values = Vec::new();
        for _ in 0..1 + random.below(6) {
            values.extend_from_slice(&(random.next() as u32).to_be_bytes());
        }
        attribute(0xC0, 8, &values, out);
    }
}

fn message(random: &mut Random, scope: Option<Vec<u8>>) -> Vec<u8> {
    let mut withdrawn = Vec::new();
    let mut section = Vec::new();
    let mut nlri = Vec::new();
    if random.below(8) == 0 {
        for _ in 0..1 + random.below(4) {
            prefix(random, &mut withdrawn);
        }
    } else {
        attributes(random, scope, &mut section);
        for _ in 0..1 + random.below(8) {
            prefix(random, &mut nlri);
        }
    }
    let length = 23 + withdrawn.len() + section.len() + nlri.len();
    let mut out = vec![0xff; 16];
    out.extend_from_slice(&(length as u16).to_be_bytes());
    out.push(2);
    out.extend_from_slice(&(withdrawn.len() as u16).to_be_bytes());
    out.extend_from_slice(&withdrawn);
    out.extend_from_slice(&(section.len() as u16).to_be_bytes());
    out.extend_from_slice(&section);
    out.extend_from_slice(&nlri);
    out
}

fn main() -> io::Result<()> {
    let count: u64 = std::env::args().nth(1).and_then(|word| word.parse().ok()).unwrap_or(100_000);
    let peers: Option<u64> = std::env::args().nth(2).and_then(|word| word.parse().ok());
    let mut random = Random(0x9e37_79b9_7f4a_7c15);
    let mut out = BufWriter::new(io::stdout().lock());
    for number in 0..count {
        out.write_all(&message(&mut random, peers.map(|peers| scope(number, peers))))?;
    }
    out.flush()
}
