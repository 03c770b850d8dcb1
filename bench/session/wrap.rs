//! Writes BGP messages as MRT records of Type BGP4MP and Subtype MESSAGE_AS4, of so many peers in turn, the
//! first of them AS 64501 at 192.0.2.11.
//!
//! usage: wrap PEERS < messages > file.mrt
use std::io::{self, BufWriter, Read, Write};

fn main() -> io::Result<()> {
    let peers: usize = std::env::args().nth(1).and_then(|word| word.parse().ok()).unwrap_or(1);
    let mut messages = Vec::new();
    io::stdin().lock().read_to_end(&mut messages)?;
    let mut out = BufWriter::new(io::stdout().lock());
    let mut rest = messages.as_slice();
    let mut number = 0;
    while rest.len() >= 19 {
        let (message, later) = rest.split_at(usize::from(u16::from_be_bytes([rest[16], rest[17]])));
        rest = later;
        let peer = (number % peers) as u32;
        out.write_all(&(number as u32 / 100).to_be_bytes())?;
        out.write_all(&[0, 16, 0, 4])?;
        out.write_all(&(20 + message.len() as u32).to_be_bytes())?;
        out.write_all(&(64501 + peer).to_be_bytes())?;
        out.write_all(&64500u32.to_be_bytes())?;
        out.write_all(&[0, 0, 0, 1])?;
        out.write_all(&(0xC000_020B + peer).to_be_bytes())?;
        out.write_all(&[192, 0, 2, 1])?;
        out.write_all(message)?;
        number += 1;
    }
    out.flush()
}
