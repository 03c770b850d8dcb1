//! The dump of a client's table (RFC 6396, section 4.3), in pieces, as `rs_dump` writes it.
use crate::tables::Plan;
use crate::update::{Attributes, Prefix};
use std::io::{self, Write};

const PIECE_LEN: usize = 65536;

// A piece, and the longest record behind it.
const BUFFER_LEN: usize = PIECE_LEN + 4104;

#[derive(Clone, Copy)]
pub struct Row<'a> {
    pub prefix: Prefix,
    pub peer: u16,
    pub time: u32,
    pub attributes: &'a Attributes,
}

/// Appends the header of a record.
pub fn put_header(buffer: &mut Vec<u8>, time: u32, subtype: u16, body_len: usize) {
    buffer.extend_from_slice(&time.to_be_bytes());
    buffer.extend_from_slice(&13u16.to_be_bytes());
    buffer.extend_from_slice(&subtype.to_be_bytes());
    buffer.extend_from_slice(&(body_len as u32).to_be_bytes());
}

/// Appends the record of the peers of a client's dump.
pub fn put_peers(buffer: &mut Vec<u8>, name: &str, plan: &Plan, time: u32) {
    put_header(buffer, time, 1, 8 + name.len() + 13 * plan.peers.len());
    buffer.extend_from_slice(&plan.address.to_be_bytes());
    buffer.extend_from_slice(&(name.len() as u16).to_be_bytes());
    buffer.extend_from_slice(name.as_bytes());
    buffer.extend_from_slice(&(plan.peers.len() as u16).to_be_bytes());
    for peer in &plan.peers {
        buffer.push(2);
        for number in [peer.id, peer.address, peer.asn] {
            buffer.extend_from_slice(&number.to_be_bytes());
        }
    }
}

fn put_row(buffer: &mut Vec<u8>, time: u32, sequence: u32, row: &Row) {
    let octets = (usize::from(row.prefix.len) + 7) / 8;
    let spelling = &row.attributes.spelling;
    put_header(buffer, time, 2, 15 + octets + spelling.len());
    buffer.extend_from_slice(&sequence.to_be_bytes());
    buffer.push(row.prefix.len);
    buffer.extend_from_slice(&row.prefix.address.to_be_bytes()[..octets]);
    buffer.extend_from_slice(&1u16.to_be_bytes());
    buffer.extend_from_slice(&row.peer.to_be_bytes());
    buffer.extend_from_slice(&row.time.to_be_bytes());
    buffer.extend_from_slice(&(spelling.len() as u16).to_be_bytes());
    buffer.extend_from_slice(spelling);
}

/// Writes the dump of a client with its rows, which come in the order of their prefixes. Answers how many
/// there are.
pub fn write_dump<'a>(
    out: &mut impl Write,
    name: &str,
    plan: &Plan,
    time: u32,
    rows: impl Iterator<Item = Row<'a>>,
) -> io::Result<u32> {
    let mut buffer = Vec::with_capacity(BUFFER_LEN);
    put_peers(&mut buffer, name, plan, time);
    let mut sequence = 0;
    for row in rows {
        if buffer.len() >= PIECE_LEN {
            out.write_all(&buffer)?;
            buffer.clear();
        }
        put_row(&mut buffer, time, sequence, &row);
        sequence += 1;
    }
    out.write_all(&buffer)?;
    Ok(sequence)
}
