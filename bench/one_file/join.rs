//! Joins recorded files into one file of all peers, as BIRD and collectors write it: a record of each file in its turn,
//! in the order of their times.
//!
//! usage: join FILE.. >ALL
use std::env;
use std::fs::File;
use std::io::{self, BufReader, BufWriter, Read, Write};

// The octets of an MRT header (RFC 6396, section 2): Timestamp, Type, Subtype, Length.
const HEADER_LEN: usize = 12;

// The next record of a file, and what follows it.
struct Recorded {
    file: BufReader<File>,
    record: Vec<u8>,
}

impl Recorded {
    fn open(path: &str) -> io::Result<Recorded> {
        Ok(Recorded { file: BufReader::new(File::open(path)?), record: Vec::new() })
    }

    // Goes one record on. Answers whether there is one.
    fn advance(&mut self) -> io::Result<bool> {
        let mut header = [0; HEADER_LEN];
        if self.file.read(&mut header[..1])? == 0 {
            return Ok(false);
        }
        self.file.read_exact(&mut header[1..])?;
        let len = u32::from_be_bytes([header[8], header[9], header[10], header[11]]) as usize;
        self.record.clear();
        self.record.extend_from_slice(&header);
        self.record.resize(HEADER_LEN + len, 0);
        self.file.read_exact(&mut self.record[HEADER_LEN..])?;
        Ok(true)
    }

    fn time(&self) -> u32 {
        u32::from_be_bytes([self.record[0], self.record[1], self.record[2], self.record[3]])
    }
}

fn main() -> io::Result<()> {
    let mut files = Vec::new();
    for path in env::args().skip(1) {
        let mut file = Recorded::open(&path)?;
        if file.advance()? {
            files.push(file);
        }
    }
    let mut all = BufWriter::with_capacity(1 << 20, io::stdout().lock());
    let mut time = 0;
    while !files.is_empty() {
        let mut place = 0;
        while place < files.len() {
            if files[place].time() > time {
                place += 1;
                continue;
            }
            all.write_all(&files[place].record)?;
            if files[place].advance()? {
                place += 1;
            } else {
                files.remove(place);
            }
        }
        time = files.iter().map(Recorded::time).min().unwrap_or(time).max(time);
    }
    all.flush()
}
