//! Writes the dumps of some clients side by side (RFC 6396, section 4.3), as `bench/plain/dump.rs` writes each.
use crate::decide::{Choice, EACH};
use crate::plain_dump::{put_header, put_peers};
use crate::store::{Arena, Change};
use crate::tables::Plan;
use std::fs::File;
use std::io::{self, Write};
use std::ops::Range;
use std::path::Path;

const PIECE_LEN: usize = 1 << 15;
// Where the Sequence Number of a record stands, and the longest record.
const SEQUENCE: Range<usize> = 12..16;
const LONGEST_RECORD: usize = 4136;

// How many choices ahead of the row the attributes are asked for.
const AHEAD: usize = 16;

/// What the dumps are made of: the exchange, the attributes of each peer, and the choices by the first octet.
pub struct Tables<'a> {
    pub plan: &'a Plan,
    pub arenas: &'a [Arena],
    pub choices: &'a [Vec<Choice>],
}

struct Dump {
    file: File,
    // What is not yet written. It has room for a piece and a record.
    buffer: Vec<u8>,
    rows: u32,
}

impl Dump {
    fn start(out: &Path, client: usize, plan: &Plan) -> io::Result<Dump> {
        let name = format!("p{client}");
        let mut buffer = Vec::with_capacity(PIECE_LEN + LONGEST_RECORD);
        put_peers(&mut buffer, &name, plan, 0);
        Ok(Dump { file: File::create(out.join(name + ".mrt"))?, buffer, rows: 0 })
    }

    #[inline]
    fn put(&mut self, record: &[u8]) -> io::Result<()> {
        if self.buffer.len() >= PIECE_LEN {
            self.write_piece()?;
        }
        let start = self.buffer.len();
        self.buffer.extend_from_slice(record);
        self.buffer[start..][SEQUENCE].copy_from_slice(&self.rows.to_be_bytes());
        self.rows += 1;
        Ok(())
    }

    // Takes the last record back: no piece was written since.
    fn take_back(&mut self, len: usize) {
        self.buffer.truncate(self.buffer.len() - len);
        self.rows -= 1;
    }

    #[cold]
    fn write_piece(&mut self) -> io::Result<()> {
        self.file.write_all(&self.buffer[..PIECE_LEN])?;
        self.buffer.drain(..PIECE_LEN);
        Ok(())
    }
}

impl Tables<'_> {
    /// Writes the dumps of some clients. Answers how many rows each one has.
    pub fn write_dumps(&self, out: &Path, clients: Range<usize>) -> io::Result<Vec<u32>> {
        let mut dumps: Vec<Dump> =
            clients.clone().map(|client| Dump::start(out, client, self.plan)).collect::<io::Result<_>>()?;
        let (mut shared, mut own) = (Vec::new(), Vec::new());
        for (first_octet, choices) in self.choices.iter().enumerate() {
            for (place, choice) in choices.iter().enumerate() {
                if let Some(later) = choices.get(place + AHEAD) {
                    self.prefetch(later, &clients);
                }
                if choice.client == EACH {
                    self.spell(&mut shared, first_octet, choice.route);
                    dumps.iter_mut().try_for_each(|dump| dump.put(&shared))?;
                } else if clients.contains(&usize::from(choice.client)) {
                    let dump = &mut dumps[usize::from(choice.client) - clients.start];
                    dump.take_back(shared.len());
                    if choice.route != Change::NONE {
                        self.spell(&mut own, first_octet, choice.route);
                        dump.put(&own)?;
                    }
                }
            }
        }
        for dump in &mut dumps {
            dump.file.write_all(&dump.buffer)?;
        }
        Ok(dumps.iter().map(|dump| dump.rows).collect())
    }

    // Asks for the attributes of a choice that one of the clients may get: most are 128 octets at most.
    #[inline]
    fn prefetch(&self, choice: &Choice, clients: &Range<usize>) {
        let client = usize::from(choice.client);
        if choice.client == EACH || (choice.route != Change::NONE && clients.contains(&client)) {
            let (arena, place) = (&self.arenas[choice.route.peer()], choice.route.place());
            arena.prefetch(place);
            arena.prefetch(place + 4);
        }
    }

    // The record of a route, without its Sequence Number.
    fn spell(&self, record: &mut Vec<u8>, first_octet: usize, route: Change) {
        let (len, arena) = (route.prefix_len(), &self.arenas[route.peer()]);
        let octets = usize::from(len).div_ceil(8);
        let spelling = arena.spelling(route.place());
        record.clear();
        put_header(record, 0, 2, 15 + octets + spelling.len());
        record.extend_from_slice(&[0, 0, 0, 0, len]);
        record.extend_from_slice(&route.address(first_octet).to_be_bytes()[..octets]);
        record.extend_from_slice(&1u16.to_be_bytes());
        record.extend_from_slice(&(route.peer() as u16).to_be_bytes());
        record.extend_from_slice(&arena.head(route.place()).time.to_be_bytes());
        record.extend_from_slice(&(spelling.len() as u16).to_be_bytes());
        record.extend_from_slice(spelling);
    }
}
