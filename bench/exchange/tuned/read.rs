//! Reads the recorded session of a peer: its attributes into an arena, its changes into lists by the first octet of
//! their prefixes. An UPDATE whose attributes stand as they are to be passed on is read here in one pass; each other
//! message is given to the reader of `bench/plain`.
use crate::store::{Arena, Change, Head};
use crate::tables::Plan;
use crate::update::{self, Attributes, Message};
use std::fs::File;
use std::io::{self, ErrorKind, Read};
use std::path::Path;

const PIECE_LEN: usize = 1 << 18;
// The header of a record, and what stands in front of its message (RFC 6396, sections 2 and 4.4.3).
const RECORD_HEADER: usize = 12;
const MESSAGE_START: usize = 20;
const LONGEST_RECORD: usize = MESSAGE_START + 4096;

/// The changes of the sessions that a thread read, by first octet.
pub struct Lists(pub Vec<Vec<Change>>);

impl Lists {
    pub fn new() -> Lists {
        Lists(vec![Vec::new(); 256])
    }
}

/// What a session leaves: its attributes, and how many changes it gave, the close included.
pub struct Session {
    pub peer: usize,
    pub arena: Arena,
    pub changes: u64,
}

/// Reads the file of a peer in large pieces.
pub fn read_session(plan: &Plan, peer: usize, path: &Path, lists: &mut Lists) -> io::Result<Session> {
    let mut file = File::open(path)?;
    let arena = Arena::for_file(file.metadata()?.len() as usize);
    let mut reader = Reader { plan, session: Session { peer, arena, changes: 1 }, lists };
    let mut buffer = vec![0; PIECE_LEN];
    let mut len = 0;
    loop {
        let more = file.read(&mut buffer[len..])?;
        match more {
            0 if len >= RECORD_HEADER => return Err(ErrorKind::UnexpectedEof.into()),
            0 => return Ok(reader.session),
            _ => {}
        }
        len += more;
        let used = reader.take_records(&buffer[..len]);
        buffer.copy_within(used..len, 0);
        len -= used;
    }
}

struct Reader<'a> {
    plan: &'a Plan,
    session: Session,
    lists: &'a mut Lists,
}

impl Reader<'_> {
    // Takes the records that are there as a whole. Answers how many octets they are.
    fn take_records(&mut self, octets: &[u8]) -> usize {
        let mut rest = octets;
        while let Some((header, body)) = rest.split_first_chunk::<RECORD_HEADER>() {
            let [time, kind, length] = [0, 1, 2].map(|place| u32::from_be_bytes(header.as_chunks().0[place]));
            let length = length as usize;
            assert!(
                kind == 16 << 16 | 4 && (MESSAGE_START..=LONGEST_RECORD).contains(&length),
                "a record of another kind"
            );
            let Some((record, later)) = body.split_at_checked(length) else { break };
            self.take_message(time, &record[MESSAGE_START..]);
            rest = later;
        }
        octets.len() - rest.len()
    }

    fn take_message(&mut self, time: u32, message: &[u8]) {
        if self.take_direct(time, message).is_some() {
            return;
        }
        let message = update::read_message(message).expect("a message without faults");
        let Message::Update(update) = message else { return };
        let withdrawn: Vec<_> = update.withdrawn.iter().map(|prefix| (prefix.address, prefix.len)).collect();
        let nlri: Vec<_> = update.nlri.iter().map(|prefix| (prefix.address, prefix.len)).collect();
        self.withdraw(withdrawn.into_iter());
        if let Some(attributes) = update.attributes {
            let head = self.head_of(time, &attributes);
            self.announce(head, &attributes.spelling, nlri.into_iter());
        }
    }

    // Takes an UPDATE whose attributes stand as they are to be passed on. None, and nothing is taken, if it is not one.
    fn take_direct(&mut self, time: u32, message: &[u8]) -> Option<()> {
        let (withdrawn, section, nlri) = fields(message)?;
        let announced = if nlri.is_empty() {
            section.is_empty().then_some(None)?
        } else {
            Some(Found::of_section(section, self.plan.asn)?)
        };
        self.withdraw(Prefixes(withdrawn));
        if let Some(found) = announced {
            let head = self.head_of_found(time, &found);
            self.announce(head, section, Prefixes(nlri));
        }
        Some(())
    }

    fn announce(&mut self, head: Head, spelling: &[u8], prefixes: impl Iterator<Item = (u32, u8)>) {
        let place = self.session.arena.push(head, spelling);
        self.change(place, prefixes);
    }

    fn withdraw(&mut self, prefixes: impl Iterator<Item = (u32, u8)>) {
        let mut prefixes = prefixes.peekable();
        if prefixes.peek().is_some() {
            let place = self.session.arena.push(Head::no_candidate(), &[]);
            self.change(place, prefixes);
        }
    }

    fn change(&mut self, place: usize, prefixes: impl Iterator<Item = (u32, u8)>) {
        for (address, len) in prefixes {
            self.lists.0[(address >> 24) as usize].push(Change::new(address, len, self.session.peer, place));
            self.session.changes += 1;
        }
    }

    fn head_of_found(&self, time: u32, found: &Found) -> Head {
        if found.has_server || found.next_hop == self.plan.address {
            return Head::no_candidate();
        }
        let neighbour = found.neighbour.unwrap_or(self.plan.peers[self.session.peer].asn);
        Head::new(time, found.med, neighbour, found.path_length, found.origin, found.is_restricted)
    }

    fn head_of(&self, time: u32, attributes: &Attributes) -> Head {
        let found = Found {
            origin: attributes.origin,
            path_length: attributes.path_length,
            neighbour: attributes.neighbour,
            has_server: attributes.path_has(self.plan.asn),
            next_hop: attributes.next_hop,
            med: attributes.med.unwrap_or(0),
            is_restricted: attributes.communities().any(|value| value < 65536),
        };
        self.head_of_found(time, &found)
    }
}

// The withdrawn routes, the attributes and the NLRI of an UPDATE whose lengths agree (RFC 4271, sections 4.1 and 4.3).
fn fields(message: &[u8]) -> Option<(&[u8], &[u8], &[u8])> {
    let (header, body) = message.split_first_chunk::<19>()?;
    let length = usize::from(u16::from_be_bytes([header[16], header[17]]));
    if header[..16] != [0xff; 16] || header[18] != 2 || length != message.len() || length > 4096 {
        return None;
    }
    let (withdrawn, rest) = field(body)?;
    let (section, nlri) = field(rest)?;
    Some((withdrawn, section, nlri))
}

// A field behind its length of two octets, and what follows.
fn field(octets: &[u8]) -> Option<(&[u8], &[u8])> {
    let (length, rest) = octets.split_first_chunk()?;
    rest.split_at_checked(usize::from(u16::from_be_bytes(*length)))
}

// What decisions ask of attributes.
#[derive(Default)]
struct Found {
    origin: u8,
    path_length: u16,
    neighbour: Option<u32>,
    has_server: bool,
    next_hop: u32,
    med: u32,
    is_restricted: bool,
}

impl Found {
    // That of a section that is its own canonical spelling: known attributes without a fault, in ascending order and
    // with the flags that they are passed on with, and the mandatory ones among them. None if it is not one.
    #[inline]
    fn of_section(section: &[u8], server: u32) -> Option<Found> {
        let mut found = Found::default();
        let mut seen = 0u32;
        let mut rest = section;
        while let [flags, kind, len, tail @ ..] = rest {
            let (value, later) = tail.split_at_checked(usize::from(*len))?;
            if *kind > 8 || seen >> kind != 0 {
                return None;
            }
            seen |= 1 << kind;
            match (kind, flags, value) {
                (1, 0x40, [origin @ 0..=2]) => found.origin = *origin,
                (2, 0x40, path) => found.take_path(path, server)?,
                (3, 0x40, [1..=223, _, _, _]) => found.next_hop = number(value),
                (4, 0x80, [_, _, _, _]) => found.med = number(value),
                (6, 0x40, []) => {}
                (7, 0xC0, [_, _, _, _, _, _, _, _]) => {}
                (8, 0xC0, values) => found.take_communities(values)?,
                _ => return None,
            }
            rest = later;
        }
        (rest.is_empty() && seen & 0b1110 == 0b1110).then_some(found)
    }

    #[inline]
    fn take_path(&mut self, path: &[u8], server: u32) -> Option<()> {
        if let [2, 1..=255, first @ ..] = path {
            self.neighbour = first.first_chunk().map(|octets| u32::from_be_bytes(*octets));
        }
        let mut rest = path;
        while let [kind @ 1..=2, count @ 1..=255, tail @ ..] = rest {
            let (numbers, later) = tail.split_at_checked(4 * usize::from(*count))?;
            self.has_server |= numbers.as_chunks().0.iter().any(|octets| u32::from_be_bytes(*octets) == server);
            self.path_length += if *kind == 1 { 1 } else { u16::from(*count) };
            rest = later;
        }
        rest.is_empty().then_some(())
    }

    // Only communities of AS 0 keep a route from a client.
    #[inline]
    fn take_communities(&mut self, values: &[u8]) -> Option<()> {
        let (values, rest) = values.as_chunks::<4>();
        self.is_restricted = values.iter().any(|[high, low, _, _]| high | low == 0);
        (!values.is_empty() && rest.is_empty()).then_some(())
    }
}

fn number(value: &[u8]) -> u32 {
    value.first_chunk().map_or(0, |octets| u32::from_be_bytes(*octets))
}

// The prefixes of a field.
struct Prefixes<'a>(&'a [u8]);

impl Iterator for Prefixes<'_> {
    type Item = (u32, u8);

    #[inline]
    fn next(&mut self) -> Option<(u32, u8)> {
        let [len, rest @ ..] = self.0 else { return None };
        let octets = usize::from(*len).div_ceil(8);
        assert!(*len <= 32 && octets <= rest.len(), "a prefix without faults");
        let address = rest.first_chunk().copied().unwrap_or_else(|| {
            let mut address = [0; 4];
            address[..octets].copy_from_slice(&rest[..octets]);
            address
        });
        self.0 = &rest[octets..];
        Some((u32::from_be_bytes(address) & (u64::MAX << (32 - len)) as u32, *len))
    }
}
