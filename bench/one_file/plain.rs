//! Measures how one file with the records of all peers may be read, before anything of it is proved. Each session does
//! the work of a real one: it tests and decodes its UPDATEs, and counts and hashes its changes. There are no tables.
//!
//! usage: plain many FILE..                 a thread for each peer, and a file for each
//!        plain each ALL PEERS              a thread for each peer, and each one reads the file of all
//!        plain shared ALL PEERS [BATCH]    one thread reads that file, and hands each peer its own records
//!        plain walk ALL PEERS              one thread looks for one prefix, as `why` does, in the file of all
//!        plain walkmany FILE..             the same in a file for each peer
//!
//! BATCH is how many octets a batch has at most. Each mode prints a line for each peer of the generator's files. The
//! first three modes print the same, and so do the last two. A last line counts the records of others.
#[allow(dead_code)]
#[path = "../exchange/plain/ring.rs"]
mod ring;
#[allow(dead_code)]
#[path = "../plain/update.rs"]
mod update;

use ring::{Receiver, Sender, ring};
use std::fs::File;
use std::io::{self, BufReader, Read};
use std::sync::{Arc, Condvar, Mutex};
use std::thread;
use update::{Attributes, Message, Prefix, read_message};

const FIRST_AS: u32 = 64501;
const FIRST_ADDRESS: u32 = 0xC000_020B;
// An MRT header, the fields in front of a message, and how much of a body is kept (RFC 6396, sections 2 and 4.4.3).
const HEADER_LEN: usize = 12;
const MESSAGE_AT: usize = 20;
const FRONT_LEN: usize = 4121;
const PIECE_LEN: usize = 65536;
// How many octets the batches of all peers may have, and how many batches a peer has: one is filled, one waits, and one
// is read.
const ALL_BATCHES: usize = 4 << 20;
const BATCHES: usize = 3;
// A batch has a head for so many of its octets.
const RECORD_LEN: usize = 128;
// A batch of so many octets has 40 heads, and beside them room for any record.
const SHORTEST_BATCH: usize = 5120;
// The prefix that a walk looks for: 20.0.5.0/24.
const WANTED: (u32, u8) = (0x1400_0500, 24);

#[derive(Clone, Copy)]
struct Record<'a> {
    time: u32,
    kind: u16,
    subtype: u16,
    body: &'a [u8],
}

// What gives the records of a session.
trait Source {
    // Goes to the next record. Answers whether there is one.
    fn advance(&mut self) -> io::Result<bool>;
    fn shown(&self) -> Option<Record<'_>>;
    // How many records of others the source left out since the record before, or at the end since the last one.
    fn left_out(&self) -> u64;
}

// The records of a file, read in pieces.
struct FileRecords {
    file: BufReader<File>,
    header: [u8; HEADER_LEN],
    front: [u8; FRONT_LEN],
    shown: Option<usize>,
}

impl FileRecords {
    fn open(path: &str) -> io::Result<FileRecords> {
        let file = BufReader::with_capacity(PIECE_LEN, File::open(path)?);
        Ok(FileRecords { file, header: [0; HEADER_LEN], front: [0; FRONT_LEN], shown: None })
    }
}

impl Source for FileRecords {
    fn advance(&mut self) -> io::Result<bool> {
        self.shown = None;
        if self.file.read(&mut self.header[..1])? == 0 {
            return Ok(false);
        }
        self.file.read_exact(&mut self.header[1..])?;
        let len = u32_at(&self.header, 8) as usize;
        let kept = len.min(FRONT_LEN);
        self.file.read_exact(&mut self.front[..kept])?;
        if len > kept {
            io::copy(&mut (&mut self.file).take((len - kept) as u64), &mut io::sink())?;
        }
        self.shown = Some(kept);
        Ok(true)
    }

    fn shown(&self) -> Option<Record<'_>> {
        let (time, header) = (u32_at(&self.header, 0), &self.header);
        let body = &self.front[..self.shown?];
        Some(Record { time, kind: u16_at(header, 4), subtype: u16_at(header, 6), body })
    }

    fn left_out(&self) -> u64 {
        0
    }
}

fn u32_at(octets: &[u8], place: usize) -> u32 {
    octets[place..].first_chunk().map_or(0, |number| u32::from_be_bytes(*number))
}

fn u16_at(octets: &[u8], place: usize) -> u16 {
    octets[place..].first_chunk().map_or(0, |number| u16::from_be_bytes(*number))
}

// Peer AS and Peer IP as one number.
fn name(asn: u32, address: u32) -> u64 {
    u64::from(asn) << 32 | u64::from(address)
}

fn name_of(peer: usize) -> u64 {
    name(FIRST_AS + peer as u32, FIRST_ADDRESS + peer as u32)
}

// Whose record it is, and what stands behind its fields. None of a record that no session reads. A real reader hands a
// record that is too short to show its peer to all of them, since it closes them all.
#[inline(always)]
fn entry<'a>(record: &Record<'a>) -> Option<(u64, &'a [u8])> {
    let fields = match record.kind {
        16 => record.body,
        17 => record.body.get(4..)?,
        _ => return None,
    };
    if !matches!(record.subtype, 4 | 5) || fields.len() < MESSAGE_AT || u16_at(fields, 10) != 1 {
        return None;
    }
    Some((name(u32_at(fields, 0), u32_at(fields, 12)), &fields[MESSAGE_AT..]))
}

// What a session comes to.
#[derive(Default)]
struct Tally {
    changes: u64,
    digest: u64,
    passed: u64,
}

impl Tally {
    fn mix(&mut self, number: u64) {
        self.digest = (self.digest ^ number).wrapping_mul(0x9e37_79b9_7f4a_7c15).rotate_left(29);
    }

    fn change(&mut self, time: u32, prefix: Prefix) {
        self.changes += 1;
        self.mix(u64::from(time) << 32 ^ u64::from(prefix.address) ^ u64::from(prefix.len));
    }

    fn attributes(&mut self, attributes: &Attributes) {
        for octets in attributes.spelling.chunks(8) {
            let mut number = [0; 8];
            number[..octets.len()].copy_from_slice(octets);
            self.mix(u64::from_le_bytes(number));
        }
    }

    // Takes the changes of a message. Those that an UPDATE announces share its attributes.
    fn message(&mut self, time: u32, message: &[u8]) {
        let message = read_message(message).expect("a message without faults");
        let Message::Update(update) = message else { return };
        update.withdrawn.iter().for_each(|prefix| self.change(time, *prefix));
        if let Some(attributes) = update.attributes.map(Arc::new) {
            self.attributes(&attributes);
            update.nlri.iter().for_each(|prefix| self.change(time, *prefix));
        }
    }
}

// The whole session of a peer. None closes early here. A real worker whose session has closed goes on taking records,
// so that nobody waits for it.
fn session(source: &mut impl Source, peer: usize) -> io::Result<Tally> {
    let mut tally = Tally::default();
    while source.advance()? {
        tally.passed += source.left_out();
        let Some(record) = source.shown() else { continue };
        match entry(&record) {
            Some((name, message)) if name == name_of(peer) => {
                if record.subtype == 4 {
                    tally.message(record.time, message);
                }
            }
            _ => tally.passed += 1,
        }
    }
    tally.passed += source.left_out();
    Ok(tally)
}

// Records of one peer on their way to its worker. Its memory is taken once, and used again and again. Pages that no
// record reaches are never there.
#[derive(Default)]
struct Batch {
    bodies: Vec<u8>,
    heads: Vec<Head>,
    // At the end of the file: how many records of others came last.
    end: Option<u64>,
}

struct Head {
    left_out: u64,
    time: u32,
    kind: u16,
    subtype: u16,
    len: u16,
}

impl Batch {
    // An empty batch of so many octets in all.
    fn new(len: usize) -> Batch {
        let heads = Vec::with_capacity(len / RECORD_LEN);
        let bodies = Vec::with_capacity(len - heads.capacity() * size_of::<Head>());
        Batch { bodies, heads, end: None }
    }

    fn has_room(&self, record: &Record) -> bool {
        self.heads.len() < self.heads.capacity() && record.body.len() <= self.bodies.capacity() - self.bodies.len()
    }

    fn push(&mut self, record: &Record, left_out: u64) {
        let Record { time, kind, subtype, body } = *record;
        self.heads.push(Head { left_out, time, kind, subtype, len: body.len() as u16 });
        self.bodies.extend_from_slice(body);
    }
}

// What wakes a thread that waits at a ring, as a parker does: it is given behind each item, and taken in each sleep.
// With sleeps of `rs_patience` instead, the threads wait for one another: small batches took 30 times as long or more.
#[derive(Default)]
struct Token(Mutex<bool>, Condvar);

impl Token {
    fn give(&self) {
        *self.0.lock().expect("a thread") = true;
        self.1.notify_one();
    }

    fn take(&self) {
        let given = self.0.lock().expect("a thread");
        *self.1.wait_while(given, |given| !*given).expect("a thread") = false;
    }
}

// One end of a way: a ring, and what wakes its other end.
struct Giving<T>(Sender<T>, Arc<Token>);
struct Taking<T>(Receiver<T>, Arc<Token>);

impl<T> Giving<T> {
    fn give(&mut self, item: T) {
        assert!(self.0.try_send(item).is_ok(), "room for all batches");
        self.1.give();
    }
}

impl<T> Taking<T> {
    fn take(&mut self) -> T {
        loop {
            if let Some(item) = self.0.try_receive() {
                return item;
            }
            self.1.take();
        }
    }
}

// The reader's end of a peer. No ring is ever full, since it has room for all batches of its peer: the reader waits for
// an empty batch alone.
struct Lane {
    filling: Option<Batch>,
    made: usize,
    batch_len: usize,
    full: Giving<Batch>,
    empty: Taking<Batch>,
    // How many records of the file came before the one behind this peer's last one.
    seen: u64,
}

impl Lane {
    fn push(&mut self, record: &Record, seen: u64) {
        if self.filling.as_ref().is_some_and(|batch| !batch.has_room(record)) {
            self.hand_over();
        }
        let left_out = seen - self.seen;
        self.seen = seen + 1;
        self.batch().push(record, left_out);
    }

    fn batch(&mut self) -> &mut Batch {
        if self.filling.is_none() && self.made == BATCHES {
            self.filling = Some(self.empty.take());
        }
        self.filling.get_or_insert_with(|| {
            self.made += 1;
            Batch::new(self.batch_len)
        })
    }

    fn hand_over(&mut self) {
        if let Some(batch) = self.filling.take() {
            self.full.give(batch);
        }
    }

    fn end(&mut self, seen: u64) {
        self.batch().end = Some(seen - self.seen);
        self.hand_over();
    }
}

// The worker's end of a peer.
struct Handed {
    reading: Batch,
    // How many records of the batch were shown, and where the body of the one that is shown begins and ends.
    shown: usize,
    start: usize,
    stop: usize,
    full: Taking<Batch>,
    empty: Giving<Batch>,
}

impl Source for Handed {
    fn advance(&mut self) -> io::Result<bool> {
        while self.shown == self.reading.heads.len() && self.reading.end.is_none() {
            let next = self.full.take();
            let mut read = std::mem::replace(&mut self.reading, next);
            read.heads.clear();
            read.bodies.clear();
            (self.shown, self.start, self.stop) = (0, 0, 0);
            if read.heads.capacity() > 0 {
                self.empty.give(read);
            }
        }
        self.start = self.stop;
        let Some(head) = self.reading.heads.get(self.shown) else {
            self.shown = self.reading.heads.len() + 1;
            return Ok(false);
        };
        self.stop += usize::from(head.len);
        self.shown += 1;
        Ok(true)
    }

    fn shown(&self) -> Option<Record<'_>> {
        let Head { time, kind, subtype, .. } = *self.reading.heads.get(self.shown.checked_sub(1)?)?;
        Some(Record { time, kind, subtype, body: &self.reading.bodies[self.start..self.stop] })
    }

    fn left_out(&self) -> u64 {
        let head = self.shown.checked_sub(1).and_then(|place| self.reading.heads.get(place));
        head.map_or(self.reading.end.unwrap_or(0), |head| head.left_out)
    }
}

fn way<T>() -> (Giving<T>, Taking<T>) {
    let (sender, receiver) = ring(BATCHES);
    let token = Arc::<Token>::default();
    (Giving(sender, Arc::clone(&token)), Taking(receiver, token))
}

// Both ends of a peer.
fn ends(batch_len: usize) -> (Lane, Handed) {
    let ((to_worker, full), (to_reader, empty)) = (way(), way());
    let lane = Lane { filling: None, made: 0, batch_len, full: to_worker, empty, seen: 0 };
    (lane, Handed { reading: Batch::default(), shown: 0, start: 0, stop: 0, full, empty: to_reader })
}

// Which peer has a name. A table of hashes and a memory of the last peer were measured: they cost about the same.
struct Peers(Vec<(u64, usize)>);

impl Peers {
    fn new(count: usize) -> Peers {
        let mut peers: Vec<_> = (0..count).map(|peer| (name_of(peer), peer)).collect();
        peers.sort_unstable();
        Peers(peers)
    }

    fn of(&self, record: &Record) -> Option<usize> {
        let (name, _) = entry(record)?;
        let place = self.0.binary_search_by_key(&name, |(name, _)| *name).ok()?;
        Some(self.0[place].1)
    }
}

// Reads the file once, and hands each peer its own records. Nothing is done for a peer at a record of others.
fn deal(path: &str, mut lanes: Vec<Lane>) -> io::Result<()> {
    let peers = Peers::new(lanes.len());
    let mut file = FileRecords::open(path)?;
    let mut seen = 0;
    while file.advance()? {
        let Some(record) = file.shown() else { continue };
        if let Some(peer) = peers.of(&record) {
            lanes[peer].push(&record, seen);
        }
        seen += 1;
    }
    lanes.iter_mut().for_each(|lane| lane.end(seen));
    Ok(())
}

// The sessions of all peers, each on a thread of its own, while this one does something.
fn in_threads<S: Source + Send>(sources: Vec<S>, meanwhile: impl FnOnce() -> io::Result<()>) -> io::Result<Vec<Tally>> {
    thread::scope(|scope| {
        let start = |(peer, mut source)| scope.spawn(move || session(&mut source, peer));
        let running: Vec<_> = sources.into_iter().enumerate().map(start).collect();
        meanwhile()?;
        running.into_iter().map(|thread| thread.join().expect("a worker")).collect()
    })
}

fn open_all(paths: &[String]) -> io::Result<Vec<FileRecords>> {
    paths.iter().map(|path| FileRecords::open(path)).collect()
}

fn shared(path: &str, peers: usize, batch_len: Option<usize>) -> io::Result<Vec<Tally>> {
    let batch_len = batch_len.unwrap_or(ALL_BATCHES / BATCHES / peers);
    assert!(batch_len >= SHORTEST_BATCH, "room for any record");
    let (lanes, sources) = (0..peers).map(|_| ends(batch_len)).unzip();
    in_threads::<Handed>(sources, || deal(path, lanes))
}

// Whether an UPDATE lists a prefix that covers the one wanted, or has a fault, found without memory as
// `concerns_prefix` does.
fn concerns(message: &[u8]) -> bool {
    let (Some(header), Some(body)) = (message.first_chunk::<19>(), message.get(19..)) else { return true };
    if header[..16] != [0xff; 16] || usize::from(u16_at(header, 16)) != message.len() || header[18] != 2 {
        return true;
    }
    let Some((withdrawn, rest)) = split(body) else { return true };
    let Some((section, nlri)) = split(rest) else { return true };
    section_is_faulty(section) || lists(withdrawn) || lists(nlri)
}

// A field behind its length of two octets, and what follows.
fn split(octets: &[u8]) -> Option<(&[u8], &[u8])> {
    let (len, rest) = octets.split_first_chunk()?;
    rest.split_at_checked(usize::from(u16::from_be_bytes(*len)))
}

fn section_is_faulty(section: &[u8]) -> bool {
    let (mut rest, mut seen) = (section, 0u32);
    while let [flags, kind, len, tail @ ..] = rest {
        let Some((value, later)) = tail.split_at_checked(usize::from(*len)) else { return true };
        let suits = match (kind, flags, value) {
            (1, 0x40, [0..=2]) | (3, 0x40, [1..=223, _, _, _]) | (4, 0x80, [_, _, _, _]) => true,
            (2, 0x40, path) => path_is_sound(path),
            (8, 0xC0, values) => !values.is_empty() && values.len() % 4 == 0,
            _ => false,
        };
        if !suits || seen >> kind & 1 != 0 {
            return true;
        }
        seen |= 1 << kind;
        rest = later;
    }
    !rest.is_empty()
}

fn path_is_sound(path: &[u8]) -> bool {
    let mut rest = path;
    while let [1..=2, count @ 1..=255, tail @ ..] = rest {
        let Some(later) = tail.get(4 * usize::from(*count)..) else { return false };
        rest = later;
    }
    rest.is_empty()
}

// Whether a field lists a prefix that covers the one wanted, or is at fault.
fn lists(field: &[u8]) -> bool {
    let mut rest = field;
    while let [len, tail @ ..] = rest {
        let octets = usize::from(*len).div_ceil(8);
        if *len > 32 || octets > tail.len() {
            return true;
        }
        let mut address = [0; 4];
        address[..octets].copy_from_slice(&tail[..octets]);
        let differs = (u32::from_be_bytes(address) ^ WANTED.0) as u64 >> (32 - len);
        if *len <= WANTED.1 && differs == 0 {
            return true;
        }
        rest = &tail[octets..];
    }
    false
}

// Takes a record if it may concern the prefix that is wanted.
fn look(tally: &mut Tally, record: &Record) {
    let Some((_, message)) = entry(record) else { return };
    if record.subtype == 4 && concerns(message) {
        tally.message(record.time, message);
    }
}

// Looks for one prefix in the file of all, with no queue and no thread: each record goes to the session of its peer.
fn walk(path: &str, count: usize) -> io::Result<Vec<Tally>> {
    let peers = Peers::new(count);
    let mut tallies: Vec<_> = (0..count).map(|_| Tally::default()).collect();
    let mut file = FileRecords::open(path)?;
    let mut seen = 0;
    while file.advance()? {
        let Some(record) = file.shown() else { continue };
        if let Some(peer) = peers.of(&record) {
            tallies[peer].passed += 1;
            look(&mut tallies[peer], &record);
        }
        seen += 1;
    }
    tallies.iter_mut().for_each(|tally| tally.passed = seen - tally.passed);
    Ok(tallies)
}

fn walk_many(paths: &[String]) -> io::Result<Vec<Tally>> {
    let in_file = |(peer, mut file): (usize, FileRecords)| {
        let mut tally = Tally::default();
        while file.advance()? {
            let Some(record) = file.shown() else { continue };
            match entry(&record) {
                Some((name, _)) if name == name_of(peer) => look(&mut tally, &record),
                _ => tally.passed += 1,
            }
        }
        Ok(tally)
    };
    open_all(paths)?.into_iter().enumerate().map(in_file).collect()
}

fn main() -> io::Result<()> {
    let words: Vec<String> = std::env::args().collect();
    let number = |place: usize| words.get(place).map(|word| word.parse::<usize>().expect("a number"));
    let (all, peers) = (&words[2], || number(3).expect("PEERS"));
    let tallies = match words[1].as_str() {
        "many" => in_threads(open_all(&words[2..])?, || Ok(()))?,
        "each" => in_threads(open_all(&vec![all.clone(); peers()])?, || Ok(()))?,
        "shared" => shared(all, peers(), number(4))?,
        "walk" => walk(all, peers())?,
        "walkmany" => walk_many(&words[2..])?,
        _ => panic!("many, each, shared, walk or walkmany"),
    };
    for (peer, tally) in tallies.iter().enumerate() {
        println!("p{peer} changes {} digest {:016x}", tally.changes, tally.digest);
    }
    let mut others = Tally::default();
    for tally in &tallies {
        others.passed += tally.passed;
        others.mix(tally.passed);
    }
    println!("records of others {} digest {:016x}", others.passed, others.digest);
    Ok(())
}
