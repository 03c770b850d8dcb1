//! Writes an exchange into a folder: a configuration and the recorded file of each peer, as
//! BGP4MP_MESSAGE_AS4 records (RFC 6396, section 4.4.3) of realistic UPDATEs. Each peer ends with the same
//! number of routes; it has announced some of them twice and withdrawn others in between. The peers draw
//! their prefixes from one set of three times as many, so that a prefix has the routes of about a third of the
//! peers. The same numbers always give the same files.
//!
//! usage: generate FOLDER PEERS ROUTES
#[path = "../random.rs"]
mod random;

use random::Random;
use std::fs;
use std::io;

const SERVER_AS: u32 = 64500;
const SERVER_ADDRESS: u32 = 0xC000_0201;
const FIRST_AS: u32 = 64501;
const FIRST_ADDRESS: u32 = 0xC000_020B;
// The first octets over which the prefixes are spread, and how many there are.
const FIRST_OCTET: u32 = 20;
const FIRST_OCTETS: u32 = 200;
const START: u32 = 1_700_000_000;

struct Peer {
    number: u32,
    time: u32,
    random: Random,
    file: Vec<u8>,
}

impl Peer {
    fn asn(&self) -> u32 {
        FIRST_AS + self.number
    }

    fn address(&self) -> u32 {
        FIRST_ADDRESS + self.number
    }

    // ORIGIN, AS_PATH of 3 to 6, NEXT_HOP, MED in some, communities in most.
    fn attributes(&mut self) -> Vec<u8> {
        let mut out = Vec::new();
        attribute(0x40, 1, &[if self.random.below(10) == 0 { 2 } else { 0 }], &mut out);
        let hops = 3 + self.random.below(4);
        let mut path = vec![2, hops as u8];
        path.extend_from_slice(&self.asn().to_be_bytes());
        for _ in 1..hops {
            path.extend_from_slice(&(1000 + self.random.below(60000) as u32).to_be_bytes());
        }
        attribute(0x40, 2, &path, &mut out);
        attribute(0x40, 3, &self.address().to_be_bytes(), &mut out);
        if self.random.below(4) == 0 {
            attribute(0x80, 4, &(self.random.below(200) as u32).to_be_bytes(), &mut out);
        }
        if self.random.below(4) != 0 {
            let mut values = Vec::new();
            for _ in 0..1 + self.random.below(6) {
                let high = 1 + self.random.below(60000) as u32;
                values.extend_from_slice(&(high << 16 | self.random.below(65536) as u32).to_be_bytes());
            }
            attribute(0xC0, 8, &values, &mut out);
        }
        out
    }

    fn update(&mut self, withdrawn: &[u8], attributes: &[u8], nlri: &[u8]) {
        let message_len = 23 + withdrawn.len() + attributes.len() + nlri.len();
        self.time += self.random.below(2) as u32;
        for number in [
            self.time,
            16 << 16 | 4,
            20 + message_len as u32,
            self.asn(),
            SERVER_AS,
            1,
            self.address(),
            SERVER_ADDRESS,
        ] {
            self.file.extend_from_slice(&number.to_be_bytes());
        }
        self.file.extend_from_slice(&[0xff; 16]);
        self.file.extend_from_slice(&(message_len as u16).to_be_bytes());
        self.file.push(2);
        self.file.extend_from_slice(&(withdrawn.len() as u16).to_be_bytes());
        self.file.extend_from_slice(withdrawn);
        self.file.extend_from_slice(&(attributes.len() as u16).to_be_bytes());
        self.file.extend_from_slice(attributes);
        self.file.extend_from_slice(nlri);
    }

    // Announces prefixes in UPDATEs of 1 to 8; before one in eight of them come others, which are withdrawn
    // or replaced afterwards.
    fn announce(&mut self, prefixes: &[u32]) {
        let mut rest = prefixes;
        while !rest.is_empty() {
            let count = (1 + self.random.below(8) as usize).min(rest.len());
            let nlri = field(&rest[..count]);
            if self.random.below(8) == 0 {
                let attributes = self.attributes();
                self.update(&[], &attributes, &nlri);
                if self.random.below(2) == 0 {
                    self.update(&nlri, &[], &[]);
                }
            }
            let attributes = self.attributes();
            self.update(&[], &attributes, &nlri);
            rest = &rest[count..];
        }
    }
}

fn attribute(flags: u8, kind: u8, value: &[u8], out: &mut Vec<u8>) {
    out.extend_from_slice(&[flags, kind, value.len() as u8]);
    out.extend_from_slice(value);
}

// The prefix of a number: mostly of 24 bits, some of 22, 20 and 16.
fn field(numbers: &[u32]) -> Vec<u8> {
    let mut out = Vec::new();
    for number in numbers {
        let len = match number {
            number if number % 256 == 0 => 16,
            number if number % 16 == 0 => 20,
            number if number % 4 == 0 => 22,
            _ => 24,
        };
        out.push(len);
        out.extend_from_slice(&address_of(*number).to_be_bytes()[..usize::from((len + 7) / 8)]);
    }
    out
}

// The address of the prefix of a number. Each 256 numbers share their first 16 bits, and one block of so many after
// another has the next first octet, as those of a real table have many: so each shard gets its part.
fn address_of(number: u32) -> u32 {
    let block = number / 256;
    (FIRST_OCTET + block % FIRST_OCTETS) << 24 | (block / FIRST_OCTETS) << 16 | (number % 256) << 8
}

// The numbers of a peer's prefixes, each once, in an order of its own.
fn prefixes(random: &mut Random, routes: u32) -> Vec<u32> {
    let mut numbers: Vec<u32> = (0..3 * routes).collect();
    for place in 0..routes as usize {
        let other = place + random.below((numbers.len() - place) as u64) as usize;
        numbers.swap(place, other);
    }
    numbers.truncate(routes as usize);
    numbers
}

fn address_text(address: u32) -> String {
    let [a, b, c, d] = address.to_be_bytes();
    format!("{a}.{b}.{c}.{d}")
}

fn main() -> io::Result<()> {
    let words: Vec<String> = std::env::args().collect();
    let (folder, peers, routes): (&str, u32, u32) =
        (&words[1], words[2].parse().expect("PEERS"), words[3].parse().expect("ROUTES"));
    let server = address_text(SERVER_ADDRESS);
    let mut configuration =
        format!("[server]\nas = {SERVER_AS}\naddress = \"{server}\"\nsubnet = \"192.0.2.0/24\"\n");
    for number in 0..peers {
        let mut peer = Peer {
            number,
            time: START,
            random: Random(0x9e37_79b9_7f4a_7c15u64.wrapping_mul(1 + u64::from(number))),
            file: Vec::new(),
        };
        let prefixes = prefixes(&mut peer.random, routes);
        peer.announce(&prefixes);
        let (asn, address) = (peer.asn(), address_text(peer.address()));
        configuration += &format!("\n[[peer]]\nname = \"p{number}\"\nas = {asn}\naddress = \"{address}\"\nfile = \"p{number}.mrt\"\n");
        fs::write(format!("{folder}/p{number}.mrt"), &peer.file)?;
    }
    fs::write(format!("{folder}/config.toml"), configuration)
}
