//! A plain decoder of messages, which does the same work as `rs_update`: the tests of the header and of each
//! attribute, the prefixes, and the attributes as one block, their canonical spelling, beside what decisions
//! ask of them (RFC 4271, section 4.3).

#[derive(Clone, Copy, PartialEq, Eq, PartialOrd, Ord)]
pub struct Prefix {
    pub address: u32,
    pub len: u8,
}

pub type Fault = (u8, u8);

#[derive(Default)]
pub struct Attributes {
    pub origin: u8,
    pub path_length: u16,
    pub neighbour: Option<u32>,
    pub next_hop: u32,
    pub med: Option<u32>,
    // Where AS_PATH and COMMUNITIES stand in the spelling.
    path: (u16, u16),
    communities: (u16, u16),
    pub spelling: Box<[u8]>,
}

impl Attributes {
    pub fn path_has(&self, asn: u32) -> bool {
        let mut path = &self.spelling[usize::from(self.path.0)..usize::from(self.path.1)];
        while let [_, count, rest @ ..] = path {
            let (numbers, later) = rest.split_at(4 * usize::from(*count));
            if numbers.chunks_exact(4).any(|octets| number(octets) == asn) {
                return true;
            }
            path = later;
        }
        false
    }

    pub fn communities(&self) -> impl Iterator<Item = u32> + '_ {
        self.spelling[usize::from(self.communities.0)..usize::from(self.communities.1)]
            .chunks_exact(4)
            .map(number)
    }
}

/// The prefixes that an UPDATE withdraws and announces, and the attributes of those announced.
#[derive(Default)]
pub struct Update {
    pub withdrawn: Vec<Prefix>,
    pub attributes: Option<Attributes>,
    pub nlri: Vec<Prefix>,
}

pub enum Message {
    Open,
    Update(Update),
    Notification,
    KeepAlive,
    Refresh,
}

fn number(octets: &[u8]) -> u32 {
    u32::from_be_bytes([octets[0], octets[1], octets[2], octets[3]])
}

struct Items<'a>(&'a [u8]);

impl<'a> Iterator for Items<'a> {
    type Item = Result<(u8, u8, &'a [u8]), Fault>;

    fn next(&mut self) -> Option<Self::Item> {
        if self.0.is_empty() {
            return None;
        }
        let malformed = Some(Err((3, 1)));
        let (head, length) = match self.0 {
            [flags, _, high, low, ..] if flags & 0x10 != 0 => {
                (4, usize::from(u16::from_be_bytes([*high, *low])))
            }
            [flags, _, length, ..] if flags & 0x10 == 0 => (3, usize::from(*length)),
            _ => return malformed,
        };
        if self.0.len() < head + length {
            return malformed;
        }
        let (item, rest) = self.0.split_at(head + length);
        self.0 = rest;
        Some(Ok((item[0], item[1], &item[head..])))
    }
}

fn path_is_sound(mut value: &[u8]) -> bool {
    while let [kind, count, rest @ ..] = value {
        let length = 4 * usize::from(*count);
        if (*kind != 1 && *kind != 2) || *count == 0 || rest.len() < length {
            return false;
        }
        value = &rest[length..];
    }
    value.is_empty()
}

fn test(flags: u8, kind: u8, value: &[u8]) -> Result<(), Fault> {
    let wanted = match kind {
        1 | 2 | 3 | 6 => Some(0x40),
        4 => Some(0x80),
        7 | 8 => Some(0xC0),
        5 | 14 | 15 | 17 | 18 => None,
        _ => return if flags & 0x80 == 0 { Err((3, 2)) } else { Ok(()) },
    };
    if wanted.is_some_and(|wanted| flags & 0xC0 != wanted) {
        return Err((3, 4));
    }
    let length_suits = match kind {
        1 => value.len() == 1,
        3 | 4 => value.len() == 4,
        6 => value.is_empty(),
        7 => value.len() == 8,
        8 => !value.is_empty() && value.len() % 4 == 0,
        _ => true,
    };
    if !length_suits {
        return Err((3, 5));
    }
    match kind {
        1 if value[0] > 2 => Err((3, 6)),
        2 if !path_is_sound(value) => Err((3, 11)),
        3 if value[0] == 0 || value[0] >= 224 => Err((3, 8)),
        _ => Ok(()),
    }
}

fn section_test(section: &[u8]) -> Result<(), Fault> {
    let mut seen = [false; 256];
    for item in Items(section) {
        let (flags, kind, value) = item?;
        if std::mem::replace(&mut seen[usize::from(kind)], true) {
            return Err((3, 1));
        }
        test(flags, kind, value)?;
    }
    Ok(())
}

// Whether an attribute is passed on, and with which flags: Partial stays on those that may be incomplete, and
// is set on those that aren't recognized (RFC 4271, section 5).
fn passed_on(flags: u8, kind: u8) -> Option<u8> {
    match kind {
        5 | 14 | 15 | 17 | 18 => None,
        7 | 8 => Some(flags & 0xE0),
        1..=6 => Some(flags & 0xC0),
        _ if flags & 0x40 != 0 => Some((flags & 0xC0) | 0x20),
        _ => None,
    }
}

fn spell(flags: u8, kind: u8, value: &[u8], out: &mut Vec<u8>) -> (u16, u16) {
    if value.len() > 255 {
        out.extend_from_slice(&[flags | 0x10, kind]);
        out.extend_from_slice(&(value.len() as u16).to_be_bytes());
    } else {
        out.extend_from_slice(&[flags, kind, value.len() as u8]);
    }
    let start = out.len() as u16;
    out.extend_from_slice(value);
    (start, out.len() as u16)
}

fn path_length(mut path: &[u8]) -> u16 {
    let mut length = 0;
    while let [kind, count, rest @ ..] = path {
        length += if *kind == 1 { 1 } else { u16::from(*count) };
        path = &rest[4 * usize::from(*count)..];
    }
    length
}

impl Attributes {
    // Appends an attribute to the spelling, and keeps what decisions ask of it.
    fn take(&mut self, (kind, flags, value): (u8, u8, &[u8]), spelling: &mut Vec<u8>) {
        let place = spell(flags, kind, value, spelling);
        match kind {
            1 => self.origin = value[0],
            2 => {
                self.path = place;
                self.path_length = path_length(value);
                self.neighbour = match value {
                    [2, _, octets @ ..] => Some(number(octets)),
                    _ => None,
                };
            }
            3 => self.next_hop = number(value),
            4 => self.med = Some(number(value)),
            8 => self.communities = place,
            _ => {}
        }
    }
}

// The attributes of a section that passed the tests: those that decisions and dumps ask for, and all of them
// in the order of their types. None where a mandatory one misses.
fn gather(section: &[u8]) -> Option<Attributes> {
    let mut known: [Option<(u8, &[u8])>; 9] = [None; 9];
    let mut others = Vec::new();
    for item in Items(section) {
        let (flags, kind, value) = item.ok()?;
        match (passed_on(flags, kind), kind) {
            (Some(flags), 1..=8) => known[usize::from(kind)] = Some((flags, value)),
            (Some(flags), _) => others.push((kind, flags, value)),
            (None, _) => {}
        }
    }
    if known[1..=3].contains(&None) {
        return None;
    }
    let known = (0u8..).zip(known).filter_map(|(kind, item)| item.map(|(flags, value)| (kind, flags, value)));
    let mut spelling = Vec::with_capacity(section.len());
    let mut found = Attributes::default();
    if others.is_empty() {
        known.for_each(|item| found.take(item, &mut spelling));
    } else {
        others.extend(known);
        others.sort_unstable_by_key(|item| item.0);
        others.into_iter().for_each(|item| found.take(item, &mut spelling));
    }
    found.spelling = spelling.into_boxed_slice();
    Some(found)
}

fn prefixes(mut field: &[u8]) -> Result<Vec<Prefix>, Fault> {
    let mut list = Vec::new();
    while let [len, rest @ ..] = field {
        let octets = (usize::from(*len) + 7) / 8;
        if *len > 32 || rest.len() < octets {
            return Err((3, 10));
        }
        let mut address = [0; 4];
        address[..octets].copy_from_slice(&rest[..octets]);
        let mask = (u64::MAX << (32 - len)) as u32;
        list.push(Prefix { address: u32::from_be_bytes(address) & mask, len: *len });
        field = &rest[octets..];
    }
    Ok(list)
}

// The tests of the header, in the order of `rs_update`: the type, or the fault.
fn read_header(octets: &[u8]) -> Result<u8, Fault> {
    if octets.len() < 19 {
        return Err((1, 2));
    }
    if octets[..16].iter().any(|octet| *octet != 0xff) {
        return Err((1, 1));
    }
    let length = usize::from(u16::from_be_bytes([octets[16], octets[17]]));
    if !(19..=4096).contains(&length) || length != octets.len() {
        return Err((1, 2));
    }
    let suits = match octets[18] {
        1 => length >= 29,
        2 => length >= 23,
        3 => length >= 21,
        4 => length == 19,
        5 => true,
        _ => return Err((1, 3)),
    };
    if suits {
        Ok(octets[18])
    } else {
        Err((1, 2))
    }
}

pub fn read_message(octets: &[u8]) -> Result<Message, Fault> {
    match read_header(octets)? {
        1 => Ok(Message::Open),
        2 => Ok(Message::Update(read_update(&octets[19..])?)),
        3 => Ok(Message::Notification),
        4 => Ok(Message::KeepAlive),
        _ => Ok(Message::Refresh),
    }
}

fn read_update(body: &[u8]) -> Result<Update, Fault> {
    let withdrawn_length = usize::from(u16::from_be_bytes([body[0], body[1]]));
    if body.len() < withdrawn_length + 4 {
        return Err((3, 1));
    }
    let (withdrawn, rest) = body[2..].split_at(withdrawn_length);
    let section_length = usize::from(u16::from_be_bytes([rest[0], rest[1]]));
    if rest.len() < section_length + 2 {
        return Err((3, 1));
    }
    let (section, nlri) = rest[2..].split_at(section_length);
    section_test(section)?;
    let attributes = if nlri.is_empty() { None } else { Some(gather(section).ok_or((3, 3))?) };
    Ok(Update { withdrawn: prefixes(withdrawn)?, attributes, nlri: prefixes(nlri)? })
}

/// The messages of a file in which one stands behind the other.
pub fn messages(mut file: &[u8]) -> impl Iterator<Item = &[u8]> {
    std::iter::from_fn(move || {
        if file.len() < 19 {
            return None;
        }
        let (message, rest) = file.split_at(usize::from(u16::from_be_bytes([file[16], file[17]])));
        file = rest;
        Some(message)
    })
}

/// The UPDATEs of such a file that have no fault.
pub fn updates(file: &[u8]) -> impl Iterator<Item = Update> + '_ {
    messages(file).filter_map(|message| match read_message(message) {
        Ok(Message::Update(update)) => Some(update),
        _ => None,
    })
}
