//! Where the octets of a session stay: one arena for each peer, and the changes as numbers of 64 bits.

/// What decisions ask of attributes, in one block of 16 octets in front of their spelling.
#[derive(Clone, Copy, Default)]
pub struct Head {
    pub time: u32,
    pub med: u32,
    pub neighbour: u32,
    // AS_PATH length in 16 bits, ORIGIN in 2, whether a community may restrict the route in 1 and another unused,
    // and how long the spelling is in 12. An ORIGIN of 3 says that this is no candidate.
    traits: u32,
}

const NO_CANDIDATE: u32 = 3 << 14;

impl Head {
    /// The head of a route that is eligible.
    pub fn new(time: u32, med: u32, neighbour: u32, path_length: u16, origin: u8, is_restricted: bool) -> Head {
        let traits = u32::from(path_length) << 16 | u32::from(origin) << 14 | u32::from(is_restricted) << 13;
        Head { time, med, neighbour, traits }
    }

    /// The head of a withdrawal, or of a route that is not eligible: a decision need not tell them apart.
    pub fn no_candidate() -> Head {
        Head { traits: NO_CANDIDATE, ..Head::default() }
    }

    pub fn is_candidate(self) -> bool {
        self.traits & NO_CANDIDATE != NO_CANDIDATE
    }

    pub fn is_restricted(self) -> bool {
        self.traits & 1 << 13 != 0
    }

    /// AS_PATH length and ORIGIN, in 18 bits, where the lower number is preferred.
    pub fn path_and_origin(self) -> u64 {
        u64::from(self.traits >> 14)
    }

    fn spelling_len(self) -> usize {
        self.traits as usize & 0xFFF
    }

    fn to_block(self) -> [u8; 16] {
        let mut block = [0; 16];
        let words = [self.time, self.med, self.neighbour, self.traits];
        for (octets, word) in block.as_chunks_mut().0.iter_mut().zip(words) {
            *octets = word.to_ne_bytes();
        }
        block
    }

    fn of_block(block: &[u8; 16]) -> Head {
        let word = |place: usize| u32::from_ne_bytes(block.as_chunks().0[place]);
        Head { time: word(0), med: word(1), neighbour: word(2), traits: word(3) }
    }
}

/// The attributes of one peer's UPDATEs, each once and in the order of their coming: a head, and the spelling in as
/// many blocks as it needs.
pub struct Arena {
    blocks: Vec<[u8; 16]>,
}

impl Arena {
    /// An arena for the messages of a file of some length. No block is touched before it is needed.
    pub fn for_file(len: usize) -> Arena {
        let blocks = Vec::with_capacity(len / 16 + 1);
        ask_for_huge_pages(&blocks);
        Arena { blocks }
    }

    /// Stores attributes, and gives their place.
    pub fn push(&mut self, mut head: Head, spelling: &[u8]) -> usize {
        let place = self.blocks.len();
        head.traits |= spelling.len() as u32;
        self.blocks.push(head.to_block());
        let (whole, rest) = spelling.as_chunks();
        self.blocks.extend_from_slice(whole);
        if !rest.is_empty() {
            let mut last = [0; 16];
            last[..rest.len()].copy_from_slice(rest);
            self.blocks.push(last);
        }
        place
    }

    /// Asks for the first octets at a place, which are read soon. Without it each of them is waited for.
    #[inline]
    pub fn prefetch(&self, place: usize) {
        #[cfg(target_arch = "x86_64")]
        if let Some(block) = self.blocks.get(place) {
            // A hint, which reads nothing.
            unsafe { std::arch::x86_64::_mm_prefetch::<{ std::arch::x86_64::_MM_HINT_T0 }>(block.as_ptr().cast()) };
        }
    }

    #[inline]
    pub fn head(&self, place: usize) -> Head {
        Head::of_block(&self.blocks[place])
    }

    pub fn spelling(&self, place: usize) -> &[u8] {
        let len = self.head(place).spelling_len();
        &self.blocks[place + 1..].as_flattened()[..len]
    }
}

// Asks the system for pages of 2 MiB: attributes are read in the order of the prefixes, and with small pages most of
// these reads would wait for the place of their page. It is a hint, whose failure does not matter.
#[cfg(target_os = "linux")]
fn ask_for_huge_pages(blocks: &Vec<[u8; 16]>) {
    const PAGE_LEN: usize = 4096;
    const MADV_HUGEPAGE: i32 = 14;
    unsafe extern "C" {
        fn madvise(address: *const u8, len: usize, advice: i32) -> i32;
    }
    let start = blocks.as_ptr().cast::<u8>();
    let skip = start.align_offset(PAGE_LEN);
    let len = (16 * blocks.capacity()).saturating_sub(skip);
    // All pages keep their octets.
    unsafe { madvise(start.wrapping_add(skip), len, MADV_HUGEPAGE) };
}

#[cfg(not(target_os = "linux"))]
fn ask_for_huge_pages(_: &Vec<[u8; 16]>) {}

/// A change of a route of a prefix whose first octet is known from elsewhere: the other octets of the address in 24
/// bits, the prefix length in 6, the peer in 8, and the place in the arena of the peer in 26. So changes in ascending
/// order are in that of their prefixes, those of one prefix in that of their peers, and those of one peer as they came.
#[derive(Clone, Copy, PartialEq, Eq, PartialOrd, Ord)]
pub struct Change(u64);

const PLACES: usize = 1 << 26;

impl Change {
    /// No change: the choice of a client that gets no route.
    pub const NONE: Change = Change(u64::MAX);

    pub fn new(address: u32, len: u8, peer: usize, place: usize) -> Change {
        assert!(place < PLACES, "a session with more than 1 GiB of attributes");
        Change(u64::from(address & 0xFF_FFFF) << 40 | u64::from(len) << 34 | (peer << 26 | place) as u64)
    }

    /// What tells it from the changes of other prefixes.
    pub fn prefix(self) -> u64 {
        self.0 >> 34
    }

    /// What tells it from the changes of other prefixes and other peers.
    pub fn prefix_and_peer(self) -> u64 {
        self.0 >> 26
    }

    pub fn address(self, first_octet: usize) -> u32 {
        (first_octet as u32) << 24 | (self.0 >> 40) as u32
    }

    pub fn prefix_len(self) -> u8 {
        (self.0 >> 34) as u8 & 63
    }

    pub fn peer(self) -> usize {
        (self.0 >> 26) as usize & 255
    }

    pub fn place(self) -> usize {
        self.0 as usize % PLACES
    }
}
