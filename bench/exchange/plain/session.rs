//! The changes of a recorded session whose records are all BGP4MP_MESSAGE_AS4 of one peer, without faults, as
//! the generator writes them.
use crate::update::{read_message, Attributes, Message, Prefix};
use std::fs::File;
use std::io::{self, BufReader, ErrorKind, Read};
use std::path::Path;
use std::sync::Arc;

pub enum Body {
    Announce(Prefix, Arc<Attributes>),
    Withdraw(Prefix),
    Close,
}

pub struct Change {
    pub time: u32,
    pub body: Body,
}

/// Gives each change of a file to a function, and the close as the last one. Answers how many there were, the
/// close included.
pub fn each_change(path: &Path, mut take: impl FnMut(Change)) -> io::Result<u64> {
    let mut file = BufReader::with_capacity(65536, File::open(path)?);
    let mut header = [0u8; 12];
    let mut body = [0u8; 4116];
    let mut count = 1;
    loop {
        match file.read_exact(&mut header) {
            Ok(()) => {}
            Err(error) if error.kind() == ErrorKind::UnexpectedEof => break,
            Err(error) => return Err(error),
        }
        let number = |place: usize| {
            u32::from_be_bytes([header[place], header[place + 1], header[place + 2], header[place + 3]])
        };
        let (time, length) = (number(0), number(8) as usize);
        assert!(
            header[4..8] == [0, 16, 0, 4] && (20..=body.len()).contains(&length),
            "a record of another kind"
        );
        file.read_exact(&mut body[..length])?;
        let Message::Update(update) = read_message(&body[20..length]).expect("a message without faults")
        else {
            continue;
        };
        count += (update.withdrawn.len() + update.nlri.len()) as u64;
        for prefix in &update.withdrawn {
            take(Change { time, body: Body::Withdraw(*prefix) });
        }
        if let Some(attributes) = update.attributes {
            let attributes = Arc::new(attributes);
            for prefix in &update.nlri {
                take(Change { time, body: Body::Announce(*prefix, Arc::clone(&attributes)) });
            }
        }
    }
    take(Change { time: 0, body: Body::Close });
    Ok(count)
}
