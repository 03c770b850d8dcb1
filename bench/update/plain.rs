//! Decodes all messages of a file by the plain decoder, so many times, and prints the best time of a round: it
//! is the baseline of the ratio.
//!
//! usage: plain FILE ROUNDS
#[allow(dead_code)]
#[path = "../plain/update.rs"]
mod update;

use std::time::Instant;
use update::{messages, read_message, Message};

fn round(file: &[u8]) -> (u64, u64) {
    let mut count = 0;
    let mut sum = 0u64;
    for message in messages(file) {
        if let Ok(Message::Update(update)) = read_message(message) {
            sum += (update.withdrawn.len() + update.nlri.len()) as u64;
            sum += update
                .attributes
                .map_or(0, |attributes| u64::from(attributes.path_length) + attributes.spelling.len() as u64);
        }
        count += 1;
    }
    (count, sum)
}

fn main() {
    let mut words = std::env::args().skip(1);
    let file = std::fs::read(words.next().expect("FILE")).expect("a file that can be read");
    let rounds: u32 = words.next().and_then(|word| word.parse().ok()).unwrap_or(5);
    let mut best = f64::MAX;
    let mut answer = (0, 0);
    for _ in 0..rounds {
        let start = Instant::now();
        answer = round(&file);
        best = best.min(start.elapsed().as_secs_f64());
    }
    println!("messages {} sum {} nanoseconds {}", answer.0, answer.1, (best * 1e9) as u64);
}
