//! Takes so many changes through the plain tables: each sender announces each prefix, announces it again with
//! other attributes, and withdraws it. It is the baseline of the ratio.
//!
//! usage: plain FILE PEERS PREFIXES SENDERS
#[allow(dead_code)]
#[path = "../plain/tables.rs"]
mod tables;
#[allow(dead_code)]
#[path = "../plain/update.rs"]
mod update;

use std::collections::BTreeMap;
use std::sync::Arc;
use std::time::Instant;
use tables::{Plan, Tables};
use update::{updates, Prefix};

const STRIDE: usize = 611953;

// How many rows all clients have whose time is that of the changes, so that no time goes unread.
fn rows(tables: &Tables) -> usize {
    (0..tables.plan.peers.len())
        .flat_map(|client| tables.cells.values().filter_map(move |cell| cell.best(client)))
        .filter(|route| route.time == 1)
        .count()
}

fn main() {
    let words: Vec<String> = std::env::args().skip(1).collect();
    let [peers, prefixes, senders]: [usize; 3] =
        [1, 2, 3].map(|place| words[place].parse().expect("a number"));
    let file = std::fs::read(&words[0]).expect("a file that can be read");
    let attributes: Vec<_> = updates(&file).filter_map(|update| update.attributes).map(Arc::new).collect();
    let plan = Arc::new(Plan::of_equals(peers, 64512, 0xC000_0300));
    let mut tables = Tables { plan, cells: BTreeMap::new() };
    for (name, shift, withdraws) in [("announce", 0, false), ("replace", 1, false), ("withdraw", 0, true)] {
        let start = Instant::now();
        for turn in 0..senders {
            for number in 0..prefixes {
                let place = number * STRIDE % prefixes;
                let peer = (place + turn) % peers;
                let prefix = Prefix { address: (place * 256) as u32, len: 24 };
                if withdraws {
                    tables.withdraw(peer, prefix);
                } else {
                    let attributes = &attributes[(place * 7 + peer * 31 + shift) % 1000];
                    tables.announce(peer, prefix, 1, Arc::clone(attributes));
                }
            }
        }
        println!("{name} {} {}", start.elapsed().as_nanos(), rows(&tables));
    }
}
