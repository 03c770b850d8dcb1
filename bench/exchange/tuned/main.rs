//! A plain program that is tuned by hand, over the files of the generator: as fast as the same dumps and the same
//! report can be had on a few threads. It keeps all changes as numbers in lists by first octet, sorts each list,
//! decides each prefix once for all clients, and writes the dumps of some clients side by side. It is the second
//! baseline of the ratios. A message that has a fault, and a record of another kind, end it.
//!
//! usage: tuned FOLDER PEERS OUT [THREADS]
mod decide;
mod dump;
#[allow(dead_code)]
#[path = "../../plain/dump.rs"]
mod plain_dump;
mod read;
mod store;
#[allow(dead_code)]
#[path = "../../plain/tables.rs"]
mod tables;
#[allow(dead_code)]
#[path = "../../plain/update.rs"]
mod update;

use decide::{Choice, Decider};
use read::{Lists, Session, read_session};
use std::io::{self, Write};
use std::ops::Range;
use std::path::Path;
use std::sync::atomic::{AtomicUsize, Ordering};
use std::thread;
use store::Arena;
use tables::Plan;

// The most dumps that a thread writes side by side: their buffers are to fit into a cache of its processor.
const DUMPS_AT_ONCE: usize = 16;

// Does some pieces of work on threads. Each thread takes the next piece that none has taken, and gathers what comes of
// it in a state of its own. Answers the states.
fn in_turn<S: Send>(
    threads: usize,
    pieces: usize,
    start: impl Fn() -> S + Sync,
    work: impl Fn(&mut S, usize) -> io::Result<()> + Sync,
) -> io::Result<Vec<S>> {
    let next = AtomicUsize::new(0);
    let run = || {
        let mut state = start();
        loop {
            let piece = next.fetch_add(1, Ordering::Relaxed);
            if piece >= pieces {
                return Ok(state);
            }
            work(&mut state, piece)?;
        }
    };
    thread::scope(|scope| {
        let running: Vec<_> = (0..threads).map(|_| scope.spawn(run)).collect();
        running.into_iter().map(|thread| thread.join().expect("a thread")).collect()
    })
}

// What the states gathered, in the order of the pieces of work.
fn in_order<T>(states: impl IntoIterator<Item = Vec<(usize, T)>>) -> Vec<T> {
    let mut all: Vec<(usize, T)> = states.into_iter().flatten().collect();
    all.sort_unstable_by_key(|(piece, _)| *piece);
    all.into_iter().map(|(_, result)| result).collect()
}

// The arenas of the peers, how many changes each one gave, and the lists of each thread.
fn read_all(plan: &Plan, folder: &Path, threads: usize) -> io::Result<(Vec<Arena>, Vec<u64>, Vec<Lists>)> {
    let start = || (Lists::new(), Vec::new());
    let states = in_turn(threads, plan.peers.len(), start, |(lists, sessions), peer| {
        let session = read_session(plan, peer, &folder.join(format!("p{peer}.mrt")), lists)?;
        sessions.push((peer, session));
        Ok(())
    })?;
    let (lists, sessions): (Vec<Lists>, Vec<Vec<(usize, Session)>>) = states.into_iter().unzip();
    let (arenas, changes) = in_order(sessions).into_iter().map(|session| (session.arena, session.changes)).unzip();
    Ok((arenas, changes, lists))
}

// The choices by first octet.
fn decide_all(plan: &Plan, arenas: &[Arena], lists: &[Lists], threads: usize) -> io::Result<Vec<Vec<Choice>>> {
    let start = || (Decider::new(plan, arenas), Vec::new());
    let states = in_turn(threads, 256, start, |(decider, choices), first_octet| {
        let changes = lists.iter().flat_map(|lists| &lists.0[first_octet]).copied().collect();
        choices.push((first_octet, decider.decide(changes)));
        Ok(())
    })?;
    Ok(in_order(states.into_iter().map(|(_, choices)| choices)))
}

// Writes the dumps of all clients. Answers how many rows each one has.
fn write_all(tables: &dump::Tables, out: &Path, threads: usize) -> io::Result<Vec<u32>> {
    let clients = tables.plan.peers.len();
    let at_once = clients.div_ceil(threads).min(DUMPS_AT_ONCE).max(1);
    let of_piece = |piece: usize| -> Range<usize> { piece * at_once..clients.min((piece + 1) * at_once) };
    let states = in_turn(threads, clients.div_ceil(at_once), Vec::new, |rows, piece| {
        rows.push((piece, tables.write_dumps(out, of_piece(piece))?));
        Ok(())
    })?;
    Ok(in_order(states).concat())
}

fn main() -> io::Result<()> {
    let words: Vec<String> = std::env::args().collect();
    let (folder, out) = (Path::new(&words[1]), Path::new(&words[3]));
    let peers = words[2].parse().expect("PEERS");
    assert!(peers <= tables::MAX_PEERS, "too many peers");
    let threads = words.get(4).map_or(4, |word| word.parse().expect("THREADS"));
    let plan = Plan::of_equals(peers, 64501, 0xC000_020B);
    let (arenas, changes, lists) = read_all(&plan, folder, threads)?;
    let choices = decide_all(&plan, &arenas, &lists, threads)?;
    let rows = write_all(&dump::Tables { plan: &plan, arenas: &arenas, choices: &choices }, out, threads)?;
    let mut report = io::stdout().lock();
    for (peer, changes) in changes.iter().enumerate() {
        writeln!(report, "peer p{peer} changes {changes} passed 0 close end")?;
    }
    for (client, rows) in rows.iter().enumerate() {
        writeln!(report, "table p{client} rows {rows}")?;
    }
    // The system takes the memory of a program that ends.
    std::mem::forget((arenas, lists, choices));
    Ok(())
}
