//! A plain program of the same shape as `route_server`, over the files of the generator: it reads the
//! recorded session of each peer into tables, writes the dump of each client's table, and prints the same
//! report. With shards it reads each file on a thread of its own, hands the changes through rings to a router
//! and from there to the shards, and writes the dumps on as many threads. It is the baseline of the ratio.
//!
//! usage: plain FOLDER PEERS OUT [SHARDS [RING]]
#[path = "../../plain/dump.rs"]
mod dump;
mod ring;
mod session;
#[path = "../../plain/tables.rs"]
mod tables;
#[allow(dead_code)]
#[path = "../../plain/update.rs"]
mod update;

use dump::Row;
use ring::{ring, Receiver, Sender};
use session::{each_change, Body, Change};
use std::collections::BTreeMap;
use std::fs::File;
use std::hint::spin_loop;
use std::io::{self, Write};
use std::path::{Path, PathBuf};
use std::sync::Arc;
use std::thread;
use std::time::Duration;
use tables::{Plan, Tables};

// How many changes of one peer are taken before the next peer's turn.
const TURN: usize = 64;

struct Routed {
    peer: usize,
    change: Change,
}

// How a thread waits, as in `rs_worker`: some tries, then yields, then sleeps that grow with what the waits
// before took. In microseconds.
struct Patience {
    tries: u32,
    sleep: u64,
}

const SHORTEST_SLEEP: u64 = 10;
const LONGEST_SLEEP: u64 = 5120;

impl Patience {
    fn new() -> Patience {
        Patience { tries: 0, sleep: SHORTEST_SLEEP }
    }

    fn wait(&mut self) {
        if self.sleep <= SHORTEST_SLEEP && self.tries <= 10 {
            if self.tries <= 6 {
                (0..1 << self.tries).for_each(|_| spin_loop())
            } else {
                thread::yield_now()
            }
            self.tries += 1;
            return;
        }
        thread::park_timeout(Duration::from_micros(self.sleep));
        self.sleep = (2 * self.sleep).min(LONGEST_SLEEP);
    }

    fn reset(&mut self) {
        self.sleep = (self.sleep / 4).max(SHORTEST_SLEEP);
        self.tries = 0;
    }
}

fn send<T>(to: &mut Sender<T>, item: T, patience: &mut Patience) {
    let Err(mut item) = to.try_send(item) else { return };
    loop {
        patience.wait();
        match to.try_send(item) {
            Ok(()) => return patience.reset(),
            Err(refused) => item = refused,
        }
    }
}

fn take(tables: &mut Tables, peer: usize, change: Change) {
    match change.body {
        Body::Announce(prefix, attributes) => tables.announce(peer, prefix, change.time, attributes),
        Body::Withdraw(prefix) => tables.withdraw(peer, prefix),
        Body::Close => {}
    }
}

fn work(path: &Path, mut to: Sender<Change>) -> io::Result<u64> {
    let mut patience = Patience::new();
    each_change(path, |change| send(&mut to, change, &mut patience))
}

fn hold(mut tables: Tables, mut from: Receiver<Option<Routed>>) -> Tables {
    let mut patience = Patience::new();
    loop {
        match from.try_receive() {
            Some(Some(Routed { peer, change })) => take(&mut tables, peer, change),
            Some(None) => return tables,
            None => {
                patience.wait();
                continue;
            }
        }
        if patience.tries > 0 || patience.sleep > SHORTEST_SLEEP {
            patience.reset();
        }
    }
}

fn route(mut from: Vec<Receiver<Change>>, mut to: Vec<Sender<Option<Routed>>>) {
    let mut open = vec![true; from.len()];
    let mut patience = Patience::new();
    let mut full = Patience::new();
    while open.contains(&true) {
        let mut moved = false;
        for (peer, ring) in from.iter_mut().enumerate() {
            for _ in 0..TURN {
                let Some(change) = ring.try_receive() else { break };
                moved = true;
                match &change.body {
                    Body::Announce(prefix, _) | Body::Withdraw(prefix) => {
                        let shard = (prefix.address >> 24) as usize % to.len();
                        send(&mut to[shard], Some(Routed { peer, change }), &mut full);
                    }
                    Body::Close => open[peer] = false,
                }
            }
        }
        if moved {
            patience.reset()
        } else {
            patience.wait()
        }
    }
    to.iter_mut().for_each(|to| send(to, None, &mut full));
}

fn new_tables(plan: &Arc<Plan>) -> Tables {
    Tables { plan: Arc::clone(plan), cells: BTreeMap::new() }
}

// The tables that all files leave, and how many changes each one gave.
fn run_threads(
    plan: &Arc<Plan>,
    paths: &[PathBuf],
    shards: usize,
    capacity: usize,
) -> io::Result<(Tables, Vec<u64>)> {
    thread::scope(|scope| {
        let (mut to, mut holders, mut from, mut workers) = (Vec::new(), Vec::new(), Vec::new(), Vec::new());
        for _ in 0..shards {
            let (sender, receiver) = ring(capacity);
            let tables = new_tables(plan);
            to.push(sender);
            holders.push(scope.spawn(|| hold(tables, receiver)));
        }
        for path in paths {
            let (sender, receiver) = ring(capacity);
            from.push(receiver);
            workers.push(scope.spawn(|| work(path, sender)));
        }
        route(from, to);
        let changes =
            workers.into_iter().map(|worker| worker.join().expect("a worker")).collect::<io::Result<_>>()?;
        let mut tables = new_tables(plan);
        holders
            .into_iter()
            .for_each(|holder| tables.cells.append(&mut holder.join().expect("a shard").cells));
        Ok((tables, changes))
    })
}

fn run_one(plan: &Arc<Plan>, paths: &[PathBuf]) -> io::Result<(Tables, Vec<u64>)> {
    let mut tables = new_tables(plan);
    let changes = paths
        .iter()
        .enumerate()
        .map(|(peer, path)| each_change(path, |change| take(&mut tables, peer, change)))
        .collect::<io::Result<_>>()?;
    Ok((tables, changes))
}

fn write_dump(tables: &Tables, out: &Path, client: usize) -> io::Result<u32> {
    let name = format!("p{client}");
    let rows = tables.cells.iter().filter_map(|(prefix, cell)| {
        let route = cell.best(client)?;
        let peer = u16::from(route.peer);
        Some(Row { prefix: *prefix, peer, time: route.time, attributes: &route.attributes })
    });
    dump::write_dump(&mut File::create(out.join(format!("{name}.mrt")))?, &name, &tables.plan, 0, rows)
}

// How many rows each dump has. Each thread writes those of some clients.
fn write_dumps(tables: &Tables, out: &Path, peers: usize, threads: usize) -> io::Result<Vec<u32>> {
    let mut rows = vec![0; peers];
    thread::scope(|scope| {
        let of_thread = |first: usize| {
            move || {
                (first..peers)
                    .step_by(threads)
                    .map(|client| write_dump(tables, out, client))
                    .collect::<io::Result<Vec<u32>>>()
            }
        };
        let writers: Vec<_> = (0..threads).map(|first| scope.spawn(of_thread(first))).collect();
        for (first, writer) in writers.into_iter().enumerate() {
            for (place, count) in writer.join().expect("a writer")?.into_iter().enumerate() {
                rows[first + place * threads] = count;
            }
        }
        Ok(rows)
    })
}

fn main() -> io::Result<()> {
    let words: Vec<String> = std::env::args().collect();
    let number = |place: usize, default: usize| {
        words.get(place).map_or(default, |word| word.parse().expect("a number"))
    };
    let (folder, peers, out) = (Path::new(&words[1]), number(2, 0), Path::new(&words[3]));
    let (shards, capacity) = (number(4, 0), number(5, 1024));
    let plan = Arc::new(Plan::of_equals(peers, 64501, 0xC000_020B));
    let paths: Vec<PathBuf> = (0..peers).map(|peer| folder.join(format!("p{peer}.mrt"))).collect();
    let (tables, changes) =
        if shards == 0 { run_one(&plan, &paths)? } else { run_threads(&plan, &paths, shards, capacity)? };
    let rows = write_dumps(&tables, out, peers, shards.max(1))?;
    let mut report = io::stdout().lock();
    for (peer, changes) in changes.iter().enumerate() {
        writeln!(report, "peer p{peer} changes {changes} passed 0 close end")?;
    }
    for (client, rows) in rows.iter().enumerate() {
        writeln!(report, "table p{client} rows {rows}")?;
    }
    // The system takes the memory of a program that ends.
    std::mem::forget(tables);
    Ok(())
}
