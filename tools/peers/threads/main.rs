//! `threads WHAT WORK SHAPE COUNT BURSTS`: threads that do so many operations each, in so many bursts, on lines of eight words.
//!
//! It prints a line for each burst: its nanoseconds, and the share of them that its threads were on a processor. WORK is `adds`, of
//! 1 to word 0, or `loads`. WHAT is `mutex` or `rwlock`, std's, round the words; or the rows of docs/PROTOCOL.md in Rust: `words`, each word an atomic of its
//! own, or `lock`, all under one lock word that each call takes. SHAPE is `one`, `two` or `four` threads on one line, or `apart`,
//! four threads on a line each.

mod bursts;
mod ports;
mod protocol;

use bursts::Bursts;
use ports::{Fine, LockWord};
use protocol::{Goal, Port, Seat, Table, Turn};
use std::hint::{black_box, spin_loop};
use std::process::ExitCode;
use std::sync::{Mutex, RwLock};
use std::thread;

type Words = [u64; 8];

// Nothing of one line shares a cache line, or a pair of them, with another line.
#[repr(align(128))]
struct Padded<T>(T);

struct Run {
    loads: bool,
    threads: usize,
    lines: usize,
    count: u64,
    bursts: u64,
}

// Waits a little, twice as long each time, and then gives the processor away, as crossbeam's `Backoff::snooze`.
struct Backoff(u32);

impl Backoff {
    fn snooze(&mut self) {
        if self.0 <= 6 {
            (0..1 << self.0).for_each(|_| spin_loop());
        } else {
            thread::yield_now();
        }
        self.0 = (self.0 + 1).min(10);
    }
}

impl Run {
    // Each thread t does the operation on its seat, on line t modulo lines.
    fn work<S>(&self, seat: impl Fn(usize) -> S + Sync, operation: impl Fn(&mut S) + Sync) {
        let bursts = Bursts { threads: self.threads, number: self.bursts };
        bursts.run(seat, |seat| (0..self.count).for_each(|_| operation(seat)));
    }

    fn locked<L: Sync>(&self, new: impl Fn() -> L, add: impl Fn(&L) + Sync, load: impl Fn(&L) -> Words + Sync) {
        let lines: Vec<Padded<L>> = (0..self.lines).map(|_| Padded(new())).collect();
        let seat = |t: usize| &lines[t % self.lines].0;
        if self.loads {
            self.work(seat, |line| {
                black_box(load(line));
            });
        } else {
            self.work(seat, |line| add(line));
        }
        self.check(lines.iter().map(|line| load(&line.0)[0]).sum());
    }

    fn protocol<P: Port>(&self, new: impl Fn(usize) -> P, table: impl Fn(P) -> Table) {
        let nodes = self.threads / self.lines;
        let lines: Vec<P> = (0..self.lines).map(|_| new(nodes)).collect();
        let goal = if self.loads { Goal::Load } else { Goal::Add { word: 0, delta: 1 } };
        self.work(
            |t| Seat::new(&lines[t % self.lines], t / self.lines),
            |seat| {
                let mut backoff = Backoff(0);
                loop {
                    match seat.turn(goal) {
                        Turn::Done(line) => {
                            black_box(line);
                            break;
                        }
                        Turn::Moved => backoff = Backoff(0),
                        Turn::Waiting => backoff.snooze(),
                    }
                }
            },
        );
        self.check(lines.into_iter().map(|line| table(line).closed().words[0]).sum());
    }

    fn check(&self, sum: u64) {
        let adds = if self.loads { 0 } else { self.threads as u64 * self.count * self.bursts };
        assert_eq!(sum, adds, "an addition was lost");
    }
}

fn run_of(work: &str, shape: &str, count: &str, bursts: &str) -> Option<Run> {
    let loads = match work {
        "adds" => false,
        "loads" => true,
        _ => return None,
    };
    let (threads, lines) = match shape {
        "one" => (1, 1),
        "two" => (2, 1),
        "four" => (4, 1),
        "apart" => (4, 4),
        _ => return None,
    };
    Some(Run { loads, threads, lines, count: count.parse().ok()?, bursts: bursts.parse().ok()? })
}

fn main() -> ExitCode {
    let args: Vec<String> = std::env::args().skip(1).collect();
    let [what, work, shape, count, bursts] = &args[..] else {
        return ExitCode::from(2);
    };
    let Some(run) = run_of(work, shape, count, bursts) else {
        return ExitCode::from(2);
    };
    let zero: Words = [0; 8];
    match what.as_str() {
        "mutex" => run.locked(|| Mutex::new(zero), |l| l.lock().unwrap()[0] += 1, |l| *l.lock().unwrap()),
        "rwlock" => run.locked(|| RwLock::new(zero), |l| l.write().unwrap()[0] += 1, |l| *l.read().unwrap()),
        "words" => run.protocol(|nodes| Fine(Table::apart(nodes)), |line| line.0),
        "lock" => run.protocol(|nodes| LockWord::new(Table::packed(nodes)), LockWord::into_table),
        _ => return ExitCode::from(2),
    }
    ExitCode::SUCCESS
}
