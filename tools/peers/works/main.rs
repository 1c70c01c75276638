//! The workloads of `scisim run` as plain Rust has them, a thread a node: over a Mutex round each line of eight words, or over a lean
//! body of the rows (the protocol of tools/peers/threads), each line's words on their own, without tables of residents. It reads the
//! settings that `scisim run` reads, as tools/speed writes them, a `key = value` a line, and prints what `scisim run` prints. With
//! `read` it reads them, and ends.
//!
//!     works mutex|lean|read SETTINGS

#[path = "../threads/ports.rs"]
mod ports;
#[path = "../threads/protocol.rs"]
mod protocol;

use ports::Fine;
use protocol::{Goal, Line, Seat, Table, Turn};
use std::env;
use std::fmt::Write;
use std::fs;
use std::hint;
use std::sync::Mutex;
use std::thread;

/// What a run works on.
enum Settings {
    Stencil { nodes: usize, phases: u64, cells: Vec<u64> },
    Ring { lines: usize, items: Vec<u64> },
}

/// The text of the value at a key.
fn value<'a>(text: &'a str, key: &str) -> &'a str {
    let mut pairs = text.lines().filter_map(|line| line.split_once(" = "));
    pairs.find(|(name, _)| *name == key).unwrap().1
}

/// The numbers of an array.
fn numbers(array: &str) -> Vec<u64> {
    array.trim_matches(['[', ']']).split(", ").map(|number| number.parse().unwrap()).collect()
}

fn read(text: &str) -> Settings {
    let number = |key| value(text, key).parse::<usize>().unwrap();
    match value(text, "work") {
        "\"stencil\"" => {
            Settings::Stencil { nodes: number("nodes"), phases: number("phases") as u64, cells: numbers(value(text, "cells")) }
        }
        _ => Settings::Ring { lines: number("lines"), items: numbers(value(text, "items")) },
    }
}

/// Waits longer each time: up to 64 pauses, and then the processor is given away.
struct Backoff(u32);

impl Backoff {
    fn snooze(&mut self) {
        if self.0 > 6 {
            return thread::yield_now();
        }
        for _ in 0..1 << self.0 {
            hint::spin_loop();
        }
        self.0 += 1;
    }
}

/// Lines that each node may load and store.
trait Lines: Sync {
    fn count(&self) -> usize;
    fn load(&self, node: usize, line: usize) -> [u64; 8];
    fn store(&self, node: usize, line: usize, words: [u64; 8]);

    /// The words, once word 0 is at least this number.
    fn reached(&self, node: usize, line: usize, number: u64) -> [u64; 8] {
        let mut backoff = Backoff(0);
        loop {
            let words = self.load(node, line);
            if words[0] >= number {
                return words;
            }
            backoff.snooze();
        }
    }
}

struct Locked(Vec<Mutex<[u64; 8]>>);

impl Lines for Locked {
    fn count(&self) -> usize {
        self.0.len()
    }

    fn load(&self, _node: usize, line: usize) -> [u64; 8] {
        *self.0[line].lock().unwrap()
    }

    fn store(&self, _node: usize, line: usize, words: [u64; 8]) {
        *self.0[line].lock().unwrap() = words;
    }
}

struct Lean(Vec<Fine>);

impl Lean {
    fn call(&self, node: usize, line: usize, goal: Goal) -> Line {
        let mut seat = Seat::new(&self.0[line], node);
        let mut backoff = Backoff(0);
        loop {
            match seat.turn(goal) {
                Turn::Done(line) => return line,
                Turn::Moved => backoff.0 = 0,
                Turn::Waiting => backoff.snooze(),
            }
        }
    }
}

impl Lines for Lean {
    fn count(&self) -> usize {
        self.0.len()
    }

    fn load(&self, node: usize, line: usize) -> [u64; 8] {
        self.call(node, line, Goal::Load).words
    }

    fn store(&self, node: usize, line: usize, words: [u64; 8]) {
        self.call(node, line, Goal::Write(words));
    }
}

/// A tile's line after a phase.
fn tile(lines: &impl Lines, node: usize, tile: usize, phase: u64) -> [u64; 8] {
    lines.reached(node, 2 * tile + (phase % 2) as usize, phase + 1)
}

fn advance(lines: &impl Lines, node: usize, at: usize, phase: u64) {
    let own = tile(lines, node, at, phase);
    let left = if at == 0 { 0 } else { tile(lines, node, at - 1, phase)[7] };
    let right = if 2 * at + 2 == lines.count() { 0 } else { tile(lines, node, at + 1, phase)[1] };
    let mut next = [phase + 2; 8];
    for j in 1..8 {
        let before = if j == 1 { left } else { own[j - 1] };
        let behind = if j == 7 { right } else { own[j + 1] };
        next[j] = before.wrapping_add(own[j]).wrapping_add(behind);
    }
    lines.store(node, 2 * at + ((phase + 1) % 2) as usize, next);
}

/// A node's part: its tiles opened, and taken on; their cells.
fn work(lines: &impl Lines, cells: &[u64], phases: u64, nodes: usize, node: usize) -> Vec<u64> {
    let own = || (node..lines.count() / 2).step_by(nodes);
    for at in own() {
        let mut words = [1; 8];
        words[1..].copy_from_slice(&cells[7 * at..][..7]);
        lines.store(node, 2 * at, words);
    }
    for phase in 0..phases {
        for at in own() {
            advance(lines, node, at, phase);
        }
    }
    own().flat_map(|at| tile(lines, node, at, phases)[1..].to_vec()).collect()
}

fn stencil(lines: &impl Lines, cells: &[u64], phases: u64, nodes: usize) -> Vec<u64> {
    let shares: Vec<Vec<u64>> = thread::scope(|scope| {
        let all: Vec<_> = (0..nodes).map(|node| scope.spawn(move || work(lines, cells, phases, nodes, node))).collect();
        all.into_iter().map(|one| one.join().unwrap()).collect()
    });
    (0..lines.count() / 2).flat_map(|at| shares[at % nodes][7 * (at / nodes)..][..7].to_vec()).collect()
}

fn ring(lines: &impl Lines, items: &[u64]) -> Vec<u64> {
    let last = lines.count() - 1;
    thread::scope(|scope| {
        scope.spawn(move || {
            let mut consumed = 0;
            for (i, item) in (0u64..).zip(items) {
                let least = (i + 1).saturating_sub(last as u64);
                if consumed < least {
                    consumed = lines.reached(0, last, least)[0];
                }
                lines.store(0, i as usize % last, [i + 1, *item, 0, 0, 0, 0, 0, 0]);
            }
        });
        let sink = scope.spawn(move || {
            let mut out = Vec::new();
            for i in 0..items.len() as u64 {
                out.push(lines.reached(1, i as usize % last, i + 1)[1]);
                lines.store(1, last, [i + 1, 0, 0, 0, 0, 0, 0, 0]);
            }
            out
        });
        sink.join().unwrap()
    })
}

fn run(lines: &impl Lines, settings: &Settings) -> (&'static str, Vec<u64>) {
    match settings {
        Settings::Stencil { nodes, phases, cells } => ("cells", stencil(lines, cells, *phases, *nodes)),
        Settings::Ring { items, .. } => ("items", ring(lines, items)),
    }
}

fn main() {
    let words: Vec<String> = env::args().skip(1).collect();
    let settings = read(&fs::read_to_string(&words[1]).unwrap());
    let (count, nodes) = match &settings {
        Settings::Stencil { nodes, cells, .. } => (2 * cells.len() / 7, *nodes),
        Settings::Ring { lines, .. } => (lines + 1, 2),
    };
    let (name, values) = match words[0].as_str() {
        "read" => return,
        "mutex" => run(&Locked((0..count).map(|_| Mutex::new([0; 8])).collect()), &settings),
        _ => run(&Lean((0..count).map(|_| Fine(Table::as_fine(nodes))).collect()), &settings),
    };
    let mut text = String::from(name);
    for value in values {
        write!(text, " {value}").unwrap();
    }
    println!("{text}");
}
