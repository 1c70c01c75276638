//! The protocol's turns over a `Port`: some way to load a word and to compare-exchange it.
//!
//! Word 0 is memory's, word 1 + n node n's tag, both in layout 2 of docs/PROTOCOL.md; slot 0 is memory's, slot 1 + n node n's.
//! A slot is plain memory that the protocol lends to one node at a time. The line that a pending step keeps stays in the node's
//! own slot, which is in its hand in each of those steps; so bytes are copied only from memory or from another node.

// Each program uses a part of it.
#![allow(dead_code)]

use std::cell::UnsafeCell;
use std::sync::atomic::{AtomicU64, Ordering::SeqCst};

const INVALID: u64 = 0;
const QUEUED: u64 = 1;
const FRESH: u64 = 2;
const DIRTY: u64 = 3;
const CONVERT: u64 = 4;
const PURGING: u64 = 5;
const LEAVING: u64 = 6;
const VALID: u64 = 7;
const ROLL: u64 = 8;
const PURGED: u64 = 9;
const HELD: u64 = 0x10;
const NONE: u64 = 0xffff;

const HOME: u64 = 0;
const GONE: u64 = 2;
const LENT: u64 = 0x10;
const MEM: usize = 0;

const fn tag(kind: u64, forw: u64, back: u64) -> u64 {
    kind | forw << 16 | back << 32
}

// An Invalid tag, and HOME.
const OUT: u64 = tag(INVALID, NONE, NONE);
const AT_HOME: u64 = HOME | NONE << 16;

fn kind(word: u64) -> u64 {
    word & 0xf
}

fn forw(word: u64) -> u64 {
    word >> 16 & 0xffff
}

fn back(word: u64) -> u64 {
    word >> 32 & 0xffff
}

// Kind and held bit are these, so the word isn't held.
fn is_free(word: u64, kind: u64) -> bool {
    word & 0x1f == kind
}

fn mem(state: u64, forw: u64) -> u64 {
    state | forw << 16
}

fn listed(dirty: bool) -> u64 {
    if dirty { GONE } else { FRESH_MEM }
}

fn settled(dirty: bool) -> u64 {
    if dirty { DIRTY } else { FRESH }
}

#[derive(Clone, Copy, PartialEq, Eq, Debug, Default)]
pub struct Line {
    pub words: [u64; 8],
    pub stamp: u64,
}

#[repr(align(128))]
struct Block<const N: usize>([UnsafeCell<u64>; N]);

/// The words and slots of a line. Strides are in units of 8 bytes.
pub struct Table {
    words: Vec<Block<16>>,
    slots: Vec<Block<16>>,
    word_stride: usize,
    slot_stride: usize,
}

// Words are atomics, and the protocol gives a slot to one node at a time.
unsafe impl Sync for Table {}

impl Table {
    /// No two words or slots on one cache line, or a pair of them.
    pub fn apart(nodes: usize) -> Table {
        Table::new(nodes, 16, 16)
    }

    /// Words and slots side by side.
    pub fn packed(nodes: usize) -> Table {
        Table::new(nodes, 1, 9)
    }

    /// Words 64 bytes apart, slots side by side, as FineLine has them.
    pub fn as_fine(nodes: usize) -> Table {
        Table::new(nodes, 8, 9)
    }

    fn new(nodes: usize, word_stride: usize, slot_stride: usize) -> Table {
        let blocks = |cells: usize| {
            (0..=cells.div_ceil(16)).map(|_| Block(std::array::from_fn(|_| UnsafeCell::new(0)))).collect()
        };
        let table = Table {
            words: blocks((nodes + 1) * word_stride),
            slots: blocks((nodes + 1) * slot_stride),
            word_stride,
            slot_stride,
        };
        table.word(MEM).store(AT_HOME, SeqCst);
        for node in 0..nodes {
            table.word(1 + node).store(OUT, SeqCst);
        }
        table
    }

    #[inline]
    pub fn word(&self, place: usize) -> &AtomicU64 {
        let at = place * self.word_stride;
        unsafe { AtomicU64::from_ptr(self.words[at / 16].0[at % 16].get()) }
    }

    #[inline]
    pub fn slot(&self, place: usize) -> *mut Line {
        let at = place * self.slot_stride;
        assert!(at + 9 <= self.slots.len() * 16);
        unsafe { self.slots.as_ptr().cast::<u64>().add(at).cast_mut().cast() }
    }

    /// The line at rest: its value, once no node is in a step.
    pub fn closed(&mut self) -> Line {
        let memory = self.word(MEM).load(SeqCst);
        assert_eq!(memory & LENT, 0);
        let mut seen = 0;
        let (mut node, mut before) = (forw(memory), NONE);
        while node != NONE {
            let tag = self.word(1 + node as usize).load(SeqCst);
            let wanted = match (before, memory & 0xf) {
                (NONE, GONE) => DIRTY,
                (NONE, _) => FRESH,
                _ => VALID,
            };
            assert!(is_free(tag, wanted) && back(tag) == before, "not an exact list");
            unsafe { assert_eq!(*self.slot(1 + node as usize), *self.slot(1 + forw(memory) as usize)) };
            (before, node, seen) = (node, forw(tag), seen + 1);
            assert!(seen <= 1024);
        }
        let place = if kind(memory) == GONE { 1 + forw(memory) as usize } else { 0 };
        unsafe { *self.slot(place) }
    }
}

/// One node's way to the words. None, or Err: the table was busy, or another word was found.
pub trait Port: Sync {
    fn table(&self) -> &Table;
    fn load(&self, place: usize) -> Option<u64>;
    fn swap(&self, place: usize, before: u64, after: u64) -> bool;
}

#[derive(Clone, Copy)]
enum Step {
    Idle,
    Holding(u64),
    Queueing(u64),
    Fetching { forw: u64, dirty: bool },
    InQueue { forw: u64, dirty: bool },
    Copying(u64, u64),
    Ready { forw: u64, dirty: bool },
    Converting { forw: u64, turned: bool },
    Purging,
    Advancing { victim: u64, word: u64 },
    Clearing { victim: u64, word: u64 },
    Leaving { dirty: bool },
    Promoted { dirty: bool, succ: u64 },
    WritingBack,
    Parted { forw: u64 },
    Rolling { told: bool },
    Unlinked(u64),
}

#[derive(Clone, Copy, PartialEq, Eq)]
pub enum Goal {
    Load,
    Add { word: usize, delta: u64 },
    Write([u64; 8]),
    Evict,
}

pub enum Turn {
    Moved,
    Waiting,
    Done(Line),
}

use Step::*;
use Turn::{Done, Moved, Waiting};

/// A node's seat.
pub struct Seat<'a, P: Port> {
    port: &'a P,
    me: u64,
    own: usize,
    step: Step,
}

impl<'a, P: Port> Seat<'a, P> {
    pub fn new(port: &'a P, node: usize) -> Self {
        Seat { port, me: node as u64, own: 1 + node, step: Idle }
    }

    /// At most three loads and one exchange.
    #[inline]
    pub fn turn(&mut self, goal: Goal) -> Turn {
        self.turn_in(goal).unwrap_or(Waiting)
    }

    // The exchange, and the step after it.
    #[inline]
    fn go(&mut self, place: usize, before: u64, after: u64, step: Step) -> Option<Turn> {
        if self.port.swap(place, before, after) {
            self.step = step;
            Some(Moved)
        } else {
            None
        }
    }

    // As `go`, to Idle with the line that is answered to a load.
    fn rest(&mut self, before: u64, after: u64, goal: Goal) -> Option<Turn> {
        let seen = if goal == Goal::Load { Done(self.line()) } else { Moved };
        self.go(self.own, before, after, Idle).map(|_| seen)
    }

    fn line(&self) -> Line {
        unsafe { *self.port.table().slot(self.own) }
    }

    fn copy(&self, from: usize, to: usize) {
        let table = self.port.table();
        unsafe { *table.slot(to) = *table.slot(from) }
    }

    fn turn_in(&mut self, goal: Goal) -> Option<Turn> {
        let (me, own) = (self.me, self.own);
        let port = self.port;
        let other = |node: u64| 1 + node as usize;
        match self.step {
            Idle => {
                let t = port.load(own)?;
                match kind(t) {
                    INVALID if goal == Goal::Evict => Some(Done(Line::default())),
                    INVALID => {
                        let f = forw(port.load(MEM)?);
                        self.go(own, OUT, tag(QUEUED, f, NONE), Queueing(f))
                    }
                    _ if t & HELD != 0 => None,
                    FRESH | DIRTY | VALID if goal == Goal::Load => self.go(own, t, t | HELD, Holding(t)),
                    VALID => self.go(own, t, tag(ROLL, forw(t), back(t)), Rolling { told: false }),
                    DIRTY if goal != Goal::Evict => self.go(own, t, tag(PURGING, forw(t), NONE), Purging),
                    FRESH | DIRTY => {
                        if forw(port.load(MEM)?) != me {
                            return None;
                        }
                        if goal == Goal::Evict {
                            let dirty = kind(t) == DIRTY;
                            return self.go(own, t, tag(LEAVING, forw(t), NONE), Leaving { dirty });
                        }
                        let step = Converting { forw: forw(t), turned: false };
                        self.go(own, t, tag(CONVERT, forw(t), NONE), step)
                    }
                    _ => None,
                }
            }
            Holding(t) => self.rest(t | HELD, t, goal),
            Queueing(f) => {
                let m = port.load(MEM)?;
                if m & LENT != 0 {
                    None
                } else if forw(m) != f {
                    self.go(own, tag(QUEUED, f, NONE), tag(QUEUED, forw(m), NONE), Queueing(forw(m)))
                } else if kind(m) == GONE {
                    self.go(MEM, m, mem(GONE, me), InQueue { forw: f, dirty: true })
                } else {
                    let dirty = kind(m) == HOME && matches!(goal, Goal::Add { .. } | Goal::Write(_));
                    let step = self.go(MEM, m, mem(listed(dirty), me) | LENT, Fetching { forw: f, dirty })?;
                    self.copy(MEM, own);
                    Some(step)
                }
            }
            Fetching { forw: f, dirty } => {
                let m = mem(listed(dirty), me);
                self.go(MEM, m | LENT, m, InQueue { forw: f, dirty })
            }
            InQueue { forw: NONE, dirty } => {
                self.rest(tag(QUEUED, NONE, NONE), tag(settled(dirty), NONE, NONE), goal)
            }
            InQueue { forw: f, dirty } => {
                let x = port.load(other(f))?;
                if !is_free(x, settled(dirty)) {
                    return None;
                }
                let word = tag(VALID, forw(x), me);
                if dirty {
                    let step = self.go(other(f), x, word | HELD, Copying(f, word))?;
                    self.copy(other(f), own);
                    Some(step)
                } else {
                    self.go(other(f), x, word, Ready { forw: f, dirty })
                }
            }
            Copying(f, word) => self.go(other(f), word | HELD, word, Ready { forw: f, dirty: true }),
            Ready { forw: f, dirty } => self.rest(tag(QUEUED, f, NONE), tag(settled(dirty), f, NONE), goal),
            Converting { forw: f, turned: true } => {
                self.go(own, tag(CONVERT, f, NONE), tag(PURGING, f, NONE), Purging)
            }
            Converting { forw: f, turned: false } => {
                if forw(port.load(MEM)?) == me {
                    let step = Converting { forw: f, turned: true };
                    self.go(MEM, mem(FRESH_MEM, me), mem(GONE, me), step)
                } else {
                    self.go(own, tag(CONVERT, f, NONE), tag(FRESH, f, NONE), Idle)
                }
            }
            Purging => {
                let next = forw(port.load(own)?);
                if next == NONE {
                    return self.write(goal);
                }
                let x = port.load(other(next))?;
                if is_free(x, VALID) {
                    let word = tag(PURGED, forw(x), back(x));
                    self.go(other(next), x, word, Advancing { victim: next, word })
                } else if is_free(x, ROLL) && back(x) != me {
                    self.go(other(next), x, tag(ROLL, forw(x), me), Purging)
                } else {
                    None
                }
            }
            Advancing { victim, word } => {
                let after = tag(PURGING, forw(word), NONE);
                self.go(own, tag(PURGING, victim, NONE), after, Clearing { victim, word })
            }
            Clearing { victim, word } => self.go(other(victim), word, OUT, Purging),
            Leaving { dirty } => {
                let t = port.load(own)?;
                let next = forw(t);
                if forw(port.load(MEM)?) != me {
                    return self.go(own, t, tag(settled(dirty), next, NONE), Idle);
                }
                if next != NONE {
                    let x = port.load(other(next))?;
                    if !is_free(x, VALID) || back(x) != me {
                        return None;
                    }
                    let after = tag(settled(dirty), forw(x), NONE);
                    self.go(other(next), x, after, Promoted { dirty, succ: next })
                } else if dirty {
                    let step = self.go(MEM, mem(GONE, me), AT_HOME | LENT, WritingBack)?;
                    self.copy(own, MEM);
                    Some(step)
                } else {
                    self.go(MEM, mem(FRESH_MEM, me), AT_HOME, Parted { forw: NONE })
                }
            }
            Promoted { dirty, succ } => {
                if forw(port.load(MEM)?) == me {
                    let state = listed(dirty);
                    self.go(MEM, mem(state, me), mem(state, succ), Parted { forw: succ })
                } else {
                    let before = tag(LEAVING, succ, NONE);
                    self.go(own, before, tag(QUEUED, succ, NONE), InQueue { forw: succ, dirty })
                }
            }
            WritingBack => self.go(MEM, AT_HOME | LENT, AT_HOME, Parted { forw: NONE }),
            Parted { forw: f } => self.out(tag(LEAVING, f, NONE), goal),
            Rolling { told } => {
                let t = port.load(own)?;
                let (f, b) = (forw(t), back(t));
                if !told && f != NONE {
                    let x = port.load(other(f))?;
                    if !is_free(x, VALID) || back(x) != me {
                        return None;
                    }
                    return self.go(other(f), x, tag(VALID, forw(x), b), Rolling { told: true });
                }
                let x = port.load(other(b))?;
                let can_be_told = matches!(x & 0x1f, FRESH | DIRTY | VALID | PURGING | LEAVING | ROLL);
                if !can_be_told || forw(x) != me {
                    return None;
                }
                self.go(other(b), x, x & !0xffff_0000 | f << 16, Unlinked(t))
            }
            Unlinked(t) => self.out(t, goal),
        }
    }

    fn out(&mut self, before: u64, goal: Goal) -> Option<Turn> {
        let end = if goal == Goal::Evict { Done(Line::default()) } else { Moved };
        self.go(self.own, before, OUT, Idle).map(|_| end)
    }

    // Nobody is behind this purger, so its word is its own, and the exchange can't miss but where the port is busy.
    fn write(&mut self, goal: Goal) -> Option<Turn> {
        let line = unsafe { &mut *self.port.table().slot(self.own) };
        let before = *line;
        match goal {
            Goal::Add { word, delta } => line.words[word] = line.words[word].wrapping_add(delta),
            Goal::Write(words) => line.words = words,
            Goal::Load | Goal::Evict => unreachable!("only a writer purges"),
        }
        line.stamp += 1;
        let done = self.go(self.own, tag(PURGING, NONE, NONE), tag(DIRTY, NONE, NONE), Idle);
        if done.is_none() {
            *line = before;
        }
        done.map(|_| Done(before))
    }
}

const FRESH_MEM: u64 = 1;
