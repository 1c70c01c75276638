//! Two ways to the words: each by itself, or all under one lock word that each call takes.

// Each program uses a part of it.
#![allow(dead_code)]

use crate::protocol::{Port, Table};
use std::sync::atomic::{AtomicU64, Ordering::SeqCst};

/// Each word is an atomic of its own.
pub struct Fine(pub Table);

impl Port for Fine {
    fn table(&self) -> &Table {
        &self.0
    }

    #[inline]
    fn load(&self, place: usize) -> Option<u64> {
        Some(self.0.word(place).load(SeqCst))
    }

    #[inline]
    fn swap(&self, place: usize, before: u64, after: u64) -> bool {
        self.0.word(place).compare_exchange(before, after, SeqCst, SeqCst).is_ok()
    }
}

/// One lock word, which is taken and given back for each load and each exchange.
#[repr(align(128))]
pub struct LockWord {
    lock: AtomicU64,
    table: Table,
}

impl LockWord {
    pub fn new(table: Table) -> LockWord {
        LockWord { lock: AtomicU64::new(0), table }
    }

    pub fn into_table(self) -> Table {
        self.table
    }

    fn take(&self) -> bool {
        self.lock.compare_exchange(0, 1, SeqCst, SeqCst).is_ok()
    }

    fn give(&self) {
        self.lock.store(0, SeqCst);
    }

    // Plain, since the lock is held.
    fn load_held(&self, place: usize) -> u64 {
        unsafe { *self.table.word(place).as_ptr() }
    }

    fn swap_held(&self, place: usize, before: u64, after: u64) -> bool {
        let word = self.table.word(place).as_ptr();
        unsafe {
            let found = *word == before;
            if found {
                *word = after;
            }
            found
        }
    }
}

impl Port for LockWord {
    fn table(&self) -> &Table {
        &self.table
    }

    fn load(&self, place: usize) -> Option<u64> {
        self.take().then(|| {
            let word = self.load_held(place);
            self.give();
            word
        })
    }

    fn swap(&self, place: usize, before: u64, after: u64) -> bool {
        self.take() && {
            let done = self.swap_held(place, before, after);
            self.give();
            done
        }
    }
}
