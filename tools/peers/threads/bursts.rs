//! Bursts of work that threads begin together, each on a processor of its own.

use std::ffi::{c_int, c_long};
use std::sync::atomic::{AtomicU64, Ordering::SeqCst};
use std::sync::Barrier;
use std::thread;
use std::time::{Duration, Instant};

const THREAD_CPU_TIME: c_int = 3;
const SET_SCHEDULING: c_long = if cfg!(target_arch = "x86_64") { 314 } else { 274 };

extern "C" {
    fn clock_gettime(clock: c_int, time: *mut [c_long; 2]) -> c_int;
    fn sched_setaffinity(process: c_int, size: usize, processors: *const u64) -> c_int;
    fn syscall(number: c_long, ...) -> c_long;
}

pub struct Bursts {
    pub threads: usize,
    pub number: u64,
}

struct Span {
    start: Instant,
    end: Instant,
    cpu: u64,
}

// The nanoseconds that this thread was on a processor.
fn cpu_nanos() -> u64 {
    let mut time = [0; 2];
    unsafe { clock_gettime(THREAD_CPU_TIME, &mut time) };
    time[0] as u64 * 1_000_000_000 + time[1] as u64
}

// Keeps this thread on one processor, in slices of 1 ms: on a busy machine these come sooner, and are no more in all.
fn pin(thread: usize) {
    let processors = thread::available_parallelism().map_or(1, |n| n.get()).min(64);
    let set = 1u64 << (thread % processors);
    // size, policy, flags, nice and priority, runtime, deadline, period
    let slices: [u64; 6] = [48, 0, 0, 1_000_000, 0, 0];
    unsafe {
        syscall(SET_SCHEDULING, 0 as c_long, slices.as_ptr(), 0 as c_long);
        sched_setaffinity(0, 8, &set);
    }
}

impl Bursts {
    /// Each thread takes its seat, and works in each burst. For each burst it prints the nanoseconds from the first thread's start
    /// to the last one's end, and the share of them that the threads were on a processor.
    pub fn run<S>(&self, seat: impl Fn(usize) -> S + Sync, work: impl Fn(&mut S) + Sync) {
        let (barrier, ready) = (Barrier::new(self.threads), AtomicU64::new(0));
        let spans: Vec<Vec<Span>> = thread::scope(|scope| {
            let started: Vec<_> = (0..self.threads)
                .map(|t| {
                    let (barrier, ready, seat, work) = (&barrier, &ready, &seat, &work);
                    scope.spawn(move || {
                        pin(t);
                        let mut seat = seat(t);
                        (1..=self.number).map(|n| self.burst(n, barrier, ready, || work(&mut seat))).collect()
                    })
                })
                .collect();
            started.into_iter().map(|thread| thread.join().unwrap()).collect()
        });
        for n in 0..self.number as usize {
            let burst: Vec<&Span> = spans.iter().map(|of| &of[n]).collect();
            self.print(&burst);
        }
    }

    fn burst(&self, n: u64, barrier: &Barrier, ready: &AtomicU64, work: impl FnOnce()) -> Span {
        // who slept a little is run sooner
        thread::sleep(Duration::from_millis(2));
        barrier.wait();
        ready.fetch_add(1, SeqCst);
        while ready.load(SeqCst) < n * self.threads as u64 {
            thread::yield_now();
        }
        let (start, cpu) = (Instant::now(), cpu_nanos());
        work();
        Span { start, end: Instant::now(), cpu: cpu_nanos() - cpu }
    }

    fn print(&self, burst: &[&Span]) {
        let start = burst.iter().map(|span| span.start).min().unwrap();
        let end = burst.iter().map(|span| span.end).max().unwrap();
        let nanos = (end - start).as_nanos();
        let cpu: u64 = burst.iter().map(|span| span.cpu).sum();
        println!("{nanos} {:.3}", cpu as f64 / (nanos as f64 * self.threads as f64));
    }
}
