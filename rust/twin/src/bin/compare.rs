//! Compares the proved library with the second program over as many random calls, and random images with series in
//! them, as asked: `compare [--calls N] [--recordings R] [--seed S] [--threads T]`. A difference is printed with its
//! seed, and the exit code is 1.
use std::sync::atomic::{AtomicU64, Ordering};
use std::time::{Duration, Instant};
use std::{env, process, thread};
use twin::readings::Readings;
use twin::table::Table;
use twin::{readers, runs};

/// Each thread's seeds start so far from those of the one before.
const APART: u64 = 1 << 40;

fn asked(name: &str, otherwise: u64) -> u64 {
    let mut args = env::args().skip_while(|arg| arg != name);
    match args.next().and(args.next()) {
        None => otherwise,
        Some(text) => text
            .parse()
            .unwrap_or_else(|_| panic!("{name} takes a number, not {text}")),
    }
}

/// What all threads are to do, and how far they are.
struct Work {
    calls: u64,
    recordings: u64,
    threads: u64,
    calls_done: AtomicU64,
    recordings_done: AtomicU64,
}

/// One thread's tables, and what differs.
#[derive(Default)]
struct Part {
    table: Table,
    readings: Readings,
    differ: Vec<String>,
}

impl Work {
    /// Prints how far the threads are, every 10 seconds, until they have ended.
    fn progress(&self, ended: impl Fn() -> bool) {
        let (start, mut last) = (Instant::now(), 0);
        while !ended() {
            thread::sleep(Duration::from_millis(50));
            let seconds = start.elapsed().as_secs();
            if seconds >= last + 10 {
                last = seconds;
                let [calls, recordings] = [&self.calls_done, &self.recordings_done].map(|d| d.load(Ordering::Relaxed));
                let (of_calls, of_recordings) = (self.calls, self.recordings);
                eprintln!("{seconds} s: {calls} of {of_calls} calls, {recordings} of {of_recordings} recordings");
            }
        }
    }

    fn one(&self, seed: u64) -> Part {
        let mut part = Part::default();
        let count = |done: &AtomicU64, more| _ = done.fetch_add(more, Ordering::Relaxed);
        let calls = self.calls.div_ceil(self.threads);
        let went = runs::stream(seed, calls, &mut part.table, |more| count(&self.calls_done, more));
        part.differ.extend(went.err());
        let recordings = self.recordings.div_ceil(self.threads);
        let read = |more| count(&self.recordings_done, more);
        let went = readers::stream(seed, recordings, &mut part.readings, read);
        part.differ.extend(went.err());
        part
    }

    /// All threads' parts as one.
    fn all(&self, seed: u64) -> Part {
        let parts: Vec<Part> = thread::scope(|scope| {
            let seeds = (0..self.threads).map(|index| seed + index * APART);
            let all: Vec<_> = seeds.map(|seed| scope.spawn(move || self.one(seed))).collect();
            self.progress(|| all.iter().all(|t| t.is_finished()));
            all.into_iter().map(|t| t.join().expect("a thread that ends")).collect()
        });
        let mut whole = Part::default();
        for part in parts {
            whole.table.add(&part.table);
            whole.readings.add(&part.readings);
            whole.differ.extend(part.differ);
        }
        whole
    }
}

fn main() {
    let work = Work {
        calls: asked("--calls", 1_000_000),
        recordings: asked("--recordings", 20_000),
        threads: asked("--threads", 1).max(1),
        calls_done: AtomicU64::new(0),
        recordings_done: AtomicU64::new(0),
    };
    let start = Instant::now();
    let part = work.all(asked("--seed", 1));
    println!("{}\n{}", part.table, part.readings);
    let (seconds, calls) = (start.elapsed().as_secs_f64(), part.table.calls());
    eprintln!(
        "{seconds:.1} s, {calls} calls and {} openings",
        part.readings.openings()
    );
    part.differ.iter().for_each(|what| eprintln!("a difference: {what}"));
    process::exit(i32::from(!part.differ.is_empty()));
}
