//! Runs from a seed: a sound store grown by random calls, with walks over it, and now and then a few calls on a harmed
//! copy of it.
use crate::calls::{Answer, Call, Tariff};
use crate::encoding::length;
use crate::harm::Harm;
use crate::inputs::{tariff, Chooser, Known};
use crate::model::{Block, Store, LAST_TIME};
use crate::pair::Pair;
use crate::random::Random;
use crate::table::Table;
use crate::walks::Watch;

/// One run: one store.
struct Run {
    calls: u64,
    random: Random,
    pair: Pair,
    prices: Tariff,
    clients: Vec<u32>,
    /// Ids that were issued, destroyed or replaced, a few dozen of them.
    past: Vec<u64>,
    key: u32,
    watched: Vec<Watch>,
    buffer: Vec<u8>,
}

/// Runs until so many calls are made; the first run has the seed itself, each later one the next. `done` is told the
/// calls of each run. A difference comes with its run's seed, which leads to it again.
pub fn stream(seed: u64, calls: u64, table: &mut Table, done: impl Fn(u64)) -> Result<(), String> {
    let mut left = calls;
    for seed in seed.. {
        let mut run = Run::new(seed, std::mem::take(table));
        let went = run.go(left);
        *table = std::mem::take(&mut run.pair.table);
        went.map_err(|what| format!("seed {seed}, call {}: {what}", run.calls))?;
        done(run.calls);
        left = left.saturating_sub(run.calls);
        if left == 0 {
            break;
        }
    }
    Ok(())
}

/// The number of blocks and of calls of a run. An image of 4,096 blocks is rare and its run is short.
fn sizes(random: &mut Random) -> (u32, u64) {
    let any = 8 + 8 * random.block(15);
    let n = random.pick(&[8, 8, 8, 8, 8, 8, 8, 8, 8, 8, 8, 8, 16, 16, 16, 64, 72, 72, 128, any]);
    match n {
        _ if random.one_in(160) => (4096, 240),
        8..64 => (n, 50 + random.below(500)),
        _ => (n, 200 + random.below(1200)),
    }
}

fn clients(random: &mut Random) -> Vec<u32> {
    let many = random.pick(&[1, 2, 2, 3, 5]);
    let any = random.block(64);
    (0..many).map(|_| random.pick(&[0, 1, 3, 62, 63, any])).collect()
}

/// A sound store that need not have come from calls: any blocks used, any times within the bounds.
fn any_store(random: &mut Random, n: u32, clients: &[u32]) -> Store {
    let mut store = Store::fresh(n);
    let any = 1 + random.below(LAST_TIME);
    let late = LAST_TIME - random.pick(&[5, 500, 5000, 5000]);
    store.clock = random.pick(&[1, 50, 1 << 20, (1 << 32) - 3, 1 << 32, any, any, late]);
    let (full, mut bytes) = (random.below(9), [0; 528]);
    for b in 0..n {
        random.fill(&mut bytes);
        if random.below(8) < full {
            let block = any_block(random, b, store.clock, clients, &bytes);
            store.put(b, block);
        } else if random.one_in(2) {
            let left = bytes[16..].try_into().expect("data of 512");
            store.aside.insert(b, Box::new(left));
        }
    }
    store
}

fn any_block(random: &mut Random, b: u32, clock: u64, clients: &[u32], bytes: &[u8]) -> Block {
    let (any, own) = (random.block(64), random.pick(clients));
    let owner = if random.one_in(8) { any } else { own };
    let (before, soon) = (1 + random.below(clock), clock + random.below(60));
    let created = random.pick(&[1, clock, before]);
    let expires = random.pick(&[1, created, clock, clock + 1, LAST_TIME, soon]);
    Block::new(owner, b, created, expires.min(LAST_TIME), bytes)
}

/// A call with no fault in its inputs, with a few, or with many.
fn choose(random: &mut Random, known: &Known) -> (Call, usize) {
    let faults = random.pick(&[0, 0, 0, 0, 0, 6, 6, 2]);
    let format = known.far && random.one_in(12);
    let mut chooser = Chooser { random, known, faults };
    if format {
        chooser.format()
    } else {
        chooser.call()
    }
}

/// What stands where an image's clock stands.
fn clock_of(image: &[u8]) -> Option<u64> {
    let trailer = image.last_chunk::<512>()?;
    Some(u64::from_le_bytes(trailer[24..32].try_into().expect("8 bytes")))
}

impl Run {
    fn new(seed: u64, table: Table) -> Run {
        let mut random = Random::new(seed);
        let mut pair = Pair::default();
        pair.table = table;
        Run {
            calls: 0,
            prices: tariff(&mut random),
            clients: clients(&mut random),
            pair,
            past: Vec::new(),
            key: 0,
            watched: Vec::new(),
            buffer: Vec::new(),
            random,
        }
    }

    fn go(&mut self, most: u64) -> Result<(), String> {
        let (n, calls) = sizes(&mut self.random);
        let (harmed, walks) = match n {
            4096 => (1, 16),
            64.. => (3, 8),
            _ => (3, 4),
        };
        self.start(n)?;
        while self.calls < calls.min(most) {
            match self.random.below(24) {
                x if x < harmed => self.harmed()?,
                x if x < harmed + walks => self.walk()?,
                _ => self.sound()?,
            }
        }
        Ok(())
    }

    /// Format on random bytes, or a sound store of any kind.
    fn start(&mut self, n: u32) -> Result<(), String> {
        if n < 4096 && self.random.one_in(2) {
            self.buffer.resize(length(n), 0);
            self.random.fill(&mut self.buffer);
            self.pair.set(&self.buffer);
            return self.make(Call::Format { n }, 8).map(|_| ());
        }
        let store = any_store(&mut self.random, n, &self.clients);
        self.past.extend(store.by_id.keys().take(8));
        self.pair.put(store);
        self.make(Call::Check, 8).map(|_| ())
    }

    /// Makes a call with a buffer of random bytes.
    fn make(&mut self, call: Call, room: usize) -> Result<Answer, String> {
        self.calls += 1;
        self.buffer.resize(room, 0);
        self.random.fill(&mut self.buffer);
        if self.random.one_in(16) {
            self.prices = tariff(&mut self.random);
        }
        let answer = self.pair.call(&call, &self.prices, &self.buffer)?;
        self.remember(&call, &answer);
        Ok(answer)
    }

    fn remember(&mut self, call: &Call, answer: &Answer) {
        match *call {
            Call::GetIds { .. } | Call::Scavenge { .. } | Call::Profile { .. } => self.key = answer.key,
            Call::Destroy { id, .. } | Call::Replace { id, .. } if answer.report == 0 => self.past.push(id),
            _ => {}
        }
        if answer.id != 0 {
            self.past.push(answer.id);
        }
        while self.past.len() > 48 {
            let at = self.random.below(48) as usize;
            self.past.swap_remove(at);
        }
    }

    /// A call on the sound store.
    fn sound(&mut self) -> Result<(), String> {
        let store = self.pair.store().expect("a sound store");
        let known = Known {
            store,
            clock: store.clock,
            length: self.pair.image().len(),
            past: &self.past,
            clients: &self.clients,
            key: self.key,
            focus: None,
            far: false,
        };
        let (call, room) = choose(&mut self.random, &known);
        self.make(call, room).map(|_| ())
    }

    /// The next call of one of a few walks, which sees what fell between; a step after the end is made too.
    fn walk(&mut self) -> Result<(), String> {
        let n = self.pair.store().expect("a sound store").n;
        if self.watched.is_empty() || (self.watched.len() < 3 && n < 4096 && self.random.one_in(16)) {
            self.watched.push(Watch::new(&mut self.random, &self.clients, n));
        }
        let which = self.random.below(self.watched.len() as u64) as usize;
        let (call, room) = self.watched[which].call(&mut self.random);
        let answer = self.make(call, room)?;
        let store = self.pair.store().expect("a sound store");
        self.watched[which].saw(&answer, self.pair.buffer(), store)?;
        if !self.watched[which].ended() {
            return Ok(());
        }
        let watch = self.watched.swap_remove(which);
        self.pair.table.note_walk(watch.named(), watch.calls());
        match watch.call(&mut self.random) {
            (step @ Call::Step { .. }, room) => self.make(step, room).map(|_| ()),
            _ => Ok(()),
        }
    }

    /// A few calls on a copy of the image, which is harmed, or is as it was and meets far times and Format. The store
    /// stays as it is.
    fn harmed(&mut self) -> Result<(), String> {
        let base = self.pair.take();
        let mut image = self.pair.image().to_vec();
        let mut focus = None;
        if !self.random.one_in(8) {
            let mut harm = Harm {
                random: &mut self.random,
                image: &mut image,
                n: base.n,
                clock: base.clock,
                clients: &self.clients,
                focus: 0,
            };
            harm.some();
            focus = Some(harm.focus);
        }
        self.pair.set(&image);
        for _ in 0..1 + self.random.below(6) {
            let known = Known {
                store: &base,
                clock: clock_of(self.pair.image()).unwrap_or(base.clock),
                length: self.pair.image().len(),
                past: &self.past,
                clients: &self.clients,
                key: self.key,
                focus,
                far: true,
            };
            let (call, room) = choose(&mut self.random, &known);
            self.make(call, room)?;
        }
        self.pair.put(base);
        Ok(())
    }
}
