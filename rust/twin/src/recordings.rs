//! Random images with series in them: sequences in any order and with any missing, other clients and other series
//! beside them, blocks destroyed again, blocks that break W1's rules, and damage to the image.
use crate::calls::{Call, Tariff};
use crate::encoding::encode;
use crate::faults::Faults;
use crate::harm::Harm;
use crate::model::{Block, Data, Store, LAST_TIME};
use crate::random::Random;
use crate::series::{MARK, MOST, SEQUENCES, SLOTS};
use std::collections::BTreeSet;

/// A block of a series as its tag and its samples have it, before it is stored.
#[derive(Clone)]
pub struct Written {
    pub owner: u32,
    pub series: u32,
    pub sequence: u32,
    pub count: u8,
    pub zeros: [u8; 7],
    pub samples: [i32; SLOTS],
}

impl Written {
    /// A right block whose samples are all taken.
    pub fn full(owner: u32, series: u32, sequence: u32, samples: [i32; SLOTS]) -> Written {
        Written {
            owner,
            series,
            sequence,
            count: SLOTS as u8,
            zeros: [0; 7],
            samples,
        }
    }

    /// A right block of so many samples, 1 to 128, some of them at the limits and some marked.
    pub fn random(random: &mut Random, owner: u32, series: u32, sequence: u32) -> Written {
        let (any, all) = (1 + random.below(SLOTS as u64), SLOTS as u64);
        let count = random.pick(&[1, 2, any, any, all - 1, all, all]);
        let rare = random.pick(&[1, 2, 8, 400]);
        let mut samples = [MARK; SLOTS];
        for sample in &mut samples[..count as usize] {
            let any = random.below(2 * MOST as u64 + 1) as i32 - MOST;
            let edge = random.pick(&[MARK, MARK, MARK, MOST, -MOST, MOST - 1, 1 - MOST, 0, 1, -1]);
            *sample = if random.one_in(rare) { edge } else { any };
        }
        Written {
            count: count as u8,
            ..Written::full(owner, series, sequence, samples)
        }
    }

    /// The 528 bytes that are stored.
    pub fn bytes(&self) -> Vec<u8> {
        let mut bytes = Vec::with_capacity(528);
        bytes.extend(self.series.to_le_bytes());
        bytes.extend(self.sequence.to_le_bytes());
        bytes.push(self.count);
        bytes.extend(self.zeros);
        self.samples.iter().for_each(|s| bytes.extend(s.to_le_bytes()));
        bytes
    }
}

/// The image of a store of n blocks whose first ones are these.
pub fn image_of(n: u32, blocks: &[Written]) -> Vec<u8> {
    let mut store = Store::fresh(n);
    store.clock = 1;
    for (b, written) in (0..n).zip(blocks) {
        store.put(b, Block::new(written.owner, b, 1, 1, &written.bytes()));
    }
    let mut image = Vec::new();
    encode(&store, &mut image);
    image
}

/// An image of n blocks, before it was harmed, and what an opening may ask for: client and series, the pair that the
/// image was made for first.
pub struct Recording {
    pub image: Vec<u8>,
    pub n: u32,
    pub asked: Vec<(u32, u32)>,
}

impl Recording {
    pub fn random(random: &mut Random) -> Recording {
        let (any, any_client) = (8 + 8 * random.block(8), random.block(64));
        let small = random.pick(&[8, 8, 8, 16, 16, 24, 64, any]);
        let n = if random.one_in(400) { 4096 } else { small };
        let client = random.pick(&[0, 0, 1, 62, 63, any_client, any_client]);
        let any = random.number() as u32;
        let series = random.pick(&[0, 0, 1, 0x0102_0304, u32::MAX, 1 << 31, any, any]);
        #[rustfmt::skip]
        let mut maker = Maker { random, n, client, series };
        let store = maker.store();
        let mut image = Vec::new();
        encode(&store, &mut image);
        maker.harm(&store, &mut image);
        let asked = maker.asked(&store);
        Recording { image, n, asked }
    }
}

/// What makes an image for one client's series.
struct Maker<'a> {
    random: &'a mut Random,
    n: u32,
    client: u32,
    series: u32,
}

impl Maker<'_> {
    fn store(&mut self) -> Store {
        let mut store = Store::fresh(self.n);
        let any = 1 + self.random.below(LAST_TIME / 2);
        store.clock = self.random.pick(&[1, 1000, any]);
        let own = self.own();
        let mut next = own.iter().peekable();
        for b in 0..self.n {
            let (left, room) = (next.len() as u64, u64::from(self.n - b));
            let here = self.random.below(room) < left;
            match next.next_if(|_| here) {
                Some(written) => self.put(&mut store, b, written.owner, &written.bytes()),
                None => self.beside(&mut store, b, &own),
            }
        }
        if self.random.one_in(4) {
            self.destroy_some(&mut store);
        }
        store
    }

    /// The blocks of the series, in the order of their block numbers.
    fn own(&mut self) -> Vec<Written> {
        let (client, series) = (self.client, self.series);
        let sequences = self.sequences();
        let random = &mut *self.random;
        let mut own: Vec<Written> = sequences
            .into_iter()
            .map(|sequence| Written::random(random, client, series, sequence))
            .collect();
        if !own.is_empty() && self.random.one_in(2) {
            let random = &mut *self.random;
            Faults { random }.some(&mut own);
        }
        own
    }

    /// High sequences are rare: a series has 128 places for each sequence up to its highest.
    fn sequences(&mut self) -> Vec<u32> {
        let few = 1 + self.random.block(self.n.min(12));
        let many = self.random.pick(&[few, few, few, 1, 2, self.n, 0]);
        let last = SEQUENCES - 1;
        let below = (2 * many).min(SEQUENCES);
        let mut sequences: Vec<u32> = match self.random.below(128) {
            0..32 => (0..many).collect(),
            32..48 => (0..many.div_ceil(8)).map(|i| 8 * i).collect(),
            48..64 => (0..many / 3).map(|i| 3 * i + 1).collect(),
            64..126 => (0..below).filter(|_| self.random.one_in(2)).collect(),
            _ => {
                let other = self
                    .random
                    .pick(&[0, last - 1, last - 256, last - 1024, last - 2048, last]);
                let any = (0..many).map(|_| self.random.block(SEQUENCES));
                BTreeSet::from_iter(any.chain([other, last])).into_iter().collect()
            }
        };
        match self.random.below(3) {
            0 => {}
            1 => sequences.reverse(),
            _ => self.random.shuffle(&mut sequences),
        }
        sequences.truncate(self.n as usize);
        sequences
    }

    fn put(&mut self, store: &mut Store, b: u32, owner: u32, bytes: &[u8]) {
        let (clock, any) = (store.clock, 1 + self.random.below(LAST_TIME));
        let before = 1 + self.random.below(clock);
        let created = self.random.pick(&[1, clock, before]);
        let expires = self.random.pick(&[1, created, clock, LAST_TIME, any]);
        store.put(b, Block::new(owner, b, created, expires, bytes));
    }

    /// What stands where no block of the series does: nothing, leftovers, other clients' blocks and other series.
    fn beside(&mut self, store: &mut Store, b: u32, own: &[Written]) {
        let mut written = match own.len() as u64 {
            0 => Written::random(self.random, self.client, self.series, b),
            many => own[self.random.below(many) as usize].clone(),
        };
        match self.random.below(8) {
            0 => return,
            1 => {
                store.aside.insert(b, left(&written));
                return;
            }
            2..5 => written.owner = self.other_client(),
            _ => written.series = self.other_series(),
        }
        if self.random.one_in(3) {
            let random = &mut *self.random;
            Faults { random }.one(&mut written);
        }
        let mut bytes = written.bytes();
        if self.random.one_in(8) {
            self.random.fill(&mut bytes[4..]);
        }
        self.put(store, b, written.owner, &bytes);
    }

    fn other_client(&mut self) -> u32 {
        let any = self.random.block(64);
        let other = self.random.pick(&[self.client ^ 1, self.client ^ 32, any]);
        if other == self.client {
            63 - other
        } else {
            other
        }
    }

    /// Another series, mostly with three of the four bytes alike.
    fn other_series(&mut self) -> u32 {
        let (own, bit) = (self.series, self.random.below(32));
        let any = self.random.number() as u32;
        let other = self
            .random
            .pick(&[own ^ 1 << bit, own ^ 1 << bit, own.swap_bytes(), any]);
        if other == own {
            !own
        } else {
            other
        }
    }

    /// Some of the client's blocks, or all of them, go again as Destroy takes them; their data stays.
    fn destroy_some(&mut self, store: &mut Store) {
        let (client, rare) = (self.client, self.random.pick(&[1, 2, 6]));
        for id in store.ids(client) {
            if self.random.one_in(rare) {
                let now = store.clock + 1;
                let answer = store.perform(&Call::Destroy { client, id, now }, &Tariff::default(), &mut []);
                assert_eq!(answer.report, 0, "a block of the client");
            }
        }
    }

    fn harm(&mut self, store: &Store, image: &mut Vec<u8>) {
        if self.random.one_in(4) {
            let mut harm = Harm {
                random: self.random,
                image,
                n: self.n,
                clock: store.clock,
                clients: &[self.client],
                focus: 0,
            };
            harm.some();
        }
    }

    /// The series itself; one of those beside it; one that is likely not there; and a client that there can't be.
    fn asked(&mut self, store: &Store) -> Vec<(u32, u32)> {
        let (client, series) = (self.client, self.series);
        let mut asked = vec![(client, series)];
        let from = self.random.block(self.n);
        if let Some(block) = store.stored.range(from..).next().map(|(_, block)| block) {
            let tag = block.tag.first_chunk().expect("4 bytes");
            asked.push((block.owner, u32::from_le_bytes(*tag)));
        }
        if self.random.one_in(4) {
            asked.push((self.other_client(), series));
            asked.push((client, self.other_series()));
        }
        if self.random.one_in(8) {
            let clients = [64, 65, 128 + client, 256 + client, client | 1 << 31, u32::MAX];
            asked.push((self.random.pick(&clients), series));
        }
        asked
    }
}

fn left(written: &Written) -> Data {
    Box::new(written.bytes()[16..].try_into().expect("data of 512"))
}
