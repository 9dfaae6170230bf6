//! The second program: document 01's store as maps and sets, for sound images. Its bytes are `encoding`'s business.
use crate::calls::{Answer, Call, Tariff, Walk};
use crate::identifiers::made;
use crate::reports::Report;
use std::collections::{BTreeMap, BTreeSet};

pub const END_KEY: u32 = 65_535;
pub const LAST_TIME: u64 = (1 << 40) - 1;

pub type Data = Box<[u8; 512]>;
type Outcome = Result<Answer, Report>;

#[derive(Clone, Debug, PartialEq, Eq)]
pub struct Block {
    pub owner: u32,
    pub id: u64,
    pub created: u64,
    pub expires: u64,
    pub tag: [u8; 16],
    pub data: Data,
}

/// A store of n blocks. The number of a client's blocks is derived; data that no block holds any more is kept aside.
#[derive(Clone, Debug, PartialEq, Eq)]
pub struct Store {
    pub n: u32,
    pub clock: u64,
    pub stored: BTreeMap<u32, Block>,
    pub by_id: BTreeMap<u64, u32>,
    pub free: BTreeSet<u32>,
    pub aside: BTreeMap<u32, Data>,
    /// The block whose data was written last, for who encodes only what changed.
    pub written: Option<u32>,
}

pub fn is_time(time: u64) -> bool {
    (1..=LAST_TIME).contains(&time)
}

fn is_expiry(expiry: u64) -> bool {
    expiry == 0 || is_time(expiry)
}

/// The lowest number that applies.
fn lowest(faults: &[(bool, Report)]) -> Result<(), Report> {
    let applies = faults.iter().filter(|(applies, _)| *applies);
    applies.map(|(_, report)| *report).min().map_or(Ok(()), Err)
}

/// T(c, e) = rate · (e - c).
fn tariff(prices: &Tariff, created: u64, expires: u64) -> i128 {
    i128::from(prices.rate) * (i128::from(expires) - i128::from(created))
}

fn costs(charge: i128) -> Answer {
    Answer {
        charge: charge.try_into().expect("a charge of 64 bits"),
        ..Answer::default()
    }
}

impl Block {
    pub fn new(owner: u32, number: u32, created: u64, expires: u64, bytes: &[u8]) -> Block {
        Block {
            owner,
            id: made(created, number),
            created,
            expires,
            tag: bytes[..16].try_into().expect("a tag of 16"),
            data: Box::new(bytes[16..].try_into().expect("data of 512")),
        }
    }

    fn paid(&self, prices: &Tariff) -> i128 {
        tariff(prices, self.created, self.expires)
    }
}

impl Store {
    /// What Format makes.
    pub fn fresh(n: u32) -> Store {
        Store {
            n,
            clock: 0,
            stored: BTreeMap::new(),
            by_id: BTreeMap::new(),
            free: (0..n).collect(),
            aside: (0..n).map(|b| (b, Box::new([0; 512]))).collect(),
            written: None,
        }
    }

    /// Puts a block at a free number.
    pub fn put(&mut self, number: u32, block: Block) {
        self.free.remove(&number);
        self.aside.remove(&number);
        self.by_id.insert(block.id, number);
        self.stored.insert(number, block);
    }

    fn remove(&mut self, number: u32) {
        let block = self.stored.remove(&number).expect("a stored block");
        self.by_id.remove(&block.id);
        self.aside.insert(number, block.data);
        self.free.insert(number);
    }

    /// The number of blocks that a client owns.
    pub fn count(&self, client: u32) -> u32 {
        self.stored.values().filter(|b| b.owner == client).count() as u32
    }

    /// The ids of a client's blocks.
    pub fn ids(&self, client: u32) -> BTreeSet<u64> {
        let own = self.stored.values().filter(|b| b.owner == client);
        own.map(|b| b.id).collect()
    }

    fn find(&self, id: u64) -> Option<(u32, &Block)> {
        let number = *self.by_id.get(&id)?;
        Some((number, &self.stored[&number]))
    }

    fn another_s(&self, id: u64, client: u32) -> bool {
        self.find(id).is_some_and(|(_, block)| block.owner != client)
    }

    /// Where a key call that stops before this number goes on.
    fn next_key(&self, stop: u32) -> u32 {
        if stop < self.n {
            stop
        } else {
            END_KEY
        }
    }

    /// Stored blocks among the 64 headers that a key call visits at most, and the number before which it stops.
    fn visited(&self, key: u32) -> (impl Iterator<Item = (u32, &Block)>, u32) {
        let stop = self.n.min(key + 64);
        (self.stored.range(key..stop).map(|(b, block)| (*b, block)), stop)
    }

    /// The answer to an operation or a step; the store and the buffer become what they are after it.
    pub fn perform(&mut self, call: &Call, prices: &Tariff, buffer: &mut [u8]) -> Answer {
        let outcome = match *call {
            Call::Create { client, expiry, now } => self.create(prices, client, expiry, buffer, now),
            Call::Read { client, id } => self.read(prices, client, id, buffer),
            Call::Status { client, id } => self.status(prices, client, id),
            Call::Destroy { client, id, now } => self.destroy(prices, client, id, now),
            Call::Replace { client, id, now } => self.replace(prices, client, id, buffer, now),
            #[rustfmt::skip]
            Call::SetExpiry { client, id, expiry, now } => self.set_expiry(prices, client, id, expiry, now),
            Call::GetIds { client, key, count } => self.get_ids(prices, client, key, count, buffer),
            Call::GetCount { client } => self.get_count(prices, client),
            Call::Scavenge { client, key, now } => self.scavenge(prices, client, key, now),
            Call::Profile { client, key } => self.profile(prices, client, key, buffer),
            Call::Step { walk } => self.step(prices, walk, buffer),
            Call::Format { .. } | Call::Check => unreachable!("not an operation"),
        };
        outcome.unwrap_or_else(|report| call.refused(report, prices))
    }

    fn create(&mut self, prices: &Tariff, client: u32, expiry: u64, bytes: &[u8], now: u64) -> Outcome {
        lowest(&[
            (client > 63, Report::BadUser),
            (!is_time(now) || !is_expiry(expiry), Report::BadTime),
            (now <= self.clock, Report::ClockNotLater),
            (bytes.len() != 528, Report::BadRoom),
            (self.free.is_empty(), Report::NoSpace),
        ])?;
        let number = *self.free.first().expect("a free block");
        let block = Block::new(client, number, now, now.max(expiry), bytes);
        let mut answer = costs(i128::from(prices.create) + block.paid(prices));
        answer.id = block.id;
        self.put(number, block);
        self.written = Some(number);
        self.clock = now;
        Ok(answer)
    }

    fn read(&self, prices: &Tariff, client: u32, id: u64, buffer: &mut [u8]) -> Outcome {
        let found = self.find(id);
        lowest(&[
            (client > 63, Report::BadUser),
            (buffer.len() != 528, Report::BadRoom),
            (found.is_none(), Report::NoSuchBlock),
        ])?;
        let (_, block) = found.expect("a block");
        let bytes = block.tag.iter().chain(block.data.iter());
        buffer.iter_mut().zip(bytes).for_each(|(to, from)| *to = *from);
        Ok(costs(prices.read.into()))
    }

    fn status(&self, prices: &Tariff, client: u32, id: u64) -> Outcome {
        let found = self.find(id);
        lowest(&[(client > 63, Report::BadUser), (found.is_none(), Report::NoSuchBlock)])?;
        let (_, block) = found.expect("a block");
        Ok(Answer {
            owner: block.owner,
            created: block.created,
            expires: block.expires,
            ..costs(prices.status.into())
        })
    }

    /// What can be wrong with the client, the time, and the block of Destroy, Replace and SetExpiry.
    fn own_block_faults(&self, client: u32, id: u64, now: u64) -> [(bool, Report); 5] {
        [
            (client > 63, Report::BadUser),
            (!is_time(now), Report::BadTime),
            (now <= self.clock, Report::ClockNotLater),
            (self.find(id).is_none(), Report::NoSuchBlock),
            (self.another_s(id, client), Report::NotOwner),
        ]
    }

    fn destroy(&mut self, prices: &Tariff, client: u32, id: u64, now: u64) -> Outcome {
        lowest(&self.own_block_faults(client, id, now))?;
        let (number, old) = self.find(id).expect("a block");
        let charge = i128::from(prices.destroy) - old.paid(prices) + tariff(prices, old.created, now);
        self.remove(number);
        self.clock = now;
        Ok(costs(charge))
    }

    fn replace(&mut self, prices: &Tariff, client: u32, id: u64, bytes: &[u8], now: u64) -> Outcome {
        let mut faults = self.own_block_faults(client, id, now).to_vec();
        faults.push((bytes.len() != 528, Report::BadRoom));
        lowest(&faults)?;
        let (number, old) = self.find(id).expect("a block");
        let new = Block::new(client, number, now, old.expires, bytes);
        let kept = tariff(prices, old.created, now);
        let mut answer = costs(i128::from(prices.replace) - old.paid(prices) + kept + new.paid(prices));
        answer.id = new.id;
        self.remove(number);
        self.put(number, new);
        self.written = Some(number);
        self.clock = now;
        Ok(answer)
    }

    fn set_expiry(&mut self, prices: &Tariff, client: u32, id: u64, expiry: u64, now: u64) -> Outcome {
        let mut faults = self.own_block_faults(client, id, now).to_vec();
        faults.push((!is_expiry(expiry), Report::BadTime));
        lowest(&faults)?;
        let (number, old) = self.find(id).expect("a block");
        let expires = now.max(expiry);
        let new = tariff(prices, old.created, expires);
        let charge = i128::from(prices.setexpiry) - old.paid(prices) + new;
        self.stored.get_mut(&number).expect("a block").expires = expires;
        self.clock = now;
        Ok(costs(charge))
    }

    fn get_count(&self, prices: &Tariff, client: u32) -> Outcome {
        lowest(&[(client > 63, Report::BadUser)])?;
        Ok(Answer {
            count: self.count(client),
            ..costs(prices.getcount.into())
        })
    }

    fn get_ids(&self, prices: &Tariff, client: u32, key: u32, count: u32, buffer: &mut [u8]) -> Outcome {
        lowest(&[
            (client > 63, Report::BadUser),
            (key >= self.n, Report::BadKey),
            (!(1..=64).contains(&count), Report::BadCount),
            ((buffer.len() as u128) < 8 * u128::from(count), Report::BadRoom),
        ])?;
        let (visited, end) = self.visited(key);
        let own = visited.filter(|(_, block)| block.owner == client);
        let named: Vec<(u32, u64)> = own.take(count as usize).map(|(b, block)| (b, block.id)).collect();
        for (room, (_, id)) in buffer.chunks_exact_mut(8).zip(&named) {
            room.copy_from_slice(&id.to_le_bytes());
        }
        let full = named.len() == count as usize;
        let stop = named.last().filter(|_| full).map_or(end, |(b, _)| b + 1);
        Ok(Answer {
            entries: named.len() as u32,
            key: self.next_key(stop),
            ..costs(prices.getids.into())
        })
    }

    fn scavenge(&mut self, prices: &Tariff, client: u32, key: u32, now: u64) -> Outcome {
        lowest(&[
            (client > 63, Report::BadUser),
            (!is_time(now), Report::BadTime),
            (now <= self.clock, Report::ClockNotLater),
            (client != 0, Report::NotManager),
            (key >= self.n, Report::BadKey),
        ])?;
        let (visited, stop) = self.visited(key);
        let expired = visited.filter(|(_, block)| block.expires < now);
        let gone: Vec<u32> = expired.map(|(b, _)| b).collect();
        gone.iter().for_each(|b| self.remove(*b));
        self.clock = now;
        Ok(Answer {
            count: gone.len() as u32,
            key: self.next_key(stop),
            ..costs(prices.scavenge.into())
        })
    }

    fn profile(&self, prices: &Tariff, client: u32, key: u32, buffer: &mut [u8]) -> Outcome {
        lowest(&[
            (client > 63, Report::BadUser),
            (client != 0, Report::NotManager),
            (key >= self.n, Report::BadKey),
            (buffer.len() < 1536, Report::BadRoom),
        ])?;
        let (visited, stop) = self.visited(key);
        let mut entries = 0;
        for ((_, block), room) in visited.zip(buffer.chunks_exact_mut(24)) {
            let numbers = [block.owner.into(), block.created, block.expires];
            room.copy_from_slice(&numbers.map(u64::to_le_bytes).concat());
            entries += 1;
        }
        Ok(Answer {
            entries,
            key: self.next_key(stop),
            ..costs(prices.profile.into())
        })
    }

    /// A step on an ended walk is looked at before anything else; any other is a GetIds call.
    fn step(&self, prices: &Tariff, walk: Walk, buffer: &mut [u8]) -> Outcome {
        if walk.ended {
            return Ok(ended(walk));
        }
        let answer = self.get_ids(prices, walk.client, walk.key, walk.count, buffer)?;
        let (key, ended) = (answer.key, answer.key == END_KEY);
        let walk = Some(Walk { key, ended, ..walk });
        Ok(Answer { walk, ..answer })
    }
}

/// The answer to a step on an ended walk, whatever the image.
pub fn ended(walk: Walk) -> Answer {
    Answer {
        key: END_KEY,
        walk: Some(walk),
        ..Answer::default()
    }
}
