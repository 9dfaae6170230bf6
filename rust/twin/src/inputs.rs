//! Random calls: inputs that suit the store, or with a fault in one or in many of them, with a bias to the bounds that
//! document 01 draws.
use crate::calls::{Call, Tariff, Walk};
use crate::identifiers::{disguise, made};
use crate::model::{Block, Store, END_KEY, LAST_TIME};
use crate::random::Random;

/// What the inputs are chosen from.
pub struct Known<'a> {
    /// A sound store: the one called, or the one that the called image was before it was harmed.
    pub store: &'a Store,
    pub clock: u64,
    /// The bytes of the image called.
    pub length: usize,
    /// Ids that were issued at some time.
    pub past: &'a [u64],
    pub clients: &'a [u32],
    /// The key that the last key call gave.
    pub key: u32,
    /// A block to look at more often.
    pub focus: Option<u32>,
    /// Whether now may jump far ahead.
    pub far: bool,
}

/// Chooses the inputs of one call.
pub struct Chooser<'a> {
    pub random: &'a mut Random,
    pub known: &'a Known<'a>,
    /// One in so many inputs is at fault; none where it is 0.
    pub faults: u64,
}

impl Chooser<'_> {
    fn fault(&mut self) -> bool {
        self.faults > 0 && self.random.one_in(self.faults)
    }

    fn client(&mut self) -> u32 {
        if self.fault() {
            let any = self.random.number() as u32;
            self.random.pick(&[64, 65, 127, 256, 1 << 31, u32::MAX, 63, 0, any])
        } else {
            self.random.pick(self.known.clients)
        }
    }

    fn manager(&mut self) -> u32 {
        if self.fault() {
            self.client()
        } else {
            0
        }
    }

    fn now(&mut self) -> u64 {
        let (clock, last) = (self.known.clock, LAST_TIME);
        if self.fault() {
            let before = clock.saturating_sub(1);
            return self
                .random
                .pick(&[0, clock, clock, before, 1, last + 1, u64::MAX, 1 << 63]);
        }
        if self.known.far && self.random.one_in(4) {
            let between = clock.min(last) + self.random.below(last - clock.min(last) + 1);
            return self.random.pick(&[last, last, last - 1, between]);
        }
        clock.wrapping_add(self.random.pick(&[1, 1, 1, 2, 3, 10, 30]))
    }

    fn expiry(&mut self, now: u64) -> u64 {
        let last = LAST_TIME;
        if self.fault() {
            return self.random.pick(&[last + 1, last + 2, u64::MAX, 1 << 63]);
        }
        let soon = now.saturating_add(self.random.below(60)).min(last);
        let about = [0, 1, now.saturating_sub(1), now, now.saturating_add(1), last, last - 1];
        match self.random.below(3) {
            0 => self.random.pick(&about).min(last),
            _ => soon,
        }
    }

    fn key(&mut self) -> u32 {
        let n = self.known.store.n;
        if self.fault() {
            return self
                .random
                .pick(&[n, n + 1, END_KEY, END_KEY + 1, u32::MAX, n | 1 << 31]);
        }
        if let Some(focus) = self.known.focus.filter(|_| self.random.one_in(2)) {
            let back = self.random.pick(&[0, 1, 2, 62, 63, 64]);
            return focus.saturating_sub(back);
        }
        let last = if self.known.key < n { self.known.key } else { 0 };
        let any = self.random.block(n);
        self.random
            .pick(&[0, 0, 1, last, last, n - 1, n - 2, n.saturating_sub(64), any, any])
    }

    fn count(&mut self) -> u32 {
        if self.fault() {
            return self.random.pick(&[0, 65, 66, 1 << 16, 1 << 29, 1 << 31, u32::MAX]);
        }
        let any = 1 + self.random.block(64);
        self.random.pick(&[1, 1, 2, 3, 7, 8, 63, 64, 64, any])
    }

    /// A stored block, where there is one.
    fn block(&mut self) -> Option<(u32, &Block)> {
        let store = self.known.store;
        let from = match self.known.focus {
            Some(focus) if self.random.one_in(2) => focus,
            _ => self.random.block(store.n),
        };
        let mut from_there = store.stored.range(from..).chain(store.stored.iter());
        from_there.next().map(|(b, block)| (*b, block))
    }

    /// An id, and the client that should ask for it.
    fn id(&mut self) -> (u64, u32) {
        let (fault, client) = (self.fault(), self.client());
        let (b, id, created, owner) = match self.block() {
            Some((b, block)) => (b, block.id, block.created, block.owner),
            None => (0, made(1, 0), 1, client),
        };
        let asks = if self.random.one_in(4) { client } else { owner };
        let id = if fault { self.other_id(b, id, created) } else { id };
        (id, asks)
    }

    /// Old ids, ids of another block or time, and numbers that are not shaped as ids.
    fn other_id(&mut self, b: u32, id: u64, created: u64) -> u64 {
        let (n, random) = (self.known.store.n, &mut *self.random);
        let (any, other) = (random.number(), random.block(n));
        let old = if self.known.past.is_empty() {
            0
        } else {
            random.pick(self.known.past)
        };
        let p = created * 4096 + u64::from(b);
        let first_past_n = disguise(created * 4096 + u64::from(n));
        match random.below(16) {
            0..=3 => old,
            4 => 0,
            5 => any,
            6 => made(created, other),
            7 => made(created - 1, b),
            8 => made((created + 1) % (LAST_TIME + 1), b),
            9 => disguise(b.into()),
            10 => disguise(p | 1 << 52),
            11 => disguise(p | 1 << 63),
            12 => first_past_n,
            13 => disguise(any >> 12),
            14 => id.rotate_left(32),
            _ => id ^ 1 << random.below(64),
        }
    }

    fn data_room(&mut self) -> usize {
        if self.fault() {
            self.random.pick(&[0, 1, 16, 512, 527, 529, 544, 1056])
        } else {
            528
        }
    }

    fn ids_room(&mut self, count: u32) -> usize {
        let exact = 8 * count.min(64) as usize;
        if self.fault() {
            self.random
                .pick(&[exact.saturating_sub(1), exact.saturating_sub(8), 0, 1])
        } else {
            exact + self.random.pick(&[0, 0, 1, 8, 100])
        }
    }

    fn profile_room(&mut self) -> usize {
        if self.fault() {
            self.random.pick(&[1535, 1535, 1512, 0, 24])
        } else {
            self.random.pick(&[1536, 1536, 1537, 2000])
        }
    }

    fn walk(&mut self) -> Walk {
        Walk {
            client: self.client(),
            count: self.count(),
            key: self.key(),
            ended: self.random.one_in(8),
        }
    }

    /// A call and the length of its buffer. Those that have no buffer are given one too, which must stay as it is.
    pub fn call(&mut self) -> (Call, usize) {
        match self.random.below(64) {
            0..=14 => self.create(),
            15..=19 => self.read(),
            20..=23 => self.status(),
            24..=29 => self.destroy(),
            30..=35 => self.replace(),
            36..=40 => self.set_expiry(),
            41..=46 => self.get_ids(),
            47..=49 => self.get_count(),
            50..=54 => self.scavenge(),
            55..=57 => self.profile(),
            58..=61 => self.step(),
            _ => (Call::Check, 8),
        }
    }

    fn create(&mut self) -> (Call, usize) {
        let (client, now) = (self.client(), self.now());
        let expiry = self.expiry(now);
        (Call::Create { client, expiry, now }, self.data_room())
    }

    fn read(&mut self) -> (Call, usize) {
        let (id, client) = self.id();
        (Call::Read { client, id }, self.data_room())
    }

    fn status(&mut self) -> (Call, usize) {
        let (id, client) = self.id();
        (Call::Status { client, id }, 8)
    }

    fn destroy(&mut self) -> (Call, usize) {
        let ((id, client), now) = (self.id(), self.now());
        (Call::Destroy { client, id, now }, 8)
    }

    fn replace(&mut self) -> (Call, usize) {
        let ((id, client), now) = (self.id(), self.now());
        (Call::Replace { client, id, now }, self.data_room())
    }

    #[rustfmt::skip]
    fn set_expiry(&mut self) -> (Call, usize) {
        let ((id, client), now) = (self.id(), self.now());
        let expiry = self.expiry(now);
        (Call::SetExpiry { client, id, expiry, now }, 8)
    }

    fn get_ids(&mut self) -> (Call, usize) {
        let (client, key, count) = (self.client(), self.key(), self.count());
        (Call::GetIds { client, key, count }, self.ids_room(count))
    }

    fn get_count(&mut self) -> (Call, usize) {
        let client = self.client();
        (Call::GetCount { client }, 8)
    }

    /// Now is sometimes the very tick at which a block expires, or the next.
    fn scavenge(&mut self) -> (Call, usize) {
        let (client, key, mut now) = (self.manager(), self.key(), self.now());
        let expires = self.block().map_or(0, |(_, block)| block.expires);
        if expires > self.known.clock && expires < self.known.clock.saturating_add(100) && self.random.one_in(2) {
            now = expires + self.random.below(2);
        }
        (Call::Scavenge { client, key, now }, 8)
    }

    fn profile(&mut self) -> (Call, usize) {
        let (client, key) = (self.manager(), self.key());
        (Call::Profile { client, key }, self.profile_room())
    }

    fn step(&mut self) -> (Call, usize) {
        let walk = self.walk();
        (Call::Step { walk }, self.ids_room(walk.count))
    }

    /// Format with the N that the image's length is right for, though it may be no multiple of 8 or too large, or with
    /// another.
    pub fn format(&mut self) -> (Call, usize) {
        let (own, any) = (self.known.store.n, self.random.number() as u32);
        let disk_blocks = (self.known.length / 512) as u32;
        let fits = (disk_blocks.saturating_sub(3) * 8).div_ceil(9);
        let (wraps, last) = (own + (1 << 26), u32::MAX);
        let others = [own, 0, 8, 12, 16, own + 1, own + 8, 4096, 4104, wraps, last, any];
        let n = if self.random.one_in(2) {
            fits
        } else {
            self.random.pick(&others)
        };
        (Call::Format { n }, 8)
    }
}

/// All prices 0, the document's, the highest, or each its own.
pub fn tariff(random: &mut Random) -> Tariff {
    let kind = random.below(6);
    let mut price = || match kind {
        0 => 0,
        1 => 10,
        2 => u32::MAX,
        3 => 1 + random.below(1000) as u32,
        _ => random.number() as u32,
    };
    let mut prices = Tariff {
        create: price(),
        read: price(),
        status: price(),
        destroy: price(),
        replace: price(),
        setexpiry: price(),
        getids: price(),
        getcount: price(),
        scavenge: price(),
        profile: price(),
        error: price(),
        rate: 0,
    };
    let any = random.number() as u16;
    prices.rate = random.pick(&[0, 1, 2, 32767, 32768, 65535, any]);
    prices
}
