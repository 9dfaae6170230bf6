//! A proved block store for clock recorders: the safe face of the library. `no_std`; nothing allocates or keeps state.
//!
//! A channel of a recorder is a [`Client`]. It stores blocks of 528 bytes in an image that the caller lends, is given
//! an [`Id`] for each, and lists its ids by a [`Walk`], which names every block that stands throughout exactly once,
//! whatever falls between its steps. A [`Reader`] gives the samples of its series in order, gaps marked.
//!
//! ```
//! use zolvortug::{Client, Store, Tariff, Tick};
//! let mut image = vec![0; zolvortug::size_of_image(8).unwrap()];
//! zolvortug::format(8, &mut image).unwrap();
//! let mut store = Store::new(&mut image[..], Tariff::default());
//! let id = store.create(Client(3), Tick(500), &[7; 528], Tick(100)).unwrap().value;
//! let mut walk = store.walk(Client(3), 64);
//! let mut ids = [zolvortug::Id(0); 64];
//! assert_eq!(walk.step(&store, &mut ids).unwrap().value, [id]);
//! assert!(walk.ended());
//! ```
#![no_std]

mod series;
pub mod sys;

pub use series::{series_block, Reader, Sample, Tag, LARGEST, NOT_TAKEN, SAMPLES, SEQUENCES, TAG};

/// The ten prices, the error price, and the rate of a block for a tick.
#[repr(C)]
#[derive(Clone, Copy, Debug, Default, PartialEq, Eq)]
pub struct Tariff {
    pub create: u32,
    pub read: u32,
    pub status: u32,
    pub destroy: u32,
    pub replace: u32,
    pub setexpiry: u32,
    pub getids: u32,
    pub getcount: u32,
    pub scavenge: u32,
    pub profile: u32,
    pub error: u32,
    pub rate: u16,
}

/// A client's number, 0 to 63. The manager is 0.
#[derive(Clone, Copy, Debug, PartialEq, Eq, PartialOrd, Ord, Hash)]
pub struct Client(pub u32);

impl Client {
    pub const MANAGER: Client = Client(0);
}

/// A time in ticks of 1 ms, 1 to 2^40 - 1; an asked expiry may be 0 too.
#[derive(Clone, Copy, Debug, PartialEq, Eq, PartialOrd, Ord, Hash)]
pub struct Tick(pub u64);

/// An amount, negative where it is given back.
#[derive(Clone, Copy, Debug, PartialEq, Eq, PartialOrd, Ord, Hash)]
pub struct Money(pub i64);

/// A block's identifier. Zero is never issued.
#[derive(Clone, Copy, Debug, PartialEq, Eq, Hash)]
pub struct Id(pub u64);

/// Where a key call goes on: `Key::START`, or what the call before it gave.
#[derive(Clone, Copy, Debug, PartialEq, Eq)]
pub struct Key(u32);

impl Key {
    pub const START: Key = Key(0);
    const END: u32 = 65535;

    /// Blocks below this number are done.
    pub fn at(block: u32) -> Key {
        Key(block)
    }

    pub fn block(self) -> u32 {
        self.0
    }

    fn next(key: u32) -> Option<Key> {
        (key != Key::END).then_some(Key(key))
    }
}

/// Why a call was refused, in the order in which the reasons are tested.
#[derive(Clone, Copy, Debug, PartialEq, Eq, PartialOrd, Ord)]
#[repr(u8)]
pub enum Report {
    /// The image's length or its trailer is wrong.
    BadImage = 1,
    /// The client is above 63.
    BadUser,
    /// Now or the asked expiry is out of range (an expiry of 0 is allowed).
    BadTime,
    /// Now is not above the image's clock.
    ClockNotLater,
    /// Scavenge and Profile are the manager's.
    NotManager,
    /// The key is not below the number of blocks.
    BadKey,
    /// The count is 0 or above 64.
    BadCount,
    /// A buffer is too small, or not of 528 bytes.
    BadRoom,
    /// A header or a count that the call looked at is damaged.
    Damaged,
    /// No stored block has this id.
    NoSuchBlock,
    /// The block is another client's.
    NotOwner,
    /// No block is free.
    NoSpace,
    /// No block of the client belongs to the series.
    NoSeries,
    /// A tag or a sample of the series breaks its rules.
    BadTag,
    /// Two blocks of the series have one sequence.
    SequenceTwice,
}

impl Report {
    /// All of them, in this order.
    pub const ALL: [Report; 15] = [
        Report::BadImage,
        Report::BadUser,
        Report::BadTime,
        Report::ClockNotLater,
        Report::NotManager,
        Report::BadKey,
        Report::BadCount,
        Report::BadRoom,
        Report::Damaged,
        Report::NoSuchBlock,
        Report::NotOwner,
        Report::NoSpace,
        Report::NoSeries,
        Report::BadTag,
        Report::SequenceTwice,
    ];

    pub fn number(self) -> u8 {
        self as u8
    }

    /// 0 is success. The library gives no number above 15; that is proved.
    fn of(number: u8) -> Option<Report> {
        Some(Self::ALL[usize::from(number).checked_sub(1)?])
    }
}

/// A refused call: it changed no byte, and it costs the error price.
#[derive(Clone, Copy, Debug, PartialEq, Eq)]
pub struct Refused {
    pub report: Report,
    pub charge: Money,
}

/// So that `?` passes on a refusal where an opened reader's report is passed on too.
impl From<Refused> for Report {
    fn from(no: Refused) -> Report {
        no.report
    }
}

/// What a call gave, and what it costs.
#[derive(Clone, Copy, Debug, PartialEq, Eq)]
pub struct Paid<T> {
    pub value: T,
    pub charge: Money,
}

pub type Answer<T> = Result<Paid<T>, Refused>;

fn answer<T>(report: u8, charge: i64, value: T) -> Answer<T> {
    let charge = Money(charge);
    match Report::of(report) {
        None => Ok(Paid { value, charge }),
        Some(report) => Err(Refused { report, charge }),
    }
}

/// A block's owner, when it was created and when it expires.
#[derive(Clone, Copy, Debug, PartialEq, Eq)]
pub struct Info {
    pub owner: Client,
    pub created: Tick,
    pub expires: Tick,
}

/// What a key call gave: so many, and where to go on; `None` where it has come to the end.
#[derive(Clone, Copy, Debug, PartialEq, Eq)]
pub struct Pass {
    pub count: usize,
    pub next: Option<Key>,
}

/// The bytes of a service block: a tag of 16, then 512 of data.
pub const BLOCK: usize = 528;
/// At most so many ids a step, and entries a call.
pub const MOST: usize = 64;
/// The bytes of an entry that Profile writes: owner, created, expires, 8 each.
pub const ENTRY: usize = 24;

/// The bytes of an image of so many blocks: a multiple of 8 from 8 to 4,096.
pub fn size_of_image(blocks: u32) -> Option<usize> {
    // SAFETY: a number goes in and a number comes out.
    let size = unsafe { sys::zolvortug_size(blocks) };
    (size != 0).then_some(size)
}

/// Makes a fresh image of so many blocks. Refused with `BadImage`, and no byte changed, where the number or the length
/// is not right.
pub fn format(blocks: u32, image: &mut [u8]) -> Result<(), Report> {
    // SAFETY: a pointer with its own length.
    match Report::of(unsafe { sys::zolvortug_format(blocks, image.as_mut_ptr(), image.len()) }) {
        None => Ok(()),
        Some(report) => Err(report),
    }
}

/// Whether an image is sound.
pub fn check(image: &[u8]) -> bool {
    // SAFETY: a pointer with its own length.
    unsafe { sys::zolvortug_check(image.as_ptr(), image.len()) }
}

/// A store over bytes that it owns or is lent: `Vec<u8>`, `&mut [u8]`, or `&[u8]` to read alone.
///
/// SAFETY of every call below: each pointer is passed with its own length, and Rust's borrows keep what is written
/// apart from all else that is lent. The library asks no more: that it does nothing undefined with them, for all bytes
/// and all numbers, is proved.
pub struct Store<M> {
    image: M,
    tariff: Tariff,
}

impl<M: AsRef<[u8]>> Store<M> {
    pub fn new(image: M, tariff: Tariff) -> Self {
        Store { image, tariff }
    }

    pub fn image(&self) -> &[u8] {
        self.image.as_ref()
    }

    pub fn tariff(&self) -> Tariff {
        self.tariff
    }

    pub fn set_tariff(&mut self, tariff: Tariff) {
        self.tariff = tariff;
    }

    pub fn into_inner(self) -> M {
        self.image
    }

    pub fn is_sound(&self) -> bool {
        check(self.image())
    }

    /// The 528 bytes of a block, to the buffer.
    pub fn read(&self, client: Client, id: Id, buffer: &mut [u8]) -> Answer<()> {
        let img = self.image();
        let (at, len) = (buffer.as_mut_ptr(), buffer.len());
        let a = unsafe { sys::zolvortug_read(self.tariff, client.0, id.0, at, len, img.as_ptr(), img.len()) };
        answer(a.report, a.charge, ())
    }

    pub fn status(&self, client: Client, id: Id) -> Answer<Info> {
        let img = self.image();
        let a = unsafe { sys::zolvortug_status(self.tariff, client.0, id.0, img.as_ptr(), img.len()) };
        let info = Info {
            owner: Client(a.owner),
            created: Tick(a.created),
            expires: Tick(a.expires),
        };
        answer(a.report, a.charge, info)
    }

    /// The number of blocks that the client owns.
    pub fn count(&self, client: Client) -> Answer<u32> {
        let img = self.image();
        let a = unsafe { sys::zolvortug_get_count(self.tariff, client.0, img.as_ptr(), img.len()) };
        answer(a.report, a.charge, a.count)
    }

    /// One call of a listing: ids of the client's blocks from the key upward, at most `count`, 8 bytes each, to the
    /// buffer.
    pub fn ids(&self, client: Client, key: Key, count: u32, ids: &mut [u8]) -> Answer<Pass> {
        let img = self.image();
        let (at, len) = (ids.as_mut_ptr(), ids.len());
        let (t, img_at, img_len) = (self.tariff, img.as_ptr(), img.len());
        let a = unsafe { sys::zolvortug_get_ids(t, client.0, key.0, count, at, len, img_at, img_len) };
        let count = a.entries as usize;
        let next = Key::next(a.key);
        answer(a.report, a.charge, Pass { count, next })
    }

    /// The manager's: owner, created and expires of the used blocks from the key upward, to a buffer of at least 1,536
    /// bytes.
    pub fn profile(&self, client: Client, key: Key, buffer: &mut [u8]) -> Answer<Pass> {
        let img = self.image();
        let (at, len) = (buffer.as_mut_ptr(), buffer.len());
        let a = unsafe { sys::zolvortug_profile(self.tariff, client.0, key.0, at, len, img.as_ptr(), img.len()) };
        let count = a.entries as usize;
        let next = Key::next(a.key);
        answer(a.report, a.charge, Pass { count, next })
    }

    /// A walk over the client's ids from the start, with so many a step at most, 1 to 64.
    pub fn walk(&self, client: Client, count: u32) -> Walk {
        // SAFETY: numbers go in and a record comes out.
        Walk(unsafe { sys::zolvortug_walk_from(client.0, count) })
    }

    /// A reader of the client's series from its first place: [`Reader::open`] on the image. It is free.
    pub fn series(&self, client: Client, series: u32) -> Result<Reader<'_>, Report> {
        Reader::open(self.image(), client, series)
    }
}

impl<M: AsRef<[u8]> + AsMut<[u8]>> Store<M> {
    /// Stores 528 bytes until the later of now and the expiry, under a new id.
    pub fn create(&mut self, client: Client, expiry: Tick, bytes: &[u8], now: Tick) -> Answer<Id> {
        let (at, len) = (bytes.as_ptr(), bytes.len());
        let img = self.image.as_mut();
        let (t, img_at, img_len) = (self.tariff, img.as_mut_ptr(), img.len());
        let a = unsafe { sys::zolvortug_create(t, client.0, expiry.0, at, len, now.0, img_at, img_len) };
        answer(a.report, a.charge, Id(a.id))
    }

    pub fn destroy(&mut self, client: Client, id: Id, now: Tick) -> Answer<()> {
        let img = self.image.as_mut();
        let (t, img_at, img_len) = (self.tariff, img.as_mut_ptr(), img.len());
        let a = unsafe { sys::zolvortug_destroy(t, client.0, id.0, now.0, img_at, img_len) };
        answer(a.report, a.charge, ())
    }

    /// Puts 528 other bytes in the block's place, under a new id; its expiry stays.
    pub fn replace(&mut self, client: Client, id: Id, bytes: &[u8], now: Tick) -> Answer<Id> {
        let (at, len) = (bytes.as_ptr(), bytes.len());
        let img = self.image.as_mut();
        let (t, img_at, img_len) = (self.tariff, img.as_mut_ptr(), img.len());
        let a = unsafe { sys::zolvortug_replace(t, client.0, id.0, at, len, now.0, img_at, img_len) };
        answer(a.report, a.charge, Id(a.id))
    }

    /// The block expires at the later of now and the asked expiry.
    pub fn set_expiry(&mut self, client: Client, id: Id, expiry: Tick, now: Tick) -> Answer<()> {
        let img = self.image.as_mut();
        let (t, img_at, img_len) = (self.tariff, img.as_mut_ptr(), img.len());
        let a = unsafe { sys::zolvortug_set_expiry(t, client.0, id.0, expiry.0, now.0, img_at, img_len) };
        answer(a.report, a.charge, ())
    }

    /// The manager's: removes the blocks from the key upward whose expiry is before now, and gives their number.
    pub fn scavenge(&mut self, client: Client, key: Key, now: Tick) -> Answer<Pass> {
        let img = self.image.as_mut();
        let (t, img_at, img_len) = (self.tariff, img.as_mut_ptr(), img.len());
        let a = unsafe { sys::zolvortug_scavenge(t, client.0, key.0, now.0, img_at, img_len) };
        let count = a.count as usize;
        let next = Key::next(a.key);
        answer(a.report, a.charge, Pass { count, next })
    }
}

/// A walk over a client's ids. It names every block of the client that stands from its first step to its last exactly
/// once, whatever is stored, destroyed or cleaned up between its steps; that is proved. A refused step leaves it as it
/// was.
#[derive(Clone, Copy, Debug, PartialEq, Eq)]
pub struct Walk(sys::Walk);

impl Walk {
    pub fn ended(&self) -> bool {
        self.0.ended
    }

    /// Blocks below this key are done; of a walk that has ended, the end key, 65,535.
    pub fn key(&self) -> Key {
        Key(self.0.key)
    }

    pub fn client(&self) -> Client {
        Client(self.0.client)
    }

    /// The ids that the next call names, in rising block number. A step may name none and not be the last: go on until
    /// `ended`, or until a step is refused.
    pub fn step<'a, M: AsRef<[u8]>>(&mut self, store: &Store<M>, ids: &'a mut [Id; MOST]) -> Answer<&'a [Id]> {
        let mut bytes = [0; 8 * MOST];
        let paid = self.step_bytes(store, &mut bytes)?;
        for (id, word) in ids.iter_mut().zip(bytes.chunks_exact(8)).take(paid.value) {
            *id = Id(u64::from_le_bytes(word.try_into().expect("8 bytes")));
        }
        Ok(Paid {
            value: &ids[..paid.value],
            charge: paid.charge,
        })
    }

    /// The same, 8 bytes an id, to a buffer of any length; the number of ids.
    pub fn step_bytes<M: AsRef<[u8]>>(&mut self, store: &Store<M>, ids: &mut [u8]) -> Answer<usize> {
        let img = store.image();
        let (at, len) = (ids.as_mut_ptr(), ids.len());
        // SAFETY: as for every call of the store.
        let a = unsafe { sys::zolvortug_step(store.tariff, self.0, at, len, img.as_ptr(), img.len()) };
        self.0 = a.walk;
        answer(a.report, a.charge, a.entries as usize)
    }
}
