//! A call with its inputs, an answer with every field an answer can have, and the one place that calls the library.
use crate::reports::Report;
use zolvortug::sys;
pub use zolvortug::sys::{Place, Sampled, Walk};
pub use zolvortug::Tariff;

/// Times are ticks. Data that a call is given or gives, and its length, stand in the buffer beside the call.
#[derive(Clone, Copy, Debug, PartialEq, Eq)]
pub enum Call {
    Create {
        client: u32,
        expiry: u64,
        now: u64,
    },
    Read {
        client: u32,
        id: u64,
    },
    Status {
        client: u32,
        id: u64,
    },
    Destroy {
        client: u32,
        id: u64,
        now: u64,
    },
    Replace {
        client: u32,
        id: u64,
        now: u64,
    },
    SetExpiry {
        client: u32,
        id: u64,
        expiry: u64,
        now: u64,
    },
    GetIds {
        client: u32,
        key: u32,
        count: u32,
    },
    GetCount {
        client: u32,
    },
    Scavenge {
        client: u32,
        key: u32,
        now: u64,
    },
    Profile {
        client: u32,
        key: u32,
    },
    Step {
        walk: Walk,
    },
    Format {
        n: u32,
    },
    Check,
}

impl Call {
    /// The operation's place in `reports::POSSIBLE`; Check stands after the last.
    pub fn operation(&self) -> usize {
        match self {
            Call::Create { .. } => 0,
            Call::Read { .. } => 1,
            Call::Status { .. } => 2,
            Call::Destroy { .. } => 3,
            Call::Replace { .. } => 4,
            Call::SetExpiry { .. } => 5,
            Call::GetIds { .. } => 6,
            Call::GetCount { .. } => 7,
            Call::Scavenge { .. } => 8,
            Call::Profile { .. } => 9,
            Call::Step { .. } => 10,
            Call::Format { .. } => 11,
            Call::Check => 12,
        }
    }

    /// Whether a success changes the image.
    pub fn changes(&self) -> bool {
        matches!(self.operation(), 0 | 3 | 4 | 5 | 8 | 11)
    }

    /// A refusal: zeros, the key as received, the error price, and a walk's record as it was. Format is free.
    pub fn refused(&self, report: Report, prices: &Tariff) -> Answer {
        let (key, walk) = match *self {
            Call::GetIds { key, .. } | Call::Scavenge { key, .. } | Call::Profile { key, .. } => (key, None),
            Call::Step { walk } => (walk.key, Some(walk)),
            _ => (0, None),
        };
        let free = matches!(self, Call::Format { .. });
        Answer {
            report: report as u8,
            charge: if free { 0 } else { i64::from(prices.error) },
            key,
            walk,
            ..Answer::default()
        }
    }
}

/// The fields that an operation does not give are 0 on both sides.
#[derive(Clone, Copy, Debug, Default, PartialEq, Eq)]
pub struct Answer {
    pub report: u8,
    pub charge: i64,
    pub id: u64,
    pub owner: u32,
    pub created: u64,
    pub expires: u64,
    pub count: u32,
    pub entries: u32,
    pub key: u32,
    pub walk: Option<Walk>,
    pub sound: bool,
}

impl From<sys::Created> for Answer {
    fn from(a: sys::Created) -> Answer {
        Answer {
            report: a.report,
            charge: a.charge,
            id: a.id,
            ..Answer::default()
        }
    }
}

impl From<sys::Done> for Answer {
    fn from(a: sys::Done) -> Answer {
        Answer {
            report: a.report,
            charge: a.charge,
            ..Answer::default()
        }
    }
}

impl From<sys::Told> for Answer {
    fn from(a: sys::Told) -> Answer {
        Answer {
            report: a.report,
            charge: a.charge,
            owner: a.owner,
            created: a.created,
            expires: a.expires,
            ..Answer::default()
        }
    }
}

impl From<sys::Counted> for Answer {
    fn from(a: sys::Counted) -> Answer {
        Answer {
            report: a.report,
            charge: a.charge,
            count: a.count,
            ..Answer::default()
        }
    }
}

impl From<sys::Listed> for Answer {
    fn from(a: sys::Listed) -> Answer {
        Answer {
            report: a.report,
            charge: a.charge,
            entries: a.entries,
            key: a.key,
            ..Answer::default()
        }
    }
}

impl From<sys::Scavenged> for Answer {
    fn from(a: sys::Scavenged) -> Answer {
        Answer {
            report: a.report,
            charge: a.charge,
            count: a.count,
            key: a.key,
            ..Answer::default()
        }
    }
}

impl From<sys::Stepped> for Answer {
    fn from(a: sys::Stepped) -> Answer {
        Answer {
            report: a.report,
            charge: a.charge,
            entries: a.entries,
            key: a.key,
            walk: Some(a.walk),
            ..Answer::default()
        }
    }
}

/// A lent run of bytes: its pointer, which is null where the length is 0, and its length.
fn lent(bytes: &mut [u8]) -> (*mut u8, usize) {
    match bytes.len() {
        0 => (std::ptr::null_mut(), 0),
        len => (bytes.as_mut_ptr(), len),
    }
}

/// The same, to be read alone.
fn shown(bytes: &[u8]) -> (*const u8, usize) {
    match bytes.len() {
        0 => (std::ptr::null(), 0),
        len => (bytes.as_ptr(), len),
    }
}

/// The library's answer; it reads and writes the buffer and the image.
pub fn library(call: &Call, t: &Tariff, buffer: &mut [u8], image: &mut [u8]) -> Answer {
    let t = *t;
    let ((b, b_len), (i, i_len)) = (lent(buffer), lent(image));
    // SAFETY: each pointer goes with its own length, and the two runs of bytes are lent apart from each other.
    unsafe {
        match *call {
            Call::Create { client, expiry, now } => {
                sys::zolvortug_create(t, client, expiry, b, b_len, now, i, i_len).into()
            }
            Call::Read { client, id } => sys::zolvortug_read(t, client, id, b, b_len, i, i_len).into(),
            Call::Status { client, id } => sys::zolvortug_status(t, client, id, i, i_len).into(),
            Call::Destroy { client, id, now } => sys::zolvortug_destroy(t, client, id, now, i, i_len).into(),
            Call::Replace { client, id, now } => sys::zolvortug_replace(t, client, id, b, b_len, now, i, i_len).into(),
            #[rustfmt::skip]
            Call::SetExpiry { client, id, expiry, now } => {
                sys::zolvortug_set_expiry(t, client, id, expiry, now, i, i_len).into()
            },
            Call::GetIds { client, key, count } => {
                sys::zolvortug_get_ids(t, client, key, count, b, b_len, i, i_len).into()
            }
            Call::GetCount { client } => sys::zolvortug_get_count(t, client, i, i_len).into(),
            Call::Scavenge { client, key, now } => sys::zolvortug_scavenge(t, client, key, now, i, i_len).into(),
            Call::Profile { client, key } => sys::zolvortug_profile(t, client, key, b, b_len, i, i_len).into(),
            Call::Step { walk } => sys::zolvortug_step(t, walk, b, b_len, i, i_len).into(),
            Call::Format { n } => Answer {
                report: sys::zolvortug_format(n, i, i_len),
                ..Answer::default()
            },
            Call::Check => Answer {
                sound: sys::zolvortug_check(i, i_len),
                ..Answer::default()
            },
        }
    }
}

/// The library's record of a walk from the start.
pub fn walk_from(client: u32, count: u32) -> Walk {
    // SAFETY: numbers go in and a record comes out.
    unsafe { sys::zolvortug_walk_from(client, count) }
}

/// The library's size of an image of n blocks, 0 where there is none.
pub fn size(n: u32) -> usize {
    // SAFETY: a number goes in and a number comes out.
    unsafe { sys::zolvortug_size(n) }
}

/// The library's opening of a reader of a series.
#[inline]
pub fn series_open(client: u32, series: u32, image: &[u8]) -> Place {
    let (i, i_len) = shown(image);
    // SAFETY: a pointer with its own length.
    unsafe { sys::zolvortug_series_open(client, series, i, i_len) }
}

/// The library's step of a reader, which updates the nine words of its place.
#[inline]
pub fn series_step(place: &mut Place, image: &[u8]) -> Sampled {
    let (i, i_len) = shown(image);
    let words: *mut u32 = (place as *mut Place).cast();
    // SAFETY: as for the opening; a place is nine words.
    unsafe { sys::zolvortug_series_step(words, Place::WORDS, i, i_len) }
}
