//! The library's own interface, as C has it in include/zolvortug.h: every field of every answer, on refusals too. The
//! tests hold both against the Rattle source.
use crate::Tariff;

#[repr(C)]
#[derive(Clone, Copy, Debug, PartialEq, Eq)]
pub struct Walk {
    pub client: u32,
    pub count: u32,
    pub key: u32,
    pub ended: bool,
}

#[repr(C)]
#[derive(Clone, Copy, Debug, PartialEq, Eq)]
pub struct Created {
    pub id: u64,
    pub charge: i64,
    pub report: u8,
}

#[repr(C)]
#[derive(Clone, Copy, Debug, PartialEq, Eq)]
pub struct Done {
    pub charge: i64,
    pub report: u8,
}

#[repr(C)]
#[derive(Clone, Copy, Debug, PartialEq, Eq)]
pub struct Told {
    pub created: u64,
    pub expires: u64,
    pub charge: i64,
    pub owner: u32,
    pub report: u8,
}

#[repr(C)]
#[derive(Clone, Copy, Debug, PartialEq, Eq)]
pub struct Counted {
    pub charge: i64,
    pub count: u32,
    pub report: u8,
}

#[repr(C)]
#[derive(Clone, Copy, Debug, PartialEq, Eq)]
pub struct Listed {
    pub charge: i64,
    pub key: u32,
    pub entries: u32,
    pub report: u8,
}

#[repr(C)]
#[derive(Clone, Copy, Debug, PartialEq, Eq)]
pub struct Scavenged {
    pub charge: i64,
    pub key: u32,
    pub count: u32,
    pub report: u8,
}

#[repr(C)]
#[derive(Clone, Copy, Debug, PartialEq, Eq)]
pub struct Stepped {
    pub walk: Walk,
    pub charge: i64,
    pub key: u32,
    pub entries: u32,
    pub report: u8,
}

/// Where a reader of a series stands: nine words, which a step takes as such. `at` is the next place and `end` the
/// number of places.
#[repr(C)]
#[derive(Clone, Copy, Debug, PartialEq, Eq)]
pub struct Place {
    pub n: u32,
    pub client: u32,
    pub series: u32,
    pub block: u32,
    pub sequence: u32,
    pub slot: u32,
    pub at: u32,
    pub end: u32,
    pub report: u32,
}

/// What a step of a reader gives. `answer` is 0 where the series has ended, 1 for a phase and 2 for a gap; `phase` is a
/// NaN but where it is 1.
#[repr(C)]
#[derive(Clone, Copy, Debug, PartialEq)]
pub struct Sampled {
    pub phase: f64,
    pub answer: u8,
}

impl Place {
    pub const WORDS: usize = 9;

    /// A step, which updates the place where it stands.
    pub fn step(&mut self, img: &[u8]) -> Sampled {
        let words: *mut u32 = (self as *mut Place).cast();
        // SAFETY: a place is nine words, and each pointer goes with its own length.
        unsafe { zolvortug_series_step(words, Place::WORDS, img.as_ptr(), img.len()) }
    }
}

extern "C" {
    pub fn zolvortug_size(n: u32) -> usize;
    pub fn zolvortug_format(n: u32, img: *mut u8, img_len: usize) -> u8;
    pub fn zolvortug_check(img: *const u8, img_len: usize) -> bool;
    pub fn zolvortug_create(
        t: Tariff,
        client: u32,
        expiry: u64,
        bytes: *const u8,
        bytes_len: usize,
        time: u64,
        img: *mut u8,
        img_len: usize,
    ) -> Created;
    pub fn zolvortug_read(
        t: Tariff,
        client: u32,
        id: u64,
        buffer: *mut u8,
        buffer_len: usize,
        img: *const u8,
        img_len: usize,
    ) -> Done;
    pub fn zolvortug_status(t: Tariff, client: u32, id: u64, img: *const u8, img_len: usize) -> Told;
    pub fn zolvortug_destroy(t: Tariff, client: u32, id: u64, time: u64, img: *mut u8, img_len: usize) -> Done;
    pub fn zolvortug_replace(
        t: Tariff,
        client: u32,
        id: u64,
        bytes: *const u8,
        bytes_len: usize,
        time: u64,
        img: *mut u8,
        img_len: usize,
    ) -> Created;
    pub fn zolvortug_set_expiry(
        t: Tariff,
        client: u32,
        id: u64,
        expiry: u64,
        time: u64,
        img: *mut u8,
        img_len: usize,
    ) -> Done;
    pub fn zolvortug_get_count(t: Tariff, client: u32, img: *const u8, img_len: usize) -> Counted;
    pub fn zolvortug_get_ids(
        t: Tariff,
        client: u32,
        key: u32,
        count: u32,
        ids: *mut u8,
        ids_len: usize,
        img: *const u8,
        img_len: usize,
    ) -> Listed;
    pub fn zolvortug_scavenge(t: Tariff, client: u32, key: u32, time: u64, img: *mut u8, img_len: usize) -> Scavenged;
    pub fn zolvortug_profile(
        t: Tariff,
        client: u32,
        key: u32,
        buffer: *mut u8,
        buffer_len: usize,
        img: *const u8,
        img_len: usize,
    ) -> Listed;
    pub fn zolvortug_walk_from(client: u32, count: u32) -> Walk;
    pub fn zolvortug_step(t: Tariff, w: Walk, ids: *mut u8, ids_len: usize, img: *const u8, img_len: usize) -> Stepped;
    pub fn zolvortug_series_open(client: u32, series: u32, img: *const u8, img_len: usize) -> Place;
    pub fn zolvortug_series_step(p: *mut u32, p_len: usize, img: *const u8, img_len: usize) -> Sampled;
}
