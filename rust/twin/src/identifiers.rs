//! Document 01's identifiers: p = time · 4096 + b under four rounds, and back.

const ROUNDS: [u32; 4] = [2654435761, 2246822519, 3266489917, 668265263];

/// The four rounds on any 64-bit number.
pub fn disguise(p: u64) -> u64 {
    let (mut l, mut r) = ((p >> 32) as u32, p as u32);
    for k in ROUNDS {
        (l, r) = (r, l.wrapping_add(r.wrapping_mul(k)));
    }
    u64::from(l) << 32 | u64::from(r)
}

/// The four rounds undone.
pub fn undone(id: u64) -> u64 {
    let (mut l, mut r) = ((id >> 32) as u32, id as u32);
    for k in ROUNDS.iter().rev() {
        (l, r) = (r.wrapping_sub(l.wrapping_mul(*k)), l);
    }
    u64::from(l) << 32 | u64::from(r)
}

/// The id made from a time below 2^40 and a block number below 4,096.
pub fn made(time: u64, block: u32) -> u64 {
    disguise(time * 4096 + u64::from(block))
}

/// Time and block number of a number that is shaped as an id in a store of n blocks.
pub fn shaped(id: u64, n: u32) -> Option<(u64, u32)> {
    let p = undone(id);
    let (time, block) = (p / 4096, (p % 4096) as u32);
    (p < 1 << 52 && time >= 1 && block < n).then_some((time, block))
}
