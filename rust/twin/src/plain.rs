//! The store in plain safe Rust over the same bytes, with the same tests and the same answers: what the proved one is
//! timed against. It is written to be quick, and is no part of the comparison call by call, which is the model's.
use zolvortug::{Report, Tariff};

const KEYS: [u32; 4] = [2654435761, 2246822519, 3266489917, 668265263];
const END: u64 = 1 << 40;
const LAST: usize = 65535;

/// What a call gives and costs, or why it is refused.
pub type Plain<T> = Result<(T, i64), Report>;

pub fn u32_at(s: &[u8], at: usize) -> u32 {
    u32::from_le_bytes(s[at..at + 4].try_into().unwrap())
}

fn u64_at(s: &[u8], at: usize) -> u64 {
    u64::from_le_bytes(s[at..at + 8].try_into().unwrap())
}

fn put(s: &mut [u8], at: usize, v: u64) {
    s[at..at + 8].copy_from_slice(&v.to_le_bytes());
}

/// All bytes are looked at, since a loop that stops early does not vectorize.
pub fn is_zero(s: &[u8]) -> bool {
    s.iter().fold(0, |a, x| a | x) == 0
}

pub fn id_of(time: u64, b: u64) -> u64 {
    let p = time * 4096 + b;
    let (mut l, mut r) = ((p >> 32) as u32, p as u32);
    for k in KEYS {
        (l, r) = (r, l.wrapping_add(r.wrapping_mul(k)));
    }
    (l as u64) << 32 | r as u64
}

fn undo(id: u64) -> u64 {
    let (mut l, mut r) = ((id >> 32) as u32, id as u32);
    for k in KEYS.into_iter().rev() {
        (l, r) = (r.wrapping_sub(l.wrapping_mul(k)), l);
    }
    (l as u64) << 32 | r as u64
}

fn number_right(n: usize) -> bool {
    n % 8 == 0 && (8..=4096).contains(&n)
}

pub fn size_of(n: usize) -> usize {
    576 * n + 1536
}

pub fn format(n: u32, img: &mut [u8]) -> Result<(), Report> {
    let m = n as usize;
    if !number_right(m) || img.len() != size_of(m) {
        return Err(Report::BadImage);
    }
    img.fill(0);
    img[64 * m..64 * m + m / 8].fill(255);
    let t = img.len() - 512;
    for (i, v) in [n, n / 8 + n + 2, n + 2, n + 1, n].into_iter().enumerate() {
        img[t + 4 * i..t + 4 * i + 4].copy_from_slice(&v.to_le_bytes());
    }
    img[t + 508..].copy_from_slice(&[0x50, 0x52, 0x36, 0x32]);
    Ok(())
}

#[inline(always)]
fn trailer(img: &[u8]) -> Result<(usize, u64), Report> {
    let at = img.len().checked_sub(512).ok_or(Report::BadImage)?;
    let t: &[u8; 512] = img[at..].try_into().unwrap();
    let n = u32_at(t, 0) as usize;
    let clock = u64_at(t, 24);
    let right = number_right(n)
        && img.len() == size_of(n)
        && u32_at(t, 4) as usize == n / 8 + n + 2
        && u32_at(t, 8) as usize == n + 2
        && u32_at(t, 12) as usize == n + 1
        && u32_at(t, 16) as usize == n
        && is_zero(&t[20..24])
        && clock < END
        && is_zero(&t[32..508])
        && t[508..] == [0x50, 0x52, 0x36, 0x32];
    if right {
        Ok((n, clock))
    } else {
        Err(Report::BadImage)
    }
}

#[inline(always)]
pub fn reading(client: u32, img: &[u8]) -> Result<(usize, u64), Report> {
    let known = trailer(img)?;
    if client > 63 {
        return Err(Report::BadUser);
    }
    Ok(known)
}

#[inline(always)]
fn changing(client: u32, expiry: u64, now: u64, img: &[u8]) -> Result<(usize, u64), Report> {
    let (n, clock) = reading(client, img)?;
    if now == 0 || now >= END || expiry >= END {
        return Err(Report::BadTime);
    }
    if now <= clock {
        return Err(Report::ClockNotLater);
    }
    Ok((n, clock))
}

pub fn header(img: &[u8], b: usize) -> &[u8; 64] {
    img[64 * b..64 * b + 64].try_into().unwrap()
}

#[inline(always)]
pub fn used_right(h: &[u8; 64], clock: u64, b: usize) -> bool {
    let (created, expires) = (u64_at(h, 16), u64_at(h, 24));
    h[0] == 1
        && h[1] <= 63
        && h[2..8] == [0; 6]
        && h[48..64] == [0; 16]
        && (1..=clock).contains(&created)
        && (1..END).contains(&expires)
        && u64_at(h, 8) == id_of(created, b as u64)
}

#[inline(always)]
fn good(img: &[u8], n: usize, clock: u64, b: usize) -> bool {
    if img[64 * n + b / 8] >> (b % 8) & 1 == 1 {
        return *header(img, b) == [0; 64];
    }
    used_right(header(img, b), clock, b)
}

#[inline(never)]
pub fn check(img: &[u8]) -> bool {
    let Ok((n, clock)) = trailer(img) else { return false };
    let mut tally = [0u64; 64];
    for i in 0..n / 8 {
        let m = img[64 * n + i];
        if m == 255 {
            if !is_zero(&img[512 * i..512 * i + 512]) {
                return false;
            }
            continue;
        }
        for b in 8 * i..8 * i + 8 {
            let h = header(img, b);
            if m >> (b % 8) & 1 == 1 {
                if !is_zero(h) {
                    return false;
                }
            } else {
                if !used_right(h, clock, b) {
                    return false;
                }
                tally[h[1] as usize] += 1;
            }
        }
    }
    let map = 64 * n;
    is_zero(&img[map + n / 8..map + 512]) && (0..64).all(|u| u64_at(img, map + 512 + 8 * u) == tally[u])
}

/// T(c, e) = rate·(e - c)
fn worth(t: &Tariff, created: u64, expires: u64) -> i64 {
    t.rate as i64 * (expires as i64 - created as i64)
}

#[inline(always)]
fn find(id: u64, n: usize, clock: u64, img: &[u8]) -> Result<usize, Report> {
    let p = undo(id);
    let b = (p % 4096) as usize;
    if p >= 1 << 52 || p < 4096 || b >= n {
        return Err(Report::NoSuchBlock);
    }
    if !good(img, n, clock, b) {
        return Err(Report::Damaged);
    }
    let h = header(img, b);
    if h[0] != 1 || u64_at(h, 8) != id {
        return Err(Report::NoSuchBlock);
    }
    Ok(b)
}

#[inline(always)]
fn find_own(client: u32, id: u64, n: usize, clock: u64, img: &[u8]) -> Result<usize, Report> {
    let b = find(id, n, clock, img)?;
    if img[64 * b + 1] as u32 != client {
        return Err(Report::NotOwner);
    }
    Ok(b)
}

fn set_clock(img: &mut [u8], now: u64) {
    let at = img.len() - 488;
    put(img, at, now);
}

fn lowest_free(img: &[u8], n: usize) -> Option<usize> {
    let map = &img[64 * n..64 * n + n / 8];
    let mut words = map.chunks_exact(8);
    if let Some(w) = words.position(|c| u64_at(c, 0) != 0) {
        return Some(64 * w + u64_at(map, 8 * w).trailing_zeros() as usize);
    }
    let from = n / 8 / 8 * 8;
    let i = map[from..].iter().position(|m| *m != 0)?;
    Some(8 * (from + i) + map[from + i].trailing_zeros() as usize)
}

#[inline(always)]
fn write_block(img: &mut [u8], n: usize, b: usize, head: (u32, u64, u64, u64), bytes: &[u8]) {
    let (owner, id, now, expires) = head;
    set_clock(img, now);
    img[64 * n + 1024 + 512 * b..][..512].copy_from_slice(&bytes[16..]);
    let h = &mut img[64 * b..64 * b + 64];
    h[0] = 1;
    h[1] = owner as u8;
    h[2..8].fill(0);
    put(h, 8, id);
    put(h, 16, now);
    put(h, 24, expires);
    h[32..48].copy_from_slice(&bytes[..16]);
    h[48..64].fill(0);
}

#[inline(never)]
pub fn create(t: &Tariff, client: u32, expiry: u64, bytes: &[u8], now: u64, img: &mut [u8]) -> Plain<u64> {
    let (n, clock) = changing(client, expiry, now, img)?;
    if bytes.len() != 528 {
        return Err(Report::BadRoom);
    }
    let b = lowest_free(img, n).ok_or(Report::NoSpace)?;
    let at = 64 * n + 512 + 8 * client as usize;
    let count = u64_at(img, at);
    if !good(img, n, clock, b) || count >= n as u64 {
        return Err(Report::Damaged);
    }
    let (id, expires) = (id_of(now, b as u64), now.max(expiry));
    write_block(img, n, b, (client, id, now, expires), bytes);
    img[64 * n + b / 8] &= !(1 << (b % 8));
    put(img, at, count + 1);
    Ok((id, t.create as i64 + worth(t, now, expires)))
}

#[inline(never)]
pub fn read(t: &Tariff, client: u32, id: u64, buffer: &mut [u8], img: &[u8]) -> Plain<()> {
    let (n, clock) = reading(client, img)?;
    if buffer.len() != 528 {
        return Err(Report::BadRoom);
    }
    let b = find(id, n, clock, img)?;
    buffer[..16].copy_from_slice(&img[64 * b + 32..64 * b + 48]);
    buffer[16..].copy_from_slice(&img[64 * n + 1024 + 512 * b..][..512]);
    Ok(((), t.read as i64))
}

#[inline(never)]
pub fn status(t: &Tariff, client: u32, id: u64, img: &[u8]) -> Plain<(u32, u64, u64)> {
    let (n, clock) = reading(client, img)?;
    let h = header(img, find(id, n, clock, img)?);
    Ok(((h[1] as u32, u64_at(h, 16), u64_at(h, 24)), t.status as i64))
}

#[inline(never)]
pub fn destroy(t: &Tariff, client: u32, id: u64, now: u64, img: &mut [u8]) -> Plain<()> {
    let (n, clock) = changing(client, 0, now, img)?;
    let b = find_own(client, id, n, clock, img)?;
    let at = 64 * n + 512 + 8 * client as usize;
    let count = u64_at(img, at).checked_sub(1).ok_or(Report::Damaged)?;
    let (created, expires) = (u64_at(img, 64 * b + 16), u64_at(img, 64 * b + 24));
    set_clock(img, now);
    img[64 * b..64 * b + 64].fill(0);
    img[64 * n + b / 8] |= 1 << (b % 8);
    put(img, at, count);
    Ok((
        (),
        t.destroy as i64 - worth(t, created, expires) + worth(t, created, now),
    ))
}

#[inline(never)]
pub fn replace(t: &Tariff, client: u32, id: u64, bytes: &[u8], now: u64, img: &mut [u8]) -> Plain<u64> {
    let (n, clock) = changing(client, 0, now, img)?;
    if bytes.len() != 528 {
        return Err(Report::BadRoom);
    }
    let b = find_own(client, id, n, clock, img)?;
    let (created, expires) = (u64_at(img, 64 * b + 16), u64_at(img, 64 * b + 24));
    let made = id_of(now, b as u64);
    write_block(img, n, b, (client, made, now, expires), bytes);
    let back = worth(t, created, now) - worth(t, created, expires);
    Ok((made, t.replace as i64 + back + worth(t, now, expires)))
}

#[inline(never)]
pub fn set_expiry(t: &Tariff, client: u32, id: u64, expiry: u64, now: u64, img: &mut [u8]) -> Plain<()> {
    let (n, clock) = changing(client, expiry, now, img)?;
    let b = find_own(client, id, n, clock, img)?;
    let (created, expires) = (u64_at(img, 64 * b + 16), u64_at(img, 64 * b + 24));
    let until = now.max(expiry);
    set_clock(img, now);
    put(img, 64 * b + 24, until);
    Ok((
        (),
        t.setexpiry as i64 - worth(t, created, expires) + worth(t, created, until),
    ))
}

#[inline(never)]
pub fn get_count(t: &Tariff, client: u32, img: &[u8]) -> Plain<u32> {
    let (n, _) = reading(client, img)?;
    let count = u64_at(img, 64 * n + 512 + 8 * client as usize);
    if count > n as u64 {
        return Err(Report::Damaged);
    }
    Ok((count as u32, t.getcount as i64))
}

fn key_at(n: usize, stopped: usize) -> usize {
    if stopped == n {
        LAST
    } else {
        stopped
    }
}

fn owned(img: &[u8], client: u32, b: usize) -> bool {
    img[64 * b] == 1 && img[64 * b + 1] as u32 == client
}

/// The number of ids, and the key.
#[inline(never)]
pub fn get_ids(t: &Tariff, client: u32, key: usize, count: u32, ids: &mut [u8], img: &[u8]) -> Plain<(usize, usize)> {
    let (n, clock) = reading(client, img)?;
    if key >= n {
        return Err(Report::BadKey);
    }
    if count == 0 || count > 64 {
        return Err(Report::BadCount);
    }
    if ids.len() < 8 * count as usize {
        return Err(Report::BadRoom);
    }
    let (mut b, end, mut wanted) = (key, n.min(key + 64), count);
    while b < end && wanted > 0 {
        if !good(img, n, clock, b) {
            return Err(Report::Damaged);
        }
        wanted -= owned(img, client, b) as u32;
        b += 1;
    }
    let mut k = 0;
    for x in key..b {
        if owned(img, client, x) {
            ids[8 * k..8 * k + 8].copy_from_slice(&img[64 * x + 8..64 * x + 16]);
            k += 1;
        }
    }
    Ok(((k, key_at(n, b)), t.getids as i64))
}

fn managing(client: u32, key: usize, n: usize) -> Result<usize, Report> {
    if client != 0 {
        return Err(Report::NotManager);
    }
    if key >= n {
        return Err(Report::BadKey);
    }
    Ok(n.min(key + 64))
}

/// The number of blocks removed, and the key.
#[inline(never)]
pub fn scavenge(t: &Tariff, client: u32, key: usize, now: u64, img: &mut [u8]) -> Plain<(usize, usize)> {
    let (n, clock) = changing(client, 0, now, img)?;
    let end = managing(client, key, n)?;
    let gone = |img: &[u8], b: usize| img[64 * b] == 1 && u64_at(img, 64 * b + 24) < now;
    if !(key..end).all(|b| good(img, n, clock, b)) {
        return Err(Report::Damaged);
    }
    let mut lost = [0u64; 64];
    for b in key..end {
        if gone(img, b) {
            lost[img[64 * b + 1] as usize] += 1;
        }
    }
    let counts = 64 * n + 512;
    if !(0..64).all(|u| lost[u] <= u64_at(img, counts + 8 * u)) {
        return Err(Report::Damaged);
    }
    set_clock(img, now);
    let mut k = 0;
    for b in key..end {
        if gone(img, b) {
            img[64 * b..64 * b + 64].fill(0);
            img[64 * n + b / 8] |= 1 << (b % 8);
            k += 1;
        }
    }
    for (u, lost) in lost.into_iter().enumerate().filter(|(_, lost)| *lost > 0) {
        let count = u64_at(img, counts + 8 * u);
        put(img, counts + 8 * u, count - lost);
    }
    Ok(((k, key_at(n, end)), t.scavenge as i64))
}

/// The number of entries, and the key.
#[inline(never)]
pub fn profile(t: &Tariff, client: u32, key: usize, buffer: &mut [u8], img: &[u8]) -> Plain<(usize, usize)> {
    let (n, clock) = reading(client, img)?;
    let end = managing(client, key, n)?;
    if buffer.len() < 1536 {
        return Err(Report::BadRoom);
    }
    if !(key..end).all(|b| good(img, n, clock, b)) {
        return Err(Report::Damaged);
    }
    let mut k = 0;
    for x in key..end {
        if img[64 * x] == 1 {
            put(buffer, 24 * k, img[64 * x + 1] as u64);
            buffer[24 * k + 8..24 * k + 24].copy_from_slice(&img[64 * x + 16..64 * x + 32]);
            k += 1;
        }
    }
    Ok(((k, key_at(n, end)), t.profile as i64))
}
