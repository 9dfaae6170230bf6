//! The model's own encoder and decoder: a store written out part after part, and read back from a sound image.
use crate::identifiers::made;
use crate::model::{is_time, Block, Store};

pub fn is_size(n: u32) -> bool {
    n.is_multiple_of(8) && (8..=4096).contains(&n)
}

/// The bytes of an image of n blocks, from its parts.
pub fn length(n: u32) -> usize {
    let disk_blocks = n / 8 + 1 + 1 + n + 1;
    disk_blocks as usize * 512
}

fn header(out: &mut Vec<u8>, block: Option<&Block>) {
    let Some(block) = block else {
        return out.extend([0; 64]);
    };
    out.extend([1, block.owner as u8, 0, 0, 0, 0, 0, 0]);
    for number in [block.id, block.created, block.expires] {
        out.extend(number.to_le_bytes());
    }
    out.extend(block.tag);
    out.extend([0; 16]);
}

fn map(out: &mut Vec<u8>, store: &Store) {
    let mut map = [0; 512];
    store.free.iter().for_each(|b| map[*b as usize / 8] += 1 << (b % 8));
    out.extend(map);
}

fn counts(out: &mut Vec<u8>, store: &Store) {
    let mut counts = [0u64; 64];
    store.stored.values().for_each(|b| counts[b.owner as usize] += 1);
    counts.iter().for_each(|count| out.extend(count.to_le_bytes()));
}

fn trailer(out: &mut Vec<u8>, store: &Store) {
    let n = store.n;
    let (headers, end) = (n / 8, out.len() + 512);
    for number in [n, headers + 1 + 1 + n, 1 + 1 + n, 1 + n, n, 0] {
        out.extend(number.to_le_bytes());
    }
    out.extend(store.clock.to_le_bytes());
    out.resize(end - 4, 0);
    out.extend([0x50, 0x52, 0x36, 0x32]);
}

/// Headers, map and counts.
pub fn front(store: &Store, out: &mut Vec<u8>) {
    (0..store.n).for_each(|b| header(out, store.stored.get(&b)));
    map(out, store);
    counts(out, store);
}

/// The data of a block, or what is left where none is stored.
pub fn data(store: &Store, number: u32) -> &[u8; 512] {
    match store.stored.get(&number) {
        Some(block) => &block.data,
        None => &store.aside[&number],
    }
}

/// The whole image, in place of what stands in `out`.
pub fn encode(store: &Store, out: &mut Vec<u8>) {
    out.clear();
    front(store, out);
    (0..store.n).for_each(|b| out.extend(data(store, b)));
    trailer(out, store);
}

/// The image again after one operation, where all data is as it stands but that of the block written last.
pub fn encode_changed(store: &Store, image: &mut Vec<u8>) {
    let mut parts = Vec::new();
    front(store, &mut parts);
    image[..parts.len()].copy_from_slice(&parts);
    if let Some(b) = store.written {
        let at = parts.len() + 512 * b as usize;
        image[at..at + 512].copy_from_slice(data(store, b));
    }
    image.truncate(image.len() - 512);
    trailer(image, store);
}

fn number(bytes: &[u8]) -> u64 {
    bytes.iter().rev().fold(0, |all, byte| all << 8 | u64::from(*byte))
}

fn block(b: u32, header: &[u8], data: &[u8; 512]) -> Block {
    let created = number(&header[16..24]);
    Block {
        owner: header[1].into(),
        id: made(created % (1 << 40), b),
        created,
        expires: number(&header[24..32]),
        tag: header[32..48].try_into().expect("a tag of 16"),
        data: Box::new(*data),
    }
}

fn in_range(block: &Block, clock: u64) -> bool {
    block.owner <= 63 && (1..=clock).contains(&block.created) && is_time(block.expires)
}

/// The store of a sound image, and none of any other: a decoded store must encode to the very bytes.
pub fn decode(image: &[u8]) -> Option<Store> {
    let trailer = image.last_chunk::<512>()?;
    let n = u32::from_le_bytes(*trailer.first_chunk().expect("4 bytes"));
    let clock = number(&trailer[24..32]);
    if !is_size(n) || image.len() != length(n) || !(clock == 0 || is_time(clock)) {
        return None;
    }
    let mut store = Store::fresh(n);
    store.clock = clock;
    let (headers, rest) = image.split_at(64 * n as usize);
    let parts = headers.chunks(64).zip(rest[1024..].as_chunks().0);
    for (b, (header, data)) in (0..n).zip(parts) {
        if header[0] == 1 {
            let block = block(b, header, data);
            if !in_range(&block, clock) {
                return None;
            }
            store.put(b, block);
        } else {
            store.aside.insert(b, Box::new(*data));
        }
    }
    let mut again = Vec::with_capacity(image.len());
    encode(&store, &mut again);
    (again == image).then_some(store)
}
