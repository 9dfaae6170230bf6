//! What is wrong with an image that the check says no to, in words. The verdict is the proved check's alone; this only
//! looks for the reasons, and the tests hold the two against each other.
use crate::image_file::too_long;
use crate::layout::{clock, disk_block, header, word, Layout, MARK};
use crate::time;
use zolvortug::{Client, Id, Tick};

const CLIENTS: usize = 64;
const ROUNDS: [u32; 4] = [2654435761, 2246822519, 3266489917, 668265263];

/// Every fault of an image: the trailer's first, then block by block, then the map's and the counts'.
pub fn faults(image: &[u8]) -> Vec<String> {
    let Some(layout) = Layout::of(image.len()) else {
        return vec!["the length is no image's".into()];
    };
    if let Some(what) = no_trailer(image, layout) {
        return vec![what];
    }
    let mut found = trailer(image, layout);
    for block in 0..layout.blocks {
        let wrong = block_faults(image, layout, block).into_iter();
        found.extend(wrong.map(|what| format!("block {block}: {what}")));
    }
    let map = disk_block(image, layout.map());
    if map[layout.blocks / 8..].iter().any(|byte| *byte != 0) {
        found.push("map: a bit above the last block is set".into());
    }
    found.extend(counts(image, layout));
    found
}

/// The blocks that can still be read, with owner and id: where the trailer is right, the used ones with good headers.
pub fn readable(image: &[u8]) -> Vec<(usize, Client, Id)> {
    let Some(layout) = Layout::of(image.len()).filter(|layout| trailer(image, *layout).is_empty()) else {
        return Vec::new();
    };
    let good = |block: &usize| header(image, *block)[0] == 1 && block_faults(image, layout, *block).is_empty();
    let entry = |block| {
        let h = header(image, block);
        (block, Client(u32::from(h[1])), Id(word(h, 8, 8)))
    };
    (0..layout.blocks).filter(good).map(entry).collect()
}

/// What is said of an image whose last block has neither a trailer's mark nor its number.
fn no_trailer(image: &[u8], layout: Layout) -> Option<String> {
    let last = disk_block(image, layout.trailer());
    let none = last[508..] != MARK && word(last, 0, 4) != layout.blocks as u64;
    let what = || "the last 512 bytes are no trailer: cut to this length, or no image".to_string();
    none.then(|| too_long(image).unwrap_or_else(what))
}

fn trailer(image: &[u8], layout: Layout) -> Vec<String> {
    let bytes = disk_block(image, layout.trailer());
    let back = |to: usize| (layout.trailer() - to) as u64;
    let numbers = [
        ("N", 0, layout.blocks as u64),
        ("the distance to the headers", 4, back(0)),
        ("the distance to the map", 8, back(layout.map())),
        ("the distance to the counts", 12, back(layout.counts())),
        ("the distance to the data", 16, back(layout.data(0))),
    ];
    let mut found = Vec::new();
    for (name, at, right) in numbers {
        let is = word(bytes, at, 4);
        if is != right {
            found.push(format!("trailer: {name} is {is}, and by the length it is {right}"));
        }
    }
    if clock(image) > time::LAST.0 {
        found.push(format!("trailer: the clock, {}, is above 2^40 - 1", clock(image)));
    }
    if bytes[508..] != MARK {
        found.push("trailer: its last four bytes are not 50 52 36 32".into());
    }
    if bytes[20..24].iter().chain(&bytes[32..508]).any(|byte| *byte != 0) {
        found.push("trailer: a byte that is to be zero is not".into());
    }
    found
}

fn block_faults(image: &[u8], layout: Layout, block: usize) -> Vec<String> {
    let h = header(image, block);
    let free = disk_block(image, layout.map())[block / 8] >> (block % 8) & 1 == 1;
    let mut found = match h[0] {
        0 if h.iter().any(|byte| *byte != 0) => vec!["unused, and yet its header is not all zero".into()],
        0 => Vec::new(),
        1 => used_faults(h, block, clock(image)),
        used => vec![format!("its first byte is {used}, and neither 0 nor 1")],
    };
    match (h[0], free) {
        (0, false) => found.push("unused, and the map has it as used".into()),
        (1, true) => found.push("used, and the map has it as free".into()),
        _ => {}
    }
    found
}

fn used_faults(h: &[u8], block: usize, clock: u64) -> Vec<String> {
    let (owner, id, created, expires) = (h[1], word(h, 8, 8), word(h, 16, 8), word(h, 24, 8));
    let shown = |t| time::shown(Tick(t));
    let mut found = Vec::new();
    if h[2..8].iter().chain(&h[48..]).any(|byte| *byte != 0) {
        found.push("a byte of its header that is to be zero is not".into());
    }
    if usize::from(owner) >= CLIENTS {
        found.push(format!("its owner, {owner}, is no client"));
    }
    if created == 0 || created > clock {
        found.push(format!(
            "created at {}, and the clock is {}",
            shown(created),
            shown(clock)
        ));
    }
    if expires == 0 || expires > time::LAST.0 {
        found.push(format!("it expires at {}, which is no time", shown(expires)));
    }
    let made = id_of(created, block);
    if id != made {
        found.push(format!(
            "its id is {id:016x}, and the one made from its number and time is {made:016x}"
        ));
    }
    found
}

fn id_of(created: u64, block: usize) -> u64 {
    let p = (created << 12).wrapping_add(block as u64);
    let start = ((p >> 32) as u32, p as u32);
    let (l, r) = ROUNDS
        .iter()
        .fold(start, |(l, r), k| (r, l.wrapping_add(r.wrapping_mul(*k))));
    u64::from(l) << 32 | u64::from(r)
}

fn counts(image: &[u8], layout: Layout) -> Vec<String> {
    let mut owned = [0; CLIENTS];
    for block in 0..layout.blocks {
        let h = header(image, block);
        if h[0] == 1 && usize::from(h[1]) < CLIENTS {
            owned[usize::from(h[1])] += 1;
        }
    }
    let counts = disk_block(image, layout.counts());
    let wrong = |client: usize| {
        let (is, right) = (word(counts, 8 * client, 8), owned[client]);
        (is != right).then(|| format!("counts: client {client} has {is}, and {right} used headers are its"))
    };
    (0..CLIENTS).filter_map(wrong).collect()
}
