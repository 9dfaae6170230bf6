//! Document 01 read over raw bytes, for images that are not sound: which headers are visited, when a header or a count
//! is at fault, and which bytes a success changes. On sound images it must agree with the model.
use crate::calls::{Answer, Call, Tariff};
use crate::identifiers::{made, shaped};
use crate::model::ended;
use crate::reports::Report;

type Outcome = Result<Answer, Report>;

/// An image whose length and trailer are right.
struct Image<'a> {
    bytes: &'a mut [u8],
    n: usize,
    clock: u64,
}

/// The numbers of a used header.
pub struct Header {
    pub owner: usize,
    id: u64,
    created: u64,
    expires: u64,
}

fn get4(bytes: &[u8], at: usize) -> u32 {
    u32::from_le_bytes([bytes[at], bytes[at + 1], bytes[at + 2], bytes[at + 3]])
}

fn get8(bytes: &[u8], at: usize) -> u64 {
    u64::from(get4(bytes, at)) | u64::from(get4(bytes, at + 4)) << 32
}

fn all_zero(bytes: &[u8]) -> bool {
    bytes.iter().all(|byte| *byte == 0)
}

fn refuse_if(applies: bool, report: Report) -> Result<(), Report> {
    if applies {
        Err(report)
    } else {
        Ok(())
    }
}

/// N and the clock, where length and trailer are right.
pub fn trailer(bytes: &[u8]) -> Option<(usize, u64)> {
    let t = &bytes[bytes.len().checked_sub(512)?..];
    let (n, clock) = (u64::from(get4(t, 0)), get8(t, 24));
    let blocks = n / 8 + n + 3;
    let distances = [blocks - 1, n + 2, n + 1, n];
    let right = n % 8 == 0
        && (8..=4096).contains(&n)
        && bytes.len() as u64 == 512 * blocks
        && (0..4).all(|i| u64::from(get4(t, 4 + 4 * i)) == distances[i])
        && all_zero(&t[20..24])
        && clock < 1 << 40
        && all_zero(&t[32..508])
        && t[508..] == [0x50, 0x52, 0x36, 0x32];
    right.then_some((n as usize, clock))
}

fn is_free(bytes: &[u8], n: usize, bit: usize) -> bool {
    bytes[64 * n + bit / 8] & (1 << (bit % 8)) != 0
}

/// Header b of an image of n blocks where it is good: none where it is unused, its numbers where it is used.
pub fn good(bytes: &[u8], n: usize, clock: u64, b: usize) -> Result<Option<Header>, Report> {
    let raw = &bytes[64 * b..64 * b + 64];
    let (free, h) = (is_free(bytes, n, b), Header::of(raw));
    if all_zero(raw) && free {
        return Ok(None);
    }
    let used = raw[0] == 1
        && all_zero(&raw[2..8])
        && all_zero(&raw[48..])
        && h.owner <= 63
        && (1..=clock).contains(&h.created)
        && h.expires >= 1
        && h.expires < 1 << 40
        && h.id == made(h.created, b as u32)
        && !free;
    if used {
        Ok(Some(h))
    } else {
        Err(Report::Damaged)
    }
}

impl<'a> Image<'a> {
    fn of(bytes: &'a mut [u8]) -> Result<Image<'a>, Report> {
        let (n, clock) = trailer(bytes).ok_or(Report::BadImage)?;
        Ok(Image { bytes, n, clock })
    }

    fn map_at(&self) -> usize {
        64 * self.n
    }

    fn count_at(&self, client: usize) -> usize {
        64 * self.n + 512 + 8 * client
    }

    fn data_at(&self, b: usize) -> usize {
        64 * self.n + 1024 + 512 * b
    }

    fn set8(&mut self, at: usize, number: u64) {
        self.bytes[at..at + 8].copy_from_slice(&number.to_le_bytes());
    }

    fn is_free(&self, bit: usize) -> bool {
        is_free(self.bytes, self.n, bit)
    }

    fn turn_bit(&mut self, bit: usize) {
        let at = self.map_at() + bit / 8;
        self.bytes[at] ^= 1 << (bit % 8);
    }

    fn count(&self, client: usize) -> u64 {
        get8(self.bytes, self.count_at(client))
    }

    fn set_count(&mut self, client: usize, count: u64) {
        self.set8(self.count_at(client), count);
    }

    fn set_clock(&mut self, now: u64) {
        self.set8(self.bytes.len() - 512 + 24, now);
    }

    fn good(&self, b: usize) -> Result<Option<Header>, Report> {
        good(self.bytes, self.n, self.clock, b)
    }

    /// The used header with this id.
    fn lookup(&self, id: u64) -> Result<(usize, Header), Report> {
        let (_, b) = shaped(id, self.n as u32).ok_or(Report::NoSuchBlock)?;
        match self.good(b as usize)? {
            Some(header) if header.id == id => Ok((b as usize, header)),
            _ => Err(Report::NoSuchBlock),
        }
    }

    /// The same for Destroy, Replace and SetExpiry.
    fn own(&self, id: u64, client: u32) -> Result<(usize, Header), Report> {
        let (b, header) = self.lookup(id)?;
        refuse_if(header.owner != client as usize, Report::NotOwner)?;
        Ok((b, header))
    }

    /// Writes header and data of a block.
    fn write(&mut self, b: usize, h: &Header, bytes: &[u8]) {
        let at = 64 * b;
        self.bytes[at] = 1;
        self.bytes[at + 1] = h.owner as u8;
        self.set8(at + 8, h.id);
        self.set8(at + 16, h.created);
        self.set8(at + 24, h.expires);
        self.bytes[at + 32..at + 48].copy_from_slice(&bytes[..16]);
        let data = self.data_at(b);
        self.bytes[data..data + 512].copy_from_slice(&bytes[16..]);
    }

    /// Takes a used block away. Its owner's count is above 0.
    fn take_away(&mut self, b: usize, owner: usize) {
        self.bytes[64 * b..64 * b + 64].fill(0);
        self.turn_bit(b);
        self.set_count(owner, self.count(owner) - 1);
    }

    fn times(&self, now: u64, expiry: u64) -> Result<(), Report> {
        refuse_if(now == 0 || now >> 40 != 0 || expiry >> 40 != 0, Report::BadTime)?;
        refuse_if(now <= self.clock, Report::ClockNotLater)
    }

    fn next_key(&self, stop: usize) -> u32 {
        if stop == self.n {
            65_535
        } else {
            stop as u32
        }
    }
}

impl Header {
    fn of(raw: &[u8]) -> Header {
        Header {
            owner: raw[1].into(),
            id: get8(raw, 8),
            created: get8(raw, 16),
            expires: get8(raw, 24),
        }
    }
}

/// Whether an image of any bytes is sound.
pub fn sound(bytes: &mut [u8]) -> bool {
    let Ok(image) = Image::of(bytes) else {
        return false;
    };
    let mut owned = [0; 64];
    for b in 0..image.n {
        match image.good(b) {
            Ok(Some(header)) => owned[header.owner] += 1,
            Ok(None) => {}
            Err(_) => return false,
        }
    }
    (image.n..4096).all(|bit| !image.is_free(bit)) && (0..64).all(|client| image.count(client) == owned[client])
}

/// Format: report 0 or 1.
pub fn format(n: u32, bytes: &mut [u8]) -> Result<(), Report> {
    let (n, length) = (n as usize, bytes.len());
    let right = n % 8 == 0 && (8..=4096).contains(&n) && length == 512 * (n + n / 8 + 3);
    refuse_if(!right, Report::BadImage)?;
    bytes.fill(0);
    bytes[64 * n..64 * n + n / 8].fill(0xff);
    let t = &mut bytes[length - 512..];
    for (i, number) in [n, n + n / 8 + 2, n + 2, n + 1, n].into_iter().enumerate() {
        t[4 * i..4 * i + 4].copy_from_slice(&(number as u32).to_le_bytes());
    }
    t[508..].copy_from_slice(b"PR62");
    Ok(())
}

/// The answer to an operation, a step or Format; the image and the buffer become what they are after it.
pub fn perform(call: &Call, prices: &Tariff, buffer: &mut [u8], bytes: &mut [u8]) -> Answer {
    let outcome = match *call {
        Call::Step { walk } if walk.ended => Ok(ended(walk)),
        Call::Format { n } => format(n, bytes).map(|()| Answer::default()),
        Call::Check => Ok(Answer {
            sound: sound(bytes),
            ..Answer::default()
        }),
        _ => Image::of(bytes).and_then(|image| operate(call, prices, buffer, image)),
    };
    outcome.unwrap_or_else(|report| call.refused(report, prices))
}

fn operate(call: &Call, prices: &Tariff, buffer: &mut [u8], mut image: Image) -> Outcome {
    refuse_if(client_of(call) > 63, Report::BadUser)?;
    match *call {
        Call::Create { client, expiry, now } => create(prices, client, expiry, buffer, now, &mut image),
        Call::Read { id, .. } => read(prices, id, buffer, &image),
        Call::Status { id, .. } => status(prices, id, &image),
        Call::Destroy { client, id, now } => destroy(prices, client, id, now, &mut image),
        Call::Replace { client, id, now } => replace(prices, client, id, buffer, now, &mut image),
        #[rustfmt::skip]
        Call::SetExpiry { client, id, expiry, now } => set_expiry(prices, client, id, expiry, now, &mut image),
        Call::GetIds { client, key, count } => get_ids(prices, client, key, count, buffer, &image),
        Call::GetCount { client } => get_count(prices, client, &image),
        Call::Scavenge { client, key, now } => scavenge(prices, client, key, now, &mut image),
        Call::Profile { client, key } => profile(prices, client, key, buffer, &image),
        Call::Step { walk } => {
            let mut answer = get_ids(prices, walk.client, walk.key, walk.count, buffer, &image)?;
            let mut after = walk;
            after.key = answer.key;
            after.ended = answer.key == 65_535;
            answer.walk = Some(after);
            Ok(answer)
        }
        Call::Format { .. } | Call::Check => unreachable!("not an operation"),
    }
}

fn client_of(call: &Call) -> u32 {
    match *call {
        Call::Create { client, .. }
        | Call::Read { client, .. }
        | Call::Status { client, .. }
        | Call::Destroy { client, .. }
        | Call::Replace { client, .. }
        | Call::SetExpiry { client, .. }
        | Call::GetIds { client, .. }
        | Call::GetCount { client }
        | Call::Scavenge { client, .. }
        | Call::Profile { client, .. } => client,
        Call::Step { walk } => walk.client,
        Call::Format { .. } | Call::Check => 0,
    }
}

fn price(price: u32) -> Answer {
    Answer {
        charge: price.into(),
        ..Answer::default()
    }
}

/// Rate times the ticks from one time to another, which may be negative.
fn kept(prices: &Tariff, from: u64, to: u64) -> i64 {
    i64::from(prices.rate) * (to as i64 - from as i64)
}

fn create(p: &Tariff, client: u32, expiry: u64, bytes: &[u8], now: u64, image: &mut Image) -> Outcome {
    image.times(now, expiry)?;
    refuse_if(bytes.len() != 528, Report::BadRoom)?;
    let free = (0..image.n).find(|b| image.is_free(*b));
    let b = free.ok_or(Report::NoSpace)?;
    image.good(b)?;
    let owner = client as usize;
    refuse_if(image.count(owner) >= image.n as u64, Report::Damaged)?;
    let header = Header {
        owner,
        id: made(now, b as u32),
        created: now,
        expires: if expiry > now { expiry } else { now },
    };
    image.write(b, &header, bytes);
    image.turn_bit(b);
    image.set_count(owner, image.count(owner) + 1);
    image.set_clock(now);
    Ok(Answer {
        id: header.id,
        charge: i64::from(p.create) + kept(p, now, header.expires),
        ..Answer::default()
    })
}

fn read(p: &Tariff, id: u64, buffer: &mut [u8], image: &Image) -> Outcome {
    refuse_if(buffer.len() != 528, Report::BadRoom)?;
    let (b, _) = image.lookup(id)?;
    buffer[..16].copy_from_slice(&image.bytes[64 * b + 32..64 * b + 48]);
    buffer[16..].copy_from_slice(&image.bytes[image.data_at(b)..image.data_at(b) + 512]);
    Ok(price(p.read))
}

fn status(p: &Tariff, id: u64, image: &Image) -> Outcome {
    let (_, header) = image.lookup(id)?;
    Ok(Answer {
        owner: header.owner as u32,
        created: header.created,
        expires: header.expires,
        ..price(p.status)
    })
}

fn destroy(p: &Tariff, client: u32, id: u64, now: u64, image: &mut Image) -> Outcome {
    image.times(now, 0)?;
    let (b, old) = image.own(id, client)?;
    refuse_if(image.count(old.owner) == 0, Report::Damaged)?;
    image.take_away(b, old.owner);
    image.set_clock(now);
    Ok(Answer {
        charge: i64::from(p.destroy) + kept(p, old.created, now) - kept(p, old.created, old.expires),
        ..Answer::default()
    })
}

fn replace(p: &Tariff, client: u32, id: u64, bytes: &[u8], now: u64, image: &mut Image) -> Outcome {
    image.times(now, 0)?;
    refuse_if(bytes.len() != 528, Report::BadRoom)?;
    let (b, old) = image.own(id, client)?;
    let new = Header {
        owner: client as usize,
        id: made(now, b as u32),
        created: now,
        expires: old.expires,
    };
    image.write(b, &new, bytes);
    image.set_clock(now);
    let given_back = kept(p, old.created, old.expires) - kept(p, old.created, now);
    Ok(Answer {
        id: new.id,
        charge: i64::from(p.replace) - given_back + kept(p, now, new.expires),
        ..Answer::default()
    })
}

fn set_expiry(p: &Tariff, client: u32, id: u64, expiry: u64, now: u64, image: &mut Image) -> Outcome {
    image.times(now, expiry)?;
    let (b, old) = image.own(id, client)?;
    let expires = if expiry > now { expiry } else { now };
    image.set8(64 * b + 24, expires);
    image.set_clock(now);
    let given_back = kept(p, old.created, old.expires);
    Ok(Answer {
        charge: i64::from(p.setexpiry) - given_back + kept(p, old.created, expires),
        ..Answer::default()
    })
}

fn get_count(p: &Tariff, client: u32, image: &Image) -> Outcome {
    let count = image.count(client as usize);
    refuse_if(count > image.n as u64, Report::Damaged)?;
    Ok(Answer {
        count: count as u32,
        ..price(p.getcount)
    })
}

/// The ids are gathered first and written after the last visited header has been seen to be good.
fn get_ids(p: &Tariff, client: u32, key: u32, count: u32, buffer: &mut [u8], image: &Image) -> Outcome {
    refuse_if(key as usize >= image.n, Report::BadKey)?;
    refuse_if(count == 0 || count > 64, Report::BadCount)?;
    refuse_if(buffer.len() < 8 * count as usize, Report::BadRoom)?;
    let (first, mut b) = (key as usize, key as usize);
    let mut ids = Vec::new();
    while b < image.n && b - first < 64 && ids.len() < count as usize {
        if let Some(header) = image.good(b)? {
            if header.owner == client as usize {
                ids.push(header.id);
            }
        }
        b += 1;
    }
    for (i, id) in ids.iter().enumerate() {
        buffer[8 * i..8 * i + 8].copy_from_slice(&id.to_le_bytes());
    }
    Ok(Answer {
        entries: ids.len() as u32,
        key: image.next_key(b),
        ..price(p.getids)
    })
}

/// All visited headers are read, and the counts seen to suffice, before the first block goes.
fn scavenge(p: &Tariff, client: u32, key: u32, now: u64, image: &mut Image) -> Outcome {
    image.times(now, 0)?;
    refuse_if(client != 0, Report::NotManager)?;
    refuse_if(key as usize >= image.n, Report::BadKey)?;
    let stop = image.n.min(key as usize + 64);
    let (mut gone, mut of_client) = (Vec::new(), [0u64; 64]);
    for b in key as usize..stop {
        if let Some(header) = image.good(b)?.filter(|h| h.expires < now) {
            gone.push((b, header.owner));
            of_client[header.owner] += 1;
        }
    }
    let short = (0..64).any(|owner| of_client[owner] > image.count(owner));
    refuse_if(short, Report::Damaged)?;
    gone.iter().for_each(|(b, owner)| image.take_away(*b, *owner));
    image.set_clock(now);
    Ok(Answer {
        count: gone.len() as u32,
        key: image.next_key(stop),
        ..price(p.scavenge)
    })
}

fn profile(p: &Tariff, client: u32, key: u32, buffer: &mut [u8], image: &Image) -> Outcome {
    refuse_if(client != 0, Report::NotManager)?;
    refuse_if(key as usize >= image.n, Report::BadKey)?;
    refuse_if(buffer.len() < 1536, Report::BadRoom)?;
    let stop = image.n.min(key as usize + 64);
    let mut bytes = Vec::new();
    for b in key as usize..stop {
        if let Some(h) = image.good(b)? {
            for number in [h.owner as u64, h.created, h.expires] {
                bytes.extend(number.to_le_bytes());
            }
        }
    }
    buffer[..bytes.len()].copy_from_slice(&bytes);
    Ok(Answer {
        entries: (bytes.len() / 24) as u32,
        key: image.next_key(stop),
        ..price(p.profile)
    })
}
