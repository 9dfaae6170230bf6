//! The demonstration's recorder: three channels that store the samples of an oscillator in an image file, at times of
//! their own.
use crate::given::failed;
use crate::image_file::{self, ImageFile};
use crate::layout::{header, word};
use crate::{time, Stop};
use std::path::Path;
use zolvortug::{series_block, Client, Id, Store, Tariff, Tick, BLOCK, MOST, SAMPLES, TAG};

pub const BLOCKS: u32 = 32;
/// Channel c stores series c.
const CHANNELS: u32 = 3;
/// Blocks that each channel stores. The first of each is kept until shortly after the last is stored, the others long.
const ROUNDS: u32 = 6;
const BEGIN: &str = "2026-01-01T00:00:00Z";
pub const BLOCK_TIME: u64 = 128_000;
const SHORT: u64 = 7 * BLOCK_TIME;
const LONG: u64 = 1000 * BLOCK_TIME;
/// Picoseconds that the oscillator gains each sample, and the largest noise of one.
pub const GAIN: i64 = 5;
pub const NOISE: i64 = 2;

pub struct Recorder {
    file: ImageFile,
    image: Vec<u8>,
    now: Tick,
}

impl Recorder {
    pub fn make(path: &Path, force: bool) -> Result<Recorder, Stop> {
        let mut image = vec![0; zolvortug::size_of_image(BLOCKS).unwrap_or(0)];
        zolvortug::format(BLOCKS, &mut image).map_err(unforeseen)?;
        image_file::create(path, &image, force).map_err(|fault| failed(path, fault))?;
        let file = ImageFile::open(path).map_err(|fault| failed(path, fault))?;
        let now = time::moment(BEGIN)?;
        Ok(Recorder { file, image, now })
    }

    /// A change at a later time, on the disk.
    pub fn change<T>(
        &mut self,
        wait: u64,
        call: impl FnOnce(&mut Store<&mut [u8]>, Tick) -> zolvortug::Answer<T>,
    ) -> Result<T, Stop> {
        self.now.0 += wait;
        let paid = call(&mut Store::new(&mut self.image, Tariff::default()), self.now).map_err(unforeseen)?;
        self.file
            .commit(&self.image)
            .map_err(|fault| failed(self.file.path(), fault))?;
        Ok(paid.value)
    }

    pub fn store(&self) -> Store<&[u8]> {
        Store::new(&self.image, Tariff::default())
    }

    /// Lets the channels store their samples, block by block in turn.
    pub fn record(&mut self) -> Result<(), Stop> {
        for sequence in 0..ROUNDS {
            let keep = if sequence == 0 { SHORT } else { LONG };
            for channel in 1..=CHANNELS {
                let wait = if channel == 1 { BLOCK_TIME } else { 1 };
                let block = samples(channel, sequence);
                self.change(wait, |store, now| {
                    store.create(Client(channel), Tick(now.0 + keep), &block, now)
                })?;
            }
        }
        Ok(())
    }

    /// A client's ids that stand at this moment, in the order of their blocks.
    pub fn standing(&self, client: Client) -> Result<Vec<Id>, Stop> {
        let (mut walk, mut room, mut ids) = (self.store().walk(client, MOST as u32), [Id(0); MOST], Vec::new());
        while !walk.ended() {
            ids.extend_from_slice(walk.step(&self.store(), &mut room).map_err(unforeseen)?.value);
        }
        Ok(ids)
    }

    /// The samples of a block, in picoseconds.
    pub fn phases(&self, client: Client, id: Id) -> Result<Vec<i64>, Stop> {
        let mut block = [0; BLOCK];
        self.store().read(client, id, &mut block).map_err(unforeseen)?;
        Ok(block[TAG..]
            .chunks(4)
            .map(|sample| i64::from(word(sample, 0, 4) as u32 as i32))
            .collect())
    }

    /// The owner of each block, where it has one.
    pub fn owners(&self) -> Vec<Option<Client>> {
        let owner = |block| match header(&self.image, block) {
            [1, owner, ..] => Some(Client(u32::from(*owner))),
            _ => None,
        };
        (0..BLOCKS as usize).map(owner).collect()
    }
}

/// The demonstration has its file to itself, so no call of it is refused.
pub fn unforeseen(why: impl std::fmt::Debug) -> Stop {
    Stop::File(format!(
        "the demonstration's image was changed by somebody else: {why:?}"
    ))
}

/// A block of samples of the oscillator, in a series.
fn samples(series: u32, sequence: u32) -> [u8; BLOCK] {
    let samples: [Option<i32>; SAMPLES] = std::array::from_fn(|i| {
        let place = sequence * SAMPLES as u32 + i as u32;
        let noise = i64::from(place.wrapping_mul(2654435761) >> 16) % (2 * NOISE + 1) - NOISE;
        Some((GAIN * i64::from(place) + noise) as i32)
    });
    series_block(series, sequence, &samples).expect("small phases, and few blocks")
}
