//! Series of samples: a reader that gives each place of a client's series as a phase or as a gap, and the blocks that a
//! series is written as.
use crate::{sys, Client, Report, BLOCK};
use core::fmt;
use core::iter::FusedIterator;

/// Samples that a block of a series has room for.
pub const SAMPLES: usize = 128;
/// Sequences of a series are below this.
pub const SEQUENCES: u32 = 4096;
/// A phase is from minus this to this, in picoseconds.
pub const LARGEST: i32 = 1 << 20;
/// The mark of a sample that was not taken.
pub const NOT_TAKEN: i32 = i32::MIN;
/// The bytes of a block's tag.
pub const TAG: usize = 16;

/// What stands at a place of a series.
#[derive(Clone, Copy, Debug, PartialEq)]
pub enum Sample {
    /// A phase in picoseconds: exactly the stored number.
    Phase(f64),
    /// No sample was taken, or no block has the sequence.
    Gap,
}

/// A reader of a client's series: it keeps the image that it was lent together with its place, and gives the samples
/// from place 0 to the last of the highest sequence. Sample `i` of sequence `q` has place `128 * q + i`. It is free.
///
/// ```
/// use zolvortug::{series_block, Client, Sample, Store, Tariff, Tick};
/// let mut image = vec![0; zolvortug::size_of_image(8).unwrap()];
/// zolvortug::format(8, &mut image).unwrap();
/// let mut store = Store::new(image, Tariff::default());
/// let block = series_block(9, 1, &[Some(-5), None, Some(40)]).unwrap();
/// store.create(Client(3), Tick(500), &block, Tick(100)).unwrap();
///
/// let reader = store.series(Client(3), 9).unwrap();
/// assert_eq!(reader.places(), 256);
/// let phases: Vec<(usize, Sample)> = reader.enumerate().filter(|(_, sample)| *sample != Sample::Gap).collect();
/// assert_eq!(phases, [(128, Sample::Phase(-5.0)), (130, Sample::Phase(40.0))]);
/// ```
#[derive(Clone)]
pub struct Reader<'a> {
    image: &'a [u8],
    place: sys::Place,
}

impl<'a> Reader<'a> {
    /// Opens a reader before the first place. Refused with `BadImage`, `BadUser`, `Damaged` (by any header of the
    /// image), `NoSeries`, `BadTag` or `SequenceTwice`.
    pub fn open(image: &'a [u8], client: Client, series: u32) -> Result<Reader<'a>, Report> {
        // SAFETY: a pointer with its own length.
        let place = unsafe { sys::zolvortug_series_open(client.0, series, image.as_ptr(), image.len()) };
        match Report::of(place.report as u8) {
            None => Ok(Reader { image, place }),
            Some(report) => Err(report),
        }
    }

    /// The number of places of the series.
    pub fn places(&self) -> u32 {
        self.place.end
    }

    /// The place that the next step gives; the number of places where the series has ended.
    pub fn place(&self) -> u32 {
        self.place.at
    }
}

impl Iterator for Reader<'_> {
    type Item = Sample;

    fn next(&mut self) -> Option<Sample> {
        let a = self.place.step(self.image);
        match a.answer {
            0 => None,
            1 => Some(Sample::Phase(a.phase)),
            _ => Some(Sample::Gap),
        }
    }

    fn size_hint(&self) -> (usize, Option<usize>) {
        let left = (self.place.end - self.place.at) as usize;
        (left, Some(left))
    }
}

impl ExactSizeIterator for Reader<'_> {}
impl FusedIterator for Reader<'_> {}

impl fmt::Debug for Reader<'_> {
    fn fmt(&self, f: &mut fmt::Formatter) -> fmt::Result {
        f.debug_struct("Reader")
            .field("place", &self.place)
            .finish_non_exhaustive()
    }
}

/// The tag of a block of a series.
#[derive(Clone, Copy, Debug, PartialEq, Eq)]
pub struct Tag {
    pub series: u32,
    pub sequence: u32,
    /// How many samples the block holds, 1 to 128; its other slots hold the mark.
    pub samples: usize,
}

impl Tag {
    /// The tag's bytes; none where the sequence is not below 4,096 or the samples are not 1 to 128.
    pub fn bytes(self) -> Option<[u8; TAG]> {
        if self.sequence >= SEQUENCES || !(1..=SAMPLES).contains(&self.samples) {
            return None;
        }
        let mut bytes = [0; TAG];
        bytes[..4].copy_from_slice(&self.series.to_le_bytes());
        bytes[4..8].copy_from_slice(&self.sequence.to_le_bytes());
        bytes[8] = self.samples as u8;
        Some(bytes)
    }
}

/// A block of a series: its samples in picoseconds, `None` for one that was not taken. There is none where the sequence
/// is not below 4,096, the samples are not 1 to 128, or one is not from -2^20 to 2^20.
///
/// ```
/// let block = zolvortug::series_block(9, 1, &[Some(-5), None]).unwrap();
/// assert_eq!(block[..16], [9, 0, 0, 0, 1, 0, 0, 0, 2, 0, 0, 0, 0, 0, 0, 0]);
/// assert_eq!(block[16..28], [0xfb, 0xff, 0xff, 0xff, 0, 0, 0, 0x80, 0, 0, 0, 0x80]);
/// assert_eq!(zolvortug::series_block(9, 1, &[Some(1 + (1 << 20))]), None);
/// ```
pub fn series_block(series: u32, sequence: u32, samples: &[Option<i32>]) -> Option<[u8; BLOCK]> {
    let tag = Tag {
        series,
        sequence,
        samples: samples.len(),
    };
    let mut block = [0; BLOCK];
    block[..TAG].copy_from_slice(&tag.bytes()?);
    let mut rest = samples.iter();
    for slot in block[TAG..].chunks_exact_mut(4) {
        let stored = match rest.next().copied().flatten() {
            Some(phase) if !(-LARGEST..=LARGEST).contains(&phase) => return None,
            Some(phase) => phase,
            None => NOT_TAKEN,
        };
        slot.copy_from_slice(&stored.to_le_bytes());
    }
    Some(block)
}
