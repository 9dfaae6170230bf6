//! The library and the second program side by side: each call is made on both, and all that it gives and is lent is
//! compared.
//!
//! After every call, whatever N and whatever the report: every field of the answer, every byte of the image, every byte
//! of the buffer (also one that is only read), and guard bytes around both.
//!
//! Where the image is sound, the expected image is the model's, encoded after each success that changes the store: in
//! full up to 128 blocks; above that headers, map, counts, trailer and the data of the block written last, and in full
//! every 64th time, so that there the data of other blocks is encoded again only then. Where the image is not sound,
//! the raw reading of `damaged` changes the expected image in place.
//!
//! On a share of the calls on sound images (one in 4; one in 64 above 128 blocks; every Check and Format) the raw
//! reading is made too and must give the model's answer, image and buffer.
use crate::calls::{library, Answer, Call, Tariff};
use crate::damaged;
use crate::encoding::{decode, encode, encode_changed, is_size, length};
use crate::model::Store;
use crate::table::Table;

const GUARD: usize = 61;
const GUARD_BYTE: u8 = 0xa5;

/// Bytes lent to the library, at an odd address, with guard bytes on both sides.
#[derive(Default)]
pub struct Lent(Vec<u8>);

impl Lent {
    pub fn set(&mut self, bytes: &[u8]) {
        self.0.clear();
        self.0.extend([GUARD_BYTE; GUARD]);
        self.0.extend(bytes);
        self.0.extend([GUARD_BYTE; GUARD]);
    }

    fn lend(&mut self) -> &mut [u8] {
        let end = self.0.len() - GUARD;
        &mut self.0[GUARD..end]
    }

    pub fn get(&self) -> &[u8] {
        &self.0[GUARD..self.0.len() - GUARD]
    }

    pub fn guarded(&self) -> bool {
        let (before, after) = (&self.0[..GUARD], &self.0[self.0.len() - GUARD..]);
        before == [GUARD_BYTE; GUARD] && after == [GUARD_BYTE; GUARD]
    }
}

#[derive(Default)]
pub struct Pair {
    image: Lent,
    buffer: Lent,
    expected: Vec<u8>,
    expected_buffer: Vec<u8>,
    scratch: Vec<u8>,
    scratch_buffer: Vec<u8>,
    /// The store of the image, where it is known to be sound.
    model: Option<Store>,
    /// Calls answered by the model, and encodings of it: they decide which are read both ways and encoded in full.
    answered: u64,
    encoded: u64,
    pub table: Table,
}

/// Where two runs of bytes differ first.
fn difference(what: &str, given: &[u8], expected: &[u8]) -> Result<(), String> {
    if given == expected {
        return Ok(());
    }
    let at = given.iter().zip(expected).position(|(a, b)| a != b);
    let at = at.unwrap_or(given.len().min(expected.len()));
    let part = |bytes: &[u8]| format!("{:02x?}", &bytes[at..bytes.len().min(at + 16)]);
    let (given, expected, of) = (part(given), part(expected), expected.len());
    let place = format!("{what} of {of} bytes differs at {at}");
    Err(format!("{place}: {given}, expected {expected}"))
}

impl Pair {
    /// A pair over an image of any bytes.
    pub fn of(image: &[u8]) -> Pair {
        let mut pair = Pair::default();
        pair.set(image);
        pair
    }

    /// Puts other bytes in the image's place, on both sides.
    pub fn set(&mut self, image: &[u8]) {
        self.model = decode(image);
        self.image.set(image);
        self.expected.clear();
        self.expected.extend(image);
    }

    /// Puts a store's image in the image's place, on both sides.
    pub fn put(&mut self, store: Store) {
        encode(&store, &mut self.expected);
        self.image.set(&self.expected);
        self.model = Some(store);
    }

    /// Takes the store of a sound image away; other bytes or another store must be put before the next call.
    pub fn take(&mut self) -> Store {
        self.model.take().expect("a sound image")
    }

    pub fn image(&self) -> &[u8] {
        &self.expected
    }

    /// The buffer as the last call left it.
    pub fn buffer(&self) -> &[u8] {
        &self.expected_buffer
    }

    pub fn store(&self) -> Option<&Store> {
        self.model.as_ref()
    }

    /// Makes a call on both sides. The answer, or what differs.
    pub fn call(&mut self, call: &Call, prices: &Tariff, buffer: &[u8]) -> Result<Answer, String> {
        self.buffer.set(buffer);
        self.expected_buffer.clear();
        self.expected_buffer.extend(buffer);
        let given = library(call, prices, self.buffer.lend(), self.image.lend());
        let expected = self.expect(call, prices);
        self.table.note(call, &given);
        let compared = expected.and_then(|expected| self.compare(&given, &expected));
        compared.map_err(|what| {
            let room = buffer.len();
            format!("{call:?}, {prices:?}, buffer of {room}\n  library {given:?}\n{what}")
        })
    }

    fn compare(&self, given: &Answer, expected: &Answer) -> Result<Answer, String> {
        if given != expected {
            return Err(format!(" expected {expected:?}"));
        }
        difference("image", self.image.get(), &self.expected)?;
        difference("buffer", self.buffer.get(), &self.expected_buffer)?;
        match self.image.guarded() && self.buffer.guarded() {
            true => Ok(*given),
            false => Err("bytes beside the image or the buffer changed".into()),
        }
    }

    /// The second program's answer; the expected image and buffer become what they are after the call.
    fn expect(&mut self, call: &Call, prices: &Tariff) -> Result<Answer, String> {
        let sound = self.model.is_some();
        match sound {
            true => self.table.sound += 1,
            false => self.table.other += 1,
        }
        match call {
            Call::Check => self.expect_check(),
            Call::Format { n } => self.expect_format(*n, call, prices),
            _ if sound => self.expect_of_model(call, prices),
            _ => {
                let (buffer, image) = (&mut self.expected_buffer, &mut self.expected);
                Ok(damaged::perform(call, prices, buffer, image))
            }
        }
    }

    /// An image that was not sound may have become so, by its clock.
    fn expect_check(&mut self) -> Result<Answer, String> {
        if self.model.is_none() {
            self.model = decode(&self.expected);
        }
        let sound = self.model.is_some();
        if damaged::sound(&mut self.expected) != sound {
            return Err(format!("the decoder says sound {sound}, the raw reading not so"));
        }
        Ok(Answer {
            sound,
            ..Answer::default()
        })
    }

    fn expect_format(&mut self, n: u32, call: &Call, prices: &Tariff) -> Result<Answer, String> {
        let takes = is_size(n) && self.expected.len() == length(n);
        let answer = damaged::perform(call, prices, &mut self.expected_buffer, &mut self.expected);
        if takes != (answer.report == 0) {
            return Err(format!("the encoder takes {n} blocks: {takes}, the raw reading not so"));
        }
        if takes {
            let fresh = Store::fresh(n);
            encode(&fresh, &mut self.scratch);
            difference("raw reading's fresh image", &self.expected, &self.scratch)?;
            self.model = Some(fresh);
        }
        Ok(answer)
    }

    fn expect_of_model(&mut self, call: &Call, prices: &Tariff) -> Result<Answer, String> {
        let model = self.model.as_mut().expect("a sound image");
        let share = if model.n <= 128 { 4 } else { 64 };
        self.answered += 1;
        let both = self.answered.is_multiple_of(share);
        if both {
            self.scratch.clone_from(&self.expected);
            self.scratch_buffer.clone_from(&self.expected_buffer);
        }
        let answer = model.perform(call, prices, &mut self.expected_buffer);
        if answer.report == 0 && call.changes() {
            self.encoded += 1;
            match model.n <= 128 || self.encoded.is_multiple_of(64) {
                true => encode(model, &mut self.expected),
                false => encode_changed(model, &mut self.expected),
            }
        }
        if both {
            self.table.both += 1;
            self.agree(call, prices, &answer)?;
        }
        Ok(answer)
    }

    /// The raw reading on what stood before the call must give what the model gave.
    fn agree(&mut self, call: &Call, prices: &Tariff, answer: &Answer) -> Result<(), String> {
        let raw = damaged::perform(call, prices, &mut self.scratch_buffer, &mut self.scratch);
        if raw != *answer {
            return Err(format!("    model {answer:?}\n      raw {raw:?}"));
        }
        difference("raw reading's image", &self.scratch, &self.expected)?;
        difference("raw reading's buffer", &self.scratch_buffer, &self.expected_buffer)
    }
}
