//! Ways to damage an image: each kind of byte, the length, the whole trailer, and bytes that are no image at all.
use crate::encoding::{is_size, length};
use crate::identifiers::made;
use crate::model::LAST_TIME;
use crate::random::Random;

/// An image that was sound, and where its parts are.
pub struct Harm<'a> {
    pub random: &'a mut Random,
    pub image: &'a mut Vec<u8>,
    pub n: u32,
    pub clock: u64,
    pub clients: &'a [u32],
    /// The block that was last harmed, which calls then look at more often.
    pub focus: u32,
}

impl Harm<'_> {
    fn set(&mut self, at: usize, bytes: &[u8]) {
        self.image[at..at + bytes.len()].copy_from_slice(bytes);
    }

    fn set8(&mut self, at: usize, number: u64) {
        self.set(at, &number.to_le_bytes());
    }

    fn get8(&self, at: usize) -> u64 {
        u64::from_le_bytes(self.image[at..at + 8].try_into().expect("8 bytes"))
    }

    fn trailer(&self) -> usize {
        length(self.n) - 512
    }

    fn header(&self) -> usize {
        64 * self.focus as usize
    }

    fn near_or_far(&mut self, near: &[u64], far: &[u64]) -> u64 {
        let from = if self.random.one_in(3) { far } else { near };
        self.random.pick(from)
    }

    /// One or several harms at once.
    pub fn some(&mut self) {
        let many = self.random.pick(&[1, 1, 1, 2, 4]);
        (0..many).for_each(|_| self.one());
    }

    fn one(&mut self) {
        if self.image.len() != length(self.n) {
            return;
        }
        self.refocus();
        match self.random.below(32) {
            0 => self.trailer_number(),
            1 => self.trailer_clock(),
            2 => self.trailer_byte(),
            3 => self.other_length(),
            4 => self.other_n(),
            5 => self.garbage(),
            6 | 7 => self.used(),
            8 | 9 => self.owner(),
            10 => self.zero_bytes(),
            11 => self.id(),
            12 | 13 => self.created(),
            14 | 15 => self.expires(),
            16 => self.tag(),
            17 | 18 => self.created_with_its_id(),
            19 => self.whole_header(),
            20..=22 => self.map_bit(),
            23 => self.spare_bit(),
            24..=29 => self.count(),
            30 => self.data(),
            _ => self.any_bit(),
        }
    }

    /// Every second time a used block is looked for.
    fn refocus(&mut self) {
        let from = self.random.block(self.n);
        let numbers = (from..self.n).chain(0..from);
        let used = self.random.one_in(2);
        let found = numbers.clone().find(|b| !used || self.image[64 * *b as usize] == 1);
        self.focus = found.unwrap_or(from);
    }

    fn trailer_number(&mut self) {
        let at = self.trailer() + 4 * self.random.below(6) as usize;
        let old = u32::from_le_bytes(self.image[at..at + 4].try_into().expect("4 bytes"));
        let (up, down, any) = (old.wrapping_add(1), old.wrapping_sub(1), self.random.number() as u32);
        let others = [up, down, old.wrapping_add(8), old ^ 1 << 26, 0, any];
        let new = self.random.pick(&others);
        self.set(at, &new.to_le_bytes());
    }

    fn trailer_clock(&mut self) {
        let (last, any) = (LAST_TIME, self.random.number());
        let clock = self.clock;
        let near = [0, clock / 2, clock.saturating_sub(1), clock + 1, clock + 10];
        let far = [last - 1, last, last + 1, u64::MAX, any];
        let new = self.near_or_far(&near, &far);
        self.set8(self.trailer() + 24, new);
    }

    fn trailer_byte(&mut self) {
        let any = 32 + self.random.below(476) as usize;
        let at = [20, 23, 32, 33, 507, 508, 509, 510, 511, any];
        let at = self.trailer() + self.random.pick(&at);
        self.image[at] ^= self.random.pick(&[1, 0x80, 0xff, 0x10]);
    }

    fn other_length(&mut self) {
        let len = self.image.len();
        let (less, more) = (len - 512, len + 512);
        let lengths = [0, 1, 511, 512, 513, 1536, len - 1, less, len + 1, more];
        let new = self.random.pick(&lengths);
        let trailer = self.image[len - 512..].to_vec();
        self.image.resize(new, 0);
        if new > 512 && self.random.one_in(2) {
            self.set(new - 512, &trailer);
        }
    }

    /// A trailer that agrees with itself for another N, and now and then the length that goes with it.
    fn other_n(&mut self) {
        let (more, wraps, last) = (self.n + 8, self.n + (1 << 26), u32::MAX - 7);
        let others = [0, 4, 8, 12, 16, 64, more, wraps, 4096, 4104, last];
        let n = self.random.pick(&others);
        let distances = [n, n.wrapping_add(n / 8 + 2), n.wrapping_add(2), n.wrapping_add(1), n];
        let blocks = n as usize + n as usize / 8 + 3;
        if blocks < 300 || (blocks < 5000 && self.random.one_in(6)) {
            self.image.resize(512 * blocks, 0);
        }
        let at = self.image.len() - 512;
        self.image[at..].fill(0);
        for (i, distance) in distances.into_iter().enumerate() {
            self.set(at + 4 * i, &distance.to_le_bytes());
        }
        self.set(at + 508, b"PR62");
        self.set8(at + 24, self.clock);
        if is_size(n) && self.image.len() == length(n) {
            self.n = n;
            self.focus = 0;
        }
    }

    /// Random bytes: all of them, or all but a right trailer.
    fn garbage(&mut self) {
        let (all, trailer) = (self.image.len(), self.trailer());
        let len = self.random.pick(&[1, 512, all, trailer, 6144, 6143]);
        let upto = len.min(self.image.len());
        self.random.fill(&mut self.image[..upto]);
        if len != trailer {
            self.image.truncate(len);
        }
    }

    fn used(&mut self) {
        let at = self.header();
        self.image[at] = self.random.pick(&[0, 1, 2, 3, 128, 255]);
    }

    fn owner(&mut self) {
        let at = self.header() + 1;
        let other = self.random.pick(self.clients) as u8;
        self.image[at] = self.random.pick(&[0, 1, 62, 63, 64, 65, 127, 128, 255, other]);
    }

    fn zero_bytes(&mut self) {
        let at = self.header() + self.random.pick(&[2, 3, 7, 48, 55, 56, 63]);
        self.image[at] = self.random.pick(&[1, 2, 128, 255]);
    }

    fn id(&mut self) {
        let at = self.header() + 8;
        let old = self.get8(at);
        let (carry, any) = (old.wrapping_add(1 << 32), self.random.number());
        let of_next = made(self.clock, (self.focus + 1) % self.n);
        let ids = [0, old ^ 1, old ^ 1 << 63, carry, of_next, any];
        let new = self.random.pick(&ids);
        self.set8(at, new);
    }

    fn a_created(&mut self) -> u64 {
        let (clock, last) = (self.clock, LAST_TIME);
        let before = clock.saturating_sub(1);
        let times = [0, 1, before, clock, clock + 1, last, last + 1];
        self.random.pick(&times)
    }

    fn created(&mut self) {
        let (new, far) = (self.a_created(), self.random.number());
        let new = if self.random.one_in(8) { far } else { new };
        self.set8(self.header() + 16, new);
    }

    /// Created and the id that is made from it, so that only the range of created can be at fault.
    fn created_with_its_id(&mut self) {
        let new = self.a_created();
        self.set8(self.header() + 16, new);
        self.set8(self.header() + 8, made(new, self.focus));
    }

    fn expires(&mut self) {
        let (at, last, clock) = (self.header() + 24, LAST_TIME, self.clock);
        let (high, any) = (self.get8(at) | 1 << 40, self.random.number());
        let times = [0, 1, clock, last, last + 1, u64::MAX, high, any];
        let new = self.random.pick(&times);
        self.set8(at, new);
    }

    fn tag(&mut self) {
        let at = self.header() + 32 + self.random.below(16) as usize;
        self.image[at] ^= self.random.pick(&[1, 0x80, 0xff]);
    }

    /// A header zeroed, put in another's place, or made of random bytes.
    fn whole_header(&mut self) {
        let (at, from) = (self.header(), 64 * self.random.block(self.n) as usize);
        let mut header = self.image[from..from + 64].to_vec();
        match self.random.below(3) {
            0 => header.fill(0),
            1 => self.random.fill(&mut header),
            _ => {}
        }
        self.set(at, &header);
    }

    fn map_bit(&mut self) {
        let at = 64 * self.n as usize + self.focus as usize / 8;
        self.image[at] ^= 1 << (self.focus % 8);
    }

    fn spare_bit(&mut self) {
        let bits = 4096 - u64::from(self.n);
        if bits > 0 {
            let any = self.n + self.random.below(bits) as u32;
            let bit = self.random.pick(&[self.n, 4095, any]) as usize;
            self.image[64 * self.n as usize + bit / 8] |= 1 << (bit % 8);
        }
    }

    fn count(&mut self) {
        let owner = u32::from(self.image[self.header() + 1]);
        let other = self.random.pick(self.clients);
        let client = self.random.pick(&[owner.min(63), owner.min(63), other, 0, 63]);
        let at = 64 * self.n as usize + 512 + 8 * client as usize;
        let (old, n) = (self.get8(at), u64::from(self.n));
        let (less, more) = (old.wrapping_sub(1), old.wrapping_add(1));
        let near = [0, 1, 2, less, more, n - 1, n, n + 1];
        let any = self.random.number();
        let far = [1 << 32, old ^ 1 << 32, 1 << 63, u64::MAX, 256, 1 << 16, any];
        let new = self.near_or_far(&near, &far);
        self.set8(at, new);
    }

    /// Data has no wrong bytes: the image stays as sound as it was.
    fn data(&mut self) {
        let at = 64 * self.n as usize + 1024 + 512 * self.focus as usize + self.random.below(512) as usize;
        self.image[at] ^= 0xff;
    }

    fn any_bit(&mut self) {
        let at = self.random.below(self.image.len() as u64) as usize;
        self.image[at] ^= 1 << self.random.below(8);
    }
}
