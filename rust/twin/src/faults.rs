//! Ways in which blocks of a series break W1's rules: each part of a tag, samples, slots after the last sample, and
//! sequences that stand twice.
use crate::random::Random;
use crate::recordings::Written;
use crate::series::{MARK, MOST, SEQUENCES, SLOTS};

pub struct Faults<'a> {
    pub random: &'a mut Random,
}

impl Faults<'_> {
    /// Faults in the blocks of a series, of which there is one at least.
    pub fn some(&mut self, blocks: &mut [Written]) {
        match self.random.below(8) {
            0..3 => self.in_one(blocks),
            3 | 4 => self.twice(blocks),
            5 => {
                self.twice(blocks);
                self.in_one(blocks);
            }
            6 => {
                let wrong = self.high_sequence(blocks[0].sequence);
                self.any(blocks).sequence = wrong;
                self.any(blocks).sequence = wrong;
            }
            _ => (0..3).for_each(|_| self.in_one(blocks)),
        }
    }

    fn any<'a>(&mut self, blocks: &'a mut [Written]) -> &'a mut Written {
        let which = self.random.below(blocks.len() as u64) as usize;
        &mut blocks[which]
    }

    fn in_one(&mut self, blocks: &mut [Written]) {
        let block = self.any(blocks);
        self.one(block);
    }

    /// One block gets the sequence of another, if there is another; now and then all that it holds.
    fn twice(&mut self, blocks: &mut [Written]) {
        let from = self.any(blocks).clone();
        let block = self.any(blocks);
        block.sequence = from.sequence;
        if self.random.one_in(3) {
            *block = from;
        }
    }

    /// One fault in a right block.
    pub fn one(&mut self, block: &mut Written) {
        match self.random.below(6) {
            0 => block.sequence = self.high_sequence(block.sequence),
            1 => block.zeros[self.random.below(7) as usize] = self.random.pick(&[1, 2, 128, 255]),
            2 => self.no_samples(block),
            3 => self.too_many_samples(block),
            4 => self.sample(block),
            _ => self.after_the_last(block),
        }
    }

    fn high_sequence(&mut self, sequence: u32) -> u32 {
        let (next, any) = (SEQUENCES + sequence, SEQUENCES + self.random.number() as u32 / 2);
        let highs = [SEQUENCES, SEQUENCES + 1, next, 2 * SEQUENCES, 1 << 31, u32::MAX, any];
        let one_byte = [sequence | 1 << 16, sequence | 1 << 24, sequence | 1 << 31];
        match self.random.one_in(2) {
            true => self.random.pick(&highs),
            false => self.random.pick(&one_byte),
        }
    }

    /// A number of samples of 0, over marks alone or over what stands there.
    fn no_samples(&mut self, block: &mut Written) {
        block.count = 0;
        if self.random.one_in(2) {
            block.samples.fill(MARK);
        }
    }

    fn too_many_samples(&mut self, block: &mut Written) {
        let wraps = block.count.saturating_add(128);
        block.count = self.random.pick(&[129, 129, 130, 192, 255, wraps]);
    }

    /// A sample out of range, mostly just so, in one of the slots up to the last.
    fn sample(&mut self, block: &mut Written) {
        let last = block.count.clamp(1, 128) - 1;
        let any = self.random.below(u64::from(last) + 1) as u8;
        let slot = self.random.pick(&[0, last, any]);
        block.samples[usize::from(slot)] = match self.random.below(4) {
            0 => MOST + 1,
            1 => -MOST - 1,
            2 => self.near_mark(),
            _ => self.far_outside(),
        };
    }

    fn far_outside(&mut self) -> i32 {
        let high_bit = MOST | 1 << (21 + self.random.below(10));
        let any = MOST + 1 + self.random.block(1 << 30) as i32;
        self.random.pick(&[MOST + 2, high_bit, -high_bit, any, -any, i32::MAX])
    }

    /// The mark with one wrong bit, but never in its sign.
    fn near_mark(&mut self) -> i32 {
        let bits = [0, 0, 0, 1, 7, 8, 8, 15, 16, 20, 23, 24, 24, 30];
        MARK ^ 1 << self.random.pick(&bits)
    }

    /// A slot after the last sample that does not hold the mark: a right sample, or the mark with a wrong bit.
    fn after_the_last(&mut self, block: &mut Written) {
        let any = 1 + self.random.below(127) as u8;
        block.count = self.random.pick(&[1, any, block.count.clamp(1, 127), 127]);
        block.samples[usize::from(block.count)..].fill(MARK);
        let any = u64::from(block.count) + self.random.below(SLOTS as u64 - u64::from(block.count));
        let slot = self.random.pick(&[block.count.into(), any, 127]);
        let near_mark = self.near_mark();
        let others = [0, 1, -1, MOST, -MOST, near_mark, near_mark, near_mark];
        block.samples[slot as usize] = self.random.pick(&others);
    }
}
