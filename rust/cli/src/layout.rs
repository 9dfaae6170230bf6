//! Where things stand in an image, as the command needs them: to write its blocks in order, and to say what is wrong.

/// Bytes of a disk block and of a header; headers in a header block.
pub const DISK: usize = 512;
pub const HEADER: usize = 64;
pub const HEADERS: usize = DISK / HEADER;
/// The last four bytes of an image.
pub const MARK: [u8; 4] = [0x50, 0x52, 0x36, 0x32];
/// The largest number of service blocks.
pub const MOST_BLOCKS: u32 = 4096;

/// The numbers of blocks that an image may have.
pub fn sizes() -> impl Iterator<Item = (u32, usize)> {
    (0..=MOST_BLOCKS).filter_map(|n| zolvortug::size_of_image(n).map(|size| (n, size)))
}

/// An image's disk blocks, by its number of service blocks.
#[derive(Clone, Copy)]
pub struct Layout {
    pub blocks: usize,
}

impl Layout {
    /// The layout of an image of so many bytes, where there is one.
    pub fn of(length: usize) -> Option<Layout> {
        let (n, _) = sizes().find(|(_, size)| *size == length)?;
        Some(Layout { blocks: n as usize })
    }

    pub fn map(self) -> usize {
        self.blocks / HEADERS
    }

    pub fn counts(self) -> usize {
        self.map() + 1
    }

    /// The data block of a service block.
    pub fn data(self, block: usize) -> usize {
        self.counts() + 1 + block
    }

    pub fn trailer(self) -> usize {
        self.data(self.blocks)
    }
}

/// The bytes of a disk block.
pub fn disk_block(image: &[u8], block: usize) -> &[u8] {
    &image[DISK * block..DISK * (block + 1)]
}

/// The bytes of a header.
pub fn header(image: &[u8], block: usize) -> &[u8] {
    &image[HEADER * block..HEADER * (block + 1)]
}

/// The number of 4 or of 8 bytes at a place, low byte first.
pub fn word(bytes: &[u8], at: usize, size: usize) -> u64 {
    bytes[at..at + size].iter().rev().fold(0, |n, b| n << 8 | u64::from(*b))
}

/// The clock in an image's trailer.
pub fn clock(image: &[u8]) -> u64 {
    word(image, image.len() - DISK + 24, 8)
}

/// The number of blocks of an image of a right length.
pub fn blocks_of(image: &[u8]) -> usize {
    Layout::of(image.len()).map_or(1, |layout| layout.blocks)
}

/// Whether bytes end as an image of so many blocks does.
pub fn ends_image(bytes: &[u8], blocks: u32) -> bool {
    bytes.ends_with(&MARK) && word(bytes, bytes.len() - DISK, 4) == u64::from(blocks)
}
