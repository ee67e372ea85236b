//! The log device of all formats: its heads, checkpoints and blocks.

use crate::crc::{SECTOR, field, fits_sector, put_field, seal_sector};
use crate::lsn::{BLOCK, BLOCK_HEADER};
use crate::shape::{MOST_EARLY_PAGES, PAGE_SIZE, Shape, put_sizes, shape_of};

pub const START: u64 = 8_192;
/// The sectors of the heads; format 1 has the first alone.
pub const HEADS: [usize; 2] = [0, 2];
/// The sectors of the checkpoints of even and odd number.
const CHECKPOINTS: [usize; 2] = [1, 3];
/// The sectors of the tail blocks, which format 1 doesn't have.
pub const TAILS: [usize; 2] = [4, 5];
const BUFFER: u64 = 65_536;
/// A block of this length at the most isn't full.
const MOST_PART: u64 = 507;

/// Sector of the device, of zeros where it ends before.
pub fn sector(log: &[u8], number: usize) -> &[u8] {
    log.get(number * SECTOR..(number + 1) * SECTOR)
        .unwrap_or(&[0; SECTOR])
}

pub fn put_sector(log: &mut [u8], number: usize, bytes: &[u8]) {
    log[number * SECTOR..(number + 1) * SECTOR].copy_from_slice(bytes);
}

#[derive(Clone, Copy, Debug, PartialEq)]
pub struct Head {
    pub format: u64,
    pub shape: Shape,
}

impl Head {
    fn of(bytes: &[u8]) -> Option<Head> {
        let is_head = fits_sector(bytes) && field(bytes, 8, 8) == START;
        is_head.then(|| Head {
            format: field(bytes, 0, 4),
            shape: shape_of(bytes),
        })
    }

    /// The head of the first of both sectors whose checksum fits.
    pub fn of_log(log: &[u8]) -> Option<Head> {
        let whole = HEADS
            .map(|number| sector(log, number))
            .into_iter()
            .find(|bytes| fits_sector(bytes));
        whole.and_then(Head::of)
    }

    /// Whether a store of an older format may have the same pages.
    pub fn may_be_older(&self) -> bool {
        let Shape {
            page_size, pages, ..
        } = self.shape;
        self.format > 1 && page_size == PAGE_SIZE && pages <= MOST_EARLY_PAGES
    }

    fn first_block(&self) -> u64 {
        if self.format == 1 { 4 } else { 6 }
    }

    /// How many blocks the ring has.
    fn ring(&self) -> u64 {
        u64::from(self.shape.log_blocks) + 4 - self.first_block()
    }

    /// The device offset of a block.
    fn offset_of(&self, lsn: u64) -> u64 {
        BLOCK * self.first_block() + (lsn - START) % (BLOCK * self.ring())
    }

    pub fn place_of(&self, lsn: u64) -> usize {
        (self.offset_of(lsn) / BLOCK) as usize
    }
}

/// Whether the heads are both all zero, so that a run formats.
pub fn is_unused(log: &[u8]) -> bool {
    let mut heads = HEADS.iter().flat_map(|number| sector(log, *number));
    heads.all(|byte| *byte == 0)
}

/// Whether both heads hold the same.
pub fn are_heads_alike(log: &[u8]) -> bool {
    let [first, second] = HEADS.map(|number| sector(log, number));
    first == second
}

/// A log block that fits at some lsn.
#[derive(Clone, Copy)]
pub struct Block {
    pub lsn: u64,
    pub length: u64,
}

impl Block {
    /// The block that these bytes are, in a log that hasn't come to 2^39.
    pub fn of(bytes: &[u8]) -> Option<Block> {
        let number = field(bytes, 0, 4) & 0x7FFF_FFFF;
        let (length, first) = (field(bytes, 4, 2), field(bytes, 6, 2));
        let is_length = (BLOCK_HEADER..=MOST_PART).contains(&length) || length == BLOCK;
        let is_first = first == 0 || (BLOCK_HEADER..=length.min(MOST_PART)).contains(&first);
        let is_block = number > START / BLOCK && is_length && is_first && fits_sector(bytes);
        is_block.then(|| Block {
            lsn: (number - 1) * BLOCK,
            length,
        })
    }

    pub fn is_full(&self) -> bool {
        self.length == BLOCK
    }

    /// Where its bytes end in the log.
    pub fn end(&self) -> u64 {
        if self.is_full() {
            self.lsn + BLOCK + BLOCK_HEADER
        } else {
            self.lsn + self.length
        }
    }
}

/// A checkpoint that passes.
#[derive(Clone, Copy)]
pub struct Checkpoint {
    pub number: u64,
    pub lsn: u64,
}

pub fn checkpoint_of(log: &[u8], head: &Head) -> Option<Checkpoint> {
    let passing = |(parity, number): (usize, usize)| {
        let bytes = sector(log, number);
        let found = Checkpoint {
            number: field(bytes, 0, 8),
            lsn: field(bytes, 8, 8),
        };
        let passes = fits_sector(bytes)
            && found.number % 2 == parity as u64
            && START <= found.lsn
            && found.lsn.is_multiple_of(BLOCK)
            && field(bytes, 16, 8) == head.offset_of(found.lsn);
        passes.then_some(found)
    };
    let both = CHECKPOINTS.into_iter().enumerate().filter_map(passing);
    both.max_by_key(|found| found.number)
}

pub fn put_checkpoint(log: &mut [u8], head: &Head, checkpoint: Checkpoint) {
    let mut bytes = vec![0; SECTOR];
    put_field(&mut bytes, 0, 8, checkpoint.number);
    put_field(&mut bytes, 8, 8, checkpoint.lsn);
    put_field(&mut bytes, 16, 8, head.offset_of(checkpoint.lsn));
    put_field(&mut bytes, 24, 8, BUFFER);
    seal_sector(&mut bytes);
    let number = CHECKPOINTS[(checkpoint.number % 2) as usize];
    put_sector(log, number, &bytes);
}

pub fn head_text(head: &Head) -> Vec<u8> {
    let mut bytes = vec![0; SECTOR];
    put_field(&mut bytes, 0, 4, head.format);
    put_field(&mut bytes, 8, 8, START);
    bytes[16..25].copy_from_slice(b"redolab 1");
    put_sizes(&mut bytes, &head.shape);
    seal_sector(&mut bytes);
    bytes
}

/// The block that a reader of format 2 or 3 takes at this lsn.
fn taken(log: &[u8], head: &Head, lsn: u64) -> Option<(Block, Vec<u8>)> {
    let at = |number: usize| {
        let bytes = sector(log, number);
        let block = Block::of(bytes).filter(|block| block.lsn == lsn)?;
        Some((block, bytes.to_vec()))
    };
    let in_place = at(head.place_of(lsn)).filter(|(block, _)| block.is_full());
    let tails = TAILS
        .into_iter()
        .filter_map(at)
        .filter(|(block, bytes)| !block.is_full() && field(bytes, 8, 4) == lsn >> 39);
    // the first of two of one length
    let tail = tails.rev().max_by_key(|(block, _)| block.length);
    in_place.or(tail)
}

/// The blocks that are read of a log of format 2 or 3.
pub fn scanned(log: &[u8], head: &Head, checkpoint: &Checkpoint) -> Vec<(Block, Vec<u8>)> {
    let mut blocks = Vec::new();
    for count in 0..head.ring() {
        let Some((block, bytes)) = taken(log, head, checkpoint.lsn + count * BLOCK) else {
            break;
        };
        blocks.push((block, bytes));
        if !block.is_full() {
            break;
        }
    }
    blocks
}
