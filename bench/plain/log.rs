//! The log device as the proved program writes it, over a device in memory: log blocks cut from the data of the groups,
//! each with its number, length, first offset, checkpoint number and checksum, in one write from mark to mark, and a
//! sync after each. Each mark is the end of a full block, so none goes to a tail block.

use crate::checksum::crc32c;

/// Bytes of log from one mark to the next, and bytes of data in them.
pub const MARK: usize = 16_384;
pub const MARK_DATA: usize = 15_872;
pub const MARKS: usize = 4096;

pub const BLOCK_SIZE: usize = 512;
pub const BLOCK_HEADER: usize = 12;
pub const BLOCK_DATA: usize = 496;
/// The first of the two tail blocks, and where the ring of the other log blocks begins.
pub const TAIL_BLOCK: usize = 4;
pub const RING_START: usize = (TAIL_BLOCK + TAIL_BLOCKS) * BLOCK_SIZE;
/// How many blocks of the log are tail blocks.
pub const TAIL_BLOCKS: usize = 2;
pub const START_LSN: u64 = 8192;
const RING_BYTES: usize = 131_073 * BLOCK_SIZE;
/// Bytes of the device on which the marks are written.
pub const LENGTH: usize = RING_START + RING_BYTES;

struct Write {
    at: usize,
    bytes: Vec<u8>,
}

/// A device in memory: what stood there at the last sync, and the writes since.
pub struct Device {
    base: Vec<u8>,
    pending: Vec<Write>,
}

impl Device {
    /// A device of so many zeros.
    pub fn new(length: usize) -> Self {
        Device {
            base: vec![0; length],
            pending: Vec::new(),
        }
    }

    /// A device on which these bytes stand.
    pub fn of(bytes: &[u8]) -> Self {
        Device {
            base: bytes.to_vec(),
            pending: Vec::new(),
        }
    }

    pub fn read(&self, at: usize, length: usize) -> Vec<u8> {
        let mut bytes = self.base[at..at + length].to_vec();
        for write in &self.pending {
            let (from, to) = (
                write.at.max(at),
                (write.at + write.bytes.len()).min(at + length),
            );
            if from < to {
                bytes[from - at..to - at]
                    .copy_from_slice(&write.bytes[from - write.at..to - write.at]);
            }
        }
        bytes
    }

    pub fn write(&mut self, at: usize, bytes: &[u8]) {
        let bytes = bytes.to_vec();
        self.pending.push(Write { at, bytes });
    }

    pub fn sync(&mut self) {
        for Write { at, bytes } in self.pending.drain(..) {
            self.base[at..at + bytes.len()].copy_from_slice(&bytes);
        }
    }

    /// The sum of the checksums of the sectors from this one on.
    pub fn sum_from(&self, sector: usize) -> u64 {
        let sectors = self.base.chunks_exact(BLOCK_SIZE).skip(sector);
        sectors.map(|sector| u64::from(crc32c(sector))).sum()
    }
}

/// Writes and syncs a run from the log's start on, mark by mark.
pub fn write_all(device: &mut Device, noise: &[u8]) {
    let mut buffer = vec![0; 65_536];
    let marks = noise.chunks_exact(MARK_DATA).take(MARKS);
    for (i, data) in marks.enumerate() {
        let from = START_LSN + (MARK * i) as u64;
        let blocks = buffer.chunks_exact_mut(BLOCK_SIZE);
        for (j, (block, bytes)) in blocks.zip(data.chunks(BLOCK_DATA)).enumerate() {
            fill(block, from + (BLOCK_SIZE * j) as u64, bytes, 12, 1);
        }
        let place = (from - START_LSN) as usize % RING_BYTES;
        let (front, back) = buffer[..MARK].split_at(MARK.min(RING_BYTES - place));
        device.write(RING_START + place, front);
        if !back.is_empty() {
            device.write(RING_START, back);
        }
        device.sync();
    }
}

/// A log block at this lsn. A full one has the number of a checkpoint in its header, and one that isn't a part of its lsn.
pub fn fill(block: &mut [u8], lsn: u64, bytes: &[u8], first: u16, ckpt: u32) {
    let number = 1 + (lsn / BLOCK_SIZE as u64 & 0x3FFF_FFFF) as u32;
    let length = if bytes.len() == BLOCK_DATA {
        BLOCK_SIZE
    } else {
        BLOCK_HEADER + bytes.len()
    };
    block[..4].copy_from_slice(&number.to_be_bytes());
    block[4..6].copy_from_slice(&(length as u16).to_be_bytes());
    block[6..8].copy_from_slice(&first.to_be_bytes());
    let word = if length == BLOCK_SIZE {
        ckpt
    } else {
        (lsn >> 39) as u32
    };
    block[8..12].copy_from_slice(&word.to_be_bytes());
    let end = BLOCK_HEADER + bytes.len();
    block[BLOCK_HEADER..end].copy_from_slice(bytes);
    block[end..].fill(0);
    let checksum = crc32c(&block[..508]);
    block[508..].copy_from_slice(&checksum.to_be_bytes());
}
