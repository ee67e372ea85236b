//! An archive of small groups or of large ones, as long as is asked for, and the reading of one.

use crate::checksum::crc32c;
use crate::generator::{SPOTS, large_groups, small_groups};
use crate::log::{BLOCK_DATA, BLOCK_HEADER, BLOCK_SIZE, START_LSN};
use crate::store::{PAGE_SIZE, PAGES, SLOTS, SPACE, blocks_of, seal};
use std::fs::File;
use std::io::{self, Read};

/// The head and the two marks.
const HEADER: usize = 3 * BLOCK_SIZE;
const START: u64 = START_LSN + BLOCK_HEADER as u64;
const LOG_BLOCKS: u32 = 2_048;
/// It is read in pieces of so many bytes.
const PIECE: usize = 65_536;

fn creator(text: &[u8]) -> [u8; 32] {
    let mut creator = [0; 32];
    creator[..text.len()].copy_from_slice(text);
    creator
}

/// Where a stream ends in the log that begins at the start.
fn end_of(bytes: usize) -> u64 {
    let (blocks, rest) = (bytes / BLOCK_DATA, bytes % BLOCK_DATA);
    START + (BLOCK_SIZE * blocks + rest) as u64
}

fn head(block: &mut [u8]) {
    let sizes = [
        PAGE_SIZE as u32,
        PAGES as u32,
        SPACE,
        LOG_BLOCKS,
        SLOTS as u32,
    ];
    let sizes = sizes.map(u32::to_be_bytes).concat();
    let start = START.to_be_bytes();
    seal(
        block,
        &[
            &1u32.to_be_bytes(),
            &[0; 4],
            &start,
            &creator(b"redolab A"),
            &sizes,
        ],
    );
}

/// An archive of blank pages and of at most so many bytes, and its mark.
pub fn archive(kind: &str, length: usize) -> (Vec<u8>, u64) {
    let pages_end = HEADER + PAGES * PAGE_SIZE;
    let room = (length - pages_end) / BLOCK_SIZE * BLOCK_DATA;
    let stream = match kind {
        "large" => large_groups(room),
        // the last small group may be longer than what is left
        _ => small_groups(room - BLOCK_DATA, SPOTS),
    };
    let mark = end_of(stream.len());
    let mut bytes = vec![0; pages_end];
    head(&mut bytes[..BLOCK_SIZE]);
    seal(
        &mut bytes[BLOCK_SIZE..2 * BLOCK_SIZE],
        &[&0u64.to_be_bytes(), &mark.to_be_bytes()],
    );
    bytes.extend(blocks_of(&stream));
    (bytes, mark)
}

/// Reads the file and checksums each of its blocks: how many bytes there are, and a sum over the checksums.
pub fn sums(name: &str) -> io::Result<(usize, u64)> {
    let mut file = File::open(name)?;
    let mut piece = vec![0; PIECE];
    let (mut length, mut sum) = (0, 0u64);
    loop {
        let count = file.read(&mut piece)?;
        if count == 0 {
            return Ok((length, sum));
        }
        length += count;
        let blocks = piece[..count].chunks(BLOCK_SIZE);
        sum = blocks.fold(sum, |sum, block| sum.wrapping_add(u64::from(crc32c(block))));
    }
}
