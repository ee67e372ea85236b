//! The bytes of the two devices of the stores that are recovered: a log of 256 MiB, full of small groups but for its last
//! block, and 64 pages, of which every other one has an lsn in the middle of the log; a log of 64 MiB and 1,024 pages of
//! 16,384 bytes in the same way; and two logs of 512 MiB, full of small groups and of large ones, for recovery by several
//! workers. And those of the store that is opened: a default log with no group, and 1,024 pages of 16,384 bytes.

use crate::checksum::crc32c;
use crate::decoder::{Got, decode};
use crate::generator::{LARGE_SPOTS, SPOTS, Spots, large_groups, small_groups};
use crate::log::{
    BLOCK_DATA, BLOCK_HEADER, BLOCK_SIZE, RING_START, START_LSN, TAIL_BLOCK, TAIL_BLOCKS, fill,
};

/// The sizes of a store.
#[derive(Clone, Copy)]
pub struct Shape {
    pub page_size: usize,
    pub pages: usize,
    pub space: u32,
    /// The blocks of the log's ring.
    pub ring_blocks: usize,
    pub slots: usize,
}

pub const PAGES: usize = 64;
pub const PAGE_SIZE: usize = 4096;
pub const SLOTS: usize = 128;
pub const SPACE: u32 = 1;
/// The format that the header names.
pub const FORMAT: u32 = 3;

/// The store that is recovered.
const RECOVERED: Shape = Shape {
    page_size: PAGE_SIZE,
    pages: PAGES,
    space: SPACE,
    ring_blocks: 524_286,
    slots: SLOTS,
};
/// The one of large pages.
const LARGE_RECOVERED: Shape = Shape {
    ring_blocks: 131_070,
    ..LARGE
};
/// One with the longest log.
const LONGEST: Shape = Shape {
    ring_blocks: 1_048_574,
    ..RECOVERED
};
/// A store that is formatted without an option.
pub const DEFAULT: Shape = Shape {
    pages: 8,
    ring_blocks: 2_046,
    ..RECOVERED
};
/// A store of 16 MiB of pages, with a default log.
pub const LARGE: Shape = Shape {
    page_size: 16_384,
    pages: 1_024,
    ..DEFAULT
};

/// The log device. Its groups end in its last block.
pub fn log_bytes() -> Vec<u8> {
    log_of_groups(RECOVERED, SPOTS)
}

/// That of the store of large pages.
pub fn large_log_bytes() -> Vec<u8> {
    log_of_groups(LARGE_RECOVERED, LARGE_SPOTS)
}

/// The longest log, of small groups.
pub fn log_of_small() -> Vec<u8> {
    log_of_groups(LONGEST, SPOTS)
}

/// The longest log, of large groups.
pub fn log_of_large() -> Vec<u8> {
    log_of(LONGEST, &large_groups(BLOCK_DATA * LONGEST.ring_blocks))
}

/// A log full of small groups but for its last block.
fn log_of_groups(shape: Shape, spots: Spots) -> Vec<u8> {
    let length = BLOCK_DATA * (shape.ring_blocks - 1);
    log_of(shape, &small_groups(length, spots))
}

/// The log device of a store of this shape, with these groups. The last block, if it isn't full, is a tail block.
fn log_of(shape: Shape, stream: &[u8]) -> Vec<u8> {
    let mut log = log_at(shape, START_LSN, 0);
    let (heads, ring) = log.split_at_mut(RING_START);
    let tail = &mut heads[BLOCK_SIZE * TAIL_BLOCK..][..BLOCK_SIZE];
    let firsts = firsts_of(stream);
    let mut places = ring.chunks_exact_mut(BLOCK_SIZE);
    for (i, data) in stream.chunks(BLOCK_DATA).enumerate() {
        let lsn = START_LSN + (BLOCK_SIZE * i) as u64;
        let place = places.next().unwrap();
        let is_full = data.len() == BLOCK_DATA;
        let block = if is_full { place } else { &mut *tail };
        fill(block, lsn, data, firsts[i], 0);
    }
    log
}

/// The log device of the store that is opened: its newest checkpoint has gone once round the ring, and no group follows.
pub fn opened_log_bytes() -> Vec<u8> {
    log_at(LARGE, opened_at(), 1)
}

/// Where that checkpoint is.
fn opened_at() -> u64 {
    START_LSN + (BLOCK_SIZE * LARGE.ring_blocks) as u64
}

/// A log device with no block in its ring, and the checkpoint of a number at an lsn at which the ring begins.
fn log_at(shape: Shape, lsn: u64, number: u64) -> Vec<u8> {
    let mut log = vec![0; RING_START + BLOCK_SIZE * shape.ring_blocks];
    let blocks: Vec<&mut [u8]> = log.chunks_exact_mut(BLOCK_SIZE).take(4).collect();
    let [first_head, even, second_head, odd] = blocks.try_into().unwrap();
    head(first_head, shape);
    head(second_head, shape);
    let place = if number.is_multiple_of(2) { even } else { odd };
    checkpoint(place, number, lsn, RING_START as u64);
    log
}

/// The blocks of a log that begins with this stream, the last of them as full as it is.
pub fn blocks_of(stream: &[u8]) -> Vec<u8> {
    let firsts = firsts_of(stream);
    let mut blocks = vec![0; BLOCK_SIZE * firsts.len()];
    let places = blocks.chunks_exact_mut(BLOCK_SIZE);
    for (i, (place, data)) in places.zip(stream.chunks(BLOCK_DATA)).enumerate() {
        let lsn = START_LSN + (BLOCK_SIZE * i) as u64;
        fill(place, lsn, data, firsts[i], 0);
    }
    blocks
}

/// The offset in each block of the first group that starts there, 0 where none does.
fn firsts_of(stream: &[u8]) -> Vec<u16> {
    let mut firsts = vec![0; stream.len().div_ceil(BLOCK_DATA)];
    let mut rest = stream;
    while let Got::Value(_, length) = decode(rest) {
        let at = stream.len() - rest.len();
        let first = &mut firsts[at / BLOCK_DATA];
        if *first == 0 {
            *first = (BLOCK_HEADER + at % BLOCK_DATA) as u16;
        }
        rest = &rest[length..];
    }
    firsts
}

pub fn seal(block: &mut [u8], fields: &[&[u8]]) {
    let joined = fields.concat();
    block[..joined.len()].copy_from_slice(&joined);
    let checksum = crc32c(&block[..508]);
    block[508..].copy_from_slice(&checksum.to_be_bytes());
}

/// The header of a store.
pub fn head(block: &mut [u8], shape: Shape) {
    let mut creator = [0; 32];
    creator[..9].copy_from_slice(b"redolab 1");
    let sizes = [
        shape.page_size as u32,
        shape.pages as u32,
        shape.space,
        (shape.ring_blocks + TAIL_BLOCKS) as u32,
        shape.slots as u32,
    ];
    let sizes = sizes.map(u32::to_be_bytes).concat();
    seal(
        block,
        &[
            &FORMAT.to_be_bytes(),
            &[0; 4],
            &START_LSN.to_be_bytes(),
            &creator,
            &sizes,
        ],
    );
}

/// The checkpoint of a number at an lsn, whose block stands there on the device.
pub fn checkpoint(block: &mut [u8], number: u64, lsn: u64, place: u64) {
    seal(
        block,
        &[number, lsn, place, RING]
            .map(u64::to_be_bytes)
            .each_ref()
            .map(|field| &field[..]),
    );
}

/// What the checkpoint says of the ring, which has no other value.
const RING: u64 = 65_536;

/// The data device: empty slots, and after them the pages, of which every other one is blank.
pub fn data_bytes() -> Vec<u8> {
    data_of(RECOVERED, |number| number % 2 == 1)
}

/// That of the store of large pages.
pub fn large_data_bytes() -> Vec<u8> {
    data_of(LARGE_RECOVERED, |number| number % 2 == 1)
}

/// That of the store that is opened, of which no page is blank.
pub fn opened_data_bytes() -> Vec<u8> {
    data_of(LARGE, |_| true)
}

fn data_of(shape: Shape, is_used: impl Fn(usize) -> bool) -> Vec<u8> {
    let mut data = vec![0; data_length(shape)];
    let places = data.chunks_exact_mut(shape.page_size).skip(shape.slots);
    for (number, place) in places.enumerate().filter(|(number, _)| is_used(*number)) {
        place[38..shape.page_size - 8].fill(number as u8);
        seal_page(place, number as u32, lsn_in(shape, number));
    }
    data
}

/// Bytes of the data device.
pub fn data_length(shape: Shape) -> usize {
    shape.page_size * (shape.slots + shape.pages)
}

/// An lsn in the middle of the log.
fn lsn_in(shape: Shape, number: usize) -> u64 {
    START_LSN + (number * shape.ring_blocks / shape.pages * BLOCK_SIZE + BLOCK_HEADER) as u64
}

/// Makes these user bytes the page of a number and an lsn.
pub fn seal_page(place: &mut [u8], number: u32, lsn: u64) {
    place[4..8].copy_from_slice(&number.to_be_bytes());
    place[16..24].copy_from_slice(&lsn.to_be_bytes());
    place[34..38].copy_from_slice(&SPACE.to_be_bytes());
    let trailer = place.len() - 8;
    let checksum = crc32c(&place[4..trailer]).to_be_bytes();
    place[..4].copy_from_slice(&checksum);
    place[trailer..trailer + 4].copy_from_slice(&checksum);
    place[trailer + 4..].copy_from_slice(&(lsn as u32).to_be_bytes());
}
