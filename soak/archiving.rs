//! Sound archives that a seed makes: a head, two marks, the pages with which a run was opened, and its log blocks.

use crate::crc::{SECTOR, crc32c, put_field, seal_sector};
use crate::draws::Draws;
use crate::lsn::{BLOCK, BLOCK_DATA, BLOCK_HEADER, FIRST, behind, block_of, lsn_of, sn_of};
use crate::restoring::{HEADER, LIMIT};
use crate::script::{MOST_BYTES, Op, USER_START};
use crate::shape::{EARLY_SLOTS, LARGE_PAGE_SIZE, PAGE_SIZE, SLOTS, Shape, put_sizes};
use crate::spoiling::{spoil_texts, text_of};
use std::collections::BTreeMap;

const NUMBERS_GO_ROUND: u64 = BLOCK << 30;
/// More bytes of groups than this don't come together.
const MOST_TEXT: usize = 60_000;
/// A string has no more bytes than this, beside what else stands in its group.
const MOST_STRING: u64 = 8_000;
/// More large pages than this take long.
const MOST_LARGE_PAGES: u32 = 64;

/// An archive, and what its seed made of it.
pub struct Archive {
    pub shape: Shape,
    pub start: u64,
    pub texts: Vec<Vec<u8>>,
    pub mark: u64,
    /// The number of the newest mark.
    pub number: u64,
    pub bytes: Vec<u8>,
}

impl Archive {
    /// A sound archive, or one whose blocks hold what isn't all groups. From beside comes the size of its pages alone.
    pub fn draw(draws: &mut Draws, beside: &mut Draws, spoils: bool) -> Archive {
        let shape = draw_shape(draws, beside);
        let start = draw_start(draws);
        let mut texts = draw_texts(draws, &shape);
        if spoils {
            spoil_texts(draws, &mut texts, &shape);
        }
        let mut archive = Archive {
            shape,
            start,
            mark: draw_mark(draws, start, &texts),
            texts,
            number: draw_number(draws),
            bytes: Vec::new(),
        };
        archive.bytes = archive.drawn_bytes(draws);
        archive
    }

    /// Where its groups end.
    pub fn ends(&self) -> Vec<u64> {
        ends_of(self.start, &self.texts)
    }

    fn drawn_bytes(&self, draws: &mut Draws) -> Vec<u8> {
        let mut bytes = vec![0; HEADER];
        put_head(&mut bytes[..SECTOR], &self.shape, self.start);
        if self.number > 0 && !draws.once_in(4) {
            let older = draw_older(draws, self.start, self.mark);
            put_mark(&mut bytes, self.number - 1, older);
        }
        put_mark(&mut bytes, self.number, self.mark);
        for number in 0..self.shape.pages {
            bytes.extend(draw_page(draws, &self.shape, number, self.start));
        }
        bytes.extend(self.drawn_blocks(draws));
        match draws.below(6) {
            0 => bytes.resize(bytes.len() + SECTOR, 0),
            1 => bytes.resize(bytes.len() + 4_096, 0xA5),
            _ => {}
        }
        bytes
    }

    /// The blocks: all of them with what stands above the mark, or up to the mark alone.
    fn drawn_blocks(&self, draws: &mut Draws) -> Vec<u8> {
        let joined = self.texts.concat();
        let below = (sn_of(self.mark) - sn_of(self.start)) as usize;
        let kept = match draws.below(3) {
            0 => below,
            1 => draws.within(below as u64, joined.len() as u64) as usize,
            _ => joined.len(),
        };
        let mut blocks = blocks_of(draws, self.start, &self.texts, &joined[..kept]);
        if draws.once_in(2) {
            let needed = below.div_ceil(BLOCK_DATA as usize);
            blocks.truncate(needed * SECTOR);
        }
        blocks
    }
}

pub fn ends_of(start: u64, texts: &[Vec<u8>]) -> Vec<u64> {
    let mut end = start;
    let ends = texts.iter().map(|text| {
        end = behind(end, text.len() as u64);
        end
    });
    ends.collect()
}

fn draw_shape(draws: &mut Draws, beside: &mut Draws) -> Shape {
    let slots = draws.one_of(&[EARLY_SLOTS, SLOTS, SLOTS]);
    let pages = draw_pages(draws, slots);
    let is_large = slots == SLOTS && beside.once_in(3);
    let (page_size, most) = if is_large {
        (LARGE_PAGE_SIZE, MOST_LARGE_PAGES)
    } else {
        (PAGE_SIZE, pages)
    };
    Shape {
        page_size,
        pages: pages.min(most),
        space: draws.one_of(&[0, 1, 1, 127, 128, 16_384, u32::MAX - 70_000, u32::MAX]),
        log_blocks: draws.one_of(&[1_024, 1_025, 2_048, 2_048, 1_048_576]),
        slots,
    }
}

/// How many pages a store of so many slots has. Many take long.
fn draw_pages(draws: &mut Draws, slots: u32) -> u32 {
    if slots == SLOTS && draws.once_in(24) {
        draws.one_of(&[65, 200, 1_024])
    } else {
        draws.one_of(&[1, 1, 2, 2, 3, 8, 8, 8, 9, 17, 64])
    }
}

/// Where a run started: at the log's first byte, somewhere, where the numbers of blocks go round, or near the limit.
fn draw_start(draws: &mut Draws) -> u64 {
    let block = match draws.below(8) {
        0..=2 => return FIRST,
        3 | 4 => block_of(FIRST) + BLOCK * draws.below(4_000),
        5 => NUMBERS_GO_ROUND * draws.within(1, 3) - BLOCK * draws.below(8),
        6 => LIMIT - BLOCK * draws.within(1, 40),
        _ => block_of((draws.number() >> draws.within(5, 40)).max(FIRST)).min(LIMIT - BLOCK),
    };
    block + BLOCK_HEADER
}

fn draw_texts(draws: &mut Draws, shape: &Shape) -> Vec<Vec<u8>> {
    let most = draws.one_of(&[0, 1, 3, 12, 40, 150]);
    let is_wide = draws.once_in(5);
    let mut texts: Vec<Vec<u8>> = Vec::new();
    let mut total = 0;
    for _ in 0..draws.within(most / 3, most) {
        let text = match draws.below(12) {
            0 => draw_filling(draws, shape, total),
            1 if is_wide => draw_longest(draws, shape),
            _ => draw_text(draws, shape, is_wide),
        };
        if total + text.len() > MOST_TEXT {
            break;
        }
        total += text.len();
        texts.push(text);
    }
    texts
}

fn draw_text(draws: &mut Draws, shape: &Shape, is_wide: bool) -> Vec<u8> {
    loop {
        let count = draws.one_of(&[1, 1, 1, 2, 3, 9]);
        let ops = (0..count).map(|_| draw_op(draws, shape, is_wide)).collect();
        let text = text_of(ops, shape.space);
        if text.len() as u64 <= MOST_BYTES {
            return text;
        }
    }
}

fn draw_op(draws: &mut Draws, shape: &Shape, is_wide: bool) -> Op {
    let page = draws.below(u64::from(shape.pages)) as u32;
    match draws.below(10) {
        0 => Op::Clear { page },
        1..=4 => {
            let most = match draws.below(3) {
                0 if is_wide => shape.user_length().min(MOST_STRING),
                1 => 600,
                _ => 20,
            };
            let length = draws.within(1, most);
            string(draws, shape, page, length)
        }
        _ => {
            let width = draws.one_of(&[1, 2, 4, 8]);
            let last = shape.user_end() - u64::from(width);
            let offset = match draws.below(6) {
                0 => USER_START,
                1 => last,
                _ => draws.within(USER_START, last),
            };
            Op::Number {
                width,
                page,
                offset: offset as u32,
                value: draw_value(draws, width),
            }
        }
    }
}

/// Numbers of all spellings.
fn draw_value(draws: &mut Draws, width: u32) -> u64 {
    let most = u64::MAX >> (64 - 8 * width);
    match draws.below(4) {
        0 => most - draws.below(2_000) % (most / 2),
        1 => draws.below(200),
        _ => draws.number() >> draws.below(64) & most,
    }
}

fn string(draws: &mut Draws, shape: &Shape, page: u32, length: u64) -> Op {
    let offset = draws.within(USER_START, shape.user_end() - length) as u32;
    let bytes = (0..length).map(|_| draws.number() as u8).collect();
    Op::Bytes {
        page,
        offset,
        bytes,
    }
}

/// A group that ends where a block does, behind so many bytes of others.
fn draw_filling(draws: &mut Draws, shape: &Shape, total: usize) -> Vec<u8> {
    let page = draws.below(u64::from(shape.pages)) as u32;
    let front = text_of(vec![string(draws, shape, page, 1)], shape.space).len() as u64 - 1;
    let rest = BLOCK_DATA - total as u64 % BLOCK_DATA;
    let blocks = BLOCK_DATA * draws.below(3);
    let least = front + 1;
    let length = rest + blocks + if rest + blocks < least { BLOCK_DATA } else { 0 };
    let op = string(draws, shape, page, length - front);
    text_of(vec![op], shape.space)
}

/// A group of as many bytes as there may be.
fn draw_longest(draws: &mut Draws, shape: &Shape) -> Vec<u8> {
    let whole = |draws: &mut Draws| string(draws, shape, 0, 3_000);
    let mut ops = vec![whole(draws), whole(draws), string(draws, shape, 0, 1)];
    let length = text_of(ops.clone(), shape.space).len() as u64;
    ops[2] = string(draws, shape, 0, 1 + MOST_BYTES - length);
    text_of(ops, shape.space)
}

/// The newest mark: behind a group, where a block begins, or anywhere.
fn draw_mark(draws: &mut Draws, start: u64, texts: &[Vec<u8>]) -> u64 {
    let ends = ends_of(start, texts);
    let last = ends.last().copied().unwrap_or(start);
    let bytes = sn_of(last) - sn_of(start);
    let mark = match draws.below(8) {
        0..=3 => last,
        4 if !ends.is_empty() => draws.one_of(&ends),
        5 => lsn_of(sn_of(start) + draws.below(bytes + 1)),
        6 => {
            let blocks = bytes / BLOCK_DATA;
            start + BLOCK * draws.within(blocks / 2, blocks)
        }
        _ => last,
    };
    if mark < LIMIT { mark } else { start }
}

fn draw_number(draws: &mut Draws) -> u64 {
    match draws.below(6) {
        0 => 0,
        1 => draws.number(),
        2 => u64::MAX - draws.below(3),
        _ => draws.below(200),
    }
}

/// An earlier mark.
fn draw_older(draws: &mut Draws, start: u64, mark: u64) -> u64 {
    let blocks = (block_of(mark) - block_of(start)) / BLOCK;
    start + BLOCK * draws.below(blocks + 1)
}

pub fn put_head(sector: &mut [u8], shape: &Shape, start: u64) {
    put_field(sector, 0, 4, 1);
    put_field(sector, 8, 8, start);
    sector[16..25].copy_from_slice(b"redolab A");
    put_sizes(sector, shape);
    seal_sector(sector);
}

/// Puts a mark into the block of its number's parity.
pub fn put_mark(bytes: &mut [u8], number: u64, lsn: u64) {
    let at = SECTOR * (1 + (number % 2) as usize);
    let sector = &mut bytes[at..at + SECTOR];
    sector.fill(0);
    put_field(sector, 0, 8, number);
    put_field(sector, 8, 8, lsn);
    seal_sector(sector);
}

/// Makes a page's checksums and the low half of its lsn fit.
pub fn seal_page(page: &mut [u8]) {
    let end = page.len();
    page.copy_within(20..24, end - 4);
    let sum = u64::from(crc32c(&page[4..end - 8]));
    put_field(page, 0, 4, sum);
    put_field(page, end - 8, 4, sum);
}

/// A page with which a run was opened: blank, or with an lsn that is mostly below the run's start.
fn draw_page(draws: &mut Draws, shape: &Shape, number: u32, start: u64) -> Vec<u8> {
    let mut page = vec![0; shape.page_length()];
    if draws.once_in(3) {
        return page;
    }
    let lsn = match draws.below(12) {
        0 => draws.number(),
        1 => 0,
        2 => start,
        _ => FIRST + draws.below(start - FIRST + 1),
    };
    put_field(&mut page, 4, 4, u64::from(number));
    put_field(&mut page, 16, 8, lsn);
    put_field(&mut page, 34, 4, u64::from(shape.space));
    for _ in 0..draws.below(6) {
        let at = draws.within(USER_START, shape.user_end() - 8) as usize;
        let value = draws.number() >> draws.below(64);
        put_field(&mut page, at, 8, value);
    }
    if draws.once_in(8) {
        page[shape.user_end() as usize - 1] = draws.number() as u8;
    }
    seal_page(&mut page);
    page
}

/// The first group that starts in each block: a run's start, or the place behind a group from an earlier block.
fn firsts_of(start: u64, texts: &[Vec<u8>]) -> BTreeMap<u64, u64> {
    let mut firsts = BTreeMap::from([(block_of(start), BLOCK_HEADER)]);
    let mut place = start;
    for end in ends_of(start, texts) {
        if block_of(end) != block_of(place) {
            firsts.insert(block_of(end), end % BLOCK);
        }
        place = end;
    }
    firsts
}

/// The blocks from the start's on that hold these bytes of the joined texts.
fn blocks_of(draws: &mut Draws, start: u64, texts: &[Vec<u8>], bytes: &[u8]) -> Vec<u8> {
    let firsts = firsts_of(start, texts);
    let checkpoint = draws.number() >> draws.below(64);
    let mut blocks = Vec::new();
    for (number, data) in bytes.chunks(BLOCK_DATA as usize).enumerate() {
        let lsn = block_of(start) + BLOCK * number as u64;
        let mut block = vec![0; SECTOR];
        let flush = u64::from(draws.once_in(9)) << 31;
        put_field(&mut block, 0, 4, flush | lsn / BLOCK % (1 << 30) + 1);
        let is_full = data.len() as u64 == BLOCK_DATA;
        let length = if is_full {
            BLOCK
        } else {
            BLOCK_HEADER + data.len() as u64
        };
        put_field(&mut block, 4, 2, length);
        let first = firsts.get(&lsn).copied().unwrap_or(0);
        put_field(
            &mut block,
            6,
            2,
            if first <= length.min(507) { first } else { 0 },
        );
        put_field(&mut block, 8, 4, checkpoint & 0xFFFF_FFFF);
        block[BLOCK_HEADER as usize..][..data.len()].copy_from_slice(data);
        seal_sector(&mut block);
        blocks.extend(block);
    }
    blocks
}
