//! Recovery as one would write it in Rust: the header, the newest checkpoint, the blocks from there on with the newer tail block
//! after them, the groups in them, and the pages, to each of which the groups are applied that start at or above its lsn. Both
//! devices are in memory and are read as the proved program reads them, in pieces of 65,536 bytes.

use crate::checksum::crc32c;
use crate::decoder::{Got, Rec, decode};
use crate::log::{
    BLOCK_DATA, BLOCK_HEADER, BLOCK_SIZE, Device, RING_START, START_LSN, TAIL_BLOCK, TAIL_BLOCKS,
};
use crate::store::{FORMAT, Shape};
use std::ops::Range;

/// The log is read, and cleared, in pieces of so many bytes.
pub const PIECE: usize = 65_536;
const DATA_END: usize = 508;
const USER_START: usize = 38;
const TRAILER: usize = 8;

/// What a block says of itself.
pub struct View {
    pub length: usize,
    first: usize,
}

/// A group, and the lsns at which it starts and ends.
pub struct Whole {
    pub group: Vec<Rec>,
    pub start: u64,
    pub end: u64,
}

/// The pages in memory.
pub struct Pages {
    pub lsns: Vec<u64>,
    pub users: Vec<Vec<u8>>,
}

/// What is read off the two devices.
pub struct Recovered {
    pub shape: Shape,
    /// The newest checkpoint's number, and its lsn.
    pub number: u64,
    pub ckpt: u64,
    pub views: Vec<View>,
    pub groups: Vec<Whole>,
    pub end: u64,
    pub pages: Pages,
    pub found: Found,
}

/// The lsns of the pages, before groups are applied, and whether what their places hold passes.
pub type Found = Vec<(u64, bool)>;

pub fn recover(log: &Device, data: &Device) -> Option<Recovered> {
    let header = log.read(0, RING_START);
    let shape = read_shape(&header)?;
    let first = read_checkpoint(&header[BLOCK_SIZE..2 * BLOCK_SIZE], 0, &shape);
    let second = read_checkpoint(&header[3 * BLOCK_SIZE..TAIL_BLOCK * BLOCK_SIZE], 1, &shape);
    let (number, ckpt) = first.max(second)?;
    let tails = &header[TAIL_BLOCK * BLOCK_SIZE..];
    let (views, joined) = read_blocks(log, tails, &shape, ckpt);
    let (groups, end) = read_groups(&views, &joined, ckpt, &shape)?;
    drop(joined);
    let (mut pages, found) = read_pages(data, &shape, end)?;
    replay(&mut pages, &groups);
    Some(Recovered {
        shape,
        number,
        ckpt,
        views,
        groups,
        end,
        pages,
        found,
    })
}

fn field32(bytes: &[u8], at: usize) -> u32 {
    u32::from_be_bytes(bytes[at..at + 4].try_into().unwrap())
}

fn field64(bytes: &[u8], at: usize) -> u64 {
    u64::from_be_bytes(bytes[at..at + 8].try_into().unwrap())
}

fn is_sealed(block: &[u8]) -> bool {
    crc32c(&block[..DATA_END]) == field32(block, DATA_END)
}

fn read_shape(header: &[u8]) -> Option<Shape> {
    let sizes = |at| field32(header, at) as usize;
    let is_ours = is_sealed(&header[..BLOCK_SIZE]) && field32(header, 0) == FORMAT;
    is_ours.then(|| Shape {
        page_size: sizes(48),
        pages: sizes(52),
        space: field32(header, 56),
        ring_blocks: sizes(60) - TAIL_BLOCKS,
        slots: sizes(64),
    })
}

/// The number and the lsn of a checkpoint whose number has this parity.
fn read_checkpoint(block: &[u8], parity: u64, shape: &Shape) -> Option<(u64, u64)> {
    let (number, lsn) = (field64(block, 0), field64(block, 8));
    let is_sound = is_sealed(block)
        && number % 2 == parity
        && lsn % BLOCK_SIZE as u64 == 0
        && lsn >= START_LSN
        && field64(block, 16) == place_of(lsn, shape) as u64;
    is_sound.then_some((number, lsn))
}

pub fn place_of(lsn: u64, shape: &Shape) -> usize {
    RING_START + (lsn - START_LSN) as usize % (BLOCK_SIZE * shape.ring_blocks)
}

/// The blocks up to the first that isn't full, and their data.
fn read_blocks(log: &Device, tails: &[u8], shape: &Shape, ckpt: u64) -> (Vec<View>, Vec<u8>) {
    let (mut views, mut joined) = (Vec::new(), Vec::new());
    let (mut from, mut piece) = (0, Vec::new());
    let log_end = RING_START + BLOCK_SIZE * shape.ring_blocks;
    for i in 0..shape.ring_blocks {
        let lsn = ckpt + (BLOCK_SIZE * i) as u64;
        let at = place_of(lsn, shape);
        if at < from || at + BLOCK_SIZE > from + piece.len() {
            let end = log_end.min(at + BLOCK_SIZE * (shape.ring_blocks - i));
            piece = log.read(at, PIECE.min(end - at));
            from = at;
        }
        let block = &piece[at - from..at - from + BLOCK_SIZE];
        let full = read_block(block, lsn).filter(|view| view.length == BLOCK_SIZE);
        let is_full = full.is_some();
        let taken = full.map(|view| (block, view));
        let Some((block, view)) = taken.or_else(|| newer_tail(tails, lsn)) else {
            break;
        };
        joined.extend_from_slice(&block[BLOCK_HEADER..view.length.min(DATA_END)]);
        views.push(view);
        if !is_full {
            break;
        }
    }
    (views, joined)
}

/// The tail block of an lsn that isn't full, the longer one where both are of it.
fn newer_tail(tails: &[u8], lsn: u64) -> Option<(&[u8], View)> {
    let views = tails.chunks_exact(BLOCK_SIZE).filter_map(|block| {
        let is_its = u64::from(field32(block, 8)) == lsn >> 39;
        let view = read_block(block, lsn).filter(|view| is_its && view.length < BLOCK_SIZE);
        view.map(|view| (block, view))
    });
    views.reduce(|first, second| {
        if second.1.length > first.1.length {
            second
        } else {
            first
        }
    })
}

fn read_block(block: &[u8], lsn: u64) -> Option<View> {
    let number = 1 + (lsn / BLOCK_SIZE as u64 & 0x3FFF_FFFF) as u32;
    let length = usize::from(u16::from_be_bytes([block[4], block[5]]));
    let first = usize::from(u16::from_be_bytes([block[6], block[7]]));
    let is_length = (BLOCK_HEADER..DATA_END).contains(&length) || length == BLOCK_SIZE;
    let is_first = first == 0 || first >= BLOCK_HEADER && first <= length.min(DATA_END - 1);
    let is_sound =
        field32(block, 0) & 0x7FFF_FFFF == number && is_length && is_first && is_sealed(block);
    is_sound.then_some(View { length, first })
}

fn lsn_of(sn: u64) -> u64 {
    let (blocks, rest) = (sn / BLOCK_DATA as u64, sn % BLOCK_DATA as u64);
    blocks * BLOCK_SIZE as u64 + rest + BLOCK_HEADER as u64
}

/// The groups from the first one's start on, and the lsn after the last; none where a group doesn't fit the store.
fn read_groups(
    views: &[View],
    joined: &[u8],
    ckpt: u64,
    shape: &Shape,
) -> Option<(Vec<Whole>, u64)> {
    let Some(block) = views.iter().position(|view| view.first != 0) else {
        let length = BLOCK_SIZE * views.len() + BLOCK_HEADER;
        return Some((Vec::new(), ckpt + length as u64));
    };
    let mut rest = &joined[BLOCK_DATA * block + views[block].first - BLOCK_HEADER..];
    let mut sn = ckpt / BLOCK_SIZE as u64 * BLOCK_DATA as u64 + (joined.len() - rest.len()) as u64;
    let mut groups = Vec::new();
    loop {
        match decode(rest) {
            Got::Value(group, length) => {
                if !fits(&group, shape) {
                    return None;
                }
                let (start, end) = (lsn_of(sn), lsn_of(sn + length as u64));
                groups.push(Whole { group, start, end });
                sn += length as u64;
                rest = &rest[length..];
            }
            Got::Short => return Some((groups, lsn_of(sn))),
            Got::Bad => return None,
        }
    }
}

/// Whether the records of a group name pages of the store and write user bytes.
pub fn fits(group: &[Rec], shape: &Shape) -> bool {
    let is_page = |space, page| space == shape.space && (page as usize) < shape.pages;
    let is_write = |offset: u32, count: usize| {
        offset as usize >= USER_START && offset as usize + count <= shape.page_size - TRAILER
    };
    group.iter().all(|rec| match rec {
        Rec::Num {
            width,
            space,
            page,
            offset,
            value,
        } => {
            is_page(*space, *page)
                && (*width == 8 || value >> (8 * width) == 0)
                && is_write(*offset, *width as usize)
        }
        Rec::Text {
            space,
            page,
            offset,
            bytes,
        } => is_page(*space, *page) && is_write(*offset, bytes.len()),
        Rec::Init { space, page } => is_page(*space, *page),
    })
}

/// The pages as they are kept: what the place has, or else the newest copy in a slot.
fn read_pages(data: &Device, shape: &Shape, end: u64) -> Option<(Pages, Found)> {
    let slots = data.read(0, shape.slots * shape.page_size);
    let mut pages = blank(shape);
    let mut found = Vec::with_capacity(shape.pages);
    for number in 0..shape.pages {
        let place = data.read((shape.slots + number) * shape.page_size, shape.page_size);
        let in_place = if place.iter().all(|byte| *byte == 0) {
            Some((0, &place[..]))
        } else {
            sound(&place, number, shape)
        };
        let kept = in_place.or_else(|| {
            let copies = slots.chunks_exact(shape.page_size);
            copies
                .filter_map(|copy| sound(copy, number, shape))
                .max_by_key(|copy| copy.0)
        });
        let (lsn, page) = kept?;
        found.push((lsn, in_place.is_some()));
        pages.lsns[number] = lsn;
        pages.users[number].copy_from_slice(&page[user(shape)]);
    }
    let is_below_end = pages.lsns.iter().all(|lsn| *lsn <= end);
    is_below_end.then_some((pages, found))
}

fn user(shape: &Shape) -> Range<usize> {
    USER_START..shape.page_size - TRAILER
}

/// Pages of zeros.
pub fn blank(shape: &Shape) -> Pages {
    Pages {
        lsns: vec![0; shape.pages],
        users: vec![vec![0; user(shape).len()]; shape.pages],
    }
}

fn sound<'a>(page: &'a [u8], number: usize, shape: &Shape) -> Option<(u64, &'a [u8])> {
    let trailer = shape.page_size - TRAILER;
    let checksum = crc32c(&page[4..trailer]);
    let lsn = field64(page, 16);
    let is_sound = field32(page, 0) == checksum
        && field32(page, trailer) == checksum
        && field32(page, trailer + 4) == lsn as u32
        && field32(page, 4) as usize == number
        && field32(page, 34) == shape.space;
    is_sound.then_some((lsn, page))
}

/// Applies to each page the groups that start at or above its lsn.
fn replay(pages: &mut Pages, groups: &[Whole]) {
    let kept = pages.lsns.clone();
    for whole in groups {
        for rec in &whole.group {
            if kept[page_of(rec)] <= whole.start {
                apply(pages, rec, whole.end);
            }
        }
    }
}

fn page_of(rec: &Rec) -> usize {
    match rec {
        Rec::Num { page, .. } | Rec::Text { page, .. } | Rec::Init { page, .. } => *page as usize,
    }
}

/// Applies one record of a group that ends at this lsn.
pub fn apply(pages: &mut Pages, rec: &Rec, end: u64) {
    let page = page_of(rec);
    let user = &mut pages.users[page];
    match rec {
        Rec::Num {
            width,
            offset,
            value,
            ..
        } => {
            let (at, width) = (*offset as usize - USER_START, *width as usize);
            user[at..at + width].copy_from_slice(&value.to_be_bytes()[8 - width..]);
        }
        Rec::Text { offset, bytes, .. } => {
            let at = *offset as usize - USER_START;
            user[at..at + bytes.len()].copy_from_slice(bytes);
        }
        Rec::Init { .. } => user.fill(0),
    }
    pages.lsns[page] = end;
}
