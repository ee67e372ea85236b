//! What a line of a script logs and changes: the bytes of its group, and the cells of each page that it touches.

use crate::generator::{END_MARK, INIT, SINGLE, STRING, put_spelled};
use crate::script::Item;
use std::ops::Range;

/// The space of a store that is formatted without an option.
const SPACE: u32 = 1;
const USER_START: usize = 38;
const TRAILER: usize = 8;

/// The bytes of the group that a line logs: one record for each operation.
pub fn encode(items: &[Item]) -> Vec<u8> {
    let mut bytes = Vec::new();
    match items {
        [item] => put_record(&mut bytes, SINGLE, item),
        _ => {
            items
                .iter()
                .for_each(|item| put_record(&mut bytes, 0, item));
            bytes.push(END_MARK);
        }
    }
    bytes
}

fn put_record(bytes: &mut Vec<u8>, flag: u8, item: &Item) {
    match item {
        Item::Num {
            width,
            page,
            offset,
            value,
        } => {
            put_spot(bytes, flag | *width as u8, *page, *offset);
            if *width == 8 {
                put_spelled(bytes, (value >> 32) as u32);
                bytes.extend((*value as u32).to_be_bytes());
            } else {
                put_spelled(bytes, *value as u32);
            }
        }
        Item::Text {
            page,
            offset,
            bytes: string,
        } => {
            put_spot(bytes, flag | STRING, *page, *offset);
            bytes.extend((string.len() as u16).to_be_bytes());
            bytes.extend(string);
        }
        Item::Init { page } => put_page(bytes, flag | INIT, *page),
    }
}

fn put_spot(bytes: &mut Vec<u8>, kind: u8, page: u32, offset: u32) {
    put_page(bytes, kind, page);
    bytes.extend((offset as u16).to_be_bytes());
}

fn put_page(bytes: &mut Vec<u8>, kind: u8, page: u32) {
    bytes.push(kind);
    put_spelled(bytes, SPACE);
    put_spelled(bytes, page);
}

/// A page that a group touches, and the cells that it changes there, each once with its last value, ascending.
pub struct ChangedPage {
    pub page: u32,
    pub cells: Vec<(u16, u8)>,
}

/// The pages that the line touches, ascending, in a store of pages of so many bytes.
pub fn changes(items: &[Item], page_size: usize) -> Vec<ChangedPage> {
    let mut pages: Vec<u32> = items.iter().map(page_of).collect();
    pages.sort_unstable();
    pages.dedup();
    pages
        .into_iter()
        .map(|page| changed_page(items, page, page_size))
        .collect()
}

fn page_of(item: &Item) -> u32 {
    match item {
        Item::Num { page, .. } | Item::Text { page, .. } | Item::Init { page } => *page,
    }
}

fn changed_page(items: &[Item], page: u32, page_size: usize) -> ChangedPage {
    let own = || items.iter().filter(|item| page_of(item) == page);
    let ranges = own().map(|item| range_of(item, page_size));
    let (from, to) = ranges.fold((page_size, 0), |(from, to), range| {
        (from.min(range.start), to.max(range.end))
    });
    // of the cells between the first that changes and the last
    let mut last = vec![None; to - from];
    for item in own() {
        let range = range_of(item, page_size);
        let cells = &mut last[range.start - from..range.end - from];
        match item {
            Item::Num { width, value, .. } => {
                put_bytes(cells, &value.to_be_bytes()[8 - *width as usize..]);
            }
            Item::Text { bytes, .. } => put_bytes(cells, bytes),
            Item::Init { .. } => cells.fill(Some(0)),
        }
    }
    let cells = (from as u16..).zip(last);
    let cells = cells.filter_map(|(at, value)| Some((at, value?))).collect();
    ChangedPage { page, cells }
}

/// The cells that an operation changes.
fn range_of(item: &Item, page_size: usize) -> Range<usize> {
    let (offset, length) = match item {
        Item::Num { width, offset, .. } => (*offset as usize, *width as usize),
        Item::Text { offset, bytes, .. } => (*offset as usize, bytes.len()),
        Item::Init { .. } => return USER_START..page_size - TRAILER,
    };
    offset..offset + length
}

fn put_bytes(cells: &mut [Option<u8>], bytes: &[u8]) {
    for (cell, byte) in cells.iter_mut().zip(bytes) {
        *cell = Some(*byte);
    }
}
