//! The calls that a program made on its files, as `writes.c` tells of them.

use crate::layout::Block;
use std::ops::Range;

pub const LOG: usize = 0;
pub const DATA: usize = 1;
pub const ARCHIVE: usize = 2;
pub const DEVICES: [usize; 3] = [LOG, DATA, ARCHIVE];

/// The bytes of each event before those of its write.
const HEADER: usize = 24;

/// A write, with its place and its bytes.
#[derive(PartialEq)]
pub struct Write {
    pub at: usize,
    pub bytes: Vec<u8>,
}

impl Write {
    pub fn put(&self, content: &mut Vec<u8>) {
        let end = self.at + self.bytes.len();
        if content.len() < end {
            content.resize(end, 0);
        }
        content[self.at..end].copy_from_slice(&self.bytes);
    }
}

#[derive(PartialEq)]
pub enum What {
    /// A read or write begins, of which a write tells what it wrote.
    Called,
    Write(Write),
    /// A sync that succeeded.
    Sync,
}

#[derive(PartialEq)]
pub struct Event {
    pub device: usize,
    pub what: What,
}

fn number(bytes: &[u8], range: Range<usize>) -> usize {
    usize::from_le_bytes(bytes[range].try_into().unwrap())
}

/// The events of a file that `writes.c` has written.
pub fn events_of(mut bytes: &[u8]) -> Result<Vec<Event>, String> {
    let mut events = Vec::new();
    while !bytes.is_empty() {
        let header = bytes.get(..HEADER).ok_or("an event that is cut off")?;
        bytes = &bytes[HEADER..];
        let (at, length) = (number(header, 8..16), number(header, 16..24));
        let what = match header[0] {
            b'c' => What::Called,
            b'f' => What::Sync,
            _ => {
                if !(at.is_multiple_of(512) && length.is_multiple_of(512)) {
                    return Err(format!("a write of {length} bytes at {at}"));
                }
                let mut content = vec![0; length];
                if header[2] == 0 {
                    let written = bytes.get(..length).ok_or("a write that is cut off")?;
                    content.copy_from_slice(written);
                    bytes = &bytes[length..];
                }
                What::Write(Write { at, bytes: content })
            }
        };
        events.push(Event {
            device: usize::from(header[1]),
            what,
        });
    }
    Ok(events)
}

/// What events have done to the archive.
#[derive(Clone, Copy, PartialEq)]
pub enum Archiving {
    /// Nothing was written.
    Untouched,
    /// A new one was begun, but its head wasn't synced.
    Unbegun,
    Begun,
}

/// The place of the first write to the archive.
pub fn first_archived(events: &[Event]) -> Option<usize> {
    let is_write = |event: &Event| event.device == ARCHIVE && matches!(event.what, What::Write(_));
    events.iter().position(is_write)
}

pub fn archiving_of(events: &[Event]) -> Archiving {
    if first_archived(events).is_none() {
        return Archiving::Untouched;
    }
    let is_head = |event: &Event| match &event.what {
        What::Write(write) => {
            event.device == ARCHIVE
                && write.at == 0
                && write.bytes[..512].iter().any(|byte| *byte != 0)
        }
        _ => false,
    };
    match events.iter().position(is_head) {
        Some(head) if synced(&events[head..], ARCHIVE) > 0 => Archiving::Begun,
        _ => Archiving::Unbegun,
    }
}

/// How often the device was called.
pub fn calls_of(events: &[Event], device: usize) -> u64 {
    let is_call = |event: &&Event| event.device == device && !matches!(event.what, What::Write(_));
    events.iter().filter(is_call).count() as u64
}

/// The writes of the device.
pub fn writes_of(events: &[Event], device: usize) -> impl Iterator<Item = &Write> {
    events.iter().filter_map(move |event| match &event.what {
        What::Write(write) if event.device == device => Some(write),
        _ => None,
    })
}

/// How many of the events come up to the last good sync of the device, that sync among them.
pub fn synced(events: &[Event], device: usize) -> usize {
    let is_sync = |event: &Event| event.device == device && matches!(event.what, What::Sync);
    events.iter().rposition(is_sync).map_or(0, |last| last + 1)
}

/// The log blocks that an event writes.
pub fn blocks_of(event: &Event) -> impl Iterator<Item = Block> {
    let bytes = match &event.what {
        What::Write(write) if event.device == LOG && write.at >= 2_048 => &write.bytes[..],
        _ => &[],
    };
    bytes.chunks_exact(512).filter_map(Block::of)
}

/// Whether it writes a log block of a run.
pub fn is_block(event: &Event) -> bool {
    blocks_of(event).next().is_some()
}

/// Where the last of the log blocks ends that the events write.
pub fn blocks_end(events: &[Event]) -> u64 {
    let ends = events.iter().flat_map(blocks_of).map(|block| block.end());
    ends.max().unwrap_or(0)
}
