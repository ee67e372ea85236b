//! Scripts: their lines, what a line logs, and what of a script doesn't fit a store.

use crate::lsn::{BLOCK_HEADER, behind};
use crate::shape::Shape;
use std::fmt;

#[derive(Clone, Debug, PartialEq)]
pub enum Op {
    Number {
        width: u32,
        page: u32,
        offset: u32,
        value: u64,
    },
    Bytes {
        page: u32,
        offset: u32,
        bytes: Vec<u8>,
    },
    Clear {
        page: u32,
    },
}

impl Op {
    pub fn page(&self) -> u32 {
        match self {
            Op::Number { page, .. } | Op::Bytes { page, .. } | Op::Clear { page } => *page,
        }
    }
}

impl fmt::Display for Op {
    fn fmt(&self, f: &mut fmt::Formatter) -> fmt::Result {
        match self {
            Op::Number {
                width,
                page,
                offset,
                value,
            } => write!(f, "b{width} {page} {offset} {value}"),
            Op::Bytes {
                page,
                offset,
                bytes,
            } => {
                write!(f, "s {page} {offset} ")?;
                bytes.iter().try_for_each(|byte| write!(f, "{byte:02x}"))
            }
            Op::Clear { page } => write!(f, "i {page}"),
        }
    }
}

#[derive(Clone, Copy, Debug, PartialEq)]
pub enum Mode {
    Flushed,
    Written,
    AtOnce,
}

impl fmt::Display for Mode {
    fn fmt(&self, f: &mut fmt::Formatter) -> fmt::Result {
        f.write_str(match self {
            Mode::Flushed => "f",
            Mode::Written => "w",
            Mode::AtOnce => "n",
        })
    }
}

#[derive(Clone, Debug)]
pub struct Line {
    pub user: u32,
    pub mode: Mode,
    pub ops: Vec<Op>,
}

impl fmt::Display for Line {
    fn fmt(&self, f: &mut fmt::Formatter) -> fmt::Result {
        write!(f, "{} {} ", self.user, self.mode)?;
        for (i, op) in self.ops.iter().enumerate() {
            let separator = if i == 0 { "" } else { ";" };
            write!(f, "{separator}{op}")?;
        }
        Ok(())
    }
}

/// How many bytes a number of 32 bits takes in a record.
fn spelled(n: u32) -> u64 {
    match n {
        0..=0x7F => 1,
        0x80..=0x3FFF => 2,
        0x4000..=0x1F_FFFF => 3,
        0x20_0000..=0x0FFF_FFFF => 4,
        0x1000_0000..=0xFEFF_FFFF => 5,
        0xFF00_0000..=0xFFFD_FFFF => 4,
        0xFFFE_0000..=0xFFFF_FBFF => 3,
        0xFFFF_FC00.. => 2,
    }
}

/// How many bytes the record of an operation has on a store with this space id.
fn record_length(op: &Op, space: u32) -> u64 {
    let front = 1 + spelled(space) + spelled(op.page());
    match op {
        Op::Number {
            width: 8, value, ..
        } => front + 2 + spelled((value >> 32) as u32) + 4,
        Op::Number { value, .. } => front + 2 + spelled(*value as u32),
        Op::Bytes { bytes, .. } => front + 4 + bytes.len() as u64,
        Op::Clear { .. } => front,
    }
}

/// How many bytes the group of a line has: a record's first byte says that it is alone, or a byte stands after them all.
pub fn group_length(line: &Line, space: u32) -> u64 {
    let records: u64 = line.ops.iter().map(|op| record_length(op, space)).sum();
    records + u64::from(line.ops.len() > 1)
}

pub const USER_START: u64 = 38;
pub const MOST_USERS: u32 = 16;
pub const MOST_BYTES: u64 = 8_192;
const MARGIN: u64 = 278_528;

/// The words of the first quantity that doesn't fit, where a run would start at this lsn.
pub fn misfit(script: &[Line], shape: &Shape, start: u64, log_only: bool) -> Option<String> {
    let mut total = 0;
    for line in script {
        if line.user == 0 || MOST_USERS < line.user {
            return Some(format!("user {}", line.user));
        }
        for op in &line.ops {
            if let Some(words) = op_misfit(op, shape) {
                return Some(words);
            }
        }
        let length = group_length(line, shape.space);
        if MOST_BYTES < length {
            return Some(format!("group {length}"));
        }
        total += length;
    }
    let end = behind(start, total);
    let room = start - BLOCK_HEADER + shape.ring();
    (log_only && room < end + MARGIN).then(|| format!("total {end}"))
}

fn op_misfit(op: &Op, shape: &Shape) -> Option<String> {
    if shape.pages <= op.page() {
        return Some(format!("page {}", op.page()));
    }
    let (offset, count) = match op {
        Op::Number { width, offset, .. } => (u64::from(*offset), u64::from(*width)),
        Op::Bytes { offset, bytes, .. } => (u64::from(*offset), bytes.len() as u64),
        Op::Clear { .. } => return None,
    };
    let is_within = USER_START <= offset && offset + count <= shape.user_end();
    (!is_within).then(|| format!("offset {offset}"))
}
