//! The texts of groups, as `docs/formats.md` lays them out.

use crate::script::{Line, Op};

/// What is added to the type of a record that is a group alone.
const SINGLE: u8 = 0x80;
const STRING: u8 = 30;
/// Stands after several records.
const END: u8 = 31;
const CLEAR: u8 = 59;

/// The text of the group that a line logs on a store with this space id.
pub fn group_text(line: &Line, space: u32) -> Vec<u8> {
    let mut text = Vec::new();
    if let [op] = &line.ops[..] {
        put_record(&mut text, SINGLE, op, space);
        return text;
    }
    for op in &line.ops {
        put_record(&mut text, 0, op, space);
    }
    text.push(END);
    text
}

fn put_record(text: &mut Vec<u8>, flag: u8, op: &Op, space: u32) {
    text.push(flag + type_of(op));
    put_number(text, space);
    put_number(text, op.page());
    match op {
        Op::Number {
            width,
            offset,
            value,
            ..
        } => {
            put_short(text, *offset);
            put_value(text, *width, *value);
        }
        Op::Bytes { offset, bytes, .. } => {
            put_short(text, *offset);
            put_short(text, bytes.len() as u32);
            text.extend(bytes);
        }
        Op::Clear { .. } => {}
    }
}

fn type_of(op: &Op) -> u8 {
    match op {
        Op::Number { width, .. } => *width as u8,
        Op::Bytes { .. } => STRING,
        Op::Clear { .. } => CLEAR,
    }
}

/// The high half of a value of 8 bytes is compressed, and the low one isn't.
fn put_value(text: &mut Vec<u8>, width: u32, value: u64) {
    if width < 8 {
        put_number(text, value as u32);
    } else {
        put_number(text, (value >> 32) as u32);
        text.extend((value as u32).to_be_bytes());
    }
}

fn put_short(text: &mut Vec<u8>, n: u32) {
    text.extend((n as u16).to_be_bytes());
}

/// A compressed number.
fn put_number(text: &mut Vec<u8>, n: u32) {
    let n = u64::from(n);
    let (length, spelled) = match n {
        0..=0x7F => (1, n),
        0x80..=0x3FFF => (2, 0x8000 | n),
        0x4000..=0x1F_FFFF => (3, 0xC0_0000 | n),
        0x20_0000..=0x0FFF_FFFF => (4, 0xE000_0000 | n),
        0x1000_0000..=0xFEFF_FFFF => (5, 0xF0_0000_0000 | n),
        0xFF00_0000..=0xFFFD_FFFF => (4, 0xFE00_0000 | n & 0xFF_FFFF),
        0xFFFE_0000..=0xFFFF_FBFF => (3, 0xFC_0000 | n & 0x1_FFFF),
        _ => (2, 0xF800 | n & 0x3FF),
    };
    text.extend(&spelled.to_be_bytes()[8 - length..]);
}
