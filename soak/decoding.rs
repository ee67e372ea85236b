//! Reads groups of redo records, as `docs/formats.md` lays them out.

use crate::crc::field;
use crate::script::Op;

/// Why there is no whole group in front of some bytes.
#[derive(Clone, Copy, Debug, PartialEq)]
pub enum Stop {
    /// They are the beginning of one.
    Short,
    /// No group begins like that.
    Bad,
}

pub struct Record {
    pub space: u32,
    pub op: Op,
}

type Read<'a, T> = Result<(T, &'a [u8]), Stop>;

const SINGLE: u8 = 0x80;
const STRING: u8 = 30;
const END: u8 = 31;
const CLEAR: u8 = 59;

/// The spellings of numbers: how many bytes, the least and the greatest of them, and the number that the least stands for.
const SPELLINGS: [(usize, u64, u64, u64); 8] = [
    (1, 0x00, 0x7F, 0),
    (2, 0x8080, 0xBFFF, 0x80),
    (3, 0xC0_4000, 0xDF_FFFF, 0x4000),
    (4, 0xE020_0000, 0xEFFF_FFFF, 0x20_0000),
    (5, 0xF0_1000_0000, 0xF0_FEFF_FFFF, 0x1000_0000),
    (4, 0xFE00_0000, 0xFEFD_FFFF, 0xFF00_0000),
    (3, 0xFC_0000, 0xFD_FBFF, 0xFFFE_0000),
    (2, 0xF800, 0xFBFF, 0xFFFF_FC00),
];

/// A compressed number.
fn number(bytes: &[u8]) -> Read<'_, u32> {
    let mut stop = Stop::Bad;
    for (length, least, greatest, first) in SPELLINGS {
        let there = length.min(bytes.len());
        let lacking = 8 * (length - there) as u32;
        let low = field(bytes, 0, there) << lacking;
        let high = low | (1 << lacking) - 1;
        if high < least || greatest < low {
            continue;
        }
        if there == length {
            return Ok(((first + low - least) as u32, &bytes[length..]));
        }
        stop = Stop::Short;
    }
    Err(stop)
}

/// A number of so many bytes.
fn fixed(bytes: &[u8], length: usize) -> Read<'_, u64> {
    if bytes.len() < length {
        return Err(Stop::Short);
    }
    Ok((field(bytes, 0, length), &bytes[length..]))
}

/// A record without the flag of one that is alone.
fn record(bytes: &[u8], kind: u8) -> Read<'_, Record> {
    if ![1, 2, 4, 8, STRING, CLEAR].contains(&kind) {
        return Err(Stop::Bad);
    }
    let (space, rest) = number(&bytes[1..])?;
    let (page, rest) = number(rest)?;
    if kind == CLEAR {
        let op = Op::Clear { page };
        return Ok((Record { space, op }, rest));
    }
    let (offset, rest) = fixed(rest, 2)?;
    let offset = offset as u32;
    if kind == STRING {
        let (length, rest) = fixed(rest, 2)?;
        if length == 0 {
            return Err(Stop::Bad);
        }
        let (bytes, rest) = rest.split_at_checked(length as usize).ok_or(Stop::Short)?;
        let op = Op::Bytes {
            page,
            offset,
            bytes: bytes.to_vec(),
        };
        return Ok((Record { space, op }, rest));
    }
    let (mut value, mut rest) = number(rest).map(|(value, rest)| (u64::from(value), rest))?;
    if kind == 8 {
        let (low, behind) = fixed(rest, 4)?;
        (value, rest) = (value << 32 | low, behind);
    }
    let op = Op::Number {
        width: u32::from(kind),
        page,
        offset,
        value,
    };
    Ok((Record { space, op }, rest))
}

/// The group in front of the bytes, of any length, and what stands behind it.
pub fn group(bytes: &[u8]) -> Read<'_, Vec<Record>> {
    let kind = *bytes.first().ok_or(Stop::Short)?;
    if kind & SINGLE != 0 {
        let (only, rest) = record(bytes, kind & !SINGLE)?;
        return Ok((vec![only], rest));
    }
    let mut records = Vec::new();
    let mut rest = bytes;
    loop {
        let kind = *rest.first().ok_or(Stop::Short)?;
        if kind == END && records.len() >= 2 {
            return Ok((records, &rest[1..]));
        }
        let (next, behind) = record(rest, kind)?;
        records.push(next);
        rest = behind;
    }
}
