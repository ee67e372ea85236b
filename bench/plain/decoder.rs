//! A decoder of the text of groups, as one would write it in Rust.

const SINGLE: u8 = 0x80;
const END_MARK: u8 = 31;
const STRING: u8 = 30;
const INIT: u8 = 59;
const LONGEST_GROUP: usize = 8_192;

pub enum Rec {
    Num {
        width: u32,
        space: u32,
        page: u32,
        offset: u32,
        value: u64,
    },
    Text {
        space: u32,
        page: u32,
        offset: u32,
        bytes: Vec<u8>,
    },
    Init {
        space: u32,
        page: u32,
    },
}

/// A value and how many bytes it takes; or that more bytes have to come; or that no value begins so.
pub enum Got<T> {
    Value(T, usize),
    Short,
    Bad,
}

enum Stop {
    Short,
    Bad,
}

/// A value, and the bytes that are left.
type Read<'a, T> = Result<(T, &'a [u8]), Stop>;

pub fn decode(bytes: &[u8]) -> Got<Vec<Rec>> {
    let front = &bytes[..bytes.len().min(LONGEST_GROUP)];
    match read_group(front) {
        Ok((group, rest)) => Got::Value(group, front.len() - rest.len()),
        Err(Stop::Short) if bytes.len() < LONGEST_GROUP => Got::Short,
        Err(_) => Got::Bad,
    }
}

fn read_group(bytes: &[u8]) -> Read<'_, Vec<Rec>> {
    match bytes.first() {
        None => Err(Stop::Short),
        Some(&first) if first >= SINGLE => {
            let (rec, rest) = read_record(SINGLE, bytes)?;
            Ok((vec![rec], rest))
        }
        Some(_) => read_several(bytes),
    }
}

fn read_several(bytes: &[u8]) -> Read<'_, Vec<Rec>> {
    let mut recs = Vec::new();
    let mut rest = bytes;
    loop {
        match rest {
            [END_MARK, ..] if recs.len() < 2 => return Err(Stop::Bad),
            [END_MARK, rest @ ..] => return Ok((recs, rest)),
            _ => {
                let (rec, after) = read_record(0, rest)?;
                recs.push(rec);
                rest = after;
            }
        }
    }
}

fn read_record(flag: u8, bytes: &[u8]) -> Read<'_, Rec> {
    let (&kind, rest) = bytes.split_first().ok_or(Stop::Short)?;
    let kind = kind.checked_sub(flag).ok_or(Stop::Bad)?;
    if !matches!(kind, 1 | 2 | 4 | 8 | STRING | INIT) {
        return Err(Stop::Bad);
    }
    let (space, rest) = read_number32(rest)?;
    let (page, rest) = read_number32(rest)?;
    if kind == INIT {
        return Ok((Rec::Init { space, page }, rest));
    }
    let (offset, rest) = read_short(rest)?;
    if kind == STRING {
        let (bytes, rest) = read_string(rest)?;
        return Ok((
            Rec::Text {
                space,
                page,
                offset,
                bytes,
            },
            rest,
        ));
    }
    let (value, rest) = if kind == 8 {
        read_number64(rest)?
    } else {
        widened(read_number32(rest)?)
    };
    let width = u32::from(kind);
    Ok((
        Rec::Num {
            width,
            space,
            page,
            offset,
            value,
        },
        rest,
    ))
}

fn widened((number, rest): (u32, &[u8])) -> (u64, &[u8]) {
    (u64::from(number), rest)
}

fn read_string(bytes: &[u8]) -> Read<'_, Vec<u8>> {
    let (length, rest) = read_short(bytes)?;
    if length == 0 {
        return Err(Stop::Bad);
    }
    let (text, rest) = rest.split_at_checked(length as usize).ok_or(Stop::Short)?;
    Ok((text.to_vec(), rest))
}

fn read_short(bytes: &[u8]) -> Read<'_, u32> {
    let (bytes, rest) = bytes.split_first_chunk().ok_or(Stop::Short)?;
    Ok((u32::from(u16::from_be_bytes(*bytes)), rest))
}

fn read_number64(bytes: &[u8]) -> Read<'_, u64> {
    let (high, rest) = read_number32(bytes)?;
    let (low, rest) = rest.split_first_chunk().ok_or(Stop::Short)?;
    Ok((
        u64::from(high) << 32 | u64::from(u32::from_be_bytes(*low)),
        rest,
    ))
}

fn read_number32(bytes: &[u8]) -> Read<'_, u32> {
    let first = *bytes.first().ok_or(Stop::Short)?;
    match first {
        0x00..=0x7F => Ok((u32::from(first), &bytes[1..])),
        0x80..=0xBF => read_row(bytes, 2, 0x8000, 0x80..=0x3FFF),
        0xC0..=0xDF => read_row(bytes, 3, 0xC0_0000, 0x4000..=0x1F_FFFF),
        0xE0..=0xEF => read_row(bytes, 4, 0xE000_0000, 0x20_0000..=0x0FFF_FFFF),
        0xF0 => read_row(bytes, 5, 0xF0_0000_0000, 0x1000_0000..=0xFEFF_FFFF),
        0xF8..=0xFB => read_row(bytes, 2, 0xF800 - 0xFFFF_FC00, 0xFFFF_FC00..=0xFFFF_FFFF),
        0xFC | 0xFD => read_row(bytes, 3, 0xFC_0000 - 0xFFFE_0000, 0xFFFE_0000..=0xFFFF_FBFF),
        0xFE => read_row(
            bytes,
            4,
            0xFE00_0000 - 0xFF00_0000,
            0xFF00_0000..=0xFFFD_FFFF,
        ),
        0xF1..=0xF7 | 0xFF => Err(Stop::Bad),
    }
}

/// Reads a number whose spelling has this length and is the number plus the base, the highest byte first. A number that
/// isn't of the row has another spelling. Of a spelling that is cut off only the first byte was judged.
fn read_row(
    bytes: &[u8],
    length: usize,
    base: i64,
    row: std::ops::RangeInclusive<i64>,
) -> Read<'_, u32> {
    let (text, rest) = bytes.split_at_checked(length).ok_or(Stop::Short)?;
    let number = text
        .iter()
        .fold(0, |number, byte| number << 8 | i64::from(*byte))
        - base;
    if row.contains(&number) {
        Ok((number as u32, rest))
    } else {
        Err(Stop::Bad)
    }
}
