//! Texts of groups, and such that are none or don't fit their store.

use crate::draws::Draws;
use crate::script::{Line, MOST_BYTES, Mode, Op};
use crate::shape::Shape;
use crate::texts::group_text;

/// Bytes that begin or end something.
const TELLING: [u8; 16] = [
    0, 1, 8, 0x1E, 0x1F, 0x3B, 0x7F, 0x80, 0x81, 0x9E, 0xBB, 0xF0, 0xF8, 0xFC, 0xFE, 0xFF,
];

/// Numbers at the edges of what each length spells, and bytes beside them that spell none.
const SPELLED: [&[u8]; 22] = [
    &[0x7F],
    &[0x80, 0x7F],
    &[0x80, 0x80],
    &[0xBF, 0xFF],
    &[0xC0, 0x3F, 0xFF],
    &[0xC0, 0x40, 0x00],
    &[0xDF, 0xFF, 0xFF],
    &[0xE0, 0x1F, 0xFF, 0xFF],
    &[0xE0, 0x20, 0x00, 0x00],
    &[0xEF, 0xFF, 0xFF, 0xFF],
    &[0xF0, 0x0F, 0xFF, 0xFF, 0xFF],
    &[0xF0, 0x10, 0x00, 0x00, 0x00],
    &[0xF0, 0xFE, 0xFF, 0xFF, 0xFF],
    &[0xF0, 0xFF, 0x00, 0x00, 0x00],
    &[0xF1, 0x20, 0x00, 0x00, 0x00],
    &[0xF8, 0x00],
    &[0xFB, 0xFF],
    &[0xFC, 0x00, 0x00],
    &[0xFD, 0xFB, 0xFF],
    &[0xFD, 0xFC, 0x00],
    &[0xFE, 0xFD, 0xFF, 0xFF],
    &[0xFE, 0xFE, 0x00, 0x00],
];

pub fn text_of(ops: Vec<Op>, space: u32) -> Vec<u8> {
    let line = Line {
        user: 1,
        mode: Mode::Flushed,
        ops,
    };
    group_text(&line, space)
}

/// Changes a text, puts one between them that is no group of the store, or the front of one behind them.
pub fn spoil_texts(draws: &mut Draws, texts: &mut Vec<Vec<u8>>, shape: &Shape) {
    let place = draws.below(texts.len() as u64 + 1) as usize;
    if draws.once_in(4) {
        let text = draw_front(draws, shape);
        texts.push(text);
    } else if place == texts.len() || draws.once_in(2) {
        let text = draw_misfit(draws, shape);
        texts.insert(place, text);
    } else {
        change(draws, &mut texts[place]);
    }
}

/// Changes, adds or drops a byte, or cuts the text off.
fn change(draws: &mut Draws, text: &mut Vec<u8>) {
    // what stands in front of a string's bytes is met more often
    let front = text
        .len()
        .min(if draws.once_in(3) { text.len() } else { 14 });
    let at = draws.below(front as u64) as usize;
    let byte = match draws.below(3) {
        0 => draws.number() as u8,
        1 => text[at] ^ 1 << draws.below(8),
        _ => draws.one_of(&TELLING),
    };
    match draws.below(6) {
        0 => text.insert(at, byte),
        1 if text.len() > 1 => {
            text.remove(at);
        }
        2 if text.len() > 1 => text.truncate(at.max(1)),
        3 => {
            // the byte behind several records, or the last one
            text.pop();
            text.push(byte);
        }
        _ => text[at] = byte,
    }
}

fn number(width: u32, page: u32, offset: u32, value: u64) -> Op {
    Op::Number {
        width,
        page,
        offset,
        value,
    }
}

fn string(page: u32, offset: u32, length: usize) -> Op {
    Op::Bytes {
        page,
        offset,
        bytes: vec![7; length],
    }
}

/// What doesn't fit the store, is no group, or is too long for one.
fn draw_misfit(draws: &mut Draws, shape: &Shape) -> Vec<u8> {
    let page = draws.below(u64::from(shape.pages)) as u32;
    let end = shape.user_end() as u32;
    let offset = draws.one_of(&[0, 37, end, end + 7, 65_535]);
    let ops = match draws.below(15) {
        0 => vec![number(1, shape.pages, 100, 7)],
        1 => vec![number(4, u32::MAX - draws.below(2_000) as u32, 100, 7)],
        2 => vec![Op::Clear { page: shape.pages }],
        3 => vec![number(draws.one_of(&[1, 2, 4, 8]), page, offset, 7)],
        4 => vec![number(8, page, end - 7, 7)],
        5 => vec![number(1, page, 100, 256), number(1, page, 100, 2)],
        6 => vec![number(2, page, 100, draws.one_of(&[65_536, 0xFFFF_FFFF]))],
        7 => vec![string(page, end - 4_050, draws.one_of(&[0, 4_050, 4_051]))],
        8 => vec![
            string(page, end - 1, draws.one_of(&[1, 2])),
            string(page, 37, 1),
        ],
        9 => {
            let length = MOST_BYTES as usize - 1 + draws.below(4) as usize;
            return long(page, shape.space, length);
        }
        10 => return draw_unlike(draws, page, shape.space),
        11..=13 => return draw_spelled(draws, page, shape.space),
        _ => {
            let space = shape.space.wrapping_add(draws.one_of(&[1, 128, u32::MAX]));
            return text_of(vec![number(1, page, 100, 7)], space);
        }
    };
    text_of(ops, shape.space)
}

/// A group of this length: three strings.
fn long(page: u32, space: u32, length: usize) -> Vec<u8> {
    let text = |last| {
        let ops = [3_000, 3_000, last].map(|bytes| string(page, 38, bytes));
        text_of(ops.to_vec(), space)
    };
    let least = text(1).len();
    text(1 + length - least)
}

/// The front of a group, as long as what ends a log may be, or a little longer.
fn draw_front(draws: &mut Draws, shape: &Shape) -> Vec<u8> {
    let page = draws.below(u64::from(shape.pages)) as u32;
    let most = MOST_BYTES as usize;
    let mut text = long(page, shape.space, most + 40);
    let length = match draws.below(3) {
        0 => draws.within(1, 40) as usize,
        1 => draws.within(1, most as u64) as usize,
        _ => most - 2 + draws.below(4) as usize,
    };
    text.truncate(length);
    text
}

/// A record whose value is spelled so, or the front of one.
fn draw_spelled(draws: &mut Draws, page: u32, space: u32) -> Vec<u8> {
    let mut text = text_of(vec![number(4, page, 100, 0)], space);
    text.pop();
    text.extend(draws.one_of(&SPELLED));
    if draws.once_in(3) {
        text.pop();
    }
    text
}

/// Records that are put together as no group is.
fn draw_unlike(draws: &mut Draws, page: u32, space: u32) -> Vec<u8> {
    let single = text_of(vec![number(1, page, 100, 7)], space);
    let pair = text_of(
        vec![number(1, page, 100, 7), number(2, page, 100, 7)],
        space,
    );
    let part = single.len();
    match draws.below(6) {
        // one record and the byte behind several
        0 => [&pair[..part], &[31]].concat(),
        // one that is alone among others
        1 => [&pair[..part], &single[..], &[31]].concat(),
        2 => [&single[..], &[31]].concat(),
        // none
        3 => vec![31],
        // a number that is spelled with more bytes than it needs
        4 => [&[0x81, 0x80][..], &single[1..]].concat(),
        _ => vec![draws.number() as u8; draws.within(1, 40) as usize],
    }
}
