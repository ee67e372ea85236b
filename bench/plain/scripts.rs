//! The scripts that both programs read: two to be run by turns, and a long one to be parsed.

use crate::generator::{Draws, Spots};
use std::fmt::Write;

const USERS: u32 = 8;
const SPOTS: Spots = Spots {
    pages: 8,
    offsets: 3_000,
};
const LARGE_SPOTS: Spots = Spots {
    pages: 1_024,
    offsets: 15_000,
};
const RUN_LINES: u32 = 2_500;
const LARGE_LINES: u32 = 10_000;
const LONG_LENGTH: usize = 16_700_000;

/// Lines of eight users, more than are run.
pub fn turns() -> String {
    lines_of_users(RUN_LINES, SPOTS)
}

/// Such lines for a store of 1,024 pages of 16,384 bytes.
pub fn large_turns() -> String {
    lines_of_users(LARGE_LINES, LARGE_SPOTS)
}

fn lines_of_users(count: u32, spots: Spots) -> String {
    let mut draws = Draws(4);
    let mut text = String::new();
    for number in 0..count {
        put_line(&mut text, 1 + number % USERS, spots, &mut draws);
    }
    text
}

/// Such lines, so many bytes of them and a few more.
pub fn long() -> String {
    let mut draws = Draws(5);
    let mut text = String::new();
    while text.len() < LONG_LENGTH {
        let user = 1 + draws.below(16);
        put_line(&mut text, user, SPOTS, &mut draws);
    }
    text
}

/// A line of one to four operations. One of eight is of a long string, and one of 64 sets a page to 0.
fn put_line(text: &mut String, user: u32, spots: Spots, draws: &mut Draws) {
    let mode = ["f", "w", "n"][draws.below(3) as usize];
    write!(text, "{user} {mode} ").unwrap();
    for number in 0..=draws.below(4) {
        if number > 0 {
            text.push(';');
        }
        put_operation(text, spots, draws);
    }
    text.push('\n');
}

fn put_operation(text: &mut String, spots: Spots, draws: &mut Draws) {
    let page = draws.below(spots.pages);
    if draws.below(64) == 0 {
        write!(text, "i {page}").unwrap();
        return;
    }
    let offset = 38 + draws.below(spots.offsets);
    let value = draws.draw();
    match draws.below(8) {
        0 | 1 => write!(text, "b1 {page} {offset} {}", value % 256).unwrap(),
        2 => write!(text, "b2 {page} {offset} {}", value % 65_536).unwrap(),
        3 => write!(text, "b4 {page} {offset} {value}").unwrap(),
        4 => write!(text, "b8 {page} {offset} {}", u64::from(value) << 32 | 7).unwrap(),
        5 | 6 => put_string(text, page, offset, 1 + value % 40, draws),
        _ => put_string(text, page, offset, 1 + value % 1_000, draws),
    }
}

fn put_string(text: &mut String, page: u32, offset: u32, length: u32, draws: &mut Draws) {
    write!(text, "s {page} {offset} ").unwrap();
    for _ in 0..length {
        write!(text, "{:02x}", draws.draw() as u8).unwrap();
    }
}
