//! Scripts that a seed makes, and their texts.

use crate::draws::Draws;
use crate::script::{Line, MOST_USERS, Mode, Op, USER_START};
use crate::shape::Shape;
use std::fmt::Write;

/// What a script is like: how long its strings are and how many of its operations are strings, how many operations a line
/// has, whether some clear a page, which modes there are, and how many lines at the most.
#[derive(Clone, Copy)]
struct Taste {
    least_bytes: u64,
    most_bytes: u64,
    strings: u64,
    most_ops: u64,
    clears: bool,
    modes: [Mode; 4],
    least_lines: u64,
    most_lines: u64,
}

const EVEN: [Mode; 4] = [Mode::Flushed, Mode::Written, Mode::AtOnce, Mode::Flushed];

fn draw_taste(draws: &mut Draws) -> Taste {
    let most_bytes = match draws.below(12) {
        0 => 4_000,
        1 | 2 => 600,
        _ => 40,
    };
    let modes = match draws.below(6) {
        0 => [Mode::Flushed; 4],
        1 => [Mode::AtOnce; 4],
        2 => [Mode::Written; 4],
        _ => EVEN,
    };
    Taste {
        least_bytes: 1,
        most_bytes,
        strings: 4,
        most_ops: draws.one_of(&[1, 2, 3, 3, 6]),
        clears: draws.once_in(2),
        modes,
        least_lines: 0,
        most_lines: draws.one_of(&[2, 8, 20, 40]),
    }
}

/// Groups of which a few dozen fill half of a small log.
const WIDE: Taste = Taste {
    least_bytes: 1_000,
    most_bytes: 4_000,
    strings: 12,
    most_ops: 2,
    clears: false,
    modes: EVEN,
    least_lines: 20,
    most_lines: 60,
};

/// A script of up to 16 users and some 40 groups, at times of long ones.
pub fn draw_script(draws: &mut Draws, shape: &Shape, is_wide: bool) -> Vec<Line> {
    let taste = if is_wide { WIDE } else { draw_taste(draws) };
    let users = draw_users(draws);
    if users.is_empty() {
        return Vec::new();
    }
    let count = draws.within(taste.least_lines, taste.most_lines);
    (0..count)
        .map(|_| {
            let user = draws.one_of(&users);
            draw_line(draws, shape, taste, user)
        })
        .collect()
}

/// A script of all users, each with a line at least.
pub fn draw_full_script(draws: &mut Draws, shape: &Shape, is_wide: bool) -> Vec<Line> {
    let taste = if is_wide { WIDE } else { draw_taste(draws) };
    let users = u64::from(MOST_USERS);
    let count = users + draws.within(taste.least_lines, taste.most_lines);
    let first = draws.below(users);
    (0..count)
        .map(|number| {
            let place = if number < users {
                first + number
            } else {
                draws.below(users)
            };
            draw_line(draws, shape, taste, 1 + (place % users) as u32)
        })
        .collect()
}

fn draw_line(draws: &mut Draws, shape: &Shape, taste: Taste, user: u32) -> Line {
    Line {
        user,
        mode: draws.one_of(&taste.modes),
        ops: draw_ops(draws, shape, taste),
    }
}

fn draw_users(draws: &mut Draws) -> Vec<u32> {
    let share = draws.one_of(&[1, 2, 4, 16]);
    (1..=MOST_USERS)
        .filter(|_| draws.below(16) < share)
        .collect()
}

fn draw_ops(draws: &mut Draws, shape: &Shape, taste: Taste) -> Vec<Op> {
    let count = draws.within(1, taste.most_ops);
    (0..count).map(|_| draw_op(draws, shape, taste)).collect()
}

fn draw_op(draws: &mut Draws, shape: &Shape, taste: Taste) -> Op {
    let page = draws.below(u64::from(shape.pages)) as u32;
    if taste.clears && draws.once_in(20) {
        return Op::Clear { page };
    }
    if draws.below(12) < taste.strings {
        let length = draws.within(taste.least_bytes, taste.most_bytes);
        let offset = draws.within(USER_START, shape.user_end() - length) as u32;
        let bytes = (0..length).map(|_| draws.number() as u8).collect();
        return Op::Bytes {
            page,
            offset,
            bytes,
        };
    }
    let width = draws.one_of(&[1, 2, 4, 8]);
    let last = shape.user_end() - u64::from(width);
    let offset = match draws.below(8) {
        0 => USER_START,
        1 => last,
        _ => draws.within(USER_START, last),
    };
    Op::Number {
        width,
        page,
        offset: offset as u32,
        value: draw_value(draws, width),
    }
}

fn draw_value(draws: &mut Draws, width: u32) -> u64 {
    let most = u64::MAX >> (64 - 8 * width);
    match draws.below(4) {
        0 => most - draws.below(3),
        1 => draws.below(200),
        _ => draws.number() >> draws.below(64) & most,
    }
}

/// Makes a line of the script one that doesn't fit, or all of them too many.
pub fn spoil_fit(draws: &mut Draws, script: &mut Vec<Line>, shape: &Shape) {
    if script.is_empty() {
        script.push(Line {
            user: 1,
            mode: Mode::Flushed,
            ops: vec![Op::Clear { page: 0 }],
        });
    }
    let at = draws.below(script.len() as u64) as usize;
    let line = &mut script[at];
    let page = draws.below(u64::from(shape.pages)) as u32;
    let end = shape.user_end() as u32;
    match draws.below(5) {
        0 => line.user = draws.one_of(&[0, 17, u32::MAX]),
        1 => line.ops.push(Op::Clear {
            page: draws.one_of(&[shape.pages, shape.pages + 1, u32::MAX]),
        }),
        2 => line.ops.insert(
            0,
            Op::Number {
                width: 4,
                page,
                offset: draws.one_of(&[0, 37, end - 3, end, 65_535]),
                value: 1,
            },
        ),
        3 => line.ops.push(Op::Bytes {
            page,
            offset: end - 88,
            bytes: vec![1; 89],
        }),
        _ => line.ops.extend((0..3).map(|_| Op::Bytes {
            page,
            offset: 38,
            bytes: vec![7; 3_000],
        })),
    }
}

/// The text of a script: mostly its lines, at times with comments, empty lines, carriage returns, leading zeros and upper
/// case.
pub fn text_of(draws: &mut Draws, script: &[Line]) -> String {
    let is_plain = !draws.once_in(4);
    let mut text = String::new();
    for line in script {
        let printed = line.to_string();
        if is_plain {
            writeln!(text, "{printed}").unwrap();
        } else {
            put_dressed(draws, &mut text, &printed);
        }
    }
    if text.ends_with('\n') && draws.once_in(8) {
        text.pop();
    }
    text
}

fn put_dressed(draws: &mut Draws, text: &mut String, printed: &str) {
    match draws.below(5) {
        0 => text.push('\n'),
        1 => text.push_str("# 1 f b1 3 100 7\n"),
        _ => {}
    }
    match draws.below(3) {
        // the name of an operation with a string is lower case, its digits are either
        0 => text.push_str(&upper_digits(printed)),
        1 => write!(text, "0{printed}").unwrap(),
        _ => text.push_str(printed),
    }
    text.push_str(draws.one_of(&["\n", "\r\n"]));
}

/// The hex digits of strings in upper case.
fn upper_digits(printed: &str) -> String {
    let upper = |operation: &str| match operation.rsplit_once(' ') {
        Some((front, digits)) if front.contains("s ") => {
            format!("{front} {}", digits.to_uppercase())
        }
        _ => operation.to_string(),
    };
    printed.split(';').map(upper).collect::<Vec<_>>().join(";")
}

/// Puts a line into the text that is none, and says its number.
pub fn spoil_text(draws: &mut Draws, text: &mut String) -> u64 {
    let bad = draws.one_of(&[
        "1 f",
        "1 x b1 3 100 7",
        "1  f b1 3 100 7",
        " 1 f b1 3 100 7",
        "1 f b1 3 100 256",
        "1 f b3 3 100 1",
        "1 f b1 3 65536 7",
        "1 f b1 4294967296 100 7",
        "1 f s 3 100 abc",
        "1 f s 3 100 ",
        "1 f s 3 100 0g",
        "1 f i 3 4",
        "1 f i 3;",
        "1 f ;i 3",
        "-1 f i 3",
        "1 f b1 3 100 +7",
        "1 f b1 3 100 000000000000000000007",
        "1 f b8 3 100 18446744073709551616",
        "1 f i 3 ",
        "1 F i 3",
        "1 f I 3",
    ]);
    let lines: Vec<&str> = text.split_inclusive('\n').collect();
    let at = draws.below(lines.len() as u64 + 1) as usize;
    let mut spoilt: String = lines[..at].concat();
    if !spoilt.is_empty() && !spoilt.ends_with('\n') {
        spoilt.push('\n');
    }
    spoilt.push_str(bad);
    spoilt.push('\n');
    spoilt.push_str(&lines[at..].concat());
    *text = spoilt;
    at as u64 + 1
}
