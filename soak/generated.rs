//! The script that `gen` prints, a function of a seed, the number of users and the number of groups; and the summary that
//! `gen --run` prints of its run.

use crate::crc::crc32c;
use crate::script::{Line, Mode, Op};

/// The generator of the C standard's example.
struct Small(u64);

impl Small {
    fn take(&mut self) -> u64 {
        self.0 = (self.0 * 1_103_515_245 + 12_345) % (1 << 31);
        self.0 >> 16
    }

    fn op(&mut self) -> Op {
        let kind = self.take() % 6;
        let page = (self.take() % 8) as u32;
        if kind == 5 {
            return Op::Clear { page };
        }
        let offset = 38 + (self.take() % 4_000) as u32;
        let last = self.take();
        if kind == 4 {
            let bytes = (0..1 + last % 40).map(|_| self.take() as u8).collect();
            return Op::Bytes {
                page,
                offset,
                bytes,
            };
        }
        Op::Number {
            width: 1 << kind,
            page,
            offset,
            value: if kind == 0 { last % 256 } else { last },
        }
    }
}

pub fn script_of(seed: u64, users: u32, groups: u64) -> Vec<Line> {
    let mut draws = Small(seed % (1 << 31));
    let mut line = |number: u64| {
        let mode = [Mode::Flushed, Mode::Written, Mode::AtOnce][(draws.take() % 3) as usize];
        let count = 1 + draws.take() % 3;
        Line {
            user: 1 + (number % u64::from(users)) as u32,
            mode,
            ops: (0..count).map(|_| draws.op()).collect(),
        }
    };
    (0..groups).map(&mut line).collect()
}

/// The line that `gen --run` prints of a run whose groups are so many, with these marks and these lines of its pages.
pub fn summary(groups: usize, flushed: u64, checkpoint: u64, pages: &str) -> String {
    format!(
        "summary {groups} {flushed} {checkpoint} {:08x}\n",
        crc32c(pages.as_bytes())
    )
}
