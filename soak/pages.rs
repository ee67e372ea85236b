//! The pages of a store as groups leave them.

use crate::script::{Op, USER_START};
use crate::shape::Shape;

#[derive(Clone, PartialEq)]
pub struct Page {
    pub lsn: u64,
    pub user: Vec<u8>,
}

#[derive(Clone, PartialEq)]
pub struct Pages(pub Vec<Page>);

impl Pages {
    pub fn blank(shape: &Shape) -> Pages {
        let user = vec![0; shape.user_length() as usize];
        Pages(vec![Page { lsn: 0, user }; shape.pages as usize])
    }

    /// Applies a group that ends at this lsn.
    pub fn apply(&mut self, ops: &[Op], end: u64) {
        for op in ops {
            let page = &mut self.0[op.page() as usize];
            page.lsn = end;
            match op {
                Op::Number {
                    width,
                    offset,
                    value,
                    ..
                } => page.put(*offset, &value.to_be_bytes()[8 - *width as usize..]),
                Op::Bytes { offset, bytes, .. } => page.put(*offset, bytes),
                Op::Clear { .. } => page.user.fill(0),
            }
        }
    }

    /// The lines of the pages that a group has changed.
    pub fn lines(&self) -> String {
        let changed = self.0.iter().enumerate().filter(|(_, page)| page.lsn > 0);
        changed
            .map(|(number, page)| format!("p {number} {} {}\n", page.lsn, page.hex()))
            .collect()
    }
}

impl Page {
    fn put(&mut self, offset: u32, bytes: &[u8]) {
        let at = offset as usize - USER_START as usize;
        self.user[at..at + bytes.len()].copy_from_slice(bytes);
    }

    /// The user bytes without the zeros at their end, or a dash.
    fn hex(&self) -> String {
        let length = self
            .user
            .iter()
            .rposition(|byte| *byte != 0)
            .map_or(0, |last| last + 1);
        if length == 0 {
            return "-".to_string();
        }
        const DIGITS: &[u8; 16] = b"0123456789abcdef";
        let digits = |byte: &u8| {
            [
                DIGITS[usize::from(byte >> 4)],
                DIGITS[usize::from(byte & 15)],
            ]
        };
        let hex = self.user[..length].iter().flat_map(digits).map(char::from);
        hex.collect()
    }
}
