//! The page cleaner: it goes round the pages, writes those whose groups are flushed in batches, and takes them out of the
//! flush lists.

use super::words::*;
use crate::store::Shape;
use std::collections::VecDeque;
use std::ops::Range;

pub const USER_START: usize = 38;
const TRAILER: usize = 8;

/// The user bytes of a page of so many bytes.
pub fn user_bytes(page_size: usize) -> Range<usize> {
    USER_START..page_size - TRAILER
}

#[derive(Clone, Copy)]
enum Step {
    LoadFlushed,
    LoadOldest,
    TakeLatch,
    LoadNewest,
    ReleaseSkipped,
    LoadFrame,
    WriteBatch,
    RemoveFromList,
    ClearOldest,
    GiveList,
    ReleaseLatch,
    StoreFailed,
    Failed,
}

pub struct Cleaner {
    pages: u32,
    pub page_size: usize,
    words: PageWords,
    slots: usize,
    flushed: u64,
    page: u32,
    left: u32,
    newest: u64,
    kept: Vec<u8>,
    /// The pages of the batch with their lsns.
    pub batch: VecDeque<(u32, u64)>,
    /// Their user bytes, joined.
    pub users: Vec<u8>,
    code: u32,
    checks: bool,
    step: Step,
}

impl Cleaner {
    /// The cleaner of a store of this shape. A batch has at most as many pages as there are slots.
    pub fn new(shape: Shape) -> Cleaner {
        Cleaner {
            pages: shape.pages as u32,
            page_size: shape.page_size,
            words: PageWords::of(shape.page_size),
            slots: shape.slots,
            flushed: 0,
            page: 0,
            left: 0,
            newest: 0,
            kept: Vec::with_capacity(shape.page_size),
            batch: VecDeque::with_capacity(shape.slots),
            users: Vec::with_capacity(shape.slots * user_bytes(shape.page_size).len()),
            code: 0,
            checks: false,
            step: Step::LoadFlushed,
        }
    }

    fn first(&self) -> u32 {
        self.batch[0].0
    }

    pub fn next(&self) -> Op {
        if self.checks {
            return Op::Load(FAILED);
        }
        match self.step {
            Step::LoadFlushed => Op::Load(FLUSHED),
            Step::LoadOldest => Op::Load(self.words.oldest(self.page)),
            Step::TakeLatch => Op::Swap(self.words.latch(self.page), 0, 1),
            Step::LoadNewest => Op::Load(self.words.newest(self.page)),
            Step::ReleaseSkipped => Op::Store(self.words.latch(self.page), 0),
            Step::LoadFrame => Op::Load(self.words.frame(self.page, self.kept.len() / 8)),
            Step::WriteBatch => Op::WriteBatch,
            Step::RemoveFromList => Op::TakeRemove(self.first()),
            Step::ClearOldest => Op::Store(self.words.oldest(self.first()), 0),
            Step::GiveList => Op::Store(list(self.first()), 0),
            Step::ReleaseLatch => Op::Store(self.words.latch(self.first()), 0),
            Step::StoreFailed => Op::Store(FAILED, u64::from(self.code)),
            Step::Failed => Op::Rest,
        }
    }

    fn goes_on(&mut self, step: Step) -> Turn {
        self.step = step;
        Turn::Moved
    }

    fn waits(&mut self) -> Turn {
        self.checks = true;
        Turn::Idle
    }

    fn fails(&mut self) -> Turn {
        self.step = Step::Failed;
        Turn::Failed(self.code)
    }

    fn checked(&mut self, n: u64) -> Turn {
        self.checks = false;
        if n == 0 {
            return Turn::Moved;
        }
        self.code = n as u32;
        self.fails()
    }

    fn begins_round(&mut self, flushed: u64) -> Turn {
        self.flushed = flushed;
        self.left = self.pages;
        self.users.clear();
        self.goes_on(Step::LoadOldest)
    }

    fn next_in_round(&mut self) -> Turn {
        let is_over = self.left == 1 || self.batch.len() == self.slots;
        self.page = (self.page + 1) % self.pages;
        self.left -= 1;
        if !is_over {
            self.goes_on(Step::LoadOldest)
        } else if self.batch.is_empty() {
            self.step = Step::LoadFlushed;
            self.waits()
        } else {
            self.goes_on(Step::WriteBatch)
        }
    }

    fn loaded_newest(&mut self, newest: u64) -> Turn {
        if self.flushed < newest {
            return self.goes_on(Step::ReleaseSkipped);
        }
        self.newest = newest;
        self.kept.clear();
        self.goes_on(Step::LoadFrame)
    }

    fn loaded_word(&mut self, word: u64) -> Turn {
        self.kept.extend_from_slice(&word.to_le_bytes());
        if self.kept.len() < self.page_size {
            return Turn::Moved;
        }
        self.batch.push_back((self.page, self.newest));
        let user = &self.kept[user_bytes(self.page_size)];
        self.users.extend_from_slice(user);
        self.next_in_round()
    }

    pub fn took(&mut self, answer: Answer) -> Turn {
        let n = answer.number();
        if self.checks {
            return self.checked(n);
        }
        match self.step {
            Step::LoadFlushed => self.begins_round(n),
            Step::LoadOldest if n == 0 => self.next_in_round(),
            Step::LoadOldest => self.goes_on(Step::TakeLatch),
            Step::TakeLatch if n == 0 => self.goes_on(Step::LoadNewest),
            Step::TakeLatch | Step::ReleaseSkipped => self.next_in_round(),
            Step::LoadNewest => self.loaded_newest(n),
            Step::LoadFrame => self.loaded_word(n),
            Step::WriteBatch => match answer {
                Answer::Failed(code) => {
                    self.code = code;
                    self.goes_on(Step::StoreFailed)
                }
                _ => self.goes_on(Step::RemoveFromList),
            },
            Step::RemoveFromList => match answer {
                Answer::Taken(_) => self.goes_on(Step::ClearOldest),
                _ => self.waits(),
            },
            Step::ClearOldest => self.goes_on(Step::GiveList),
            Step::GiveList => self.goes_on(Step::ReleaseLatch),
            Step::ReleaseLatch => {
                self.batch.pop_front();
                if self.batch.is_empty() {
                    self.goes_on(Step::LoadFlushed)
                } else {
                    self.goes_on(Step::RemoveFromList)
                }
            }
            Step::StoreFailed | Step::Failed => self.fails(),
        }
    }
}
