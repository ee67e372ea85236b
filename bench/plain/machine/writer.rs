//! The writer: it advances WTAIL over the links of the recent-written buffer, reads the groups out of the log buffer and writes
//! them.

use super::advance::{Advance, Buffer, Came};
use super::lsn::{lsn_of, sn_of};
use super::words::*;
use crate::log::{BLOCK_DATA, BLOCK_SIZE};

#[derive(Clone, Copy)]
enum Step {
    Advance,
    LoadCheckpoint,
    LoadFirst,
    ClearFirst,
    LoadCell,
    ClearCell,
    TakeDevice,
    GiveBroken,
    WriteTo,
    StoreWrite,
    GiveDevice,
    StoreFailed,
    GiveFailed,
    Failed,
}

pub struct Writer {
    blocks: u64,
    advance: Advance,
    // it writes up to this place
    tail: u64,
    write: u64,
    from: u64,
    pub kept: Vec<u8>,
    pub firsts: Vec<u16>,
    first: u16,
    word: u64,
    code: u32,
    checks: bool,
    step: Step,
}

impl Writer {
    pub fn new(start: u64, blocks: u64) -> Writer {
        Writer {
            blocks,
            advance: Advance::new(Buffer::Written),
            tail: start,
            write: start,
            from: sn_of(start),
            kept: Vec::with_capacity(LOG_BUFFER as usize),
            firsts: Vec::with_capacity(BUFFER_BLOCKS as usize),
            first: 0,
            word: 0,
            code: 0,
            checks: false,
            step: Step::Advance,
        }
    }

    fn place(&self) -> u64 {
        lsn_of(self.from + self.kept.len() as u64)
    }

    pub fn next(&self) -> Op {
        if self.checks {
            return Op::Load(FAILED);
        }
        match self.step {
            Step::Advance => self.advance.next(),
            Step::LoadCheckpoint => Op::Load(CKPT),
            Step::LoadFirst => Op::Load(first(self.place())),
            Step::ClearFirst => Op::Store(first(self.place()), 0),
            Step::LoadCell => Op::Load(cell(self.place())),
            Step::ClearCell => Op::Store(cell(self.place()), 0),
            Step::TakeDevice => Op::TakeDevice,
            Step::GiveBroken | Step::GiveDevice | Step::GiveFailed => Op::Store(DEVICE, 0),
            Step::WriteTo => Op::WriteTo(self.tail),
            Step::StoreWrite => Op::Store(WRITE, self.tail),
            Step::StoreFailed => Op::Store(FAILED, u64::from(self.code)),
            Step::Failed => Op::Rest,
        }
    }

    fn goes_on(&mut self, step: Step) -> Turn {
        self.step = step;
        Turn::Moved
    }

    fn waits(&mut self) -> Turn {
        self.checks = true;
        Turn::Idle
    }

    fn fails(&mut self) -> Turn {
        self.step = Step::Failed;
        Turn::Failed(self.code)
    }

    fn checked(&mut self, n: u64) -> Turn {
        self.checks = false;
        if n == 0 {
            return Turn::Moved;
        }
        self.code = n as u32;
        self.fails()
    }

    fn to_byte(&mut self) -> Turn {
        if self.kept.len() == BLOCK_DATA * self.firsts.len() {
            self.goes_on(Step::LoadFirst)
        } else {
            self.goes_on(Step::LoadCell)
        }
    }

    /// The advance has ended, at the place that it has stored, or at the tail that it has loaded.
    fn advanced(&mut self) -> Turn {
        self.tail = self.advance.place;
        if self.tail > self.write {
            self.goes_on(Step::LoadCheckpoint)
        } else {
            self.waits()
        }
    }

    fn checks_space(&mut self, ckpt: u64) -> Turn {
        let end = self.tail.next_multiple_of(BLOCK_SIZE as u64);
        if end <= ckpt + BLOCK_SIZE as u64 * self.blocks {
            self.to_byte()
        } else {
            self.waits()
        }
    }

    fn written(&mut self) -> Turn {
        let full = self.kept.len() / BLOCK_DATA;
        self.write = self.tail;
        self.from += (BLOCK_DATA * full) as u64;
        self.kept.drain(..BLOCK_DATA * full);
        self.firsts.drain(..full);
        self.goes_on(Step::GiveDevice)
    }

    pub fn took(&mut self, answer: Answer) -> Turn {
        let n = answer.number();
        if self.checks {
            return self.checked(n);
        }
        match self.step {
            Step::Advance => match self.advance.took(n) {
                Came::On => Turn::Moved,
                Came::Stayed | Came::Moved => self.advanced(),
            },
            Step::LoadCheckpoint => self.checks_space(n),
            Step::LoadFirst => {
                self.first = n as u16;
                self.goes_on(Step::ClearFirst)
            }
            Step::ClearFirst => {
                self.firsts.push(self.first);
                self.goes_on(Step::LoadCell)
            }
            Step::LoadCell => {
                let (left, below) = (
                    left_in_word(self.place()),
                    self.tail.saturating_sub(self.place()),
                );
                if left <= below {
                    self.word = n;
                    return self.goes_on(Step::ClearCell);
                }
                let lane = (self.place() % 8) as usize;
                self.kept
                    .extend_from_slice(&n.to_le_bytes()[lane..lane + below as usize]);
                self.goes_on(Step::TakeDevice)
            }
            Step::ClearCell => {
                let (lane, left) = (
                    (self.place() % 8) as usize,
                    left_in_word(self.place()) as usize,
                );
                self.kept
                    .extend_from_slice(&self.word.to_le_bytes()[lane..lane + left]);
                if self.place() == self.tail {
                    self.goes_on(Step::TakeDevice)
                } else {
                    self.to_byte()
                }
            }
            Step::TakeDevice => match answer {
                Answer::Taken(_) => self.goes_on(Step::WriteTo),
                Answer::Broken => self.goes_on(Step::GiveBroken),
                _ => self.waits(),
            },
            Step::GiveBroken => {
                self.checks = true;
                self.goes_on(Step::TakeDevice)
            }
            Step::WriteTo => match answer {
                Answer::Failed(code) => {
                    self.code = code;
                    self.goes_on(Step::StoreFailed)
                }
                _ => self.goes_on(Step::StoreWrite),
            },
            Step::StoreWrite => self.written(),
            Step::GiveDevice => self.goes_on(Step::Advance),
            Step::StoreFailed => self.goes_on(Step::GiveFailed),
            Step::GiveFailed | Step::Failed => self.fails(),
        }
    }
}
