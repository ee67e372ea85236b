//! A user: it reserves a place for the group of each of its lines, copies the group there, changes its pages, and awaits
//! the mark that its line names.

use super::advance::{Advance, Buffer, Came};
use super::lsn::{floor, lsn_of};
use super::words::*;
use crate::group::ChangedPage;
use crate::log::{BLOCK_DATA, BLOCK_SIZE};

pub const FREE_MARGIN: u64 = 278_528;

pub struct Line {
    pub mode: u32,
    pub bytes: Vec<u8>,
    pub pages: Vec<ChangedPage>,
}

#[derive(Clone, Copy, PartialEq)]
enum Step {
    LoadCheckpoint,
    LoadSn,
    TakeLatch,
    Reserve,
    LoadWrite,
    StoreCell,
    StoreFirst,
    LoadWtail,
    AdvanceWritten,
    ReloadWtail,
    StoreLink,
    LoadCtail,
    AdvanceClosed,
    ReloadCtail,
    LoadFrame,
    StoreFrame,
    StoreNewest,
    LoadOldest,
    AddToList,
    StoreOldest,
    GiveList,
    StoreClosedLink,
    ReleaseLatch,
    AwaitMark,
    Done,
    Failed,
}

pub struct User {
    pub number: u32,
    blocks: u64,
    words: PageWords,
    pub lines: Vec<Line>,
    pub starts: Vec<u64>,
    pub answered: usize,
    start: u64,
    copied: usize,
    page: usize,
    cell: usize,
    word: u64,
    written: Advance,
    closed: Advance,
    ckpt: u64,
    code: u32,
    checks: bool,
    step: Step,
}

impl User {
    pub fn new(number: u32, lines: Vec<Line>, blocks: u64, words: PageWords) -> User {
        User {
            number,
            blocks,
            words,
            starts: Vec::with_capacity(lines.len()),
            lines,
            answered: 0,
            start: 0,
            copied: 0,
            page: 0,
            cell: 0,
            word: 0,
            written: Advance::new(Buffer::Written),
            closed: Advance::new(Buffer::Closed),
            ckpt: 0,
            code: 0,
            checks: true,
            step: Step::LoadCheckpoint,
        }
    }

    pub fn has_ended(&self) -> bool {
        matches!(self.step, Step::Done | Step::Failed)
    }

    fn line(&self) -> &Line {
        &self.lines[self.answered]
    }

    fn end_sn(&self) -> u64 {
        self.start + self.line().bytes.len() as u64
    }

    fn next_count(&self) -> usize {
        let lsn = lsn_of(self.start + self.copied as u64);
        (left_in_word(lsn) as usize).min(self.line().bytes.len() - self.copied)
    }

    /// The changed cells of the word that it is at.
    fn frame_cells(&self) -> &[(u16, u8)] {
        let cells = &self.line().pages[self.page].cells[self.cell..];
        let word = cells[0].0 / 8;
        let count = cells
            .iter()
            .take(8)
            .take_while(|cell| cell.0 / 8 == word)
            .count();
        &cells[..count]
    }

    fn frame_word(&self) -> usize {
        usize::from(self.line().pages[self.page].cells[self.cell].0) / 8
    }

    fn end(&self) -> u64 {
        lsn_of(self.end_sn())
    }

    fn page_number(&self) -> u32 {
        self.line().pages[self.page].page
    }

    pub fn next(&self) -> Op {
        if self.checks {
            return Op::Load(FAILED);
        }
        let (start, words) = (lsn_of(self.start), self.words);
        match self.step {
            Step::LoadCheckpoint => Op::Load(CKPT),
            Step::LoadSn => Op::Load(SN),
            Step::TakeLatch => Op::Swap(words.latch(self.page_number()), 0, 1),
            Step::Reserve => Op::Add(SN, self.line().bytes.len() as u64),
            Step::LoadWrite => Op::Load(WRITE),
            Step::StoreCell => {
                let lsn = lsn_of(self.start + self.copied as u64);
                let lane = (lsn % 8) as usize;
                let bytes = &self.line().bytes[self.copied..self.copied + self.next_count()];
                let mut lanes = [0; 8];
                lanes[lane..lane + bytes.len()].copy_from_slice(bytes);
                Op::Add(cell(lsn), u64::from_le_bytes(lanes))
            }
            Step::StoreFirst => Op::Store(first(self.end()), self.end() % BLOCK_SIZE as u64),
            Step::LoadWtail | Step::ReloadWtail => Op::Load(WTAIL),
            Step::AdvanceWritten => self.written.next(),
            Step::StoreLink => Op::Store(written_link(start), self.end() - start),
            Step::LoadCtail | Step::ReloadCtail => Op::Load(CTAIL),
            Step::AdvanceClosed => self.closed.next(),
            Step::LoadFrame => Op::Load(words.frame(self.page_number(), self.frame_word())),
            Step::StoreFrame => {
                let mut lanes = self.word.to_le_bytes();
                for &(at, value) in self.frame_cells() {
                    lanes[usize::from(at) % 8] = value;
                }
                Op::Store(
                    words.frame(self.page_number(), self.frame_word()),
                    u64::from_le_bytes(lanes),
                )
            }
            Step::StoreNewest => Op::Store(words.newest(self.page_number()), self.end()),
            Step::LoadOldest => Op::Load(words.oldest(self.page_number())),
            Step::AddToList => Op::TakeAdd(self.page_number(), start),
            Step::StoreOldest => Op::Store(words.oldest(self.page_number()), start),
            Step::GiveList => Op::Store(list(self.page_number()), 0),
            Step::StoreClosedLink => Op::Store(closed_link(start), self.end() - start),
            Step::ReleaseLatch => Op::Store(words.latch(self.page_number()), 0),
            Step::AwaitMark if self.line().mode == 1 => Op::Load(FLUSHED),
            Step::AwaitMark => Op::Load(WRITE),
            Step::Done | Step::Failed => Op::Rest,
        }
    }

    fn goes_on(&mut self, step: Step) -> Turn {
        self.step = step;
        Turn::Moved
    }

    fn waits(&mut self) -> Turn {
        self.checks = true;
        Turn::Idle
    }

    fn waits_at(&mut self, step: Step) -> Turn {
        self.step = step;
        self.waits()
    }

    /// A step of an advance: where that moves the tail, the user loads the tail again, and else it waits.
    fn advanced(&mut self, came: Came, load: Step, reload: Step) -> Turn {
        match came {
            Came::On => Turn::Moved,
            Came::Moved => self.goes_on(reload),
            Came::Stayed => self.waits_at(load),
        }
    }

    fn checked(&mut self, n: u64) -> Turn {
        self.checks = false;
        if n == 0 {
            return Turn::Moved;
        }
        self.code = n as u32;
        self.step = Step::Failed;
        Turn::Failed(self.code)
    }

    fn answers(&mut self) -> Turn {
        self.answered += 1;
        if self.answered == self.lines.len() {
            self.step = Step::Done;
            return Turn::Ended;
        }
        self.checks = true;
        self.goes_on(Step::LoadCheckpoint)
    }

    fn linked(&mut self) -> Turn {
        if self.line().mode == 0 {
            self.answers()
        } else {
            self.goes_on(Step::AwaitMark)
        }
    }

    fn to_cells(&mut self) -> Turn {
        if self.line().pages[self.page].cells.len() == self.cell {
            self.goes_on(Step::StoreNewest)
        } else if self.frame_cells().len() == 8 {
            self.word = 0;
            self.goes_on(Step::StoreFrame)
        } else {
            self.goes_on(Step::LoadFrame)
        }
    }

    fn to_next_page(&mut self) -> Turn {
        self.page += 1;
        self.cell = 0;
        if self.page == self.line().pages.len() {
            self.goes_on(Step::StoreClosedLink)
        } else {
            self.to_cells()
        }
    }

    fn checks_space(&mut self, n: u64) -> Turn {
        if lsn_of(n) + FREE_MARGIN > self.ckpt + BLOCK_SIZE as u64 * self.blocks {
            return self.waits_at(Step::LoadCheckpoint);
        }
        self.page = 0;
        if self.line().pages.is_empty() {
            self.goes_on(Step::Reserve)
        } else {
            self.goes_on(Step::TakeLatch)
        }
    }

    fn took_latch(&mut self) -> Turn {
        self.page += 1;
        if self.page == self.line().pages.len() {
            self.goes_on(Step::Reserve)
        } else {
            Turn::Moved
        }
    }

    fn reserved(&mut self, n: u64) -> Turn {
        self.starts.push(n);
        self.start = n;
        self.copied = 0;
        self.page = 0;
        self.cell = 0;
        self.goes_on(Step::LoadWrite)
    }

    fn copied(&mut self) -> Turn {
        self.copied += self.next_count();
        let blocks = BLOCK_DATA as u64;
        if self.copied < self.line().bytes.len() {
            Turn::Moved
        } else if self.start / blocks < self.end_sn() / blocks {
            self.goes_on(Step::StoreFirst)
        } else {
            self.goes_on(Step::LoadWtail)
        }
    }

    fn released(&mut self) -> Turn {
        if self.page + 1 == self.line().pages.len() {
            return self.linked();
        }
        self.page += 1;
        Turn::Moved
    }

    pub fn took(&mut self, answer: Answer) -> Turn {
        let n = answer.number();
        if self.checks {
            return self.checked(n);
        }
        let start = lsn_of(self.start);
        match self.step {
            Step::LoadCheckpoint => {
                self.ckpt = n;
                self.goes_on(Step::LoadSn)
            }
            Step::LoadSn => self.checks_space(n),
            Step::TakeLatch if n == 0 => self.took_latch(),
            Step::Reserve => self.reserved(n),
            Step::LoadWrite if self.end() < floor(n) + LOG_BUFFER => self.goes_on(Step::StoreCell),
            Step::StoreCell => self.copied(),
            Step::StoreFirst => self.goes_on(Step::LoadWtail),
            Step::LoadWtail | Step::ReloadWtail if start < tail_of(n) + WRITTEN_LINKS => {
                self.goes_on(Step::StoreLink)
            }
            Step::LoadWtail => self.goes_on(Step::AdvanceWritten),
            Step::AdvanceWritten => {
                let came = self.written.took(n);
                self.advanced(came, Step::LoadWtail, Step::ReloadWtail)
            }
            Step::ReloadWtail => self.waits_at(Step::LoadWtail),
            Step::StoreLink if self.line().pages.is_empty() => self.linked(),
            Step::StoreLink => self.goes_on(Step::LoadCtail),
            Step::LoadCtail | Step::ReloadCtail if start < tail_of(n) + CLOSED_LINKS => {
                self.to_cells()
            }
            Step::LoadCtail => self.goes_on(Step::AdvanceClosed),
            Step::AdvanceClosed => {
                let came = self.closed.took(n);
                self.advanced(came, Step::LoadCtail, Step::ReloadCtail)
            }
            Step::ReloadCtail => self.waits_at(Step::LoadCtail),
            Step::LoadFrame => {
                self.word = n;
                self.goes_on(Step::StoreFrame)
            }
            Step::StoreFrame => {
                self.cell += self.frame_cells().len();
                self.to_cells()
            }
            Step::StoreNewest => self.goes_on(Step::LoadOldest),
            Step::LoadOldest if n == 0 => self.goes_on(Step::AddToList),
            Step::LoadOldest | Step::GiveList => self.to_next_page(),
            Step::AddToList if matches!(answer, Answer::Taken(_)) => {
                self.goes_on(Step::StoreOldest)
            }
            Step::StoreOldest => self.goes_on(Step::GiveList),
            Step::StoreClosedLink => {
                self.page = 0;
                self.goes_on(Step::ReleaseLatch)
            }
            Step::ReleaseLatch => self.released(),
            Step::AwaitMark if self.end() <= n => self.answers(),
            Step::TakeLatch | Step::LoadWrite | Step::AddToList | Step::AwaitMark => self.waits(),
            Step::Done => Turn::Ended,
            Step::Failed => Turn::Failed(self.code),
        }
    }
}
