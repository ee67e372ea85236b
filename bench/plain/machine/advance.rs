//! An advance of a tail: it takes the tail's word where that is free, follows the links from the tail on, clearing each, and
//! frees the word with the place to which they lead.

use super::words::*;

/// An advance loads links less than so many lsns past the tail.
const PLACES: u64 = 32_768;

/// One of the two link buffers.
#[derive(Clone, Copy)]
pub enum Buffer {
    Written,
    Closed,
}

impl Buffer {
    fn tail(self) -> usize {
        match self {
            Buffer::Written => WTAIL,
            Buffer::Closed => CTAIL,
        }
    }

    fn link(self, lsn: u64) -> usize {
        match self {
            Buffer::Written => written_link(lsn),
            Buffer::Closed => closed_link(lsn),
        }
    }
}

#[derive(Clone, Copy)]
enum Step {
    LoadTail,
    TakeTail,
    LoadLink,
    ClearLink,
    FreeTail,
}

/// What a step came to: the advance goes on, or ends with the tail where it was or further on.
pub enum Came {
    On,
    Stayed,
    Moved,
}

pub struct Advance {
    buffer: Buffer,
    tail: u64,
    /// Where it has come to, or else the tail that it has loaded.
    pub place: u64,
    link: u64,
    step: Step,
}

impl Advance {
    pub fn new(buffer: Buffer) -> Advance {
        Advance {
            buffer,
            tail: 0,
            place: 0,
            link: 0,
            step: Step::LoadTail,
        }
    }

    pub fn next(&self) -> Op {
        let tail = self.buffer.tail();
        match self.step {
            Step::LoadTail => Op::Load(tail),
            Step::TakeTail => Op::Swap(tail, free(self.tail), free(self.tail) + 1),
            Step::LoadLink => Op::Load(self.buffer.link(self.place)),
            Step::ClearLink => Op::Store(self.buffer.link(self.place), 0),
            Step::FreeTail => Op::Store(tail, free(self.place)),
        }
    }

    fn goes_on(&mut self, step: Step) -> Came {
        self.step = step;
        Came::On
    }

    fn stays(&mut self) -> Came {
        self.step = Step::LoadTail;
        Came::Stayed
    }

    fn follows_link(&mut self) -> Came {
        self.place += self.link;
        if self.place < self.tail + PLACES {
            self.goes_on(Step::LoadLink)
        } else {
            self.goes_on(Step::FreeTail)
        }
    }

    pub fn took(&mut self, n: u64) -> Came {
        match self.step {
            Step::LoadTail => {
                self.tail = tail_of(n);
                self.place = self.tail;
                if n == free(self.tail) {
                    self.goes_on(Step::TakeTail)
                } else {
                    self.stays()
                }
            }
            Step::TakeTail if n == free(self.tail) => self.goes_on(Step::LoadLink),
            Step::TakeTail => self.stays(),
            Step::LoadLink if n == 0 => self.goes_on(Step::FreeTail),
            Step::LoadLink => {
                self.link = n;
                self.goes_on(Step::ClearLink)
            }
            Step::ClearLink => self.follows_link(),
            Step::FreeTail if self.place == self.tail => self.stays(),
            Step::FreeTail => {
                self.step = Step::LoadTail;
                Came::Moved
            }
        }
    }
}
