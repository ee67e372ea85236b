//! The closer: it advances CTAIL over the links of the recent-closed buffer.

use super::advance::{Advance, Buffer, Came};
use super::words::*;

#[derive(Clone, Copy)]
enum Step {
    Advance,
    Failed,
}

pub struct Closer {
    advance: Advance,
    code: u32,
    checks: bool,
    step: Step,
}

impl Closer {
    pub fn new() -> Closer {
        Closer {
            advance: Advance::new(Buffer::Closed),
            code: 0,
            checks: false,
            step: Step::Advance,
        }
    }

    pub fn next(&self) -> Op {
        if self.checks {
            return Op::Load(FAILED);
        }
        match self.step {
            Step::Advance => self.advance.next(),
            Step::Failed => Op::Rest,
        }
    }

    fn checked(&mut self, n: u64) -> Turn {
        self.checks = false;
        if n == 0 {
            return Turn::Moved;
        }
        self.code = n as u32;
        self.step = Step::Failed;
        Turn::Failed(self.code)
    }

    pub fn took(&mut self, answer: Answer) -> Turn {
        let n = answer.number();
        if self.checks {
            return self.checked(n);
        }
        match self.step {
            Step::Advance => match self.advance.took(n) {
                Came::On | Came::Moved => Turn::Moved,
                Came::Stayed => {
                    self.checks = true;
                    Turn::Idle
                }
            },
            Step::Failed => Turn::Failed(self.code),
        }
    }
}
