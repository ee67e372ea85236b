//! The flusher: it syncs the log device where something is written, and moves FLUSHED.

use super::words::*;

#[derive(Clone, Copy)]
enum Step {
    LoadWrite,
    TakeDevice,
    GiveBroken,
    Sync,
    StoreFlushed,
    GiveDevice,
    StoreFailed,
    GiveFailed,
    Failed,
}

pub struct Flusher {
    last: u64,
    mark: u64,
    code: u32,
    checks: bool,
    step: Step,
}

impl Flusher {
    pub fn new(start: u64) -> Flusher {
        Flusher {
            last: start,
            mark: 0,
            code: 0,
            checks: false,
            step: Step::LoadWrite,
        }
    }

    pub fn next(&self) -> Op {
        if self.checks {
            return Op::Load(FAILED);
        }
        match self.step {
            Step::LoadWrite => Op::Load(WRITE),
            Step::TakeDevice => Op::TakeDevice,
            Step::GiveBroken | Step::GiveDevice | Step::GiveFailed => Op::Store(DEVICE, 0),
            Step::Sync => Op::Sync,
            Step::StoreFlushed => Op::Store(FLUSHED, self.mark),
            Step::StoreFailed => Op::Store(FAILED, u64::from(self.code)),
            Step::Failed => Op::Rest,
        }
    }

    fn goes_on(&mut self, step: Step) -> Turn {
        self.step = step;
        Turn::Moved
    }

    fn waits(&mut self) -> Turn {
        self.checks = true;
        Turn::Idle
    }

    fn fails(&mut self) -> Turn {
        self.step = Step::Failed;
        Turn::Failed(self.code)
    }

    fn checked(&mut self, n: u64) -> Turn {
        self.checks = false;
        if n == 0 {
            return Turn::Moved;
        }
        self.code = n as u32;
        self.fails()
    }

    pub fn took(&mut self, answer: Answer) -> Turn {
        if self.checks {
            return self.checked(answer.number());
        }
        match self.step {
            Step::LoadWrite if answer.number() == self.last => self.waits(),
            Step::LoadWrite => self.goes_on(Step::TakeDevice),
            Step::TakeDevice => match answer {
                Answer::Taken(_) => self.goes_on(Step::Sync),
                Answer::Broken => self.goes_on(Step::GiveBroken),
                _ => self.waits(),
            },
            Step::GiveBroken => {
                self.checks = true;
                self.goes_on(Step::TakeDevice)
            }
            Step::Sync => match answer {
                Answer::Failed(code) => {
                    self.code = code;
                    self.goes_on(Step::StoreFailed)
                }
                _ => {
                    self.mark = answer.number();
                    self.goes_on(Step::StoreFlushed)
                }
            },
            Step::StoreFlushed => {
                self.last = self.mark;
                self.goes_on(Step::GiveDevice)
            }
            Step::GiveDevice => self.goes_on(Step::LoadWrite),
            Step::StoreFailed => self.goes_on(Step::GiveFailed),
            Step::GiveFailed | Step::Failed => self.fails(),
        }
    }
}
