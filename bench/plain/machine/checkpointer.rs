//! The checkpointer: it writes checkpoints at lsns below which no page lacks a group, and moves CKPT.

use super::lsn::floor;
use super::words::*;

#[derive(Clone, Copy)]
enum Step {
    LoadCtail,
    ReadList,
    GiveList,
    LoadFlushed,
    TakeDevice,
    GiveBroken,
    Checkpoint,
    StoreCheckpoint,
    GiveDevice,
    StoreFailed,
    GiveFailed,
    Failed,
}

pub struct Checkpointer {
    own: u64,
    to: u64,
    list: usize,
    code: u32,
    checks: bool,
    step: Step,
}

impl Checkpointer {
    pub fn new(start: u64) -> Checkpointer {
        Checkpointer {
            own: floor(start),
            to: 0,
            list: 0,
            code: 0,
            checks: false,
            step: Step::LoadCtail,
        }
    }

    pub fn next(&self) -> Op {
        if self.checks {
            return Op::Load(FAILED);
        }
        match self.step {
            Step::LoadCtail => Op::Load(CTAIL),
            Step::ReadList => Op::TakeOldest(self.list),
            Step::GiveList => Op::Store(list_word(self.list), 0),
            Step::LoadFlushed => Op::Load(FLUSHED),
            Step::TakeDevice => Op::TakeDevice,
            Step::GiveBroken | Step::GiveDevice | Step::GiveFailed => Op::Store(DEVICE, 0),
            Step::Checkpoint => Op::Checkpoint(self.to),
            Step::StoreCheckpoint => Op::Store(CKPT, self.to),
            Step::StoreFailed => Op::Store(FAILED, u64::from(self.code)),
            Step::Failed => Op::Rest,
        }
    }

    fn goes_on(&mut self, step: Step) -> Turn {
        self.step = step;
        Turn::Moved
    }

    fn waits(&mut self) -> Turn {
        self.checks = true;
        Turn::Idle
    }

    fn fails(&mut self) -> Turn {
        self.step = Step::Failed;
        Turn::Failed(self.code)
    }

    fn checked(&mut self, n: u64) -> Turn {
        self.checks = false;
        if n == 0 {
            return Turn::Moved;
        }
        self.code = n as u32;
        self.fails()
    }

    fn gave_list(&mut self) -> Turn {
        self.list += 1;
        if self.list == LISTS {
            self.goes_on(Step::LoadFlushed)
        } else {
            self.goes_on(Step::ReadList)
        }
    }

    fn chooses(&mut self, flushed: u64) -> Turn {
        let candidate = floor(self.to.min(flushed));
        if self.own < candidate {
            self.to = candidate;
            self.goes_on(Step::TakeDevice)
        } else {
            self.step = Step::LoadCtail;
            self.waits()
        }
    }

    pub fn took(&mut self, answer: Answer) -> Turn {
        let n = answer.number();
        if self.checks {
            return self.checked(n);
        }
        match self.step {
            Step::LoadCtail => {
                self.to = tail_of(n);
                self.list = 0;
                self.goes_on(Step::ReadList)
            }
            Step::ReadList => match answer {
                Answer::Taken(oldest) => {
                    if let Some(oldest) = oldest {
                        self.to = self.to.min(oldest.saturating_sub(CLOSED_LINKS));
                    }
                    self.goes_on(Step::GiveList)
                }
                _ => self.waits(),
            },
            Step::GiveList => self.gave_list(),
            Step::LoadFlushed => self.chooses(n),
            Step::TakeDevice => match answer {
                Answer::Taken(_) => self.goes_on(Step::Checkpoint),
                Answer::Broken => self.goes_on(Step::GiveBroken),
                _ => self.waits(),
            },
            Step::GiveBroken => {
                self.checks = true;
                self.goes_on(Step::TakeDevice)
            }
            Step::Checkpoint => match answer {
                Answer::Failed(code) => {
                    self.code = code;
                    self.goes_on(Step::StoreFailed)
                }
                _ => self.goes_on(Step::StoreCheckpoint),
            },
            Step::StoreCheckpoint => {
                self.own = self.to;
                self.goes_on(Step::GiveDevice)
            }
            Step::GiveDevice => self.goes_on(Step::LoadCtail),
            Step::StoreFailed => self.goes_on(Step::GiveFailed),
            Step::GiveFailed | Step::Failed => self.fails(),
        }
    }
}
