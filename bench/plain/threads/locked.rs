//! What a user would write in place of the ring: a log under one mutex. A user appends its group to a buffer. A writer takes all
//! of it, writes it, syncs, and wakes those that wait.

use super::Log;
use crate::device::{Failure, Sectors};
use crate::log::{BLOCK_DATA, BLOCK_HEADER, BLOCK_SIZE};
use crate::machine::START;
use crate::machine::lsn::{lsn_of, sn_of};
use crate::machine::parts::LogPart;
use crate::machine::words::BUFFER_BLOCKS;
use std::mem;
use std::sync::{Condvar, Mutex, MutexGuard};

/// With a block that isn't full this fits the buffer of the log part.
const MOST: usize = BLOCK_DATA * (BUFFER_BLOCKS as usize - 1);

struct State {
    /// What was appended and not taken.
    bytes: Vec<u8>,
    /// Where the first group starts in a block, of each block in which a group ends that started before it.
    firsts: Vec<(u64, u16)>,
    sn: u64,
    written: u64,
    flushed: u64,
    running: u64,
    has_failed: bool,
}

pub struct Locked<D> {
    state: Mutex<State>,
    /// The writer's alone.
    part: Mutex<LogPart<D>>,
    /// Something was appended, or all users have ended.
    appended: Condvar,
    /// A mark has moved, or a call has failed.
    marked: Condvar,
}

impl<D: Sectors> Locked<D> {
    pub fn new(device: D, ring_blocks: u64, users: u64) -> Result<Locked<D>, Failure> {
        let state = State {
            bytes: Vec::with_capacity(MOST),
            firsts: vec![(START / BLOCK_SIZE as u64, BLOCK_HEADER as u16)],
            sn: sn_of(START),
            written: START,
            flushed: START,
            running: users,
            has_failed: false,
        };
        Ok(Locked {
            state: Mutex::new(state),
            part: Mutex::new(LogPart::new(device, ring_blocks, START)?),
            appended: Condvar::new(),
            marked: Condvar::new(),
        })
    }

    fn wait_while(
        &self,
        state: MutexGuard<'_, State>,
        waits: impl Fn(&State) -> bool,
    ) -> Result<(), Failure> {
        let goes_on = |state: &mut State| !state.has_failed && waits(state);
        let state = self.marked.wait_while(state, goes_on).unwrap();
        if state.has_failed {
            Err(Failure)
        } else {
            Ok(())
        }
    }

    fn mark(&self, answer: Result<(), Failure>, marks: impl Fn(&mut State)) -> Result<(), Failure> {
        let mut state = self.state.lock().unwrap();
        state.has_failed |= answer.is_err();
        marks(&mut state);
        drop(state);
        self.marked.notify_all();
        answer
    }

    /// Writes and syncs until all users have ended.
    pub fn write_on(&self) -> Result<(), Failure> {
        let mut part = self.part.lock().unwrap();
        let mut kept = Kept::default();
        let mut spare = Vec::with_capacity(MOST);
        loop {
            let nothing = |state: &mut State| state.running > 0 && state.bytes.is_empty();
            let state = self.state.lock().unwrap();
            let mut state = self.appended.wait_while(state, nothing).unwrap();
            if state.bytes.is_empty() {
                return Ok(());
            }
            mem::swap(&mut state.bytes, &mut spare);
            let firsts = mem::take(&mut state.firsts);
            let end = lsn_of(state.sn);
            drop(state);
            kept.take(&spare, firsts);
            spare.clear();
            let answer = part.write_to(end, &kept.bytes, kept.begun());
            self.mark(answer, |state| state.written = end)?;
            kept.drop_full();
            let answer = part.sync();
            self.mark(answer, |state| state.flushed = end)?;
        }
    }
}

impl<D: Sectors + Send> Log for Locked<D> {
    fn log(&self, group: &[u8], mode: u32) -> Result<u64, Failure> {
        let full = |state: &mut State| !state.has_failed && state.bytes.len() + group.len() > MOST;
        let state = self.state.lock().unwrap();
        let mut state = self.marked.wait_while(state, full).unwrap();
        let was_empty = state.bytes.is_empty();
        let start = state.append(group);
        if was_empty {
            self.appended.notify_one();
        }
        let end = lsn_of(start + group.len() as u64);
        match mode {
            1 => self.wait_while(state, |state| state.flushed < end)?,
            2 => self.wait_while(state, |state| state.written < end)?,
            _ => {}
        }
        Ok(start)
    }

    fn end_user(&self) {
        self.state.lock().unwrap().running -= 1;
        self.appended.notify_one();
    }
}

impl State {
    fn append(&mut self, group: &[u8]) -> u64 {
        let start = self.sn;
        self.bytes.extend_from_slice(group);
        self.sn += group.len() as u64;
        let end = lsn_of(self.sn);
        let block = BLOCK_SIZE as u64;
        if lsn_of(start) / block < end / block {
            self.firsts.push((end / block, (end % block) as u16));
        }
        start
    }
}

/// The data of the blocks that aren't full, or not written, and where in each the first group starts.
struct Kept {
    bytes: Vec<u8>,
    firsts: Vec<u16>,
    block: u64,
}

impl Default for Kept {
    fn default() -> Kept {
        Kept {
            bytes: Vec::new(),
            firsts: Vec::new(),
            block: START / BLOCK_SIZE as u64,
        }
    }
}

impl Kept {
    fn take(&mut self, bytes: &[u8], firsts: Vec<(u64, u16)>) {
        self.bytes.extend_from_slice(bytes);
        let blocks = self.bytes.len().div_ceil(BLOCK_DATA);
        self.firsts.resize(self.firsts.len().max(blocks), 0);
        for (block, first) in firsts {
            let place = (block - self.block) as usize;
            self.firsts.resize(self.firsts.len().max(place + 1), 0);
            self.firsts[place] = first;
        }
    }

    /// The firsts of the blocks that have data.
    fn begun(&self) -> &[u16] {
        &self.firsts[..self.bytes.len().div_ceil(BLOCK_DATA)]
    }

    fn drop_full(&mut self) {
        let full = self.bytes.len() / BLOCK_DATA;
        self.bytes.drain(..BLOCK_DATA * full);
        self.firsts.drain(..full);
        self.block += full as u64;
    }
}
