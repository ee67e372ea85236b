//! The ring written out by hand, the log alone: the words that the actors share, and a function for a user, the writer and the
//! flusher each.

use super::Log;
use super::backoff::Backoff;
use crate::device::{Failure, Sectors};
use crate::log::{BLOCK_DATA, BLOCK_HEADER, BLOCK_SIZE};
use crate::machine::lsn::{floor, lsn_of, sn_of};
use crate::machine::parts::LogPart;
use crate::machine::words::{BUFFER_BLOCKS, LOG_BUFFER, WRITTEN_LINKS, left_in_word};
use crate::machine::{FREE_MARGIN, START};
use std::sync::Mutex;
use std::sync::atomic::AtomicU64;
use std::sync::atomic::Ordering::SeqCst;

const DATA: u64 = BLOCK_DATA as u64;

/// A word with a line of the cache of its own.
#[repr(align(64))]
struct Hot(AtomicU64);

pub struct Ring<D> {
    sn: Hot,
    write: Hot,
    wtail: Hot,
    flushed: Hot,
    failed: Hot,
    running: Hot,
    links: Vec<AtomicU64>,
    cells: Vec<AtomicU64>,
    firsts: Vec<AtomicU64>,
    ring_blocks: u64,
    device: Mutex<LogPart<D>>,
}

fn zeros(count: u64) -> Vec<AtomicU64> {
    (0..count).map(|_| AtomicU64::new(0)).collect()
}

fn hot(number: u64) -> Hot {
    Hot(AtomicU64::new(number))
}

impl<D: Sectors> Ring<D> {
    pub fn new(device: D, ring_blocks: u64, users: u64) -> Result<Ring<D>, Failure> {
        let ring = Ring {
            sn: hot(sn_of(START)),
            write: hot(START),
            wtail: hot(START),
            flushed: hot(START),
            failed: hot(0),
            running: hot(users),
            links: zeros(WRITTEN_LINKS),
            cells: zeros(LOG_BUFFER / 8),
            firsts: zeros(BUFFER_BLOCKS),
            ring_blocks,
            device: Mutex::new(LogPart::new(device, ring_blocks, START)?),
        };
        ring.first(START).store(BLOCK_HEADER as u64, SeqCst);
        Ok(ring)
    }

    fn link(&self, lsn: u64) -> &AtomicU64 {
        &self.links[(lsn % WRITTEN_LINKS) as usize]
    }

    fn cell(&self, lsn: u64) -> &AtomicU64 {
        &self.cells[(lsn % LOG_BUFFER / 8) as usize]
    }

    fn first(&self, lsn: u64) -> &AtomicU64 {
        &self.firsts[(lsn / BLOCK_SIZE as u64 % BUFFER_BLOCKS) as usize]
    }

    fn has_room(&self, end: u64) -> bool {
        end + FREE_MARGIN <= floor(START) + self.ring_blocks * BLOCK_SIZE as u64
    }

    fn wait_until(&self, holds: impl Fn() -> bool) -> Result<(), Failure> {
        let mut backoff = Backoff::new();
        while !holds() {
            if self.failed.0.load(SeqCst) != 0 {
                return Err(Failure);
            }
            backoff.snooze();
        }
        Ok(())
    }

    fn copy(&self, from: u64, group: &[u8]) {
        let (mut lsn, mut rest) = (from, group);
        while !rest.is_empty() {
            let (bytes, more) = rest.split_at(rest.len().min(left_in_word(lsn) as usize));
            let lane = (lsn % 8) as usize;
            let mut lanes = [0; 8];
            lanes[lane..lane + bytes.len()].copy_from_slice(bytes);
            self.cell(lsn).fetch_add(u64::from_le_bytes(lanes), SeqCst);
            lsn = lsn_of(sn_of(lsn) + bytes.len() as u64);
            rest = more;
        }
    }

    fn is_over(&self) -> bool {
        self.running.0.load(SeqCst) == 0
    }

    fn fails_by<T>(&self, answer: Result<T, Failure>) -> Result<T, Failure> {
        answer.inspect_err(|_| self.failed.0.store(1, SeqCst))
    }

    /// Goes along the links from here on, and clears them.
    fn follow(&self, from: u64, limit: u64) -> u64 {
        let mut tail = from;
        while tail < limit {
            let length = self.link(tail).load(SeqCst);
            if length == 0 {
                break;
            }
            self.link(tail).store(0, SeqCst);
            tail += length;
        }
        tail
    }

    pub fn write_on(&self) -> Result<(), Failure> {
        let mut write = START;
        let mut kept = Kept::default();
        let mut backoff = Backoff::new();
        loop {
            let tail = self.follow(write, write + WRITTEN_LINKS);
            if tail == write && self.is_over() {
                return Ok(());
            } else if tail == write {
                backoff.snooze();
                continue;
            }
            backoff.reset();
            self.wtail.0.store(tail, SeqCst);
            self.read(&mut kept, write, tail);
            let answer = self
                .device
                .lock()
                .unwrap()
                .write_to(tail, &kept.bytes, &kept.firsts);
            self.fails_by(answer)?;
            self.write.0.store(tail, SeqCst);
            write = tail;
            kept.drop_full();
        }
    }

    /// Reads the ring from one mark to the next, and clears the words whose data was read whole.
    fn read(&self, kept: &mut Kept, from: u64, tail: u64) {
        let mut lsn = from;
        while lsn < tail {
            if kept.bytes.len() == BLOCK_DATA * kept.firsts.len() {
                kept.firsts.push(self.first(lsn).swap(0, SeqCst) as u16);
            }
            let count = left_in_word(lsn).min(tail - lsn);
            let word = self.cell(lsn).load(SeqCst);
            if count == left_in_word(lsn) {
                // only lanes that this read has taken
                self.cell(lsn).store(0, SeqCst);
            }
            let lane = (lsn % 8) as usize;
            kept.bytes
                .extend_from_slice(&word.to_le_bytes()[lane..lane + count as usize]);
            lsn = lsn_of(sn_of(lsn) + count);
        }
    }

    pub fn flush_on(&self) -> Result<(), Failure> {
        let mut last = START;
        let mut backoff = Backoff::new();
        loop {
            if self.write.0.load(SeqCst) != last {
                backoff.reset();
                let mut device = self.device.lock().unwrap();
                let answer = device.sync();
                last = device.stable;
                drop(device);
                self.fails_by(answer)?;
                self.flushed.0.store(last, SeqCst);
            } else if self.is_over() {
                return Ok(());
            } else {
                backoff.snooze();
            }
        }
    }
}

impl<D: Sectors + Send> Log for Ring<D> {
    fn log(&self, group: &[u8], mode: u32) -> Result<u64, Failure> {
        self.wait_until(|| self.has_room(lsn_of(self.sn.0.load(SeqCst))))?;
        let start = self.sn.0.fetch_add(group.len() as u64, SeqCst);
        let end_sn = start + group.len() as u64;
        let (from, end) = (lsn_of(start), lsn_of(end_sn));
        self.wait_until(|| end < floor(self.write.0.load(SeqCst)) + LOG_BUFFER)?;
        self.copy(from, group);
        if start / DATA < end_sn / DATA {
            self.first(end).store(end % BLOCK_SIZE as u64, SeqCst);
        }
        self.wait_until(|| from < self.wtail.0.load(SeqCst) + WRITTEN_LINKS)?;
        self.link(from).store(end - from, SeqCst);
        match mode {
            1 => self.wait_until(|| end <= self.flushed.0.load(SeqCst))?,
            2 => self.wait_until(|| end <= self.write.0.load(SeqCst))?,
            _ => {}
        }
        Ok(start)
    }

    fn end_user(&self) {
        self.running.0.fetch_sub(1, SeqCst);
    }
}

/// The data of the blocks that aren't full, or not written, and where in each the first group starts.
#[derive(Default)]
struct Kept {
    bytes: Vec<u8>,
    firsts: Vec<u16>,
}

impl Kept {
    fn drop_full(&mut self) {
        let full = self.bytes.len() / BLOCK_DATA;
        self.bytes.drain(..BLOCK_DATA * full);
        self.firsts.drain(..full);
    }
}
