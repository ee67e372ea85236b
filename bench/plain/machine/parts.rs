//! The devices as a running store writes them: the log part and the data part.

use super::cleaner::user_bytes;
use super::lsn::floor;
use super::words::LOG_BUFFER;
use crate::device::{Failure, Sectors};
use crate::log::{
    BLOCK_DATA, BLOCK_SIZE, Device, RING_START, START_LSN, TAIL_BLOCK, TAIL_BLOCKS, fill,
};
use crate::store::{Shape, checkpoint, seal_page};
use std::collections::VecDeque;

/// Puts the checkpoint of a number at an lsn, whose block stands there.
pub fn put_checkpoint<D: Sectors>(
    device: &mut D,
    number: u64,
    lsn: u64,
    at: u64,
) -> Result<(), Failure> {
    let mut block = [0; BLOCK_SIZE];
    checkpoint(&mut block, number, lsn, at);
    let place = if number.is_multiple_of(2) { 1 } else { 3 };
    device.write(place * BLOCK_SIZE, &block)?;
    device.sync()
}

pub struct LogPart<D> {
    device: D,
    // blocks of the ring
    blocks: u64,
    written: u64,
    pub stable: u64,
    // the tail block of the last good sync, and that of the last write
    tail: usize,
    newest: usize,
    number: u64,
    buffer: Vec<u8>,
    pub failed: Option<Failure>,
}

impl<D: Sectors> LogPart<D> {
    /// The log part of a run that starts there, on a device with the two checkpoints that formatting and opening leave, and with
    /// so many blocks in its ring.
    pub fn new(device: D, blocks: u64, start: u64) -> Result<LogPart<D>, Failure> {
        let mut part = LogPart::at(device, blocks, start, 0);
        part.put_checkpoint(floor(start))?;
        part.checkpoint(floor(start))?;
        Ok(part)
    }

    /// The same on a device whose newest checkpoint has this number.
    pub fn at(device: D, blocks: u64, start: u64, number: u64) -> LogPart<D> {
        LogPart {
            device,
            blocks,
            written: start,
            stable: start,
            tail: TAIL_BLOCK + 1,
            newest: TAIL_BLOCK + 1,
            number,
            buffer: vec![0; LOG_BUFFER as usize],
            failed: None,
        }
    }

    fn offset_of(&self, lsn: u64) -> usize {
        RING_START + ((floor(lsn) - START_LSN) % (self.blocks * BLOCK_SIZE as u64)) as usize
    }

    pub fn write_to(&mut self, mark: u64, bytes: &[u8], firsts: &[u16]) -> Result<(), Failure> {
        let from = floor(self.written);
        let at = self.offset_of(from);
        let blocks = self.buffer.chunks_exact_mut(BLOCK_SIZE);
        let lsns = (from..).step_by(BLOCK_SIZE);
        for (((block, data), first), lsn) in
            blocks.zip(bytes.chunks(BLOCK_DATA)).zip(firsts).zip(lsns)
        {
            fill(block, lsn, data, *first, self.number as u32);
        }
        let full = bytes.len() / BLOCK_DATA * BLOCK_SIZE;
        let (whole, rest) = self.buffer[..firsts.len() * BLOCK_SIZE].split_at(full);
        let end = RING_START + self.blocks as usize * BLOCK_SIZE;
        let (front, back) = whole.split_at(full.min(end - at));
        let tail = 2 * TAIL_BLOCK + TAIL_BLOCKS - 1 - self.tail;
        for (at, part) in [(at, front), (RING_START, back), (BLOCK_SIZE * tail, rest)] {
            if !part.is_empty() {
                self.device.write(at, part)?;
            }
        }
        if !rest.is_empty() {
            self.newest = tail;
        }
        self.written = mark;
        Ok(())
    }

    pub fn sync(&mut self) -> Result<(), Failure> {
        self.device.sync()?;
        self.stable = self.written;
        self.tail = self.newest;
        Ok(())
    }

    pub fn checkpoint(&mut self, lsn: u64) -> Result<(), Failure> {
        self.number += 1;
        self.put_checkpoint(lsn)
    }

    fn put_checkpoint(&mut self, lsn: u64) -> Result<(), Failure> {
        let at = self.offset_of(lsn) as u64;
        put_checkpoint(&mut self.device, self.number, lsn, at)?;
        self.tail = self.newest;
        Ok(())
    }
}

impl LogPart<Device> {
    /// The sum of the checksums of the sectors after the header's.
    pub fn sum(&self) -> u64 {
        self.device.sum_from(1)
    }
}

pub struct DataPart<D> {
    device: D,
    shape: Shape,
    buffer: Vec<u8>,
}

impl<D: Sectors> DataPart<D> {
    pub fn new(device: D, shape: Shape) -> DataPart<D> {
        DataPart {
            device,
            shape,
            buffer: vec![0; shape.slots * shape.page_size],
        }
    }

    pub fn write_batch(
        &mut self,
        batch: &VecDeque<(u32, u64)>,
        users: &[u8],
    ) -> Result<(), Failure> {
        let Shape {
            page_size, slots, ..
        } = self.shape;
        let own = user_bytes(page_size);
        let texts = self.buffer.chunks_exact_mut(page_size);
        for ((text, (number, lsn)), user) in texts.zip(batch).zip(users.chunks_exact(own.len())) {
            text[own.clone()].copy_from_slice(user);
            seal_page(text, *number, *lsn);
        }
        self.device
            .write(0, &self.buffer[..batch.len() * page_size])?;
        self.device.sync()?;
        for (text, (number, _)) in self.buffer.chunks_exact(page_size).zip(batch) {
            self.device
                .write((slots + *number as usize) * page_size, text)?;
        }
        self.device.sync()
    }
}

impl DataPart<Device> {
    /// The sum of the checksums of the sectors.
    pub fn sum(&self) -> u64 {
        self.device.sum_from(0)
    }
}
