//! Lsns and the bytes of groups below them.

use crate::log::{BLOCK_DATA, BLOCK_HEADER, BLOCK_SIZE};

const SIZE: u64 = BLOCK_SIZE as u64;
const DATA: u64 = BLOCK_DATA as u64;
const HEADER: u64 = BLOCK_HEADER as u64;

pub fn lsn_of(sn: u64) -> u64 {
    sn / DATA * SIZE + sn % DATA + HEADER
}

pub fn sn_of(lsn: u64) -> u64 {
    lsn / SIZE * DATA + (lsn % SIZE).saturating_sub(HEADER).min(DATA)
}

pub fn floor(lsn: u64) -> u64 {
    lsn - lsn % SIZE
}
