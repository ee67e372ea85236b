//! Lsns: bytes of log blocks of 512 bytes, of which 12 are their header and 4 their trailer.

pub const BLOCK: u64 = 512;
pub const BLOCK_HEADER: u64 = 12;
pub const BLOCK_DATA: u64 = 496;
/// The first data byte of a log.
pub const FIRST: u64 = 8_204;

pub fn lsn_of(sn: u64) -> u64 {
    sn / BLOCK_DATA * BLOCK + sn % BLOCK_DATA + BLOCK_HEADER
}

pub fn sn_of(lsn: u64) -> u64 {
    lsn / BLOCK * BLOCK_DATA + (lsn % BLOCK).saturating_sub(BLOCK_HEADER).min(BLOCK_DATA)
}

/// The lsn so many bytes of groups after another.
pub fn behind(lsn: u64, bytes: u64) -> u64 {
    lsn_of(sn_of(lsn) + bytes)
}

pub fn block_of(lsn: u64) -> u64 {
    lsn - lsn % BLOCK
}

/// Where a run starts after a log that ends there.
pub fn start_after(end: u64) -> u64 {
    if end % BLOCK == BLOCK_HEADER {
        end
    } else {
        block_of(end) + BLOCK + BLOCK_HEADER
    }
}
