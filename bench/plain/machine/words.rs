//! The words that the actors share, by their numbers, and what is asked of them.

pub const LISTS: usize = 4;
pub const WRITTEN_LINKS: u64 = 32_768;
pub const CLOSED_LINKS: u64 = 16_384;
pub const LOG_BUFFER: u64 = 65_536;
pub const BUFFER_BLOCKS: u64 = 128;

// where each kind of word begins
pub const SN: usize = 0;
pub const WRITE: usize = 1;
pub const WTAIL: usize = 2;
pub const FLUSHED: usize = 3;
pub const CKPT: usize = 4;
pub const CTAIL: usize = 5;
pub const FAILED: usize = 6;
pub const DEVICE: usize = 7;
const LIST: usize = 8;
const WLINK: usize = LIST + LISTS;
const CLINK: usize = WLINK + WRITTEN_LINKS as usize;
const CELL: usize = CLINK + CLOSED_LINKS as usize;
const FIRST: usize = CELL + LOG_BUFFER as usize / 8;
const PAGE: usize = FIRST + BUFFER_BLOCKS as usize;

pub fn list(page: u32) -> usize {
    list_word(page as usize % LISTS)
}

pub fn list_word(list: usize) -> usize {
    LIST + list
}

pub fn written_link(lsn: u64) -> usize {
    WLINK + (lsn % WRITTEN_LINKS) as usize
}

pub fn closed_link(lsn: u64) -> usize {
    CLINK + (lsn % CLOSED_LINKS) as usize
}

pub fn cell(lsn: u64) -> usize {
    CELL + (lsn % LOG_BUFFER / 8) as usize
}

/// How many bytes of the stream stand in the word of an lsn from it on.
pub fn left_in_word(lsn: u64) -> u64 {
    (8 - lsn % 8).min(508 - lsn % 512)
}

/// The word of a tail that no actor holds. It is 1 more while one does.
pub fn free(tail: u64) -> u64 {
    2 * tail
}

pub fn tail_of(word: u64) -> u64 {
    word / 2
}

/// The first offset of the block of an lsn.
pub fn first(lsn: u64) -> usize {
    FIRST + (lsn / 512 % BUFFER_BLOCKS) as usize
}

/// Where the words of pages stand: how many each of them has.
#[derive(Clone, Copy)]
pub struct PageWords(usize);

impl PageWords {
    /// Those of pages of so many bytes.
    pub fn of(page_size: usize) -> PageWords {
        PageWords(3 + page_size / 8)
    }

    /// How many words a store of so many pages has.
    pub fn count(self, pages: usize) -> usize {
        PAGE + pages * self.0
    }

    pub fn latch(self, page: u32) -> usize {
        PAGE + page as usize * self.0
    }

    pub fn newest(self, page: u32) -> usize {
        self.latch(page) + 1
    }

    pub fn oldest(self, page: u32) -> usize {
        self.latch(page) + 2
    }

    pub fn frame(self, page: u32, at: usize) -> usize {
        self.latch(page) + 3 + at
    }
}

/// What an actor asks for.
#[derive(Clone, Copy)]
pub enum Op {
    Load(usize),
    Store(usize, u64),
    Add(usize, u64),
    Swap(usize, u64, u64),
    TakeDevice,
    TakeAdd(u32, u64),
    TakeRemove(u32),
    TakeOldest(usize),
    WriteTo(u64),
    Sync,
    Checkpoint(u64),
    WriteBatch,
    Rest,
}

/// The answer to it.
#[derive(Clone, Copy)]
pub enum Answer {
    Old(u64),
    Taken(Option<u64>),
    Held,
    Broken,
    Called(u64),
    Failed(u32),
    Rested,
}

impl Answer {
    /// The number in it, else 0.
    pub fn number(self) -> u64 {
        match self {
            Answer::Old(n) | Answer::Called(n) => n,
            _ => 0,
        }
    }
}

/// What a turn came to.
#[derive(Clone, Copy, PartialEq)]
pub enum Turn {
    Moved,
    Idle,
    Ended,
    Failed(u32),
}
