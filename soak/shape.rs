//! The sizes of a store, which differ by format, and the fields of a head that hold them.

use crate::crc::{field, put_field};
use crate::draws::Draws;
use crate::lsn::BLOCK;
use crate::script::USER_START;

/// The bytes of a page, where nothing else is asked for; and those that a page of a store of format 3 may have too.
pub const PAGE_SIZE: u32 = 4_096;
pub const LARGE_PAGE_SIZE: u32 = 16_384;
/// What stands in a page behind its user bytes: the second checksum, and the low half of its lsn.
const PAGE_TRAILER: u64 = 8;
/// The format of a store that the program makes or has run on.
pub const NEWEST: u64 = 3;
/// The doublewrite slots of a store of format 3, and its pages at the most.
pub const SLOTS: u32 = 128;
pub const MOST_PAGES: u32 = 1_024;
/// Those of a store of format 1 or 2.
pub const EARLY_SLOTS: u32 = 8;
pub const MOST_EARLY_PAGES: u32 = 64;

/// The sizes of a store.
#[derive(Clone, Copy, Debug, PartialEq)]
pub struct Shape {
    pub page_size: u32,
    pub pages: u32,
    pub space: u32,
    pub log_blocks: u32,
    pub slots: u32,
}

impl Shape {
    /// Whether a store of some format has so many slots and pages, of this size.
    pub fn has_format(&self) -> bool {
        let most = match (self.slots, self.page_size) {
            (SLOTS, PAGE_SIZE | LARGE_PAGE_SIZE) => MOST_PAGES,
            (EARLY_SLOTS, PAGE_SIZE) => MOST_EARLY_PAGES,
            _ => return false,
        };
        (1..=most).contains(&self.pages)
    }

    /// The shape of a run on a store of this one, which its opening takes to format 3.
    pub fn of_run(self) -> Shape {
        Shape {
            slots: SLOTS,
            ..self
        }
    }

    pub fn is_large(&self) -> bool {
        self.page_size == LARGE_PAGE_SIZE
    }

    /// The words that ask for these sizes when a store is formatted.
    pub fn words(&self) -> String {
        let Shape {
            page_size,
            pages,
            space,
            log_blocks,
            ..
        } = self;
        let size = if self.is_large() {
            format!("--page-size {page_size} ")
        } else {
            String::new()
        };
        format!("{size}--pages {pages} --space {space} --log-blocks {log_blocks}")
    }

    /// Bytes of a page.
    pub fn page_length(&self) -> usize {
        self.page_size as usize
    }

    /// Where the user bytes of a page end.
    pub fn user_end(&self) -> u64 {
        u64::from(self.page_size) - PAGE_TRAILER
    }

    /// How many user bytes a page has.
    pub fn user_length(&self) -> u64 {
        self.user_end() - USER_START
    }

    /// How many bytes of the log its blocks hold: two of them are for the tails.
    pub fn ring(&self) -> u64 {
        BLOCK * (u64::from(self.log_blocks) - 2)
    }

    /// Bytes of its log device: four blocks stand before those of the log.
    pub fn log_length(&self) -> u64 {
        BLOCK * (4 + u64::from(self.log_blocks))
    }

    /// Bytes of its data device.
    pub fn data_length(&self) -> usize {
        self.page_length() * (self.slots + self.pages) as usize
    }
}

pub const DEFAULT_SHAPE: Shape = Shape {
    page_size: PAGE_SIZE,
    pages: 8,
    space: 1,
    log_blocks: 2_048,
    slots: SLOTS,
};

/// More large pages than this take long.
const MOST_LARGE_PAGES: u32 = 17;

/// The same shape, or in one of six draws one of large pages, which are few.
pub fn draw_large(draws: &mut Draws, shape: Shape) -> Shape {
    if !draws.once_in(6) {
        return shape;
    }
    Shape {
        page_size: LARGE_PAGE_SIZE,
        pages: shape.pages.min(MOST_LARGE_PAGES),
        ..shape
    }
}

/// Where a head has its five sizes, of four bytes each.
const FIELDS: [usize; 5] = [48, 52, 56, 60, 64];

pub fn shape_of(head: &[u8]) -> Shape {
    let [page_size, pages, space, log_blocks, slots] = FIELDS.map(|at| field(head, at, 4) as u32);
    Shape {
        page_size,
        pages,
        space,
        log_blocks,
        slots,
    }
}

pub fn put_sizes(head: &mut [u8], shape: &Shape) {
    let Shape {
        page_size,
        pages,
        space,
        log_blocks,
        slots,
    } = *shape;
    let sizes = [page_size, pages, space, log_blocks, slots];
    for (at, size) in FIELDS.into_iter().zip(sizes) {
        put_field(head, at, 4, u64::from(size));
    }
}
