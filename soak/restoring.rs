//! What `restore` has to answer of an archive: the pages for an lsn, or the first refusal that holds.

use crate::crc::{SECTOR, field, fits_sector, is_place};
use crate::decoding::{Record, Stop, group};
use crate::lsn::{BLOCK, BLOCK_DATA, BLOCK_HEADER, FIRST, behind, block_of, sn_of};
use crate::pages::{Page, Pages};
use crate::script::{MOST_BYTES, Op, USER_START};
use crate::shape::{Shape, shape_of};
use std::borrow::Cow;
use std::fmt;

/// How long a device in a file is.
pub const DEVICE: u64 = 1 << 40;
pub const LIMIT: u64 = 1 << 60;
/// The head and the two marks.
pub const HEADER: usize = 3 * SECTOR;
/// Data bytes of a block end here.
const DATA_END: u64 = BLOCK_HEADER + BLOCK_DATA;
const LOG_BLOCKS: std::ops::RangeInclusive<u32> = 1_024..=1_048_576;

#[derive(Clone, Copy, Debug, PartialEq, Eq, PartialOrd, Ord)]
pub enum Refusal {
    Missing,
    To(u64),
    Page(u64),
    Block(u64),
    Record(u64),
}

impl Refusal {
    pub fn status(self) -> i32 {
        match self {
            Refusal::To(_) => 10,
            _ => 12,
        }
    }
}

impl fmt::Display for Refusal {
    fn fmt(&self, f: &mut fmt::Formatter) -> fmt::Result {
        match self {
            Refusal::Missing => write!(f, "fault archive none"),
            Refusal::To(lsn) => write!(f, "fault fit to {lsn}"),
            Refusal::Page(page) => write!(f, "fault archive page {page}"),
            Refusal::Block(lsn) => write!(f, "fault archive block {lsn}"),
            Refusal::Record(lsn) => write!(f, "fault archive record {lsn}"),
        }
    }
}

/// A group that an archive holds.
#[derive(Clone)]
pub struct Whole {
    pub ops: Vec<Op>,
    pub end: u64,
}

/// How far an archive reaches.
#[derive(Clone, Copy, Debug)]
pub struct Extent {
    pub shape: Shape,
    pub start: u64,
    pub mark: u64,
}

/// An archive as it reads.
pub struct Reading {
    /// Nothing where there is none.
    pub extent: Option<Extent>,
    /// Its pages and its groups, or why there are none.
    pub found: Result<(Pages, Vec<Whole>), Refusal>,
}

/// So many bytes of a device from there on, whose file holds these. What stands past the file's end reads as zeros.
fn part(file: &[u8], at: u64, length: usize) -> Cow<'_, [u8]> {
    let behind = file.get(at as usize..).unwrap_or_default();
    if let Some(whole) = behind.get(..length) {
        return Cow::Borrowed(whole);
    }
    let mut padded = behind.to_vec();
    padded.resize(length, 0);
    Cow::Owned(padded)
}

fn sector(file: &[u8], number: u64) -> Cow<'_, [u8]> {
    part(file, number * BLOCK, SECTOR)
}

/// Whether an lsn is the place of a byte of a group.
pub fn is_data(lsn: u64) -> bool {
    (BLOCK_HEADER..DATA_END).contains(&(lsn % BLOCK))
}

/// The start and the shape of a head that passes.
fn head_of(bytes: &[u8]) -> Option<(u64, Shape)> {
    let start = field(bytes, 8, 8);
    let shape = shape_of(bytes);
    let passes = fits_sector(bytes)
        && field(bytes, 0, 4) == 1
        && LOG_BLOCKS.contains(&shape.log_blocks)
        && shape.has_format()
        && start % BLOCK == BLOCK_HEADER
        && (FIRST..LIMIT).contains(&start);
    passes.then_some((start, shape))
}

/// The number and the lsn of a mark that passes.
fn mark_of(bytes: &[u8], parity: u64, start: u64) -> Option<(u64, u64)> {
    let (number, lsn) = (field(bytes, 0, 8), field(bytes, 8, 8));
    let passes =
        fits_sector(bytes) && number % 2 == parity && is_data(lsn) && (start..LIMIT).contains(&lsn);
    passes.then_some((number, lsn))
}

impl Extent {
    fn of(file: &[u8]) -> Option<Extent> {
        let (start, shape) = head_of(&sector(file, 0))?;
        let marks = [0, 1].map(|parity| mark_of(&sector(file, 1 + parity), parity, start));
        let (_, mark) = marks.into_iter().flatten().max()?;
        let extent = Extent { shape, start, mark };
        (extent.length() <= DEVICE).then_some(extent)
    }

    /// How many blocks hold a byte below the mark.
    fn blocks(&self) -> u64 {
        let whole = (block_of(self.mark) - block_of(self.start)) / BLOCK;
        whole + u64::from(self.mark % BLOCK > BLOCK_HEADER)
    }

    /// Where the log blocks begin.
    fn first_block(&self) -> u64 {
        (HEADER + self.shape.pages as usize * self.shape.page_length()) as u64
    }

    pub fn length(&self) -> u64 {
        self.first_block() + BLOCK * self.blocks()
    }

    fn page(&self, file: &[u8], number: u32) -> Result<Page, Refusal> {
        let length = self.shape.page_length();
        let at = HEADER + number as usize * length;
        let page = part(file, at as u64, length);
        if !is_place(&page, number, self.shape.space) {
            return Err(Refusal::Page(number.into()));
        }
        Ok(Page {
            lsn: field(&page, 16, 8),
            user: page[USER_START as usize..self.shape.user_end() as usize].to_vec(),
        })
    }

    /// Adds the data of a block below the mark.
    fn join(&self, data: &mut Vec<u8>, file: &[u8], lsn: u64) -> Result<(), Refusal> {
        let at = self.first_block() + lsn - block_of(self.start);
        let block = sector(file, at / BLOCK);
        let number = field(&block, 0, 4) & 0x7FFF_FFFF;
        let (length, first) = (field(&block, 4, 2), field(&block, 6, 2));
        let fits = number == lsn / BLOCK % (1 << 30) + 1
            && ((BLOCK_HEADER..DATA_END).contains(&length) || length == BLOCK)
            && (first == 0 || (BLOCK_HEADER..=length.min(DATA_END - 1)).contains(&first))
            && fits_sector(&block);
        let wanted = if lsn + BLOCK <= self.mark {
            BLOCK
        } else {
            self.mark - lsn
        };
        if !fits || length < wanted {
            return Err(Refusal::Block(lsn));
        }
        let end = wanted.min(DATA_END);
        data.extend_from_slice(&block[BLOCK_HEADER as usize..end as usize]);
        Ok(())
    }

    fn joined(&self, file: &[u8]) -> Result<Vec<u8>, Refusal> {
        let mut data = Vec::new();
        for number in 0..self.blocks() {
            self.join(&mut data, file, block_of(self.start) + BLOCK * number)?;
        }
        Ok(data)
    }

    fn wholes(&self, data: &[u8]) -> Result<Vec<Whole>, Refusal> {
        let mut wholes = Vec::new();
        let mut place = self.start;
        let mut rest = data;
        loop {
            match group(rest) {
                Ok((records, behind_it)) => {
                    let length = (rest.len() - behind_it.len()) as u64;
                    if length > MOST_BYTES || !records.iter().all(|record| self.fits(record)) {
                        return Err(Refusal::Record(place));
                    }
                    place = behind(place, length);
                    rest = behind_it;
                    let ops = records.into_iter().map(|record| record.op).collect();
                    wholes.push(Whole { ops, end: place });
                }
                Err(Stop::Short) if (rest.len() as u64) < MOST_BYTES => return Ok(wholes),
                Err(_) => return Err(Refusal::Record(place)),
            }
        }
    }

    fn fits(&self, record: &Record) -> bool {
        let Record { space, op } = record;
        // whether so many bytes from an offset on are user bytes
        let is_within = |offset: u32, count: u64| {
            let offset = u64::from(offset);
            USER_START <= offset && offset + count <= self.shape.user_end()
        };
        let is_within = match op {
            Op::Number {
                width,
                offset,
                value,
                ..
            } => {
                is_within(*offset, u64::from(*width)) && (*width == 8 || value >> (8 * width) == 0)
            }
            Op::Bytes { offset, bytes, .. } => is_within(*offset, bytes.len() as u64),
            Op::Clear { .. } => true,
        };
        *space == self.shape.space && op.page() < self.shape.pages && is_within
    }
}

impl Reading {
    /// What is read of a device whose file holds these bytes.
    pub fn of(file: &[u8]) -> Reading {
        let extent = Extent::of(file);
        let found = match &extent {
            Some(extent) => read(extent, file),
            None => Err(Refusal::Missing),
        };
        Reading { extent, found }
    }

    /// Whether nothing is restored for any lsn.
    pub fn is_refused(&self) -> bool {
        self.found.is_err()
    }

    /// Where the groups end that were read.
    pub fn ends(&self) -> Vec<u64> {
        let wholes = self.found.iter().flat_map(|(_, wholes)| wholes);
        wholes.map(|whole| whole.end).collect()
    }

    /// The status and the text for an lsn, and the refusal where it is one.
    pub fn answer(&self, lsn: u64) -> (i32, String, Option<Refusal>) {
        match self.restored(lsn) {
            Ok(text) => (0, text, None),
            Err(refusal) => (refusal.status(), format!("{refusal}\n"), Some(refusal)),
        }
    }

    fn restored(&self, lsn: u64) -> Result<String, Refusal> {
        let extent = self.extent.as_ref().ok_or(Refusal::Missing)?;
        if lsn < extent.start || extent.mark < lsn {
            return Err(Refusal::To(lsn));
        }
        let (pages, wholes) = self.found.as_ref().map_err(|refusal| *refusal)?;
        let mut pages = pages.clone();
        let (mut count, mut end) = (0, extent.start);
        for whole in wholes.iter().filter(|whole| whole.end <= lsn) {
            pages.apply(&whole.ops, whole.end);
            count += 1;
            end = whole.end;
        }
        Ok(format!("restored {count} {end}\n{}", pages.lines()))
    }
}

fn read(extent: &Extent, file: &[u8]) -> Result<(Pages, Vec<Whole>), Refusal> {
    let numbers = 0..extent.shape.pages;
    let pages: Result<Vec<Page>, Refusal> =
        numbers.map(|number| extent.page(file, number)).collect();
    let pages = Pages(pages?);
    let data = extent.joined(file)?;
    debug_assert_eq!(data.len() as u64, sn_of(extent.mark) - sn_of(extent.start));
    Ok((pages, extent.wholes(&data)?))
}
