//! What a power cut leaves of a device: each sector that was written since the last good sync may hold any bytes, but for
//! such as pass a checksum by chance. Of an archive that is said of its marks alone.

use crate::crc::{SECTOR, fits_page, fits_sector, seal_sector};
use crate::draws::Draws;
use crate::events::{ARCHIVE, DATA, Event, Write, synced, writes_of};
use crate::shape::{LARGE_PAGE_SIZE, PAGE_SIZE};
use std::collections::{BTreeMap, BTreeSet};

/// The sectors of an archive's marks.
const MARKS: std::ops::RangeInclusive<usize> = 1..=2;

/// A device at a power cut: what stood there at its last good sync, and the writes since.
pub struct Cut<'a> {
    device: usize,
    base: Vec<u8>,
    writes: Vec<&'a Write>,
}

/// How often a sector keeps the old bytes, has those of the newest write or of any, is torn, or holds junk; and where it is
/// torn, if that is the same everywhere.
#[derive(Clone, Copy)]
struct Mood {
    shares: [u64; 5],
    place: Option<usize>,
}

/// A sector as a power cut leaves it.
#[derive(Clone, Copy, PartialEq)]
enum Fate {
    Old,
    Newest,
    Any,
    Torn,
    Junk,
}

const FATES: [Fate; 5] = [Fate::Old, Fate::Newest, Fate::Any, Fate::Torn, Fate::Junk];

impl Mood {
    fn draw(draws: &mut Draws, is_whole: bool) -> Mood {
        let shares = match draws.below(12) {
            0 => [1, 0, 0, 0, 0],
            1 => [0, 1, 0, 0, 0],
            2 => [1, 1, 1, 0, 0],
            3 | 4 => [0, 0, 0, 1, 0],
            5 => [0, 0, 0, 0, 1],
            6 => [0, 0, 0, 3, 1],
            7 => [0, 8, 0, 1, 0],
            8 => [8, 0, 0, 1, 0],
            _ => [2, 2, 2, 3, 1],
        };
        let shares = match shares {
            [0, 0, 0, ..] if is_whole => [1, 1, 1, 0, 0],
            [old, newest, any, ..] if is_whole => [old, newest, any, 0, 0],
            shares => shares,
        };
        let place = draws.once_in(3).then(|| draw_place(draws));
        Mood { shares, place }
    }

    fn fate(&self, draws: &mut Draws) -> Fate {
        let mut drawn = draws.below(self.shares.iter().sum());
        for (fate, share) in FATES.into_iter().zip(self.shares) {
            if drawn < share {
                return fate;
            }
            drawn -= share;
        }
        Fate::Old
    }
}

/// Where a sector is torn: so many of its first bytes are written.
fn draw_place(draws: &mut Draws) -> usize {
    if draws.once_in(2) {
        draws.below(SECTOR as u64) as usize
    } else {
        draws.one_of(&[0, 4, 8, 12, 18, 100, 508, 511])
    }
}

fn sector_of(content: &[u8], number: usize) -> &[u8] {
    &content[number * SECTOR..(number + 1) * SECTOR]
}

impl<'a> Cut<'a> {
    /// The device after these events, which found it so.
    pub fn after(before: &[u8], events: &'a [Event], device: usize) -> Cut<'a> {
        let synced = synced(events, device);
        let mut base = before.to_vec();
        for write in writes_of(&events[..synced], device) {
            write.put(&mut base);
        }
        let writes: Vec<&Write> = writes_of(&events[synced..], device).collect();
        let ends = writes.iter().map(|write| write.at + write.bytes.len());
        let length = ends.max().unwrap_or(0).max(base.len());
        base.resize(length, 0);
        Cut {
            device,
            base,
            writes,
        }
    }

    /// What stood there at the last good sync.
    pub fn base(&self) -> &[u8] {
        &self.base
    }

    /// What the cut leaves, and how many sectors hold what was never written as a whole.
    pub fn torn(&self, draws: &mut Draws, is_whole: bool) -> (Vec<u8>, u64) {
        let mut content = self.base.clone();
        let firsts = self.draw_firsts(draws);
        for write in &self.writes[..firsts] {
            write.put(&mut content);
        }
        let lasts = self.draw_lasts(draws);
        let mood = Mood::draw(draws, is_whole);
        let mut torn = 0;
        for (number, writers) in self.written(firsts) {
            let newest = writers[writers.len() - 1];
            let bytes = if newest < lasts {
                self.draw_sector(draws, &content, number, &writers, mood)
            } else {
                self.version(number, newest).to_vec()
            };
            torn += u64::from(!self.is_version(number, &bytes));
            content[number * SECTOR..(number + 1) * SECTOR].copy_from_slice(&bytes);
        }
        if self.device == DATA {
            // formatting may change the size of a store's pages
            for size in [PAGE_SIZE, LARGE_PAGE_SIZE] {
                torn += self.break_pages(draws, &mut content, size as usize);
            }
        }
        (content, torn)
    }

    /// So many of the first writes stand whole.
    fn draw_firsts(&self, draws: &mut Draws) -> usize {
        let count = self.writes.len();
        match draws.below(4) {
            0 => count.saturating_sub(1),
            1 => draws.below(count as u64 + 1) as usize,
            _ => 0,
        }
    }

    /// The writes from this one on stand whole, whatever becomes of those before them.
    fn draw_lasts(&self, draws: &mut Draws) -> usize {
        let lasts = if draws.once_in(3) {
            draws.within(1, 3) as usize
        } else {
            0
        };
        self.writes.len().saturating_sub(lasts)
    }

    /// Each sector that a write from this one on covers, with the numbers of those writes.
    fn written(&self, from: usize) -> BTreeMap<usize, Vec<usize>> {
        let mut written: BTreeMap<usize, Vec<usize>> = BTreeMap::new();
        for (place, write) in self.writes.iter().enumerate().skip(from) {
            let first = write.at / SECTOR;
            for number in first..first + write.bytes.len() / SECTOR {
                written.entry(number).or_default().push(place);
            }
        }
        written
    }

    /// What this write put into this sector.
    fn version(&self, number: usize, writer: usize) -> &[u8] {
        let write = self.writes[writer];
        sector_of(&write.bytes, number - write.at / SECTOR)
    }

    /// Whether the sector has had these bytes since the last good sync.
    fn is_version(&self, number: usize, bytes: &[u8]) -> bool {
        let is_written = |write: &&Write| {
            let first = write.at / SECTOR;
            (first..first + write.bytes.len() / SECTOR).contains(&number)
                && sector_of(&write.bytes, number - first) == bytes
        };
        sector_of(&self.base, number) == bytes || self.writes.iter().any(is_written)
    }

    fn draw_sector(
        &self,
        draws: &mut Draws,
        content: &[u8],
        number: usize,
        writers: &[usize],
        mood: Mood,
    ) -> Vec<u8> {
        let old = sector_of(content, number);
        let newest = self.version(number, writers[writers.len() - 1]);
        let drawn = self.version(number, draws.one_of(writers));
        let bytes = match mood.fate(draws) {
            Fate::Old => old.to_vec(),
            Fate::Newest => newest.to_vec(),
            Fate::Any => drawn.to_vec(),
            Fate::Torn => {
                let place = mood.place.unwrap_or_else(|| draw_place(draws));
                let under = if draws.once_in(4) { &[0; SECTOR] } else { old };
                [&drawn[..place], &under[place..]].concat()
            }
            Fate::Junk => draw_junk(draws, drawn),
        };
        let is_free = self.device == ARCHIVE && !MARKS.contains(&number);
        if is_free && draws.once_in(3) {
            let mut sealed = bytes;
            seal_sector(&mut sealed);
            return sealed;
        }
        let may_fit = is_free || self.device == DATA;
        if may_fit || !fits_sector(&bytes) || self.is_version(number, &bytes) {
            bytes
        } else {
            draw_junk(draws, drawn)
        }
    }

    /// Breaks each page of this size that would pass for one that was never written: a page is whole as the first writes left
    /// it.
    fn break_pages(&self, draws: &mut Draws, content: &mut [u8], size: usize) -> u64 {
        let written = self.written(0);
        let pages: BTreeSet<usize> = written
            .keys()
            .map(|number| number * SECTOR / size)
            .collect();
        let mut broken = 0;
        for page in pages {
            let range = page * size..((page + 1) * size).min(content.len());
            if range.len() < size || !fits_page(&content[range.clone()]) {
                continue;
            }
            if self.is_whole_page(range.start, &content[range.clone()]) {
                continue;
            }
            let sectors = size / SECTOR;
            let within = page * sectors..(page + 1) * sectors;
            let covered: Vec<usize> = written.range(within).map(|(number, _)| *number).collect();
            let number = draws.one_of(&covered);
            let range = number * SECTOR..(number + 1) * SECTOR;
            let bytes = draw_junk(draws, &content[range.clone()]);
            content[range].copy_from_slice(&bytes);
            broken += 1;
        }
        broken
    }

    fn is_whole_page(&self, at: usize, bytes: &[u8]) -> bool {
        let range = at..at + bytes.len();
        let mut whole = self.base[range.clone()].to_vec();
        if whole == bytes {
            return true;
        }
        for write in &self.writes {
            let first = write.at.max(range.start);
            let end = (write.at + write.bytes.len()).min(range.end);
            if first < end {
                let written = &write.bytes[first - write.at..end - write.at];
                whole[first - range.start..end - range.start].copy_from_slice(written);
                if whole == bytes {
                    return true;
                }
            }
        }
        false
    }
}

/// Bytes whose checksum doesn't fit: any, or those of a write with a few changed.
pub fn draw_junk(draws: &mut Draws, written: &[u8]) -> Vec<u8> {
    loop {
        let mut bytes = written.to_vec();
        if draws.once_in(2) {
            for eight in bytes.chunks_exact_mut(8) {
                eight.copy_from_slice(&draws.number().to_be_bytes());
            }
        } else {
            for _ in 0..draws.within(1, 3) {
                let at = match draws.below(2) {
                    0 => draws.below(12),
                    _ => draws.below(SECTOR as u64),
                };
                bytes[at as usize] ^= draws.within(1, 255) as u8;
            }
        }
        if bytes != written && !fits_sector(&bytes) {
            return bytes;
        }
    }
}
