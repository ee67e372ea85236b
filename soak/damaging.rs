//! Damages archives: their bits, sectors, marks, heads, pages and blocks, with checksums that fit again or not.

use crate::archiving::{Archive, put_mark, seal_page};
use crate::crc::{SECTOR, field, put_field, seal_sector};
use crate::draws::Draws;
use crate::lsn::{BLOCK, BLOCK_HEADER, block_of};
use crate::restoring::{DEVICE, HEADER, LIMIT};
use crate::shape::PAGE_SIZE;

/// Some damages to an archive.
pub fn damage(draws: &mut Draws, archive: &mut Archive) {
    for _ in 0..draws.one_of(&[1, 1, 1, 1, 2, 2, 3, 6]) {
        match draws.below(16) {
            0 | 1 => flip_bits(draws, archive),
            2 => put_sector_of(draws, archive, Source::Zeros),
            3 => put_sector_of(draws, archive, Source::Junk),
            4 => put_sector_of(draws, archive, Source::Another),
            5 => swap(draws, archive),
            6 | 7 => cut_off(draws, archive),
            8 | 9 => change_mark(draws, archive),
            10 => change_head(draws, archive),
            11 | 12 => change_page(draws, archive),
            _ => change_block(draws, archive),
        }
    }
}

enum Source {
    Zeros,
    Junk,
    Another,
}

fn first_block(archive: &Archive) -> usize {
    HEADER + archive.shape.pages as usize * archive.shape.page_length()
}

/// The number of a sector: one of the first three, of the pages, or of the log blocks.
fn draw_sector(draws: &mut Draws, archive: &Archive) -> usize {
    let sectors = (archive.bytes.len() / SECTOR) as u64;
    let first = (first_block(archive) / SECTOR) as u64;
    match draws.below(6) {
        0 | 1 => draws.below(sectors.min(3).max(1)) as usize,
        2 => draws.below(sectors.max(1)) as usize,
        _ if first < sectors => draws.within(first, sectors - 1) as usize,
        _ => draws.below(sectors.max(1)) as usize,
    }
}

fn sector_at(archive: &mut Archive, number: usize) -> Option<&mut [u8]> {
    let at = number * SECTOR;
    archive.bytes.get_mut(at..at + SECTOR)
}

/// Makes the checksums of the sector, or of the page that it lies in, fit again.
fn seal(archive: &mut Archive, number: usize) {
    let pages = HEADER..first_block(archive);
    let at = number * SECTOR;
    if pages.contains(&at) {
        let length = archive.shape.page_length();
        let at = HEADER + (at - HEADER) / length * length;
        if let Some(page) = archive.bytes.get_mut(at..at + length) {
            seal_page(page);
        }
    } else if let Some(sector) = sector_at(archive, number) {
        seal_sector(sector);
    }
}

fn flip_bits(draws: &mut Draws, archive: &mut Archive) {
    let number = draw_sector(draws, archive);
    let Some(sector) = sector_at(archive, number) else {
        return;
    };
    for _ in 0..draws.within(1, 3) {
        let most = if draws.once_in(2) { 70 } else { SECTOR as u64 };
        sector[draws.below(most) as usize] ^= 1 << draws.below(8);
    }
    if draws.once_in(2) {
        seal(archive, number);
    }
}

fn put_sector_of(draws: &mut Draws, archive: &mut Archive, source: Source) {
    let number = draw_sector(draws, archive);
    let other = draw_sector(draws, archive);
    let mut bytes = vec![0; SECTOR];
    match source {
        Source::Zeros => {}
        Source::Junk => bytes
            .iter_mut()
            .for_each(|byte| *byte = draws.number() as u8),
        Source::Another => {
            if let Some(sector) = sector_at(archive, other) {
                bytes.copy_from_slice(sector);
            }
        }
    }
    if let Some(sector) = sector_at(archive, number) {
        sector.copy_from_slice(&bytes);
    }
    if draws.once_in(4) {
        seal(archive, number);
    }
}

fn swap(draws: &mut Draws, archive: &mut Archive) {
    let (one, two) = (draw_sector(draws, archive), draw_sector(draws, archive));
    let (Some(of_one), Some(of_two)) = (
        sector_at(archive, one).map(|sector| sector.to_vec()),
        sector_at(archive, two).map(|sector| sector.to_vec()),
    ) else {
        return;
    };
    archive.bytes[one * SECTOR..(one + 1) * SECTOR].copy_from_slice(&of_two);
    archive.bytes[two * SECTOR..(two + 1) * SECTOR].copy_from_slice(&of_one);
}

/// Cuts the device off: at a sector, at any byte, near its length by the mark, or near its front.
fn cut_off(draws: &mut Draws, archive: &mut Archive) {
    let all = archive.bytes.len() as u64;
    let blocks = (archive.mark - block_of(archive.start)).saturating_sub(BLOCK_HEADER);
    let needed = first_block(archive) as u64 + BLOCK * blocks.div_ceil(BLOCK);
    let length = match draws.below(6) {
        0 => BLOCK * draws.below(all / BLOCK + 1),
        1 => draws.below(all + 1),
        2 => draws.one_of(&[0, 1, 511, 512, 1_024, 1_535, 1_536, 1_537]),
        3 => first_block(archive) as u64,
        4 => needed,
        _ => (needed + 1).saturating_sub(draws.within(1, 3)),
    };
    archive.bytes.truncate(length as usize);
}

/// Writes another mark: of an older or newer number or one of the wrong place, at another lsn.
fn change_mark(draws: &mut Draws, archive: &mut Archive) {
    if archive.bytes.len() < HEADER {
        return;
    }
    let number = match draws.below(6) {
        0 => archive.number.wrapping_add(1),
        1 => archive.number.wrapping_sub(1),
        2 => draws.number(),
        3 => draws.below(4),
        _ => archive.number,
    };
    let lsn = draw_lsn(draws, archive);
    put_mark(&mut archive.bytes, number, lsn);
    if draws.once_in(5) {
        let at = SECTOR * (1 + (number % 2) as usize);
        let moved = number.wrapping_add(draws.within(1, 3));
        put_field(&mut archive.bytes, at, 8, moved);
        seal_sector(&mut archive.bytes[at..at + SECTOR]);
    }
    if draws.once_in(6) {
        let at = SECTOR * (1 + (number % 2) as usize) + draws.within(508, 511) as usize;
        archive.bytes[at] ^= 1;
    }
}

/// An lsn near one of the archive's, or near a limit.
fn draw_lsn(draws: &mut Draws, archive: &Archive) -> u64 {
    let ends = archive.ends();
    let last = ends.last().copied().unwrap_or(archive.start);
    // so many blocks as a device in a file has
    let room = DEVICE - first_block(archive) as u64;
    let near = match draws.below(12) {
        0 => archive.start,
        9 => archive.start + room + draws.one_of(&[0, 1, 512]),
        10 => archive.start + draws.below(room),
        11 => draws.number() >> draws.below(64),
        1 | 2 if !ends.is_empty() => draws.one_of(&ends),
        3 => archive.mark,
        4 => block_of(archive.mark) + draws.one_of(&[0, 11, 12, 13, 507, 508, 511]),
        5 => last + draws.below(2_000),
        6 => LIMIT + draws.below(600),
        7 => LIMIT - draws.below(600),
        _ => draws.within(archive.start, last),
    };
    match draws.below(4) {
        0 => near.wrapping_add(1),
        1 => near.wrapping_sub(1),
        _ => near,
    }
}

fn change_head(draws: &mut Draws, archive: &mut Archive) {
    if archive.bytes.len() < SECTOR {
        return;
    }
    let head = &mut archive.bytes[..SECTOR];
    let start = archive.start;
    let page_size = u64::from(archive.shape.page_size);
    let (at, length, value) = match draws.below(12) {
        0 => (0, 4, draws.one_of(&[0, 2, 0x100_0001])),
        1 => (4, 4, draws.below(3)),
        2 => (8, 8, draws.one_of(&[0, 12, 7_692, 8_203, 8_205, 8_192])),
        3 => (8, 8, LIMIT - 500 + draws.one_of(&[0, 512, 1_024])),
        4 => (
            8,
            8,
            start.wrapping_add(draws.one_of(&[1, 512, u64::MAX - 511])),
        ),
        5 => (16, 8, draws.number()),
        6 => match draws.one_of(&[0, 2_048, 4_095, 8_192, 16_384, 65_536]) {
            size if size == page_size => (48, 4, PAGE_SIZE.into()),
            size => (48, 4, size),
        },
        7 => (
            52,
            4,
            draws.one_of(&[0, 1, 2, 64, 65, 1_024, 1_025, 0xFFFF_FFFF]),
        ),
        8 => (56, 4, draws.below(3)),
        9 => (
            60,
            4,
            draws.one_of(&[0, 1_023, 1_024, 1_048_576, 1_048_577]),
        ),
        10 => (64, 4, draws.one_of(&[0, 7, 8, 9, 127, 128, 129])),
        _ => (draws.within(68, 500) as usize, 8, draws.number()),
    };
    put_field(head, at, length, value);
    if !draws.once_in(6) {
        seal_sector(head);
    }
}

fn change_page(draws: &mut Draws, archive: &mut Archive) {
    let number = draws.below(u64::from(archive.shape.pages));
    let length = archive.shape.page_length();
    let at = HEADER + number as usize * length;
    let space = archive.shape.space;
    let Some(page) = archive.bytes.get_mut(at..at + length) else {
        return;
    };
    match draws.below(9) {
        0 => put_field(page, 4, 4, number + 1),
        1 => put_field(page, 34, 4, u64::from(space ^ 1)),
        2 => {
            let lsn = draws.number() >> draws.below(64);
            put_field(page, 16, 8, lsn);
        }
        3 => page.fill(0),
        4 => page[draws.below(length as u64) as usize] = draws.number() as u8,
        5 => put_field(page, 8, 8, draws.number()),
        6 => put_field(page, 24, 8, draws.number()),
        7 => page[length - draws.within(1, 8) as usize] ^= 1,
        _ => page[draws.below(40) as usize] ^= 1 << draws.below(8),
    }
    if !draws.once_in(3) {
        // at times the low half of the lsn stays as it is
        let low = field(page, length - 4, 4);
        seal_page(page);
        if draws.once_in(6) {
            put_field(page, length - 4, 4, low ^ draws.below(2));
        }
    }
}

fn change_block(draws: &mut Draws, archive: &mut Archive) {
    let first = first_block(archive);
    let count = archive.bytes.len().saturating_sub(first) / SECTOR;
    if count == 0 {
        return;
    }
    // the last block that the mark needs is met more often
    let last = ((archive.mark - block_of(archive.start)) / BLOCK) as usize;
    let place = if draws.once_in(3) {
        last.min(count - 1)
    } else {
        draws.below(count as u64) as usize
    };
    let needed = archive.mark % BLOCK;
    let at = first + place * SECTOR;
    let block = &mut archive.bytes[at..at + SECTOR];
    let length = field(block, 4, 2);
    match draws.below(8) {
        0 => {
            let lengths = [0, 11, 12, 13, 507, 508, 511, 512, 513, 0x8000 | length];
            put_field(block, 4, 2, draws.one_of(&lengths));
        }
        1 => put_field(block, 4, 2, (needed + 1).saturating_sub(draws.below(3))),
        2 => {
            let firsts = [0, 1, 11, 12, 13, 507, 508, length, length + 1, 0xFFFF];
            put_field(block, 6, 2, draws.one_of(&firsts) & 0xFFFF);
        }
        3 => {
            let number = field(block, 0, 4);
            let changed = [number ^ 1 << 31, number + 1, number ^ 1 << 30, 0];
            put_field(block, 0, 4, draws.one_of(&changed) & 0xFFFF_FFFF);
        }
        4 => put_field(block, 8, 4, draws.number() & 0xFFFF_FFFF),
        _ => {
            let at = draws.within(BLOCK_HEADER, 507) as usize;
            block[at] = match draws.below(3) {
                0 => draws.number() as u8,
                1 => draws.one_of(&[0, 31, 0x81, 0x1E, 0xF0, 0xF8, 0xFF]),
                _ => block[at] ^ 1 << draws.below(8),
            };
        }
    }
    if !draws.once_in(5) {
        seal_sector(block);
    }
}
