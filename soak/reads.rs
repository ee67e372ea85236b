//! The reads of a call on its two files, as `lies.c` tells of them, and the lie of one.

use crate::crc::SECTOR;
use crate::draws::Draws;
use crate::events::{DATA, LOG};

/// A read that a call made.
pub struct Read {
    pub device: usize,
    pub at: usize,
    pub length: usize,
    /// Whether it gave something else than the file holds.
    pub lied: bool,
}

/// The reads of a file that `lies.c` has written.
pub fn reads_of(text: &str) -> Result<Vec<Read>, String> {
    text.lines().map(read_of).collect()
}

fn read_of(line: &str) -> Result<Read, String> {
    let numbers: Result<Vec<usize>, _> = line.split(' ').map(str::parse).collect();
    match numbers.as_deref() {
        Ok([device, at, length, lied]) => Ok(Read {
            device: *device,
            at: *at,
            length: *length,
            lied: *lied == 1,
        }),
        _ => Err(format!("no line of a read: {line}")),
    }
}

/// What a lie is about, by where it stands on a device of format 2 or 3.
#[derive(Clone, Copy, PartialEq)]
pub enum About {
    Head,
    Checkpoint,
    Tail,
    Ring,
    Data,
}

/// One byte that a read gives and the file doesn't hold, or a sector of zeros.
pub struct Lie {
    number: usize,
    place: usize,
    change: u8,
    pub about: About,
}

impl Lie {
    /// A lie of one of these reads, of files that hold this: mostly where something else than zeros is read.
    pub fn draw(draws: &mut Draws, reads: &[Read], contents: &[Vec<u8>; 3]) -> Option<Lie> {
        let number = draw_number(draws, reads)?;
        let read = &reads[number];
        let change = draw_change(draws);
        let full = full_sectors(read, &contents[read.device]);
        let place = if full.is_empty() || change != 0 && draws.once_in(8) {
            draws.below(read.length as u64) as usize
        } else {
            draws.one_of(&full) + draws.below(SECTOR as u64) as usize
        };
        Some(Lie {
            number,
            place,
            change,
            about: about(read.device, read.at + place),
        })
    }

    /// What `lies.c` is told.
    pub fn words(&self) -> String {
        format!("{} {} {}", self.number, self.place, self.change)
    }

    pub fn is_sector(&self) -> bool {
        self.change == 0
    }
}

/// The number of a read, more often of the log device, which has fewer.
fn draw_number(draws: &mut Draws, reads: &[Read]) -> Option<usize> {
    let device = if draws.once_in(3) { DATA } else { LOG };
    let is_of = |number: &usize| reads[*number].device == device;
    let of_device: Vec<usize> = (0..reads.len()).filter(is_of).collect();
    let all = (0..reads.len()).collect();
    let numbers = if of_device.is_empty() { all } else { of_device };
    (!numbers.is_empty()).then(|| draws.one_of(&numbers))
}

/// One bit, any bits, or 0, which stands for a sector of zeros.
fn draw_change(draws: &mut Draws) -> u8 {
    match draws.below(6) {
        0 => 0,
        1 | 2 => draws.within(1, 255) as u8,
        _ => 1 << draws.below(8),
    }
}

/// The places in the read's buffer of its sectors that aren't all zero. Each read begins with a sector.
fn full_sectors(read: &Read, content: &[u8]) -> Vec<usize> {
    let end = content.len().min(read.at + read.length);
    let read = content.get(read.at..end).unwrap_or_default();
    let sectors = read.chunks_exact(SECTOR).enumerate();
    let full = sectors.filter(|(_, sector)| sector.iter().any(|byte| *byte != 0));
    full.map(|(number, _)| number * SECTOR).collect()
}

fn about(device: usize, at: usize) -> About {
    match at / SECTOR {
        _ if device != LOG => About::Data,
        0 | 2 => About::Head,
        1 | 3 => About::Checkpoint,
        4 | 5 => About::Tail,
        _ => About::Ring,
    }
}
