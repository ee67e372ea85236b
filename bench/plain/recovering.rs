//! The times of recovery, of the three things that most of it goes to, over the same bytes, and of opening.

use crate::checksum::crc32c;
use crate::log::{BLOCK_DATA, BLOCK_HEADER, BLOCK_SIZE, Device, RING_START};
use crate::opening::open;
use crate::recovery::{Pages, Recovered, apply, blank, fits, recover};
use crate::{ROUNDS, decode_all, report};
use std::hint::black_box;
use std::time::{Duration, Instant};

/// Times recovery under this name.
fn time_recovery(name: &str, log: &[u8], data: &[u8]) -> Option<Recovered> {
    let (length, log, data) = (log.len() - RING_START, Device::of(log), Device::of(data));
    let start = Instant::now();
    let recovered = black_box(recover(black_box(&log), black_box(&data)));
    let took = start.elapsed();
    match &recovered {
        Some(recovered) => report(name, length, took, &outcome(recovered)),
        None => println!("{name}: refused"),
    }
    recovered
}

/// Times the recovery of a store of large pages.
pub fn time_large(log: &[u8], data: &[u8]) {
    time_recovery("recover-large", log, data);
}

/// Times the opening of a store, which begins anew each time.
pub fn time_opening(log: &[u8], data: &[u8]) {
    let mut best = Duration::MAX;
    let mut outcome = String::new();
    let mut length = 0;
    for _ in 0..ROUNDS {
        let (log, data) = (Device::of(log), Device::of(data));
        let start = Instant::now();
        let opened = black_box(open(black_box(log), black_box(data)));
        best = best.min(start.elapsed());
        let Some(opened) = opened else {
            println!("opening: refused");
            return;
        };
        length = opened.shape.pages * opened.shape.page_size;
        outcome = format!(
            "{} {:x} {:x} {:x}",
            opened.start,
            sum_of(&opened.pages),
            opened.log.sum(),
            opened.data.sum()
        );
    }
    report("opening", length, best, &outcome);
}

pub fn time(log: Vec<u8>, data: Vec<u8>) {
    let length = log.len() - RING_START;
    let Some(recovered) = time_recovery("recover", &log, &data) else {
        return;
    };
    let blocks = &log[RING_START..];
    let start = Instant::now();
    let sum = black_box(checksums(black_box(blocks)));
    report("-checksum", length, start.elapsed(), &format!("{sum:x}"));
    let joined = joined(blocks);
    let start = Instant::now();
    let tally = decode_all(black_box(&joined));
    report("-decode", length, start.elapsed(), &tally);
    let start = Instant::now();
    let pages = black_box(apply_all(black_box(&recovered)));
    report(
        "-apply",
        length,
        start.elapsed(),
        &format!("{:x}", sum_of(&pages)),
    );
}

fn outcome(recovered: &Recovered) -> String {
    let (blocks, groups) = (recovered.views.len(), recovered.groups.len());
    format!(
        "{blocks} {groups} {} {:x}",
        recovered.end,
        sum_of(&recovered.pages)
    )
}

/// A sum over the pages.
fn sum_of(pages: &Pages) -> u64 {
    let pages = pages.lsns.iter().zip(&pages.users);
    pages.map(|(lsn, user)| lsn + u64::from(crc32c(user))).sum()
}

/// The sum of the checksums of the blocks of the ring.
fn checksums(blocks: &[u8]) -> u64 {
    let blocks = blocks.chunks_exact(BLOCK_SIZE);
    blocks
        .map(|block| u64::from(crc32c(&block[..BLOCK_HEADER + BLOCK_DATA])))
        .sum()
}

/// The data of the blocks of the ring. Where the last one is a tail block, zeros stand after the groups.
fn joined(blocks: &[u8]) -> Vec<u8> {
    let blocks = blocks.chunks_exact(BLOCK_SIZE);
    blocks
        .flat_map(|block| &block[BLOCK_HEADER..BLOCK_HEADER + BLOCK_DATA])
        .copied()
        .collect()
}

/// Blank pages with all the groups applied.
fn apply_all(recovered: &Recovered) -> Pages {
    let mut pages = blank(&recovered.shape);
    for whole in &recovered.groups {
        if fits(&whole.group, &recovered.shape) {
            for rec in &whole.group {
                apply(&mut pages, rec, whole.end);
            }
        }
    }
    pages
}
