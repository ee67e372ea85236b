//! A store made one of an older format, which reads as it did: its log, and its pages where the older format has them.

use crate::crc::{SECTOR, field, is_copy, is_place, put_field, seal_sector};
use crate::draws::Draws;
use crate::events::{DATA, LOG};
use crate::layout::{
    Checkpoint, HEADS, Head, START, TAILS, checkpoint_of, head_text, put_checkpoint, put_sector,
    scanned, sector,
};
use crate::lsn::{BLOCK, BLOCK_HEADER, block_of};
use crate::shape::{EARLY_SLOTS, Shape};

/// A store of an older format.
pub struct Older {
    pub shape: Shape,
    pub log: Vec<u8>,
    pub data: Vec<u8>,
}

/// The store of format 1 or 2 that reads as the one in these files does. One of format 2 becomes one of format 1.
pub fn older(draws: &mut Draws, files: &[Vec<u8>; 3]) -> Result<Older, String> {
    let log = &files[LOG];
    let new = Head::of_log(log).filter(Head::may_be_older);
    let new = new.ok_or("no head of a store that may be older")?;
    let shape = Shape {
        slots: EARLY_SLOTS,
        ..new.shape
    };
    let format = draws.within(1, new.format - 1);
    let old = Head { format, shape };
    let made = if format == 1 {
        in_format_1(draws, log, &new, &old)?
    } else {
        in_format_2(draws, log, &old)
    };
    Ok(Older {
        shape,
        log: made,
        data: with_slots_of(draws, &files[DATA], &new.shape, &shape),
    })
}

/// The log of format 2 that reads as this one of format 3 does: the heads alone differ.
fn in_format_2(draws: &mut Draws, log: &[u8], old: &Head) -> Vec<u8> {
    let mut made = log.to_vec();
    let junk = draw_junk(draws);
    let head = head_text(old);
    let (first, second) = match draws.below(8) {
        0 => (&junk[..], &head[..]),
        1 => (&head[..], &junk[..]),
        2 => (&head[..], &[0; SECTOR][..]),
        _ => (&head[..], &head[..]),
    };
    put_sector(&mut made, HEADS[0], first);
    put_sector(&mut made, HEADS[1], second);
    made
}

fn draw_junk(draws: &mut Draws) -> Vec<u8> {
    (0..SECTOR).map(|_| draws.number() as u8).collect()
}

/// The log of format 1 that reads as this newer one does. What a reader of format 1 doesn't look at is zero, or anything.
fn in_format_1(draws: &mut Draws, log: &[u8], new: &Head, old: &Head) -> Result<Vec<u8>, String> {
    let checkpoint = checkpoint_of(log, new).ok_or("no checkpoint")?;
    let mut made = vec![0; log.len()];
    if draws.once_in(2) {
        litter(draws, &mut made, new, checkpoint.lsn);
    }
    let mut next = checkpoint.lsn;
    for (block, mut bytes) in scanned(log, new, &checkpoint) {
        if !block.is_full() {
            put_field(&mut bytes, 8, 4, checkpoint.number & 0xFFFF_FFFF);
            seal_sector(&mut bytes);
        }
        put_sector(&mut made, old.place_of(block.lsn), &bytes);
        next = block.lsn + BLOCK;
    }
    // what follows the last block isn't taken for the next
    put_sector(&mut made, old.place_of(next), &[0; SECTOR]);
    put_heads(draws, &mut made, log, old);
    put_checkpoints(draws, &mut made, old, checkpoint);
    Ok(made)
}

/// A head of format 1 in the first block and anything in the other, or a broken first block and the head in the other.
fn put_heads(draws: &mut Draws, made: &mut [u8], log: &[u8], old: &Head) {
    let junk = draw_junk(draws);
    let head = head_text(old);
    let (first, second) = match draws.below(8) {
        0 => (&junk[..], &head[..]),
        1 => (&head[..], &head[..]),
        2 => (&head[..], &junk[..]),
        3 => (&head[..], sector(log, HEADS[1])),
        _ => (&head[..], &[0; SECTOR][..]),
    };
    put_sector(made, HEADS[0], first);
    put_sector(made, HEADS[1], second);
}

fn put_checkpoints(draws: &mut Draws, made: &mut [u8], old: &Head, checkpoint: Checkpoint) {
    if let Some(number) = checkpoint.number.checked_sub(1)
        && draws.once_in(2)
    {
        let lsn = draws.one_of(&[START, checkpoint.lsn]);
        put_checkpoint(made, old, Checkpoint { number, lsn });
    }
    put_checkpoint(made, old, checkpoint);
}

/// Puts blocks of some lsns and junk into the ring, many where the newer format has the block of that lsn.
fn litter(draws: &mut Draws, made: &mut [u8], new: &Head, lsn: u64) {
    for _ in 0..draws.within(1, 40) {
        let at = block_of(lsn) + BLOCK * draws.below(80);
        let at = at.saturating_sub(BLOCK * draws.below(40)).max(START);
        let length = draws.one_of(&[BLOCK, BLOCK, 12, 40, 507]);
        let mut bytes = vec![0; SECTOR];
        for eight in bytes.chunks_exact_mut(8) {
            eight.copy_from_slice(&draws.number().to_be_bytes());
        }
        put_field(&mut bytes, 0, 4, at / BLOCK % (1 << 30) + 1);
        put_field(&mut bytes, 4, 2, length);
        put_field(&mut bytes, 6, 2, draws.one_of(&[0, BLOCK_HEADER]));
        put_field(&mut bytes, 8, 4, draws.below(2));
        if !draws.once_in(8) {
            seal_sector(&mut bytes);
        }
        let ring = new.shape.log_blocks as usize;
        let place = match draws.below(4) {
            0 => 4 + draws.below(ring as u64) as usize,
            1 => draws.one_of(&TAILS),
            _ => new.place_of(at),
        };
        put_sector(made, place, &bytes);
    }
}

/// The data device with the slots of the old shape that reads as this one with those of the new shape does. Past the places it
/// ends, or has anything.
fn with_slots_of(draws: &mut Draws, data: &[u8], new: &Shape, old: &Shape) -> Vec<u8> {
    if new.slots == old.slots {
        return data.to_vec();
    }
    let length = new.page_length();
    let mut whole = data.to_vec();
    whole.resize(whole.len().max(new.data_length()), 0);
    let (slots, places) = whole.split_at(length * new.slots as usize);
    let mut made = match draws.below(4) {
        0 => vec![0; whole.len()],
        1 => vec![draws.number() as u8; whole.len()],
        _ => whole.clone(),
    };
    let (old_slots, old_places) = made.split_at_mut(length * old.slots as usize);
    old_slots.copy_from_slice(&slots[..old_slots.len()]);
    let pages = old_places
        .chunks_exact_mut(length)
        .zip(places.chunks_exact(length));
    for (number, (made, place)) in (0..old.pages).zip(pages) {
        made.copy_from_slice(kept(place, slots, number, old));
    }
    if draws.once_in(3) {
        made.truncate(old.data_length());
    }
    made
}

/// What the place of a page has to hold where only the slots of the old shape stay: what it held, or the copy that counts.
fn kept<'a>(place: &'a [u8], slots: &'a [u8], number: u32, old: &Shape) -> &'a [u8] {
    if is_place(place, number, old.space) {
        return place;
    }
    let copies = slots.chunks_exact(place.len()).enumerate();
    let passing = copies.filter(|(_, copy)| is_copy(copy, number, old.space));
    // the lowest slot of two of one lsn
    let counting = passing.rev().max_by_key(|(_, copy)| field(copy, 16, 8));
    match counting {
        Some((slot, copy)) if slot >= old.slots as usize => copy,
        _ => place,
    }
}
