//! Moments of a call, at which it is cut or killed, and how far it came by then.

use crate::crc::field;
use crate::draws::Draws;
use crate::events::{Event, LOG, What, Write, is_block, synced, writes_of};
use crate::shape::NEWEST;

/// How far a call came.
#[derive(Clone, Copy, PartialEq)]
pub enum Stage {
    Opening,
    Migrating,
    Running,
}

fn is_write(event: &Event) -> bool {
    matches!(event.what, What::Write(_))
}

/// The moments between events that differ: at the start, and after each write and sync.
pub fn moments_of(events: &[Event]) -> Vec<usize> {
    let changes = |moment: &usize| !matches!(events[*moment - 1].what, What::Called);
    let mut moments = vec![0];
    moments.extend((1..=events.len()).filter(changes));
    moments
}

/// A moment between events, mostly drawn so that stretches without a sync count alike, however long they are.
pub fn draw_moment(draws: &mut Draws, events: &[Event]) -> usize {
    let moments = moments_of(events);
    if draws.once_in(3) {
        return draws.one_of(&moments);
    }
    let begins = |moment: usize| moment == 0 || matches!(events[moment - 1].what, What::Sync);
    let firsts: Vec<usize> = (0..moments.len())
        .filter(|place| begins(moments[*place]))
        .collect();
    let stretch = draws.below(firsts.len() as u64) as usize;
    let next = firsts.get(stretch + 1).copied().unwrap_or(moments.len());
    draws.one_of(&moments[firsts[stretch]..next])
}

/// A moment before the first good sync of the device, mostly that in which it comes.
pub fn draw_moment_before_sync(draws: &mut Draws, events: &[Event], device: usize) -> usize {
    let is_sync = |event: &Event| event.device == device && matches!(event.what, What::Sync);
    let first = events.iter().position(is_sync).unwrap_or(events.len());
    let moments = moments_of(&events[..first]);
    if draws.once_in(2) {
        moments[moments.len() - 1]
    } else {
        draws.one_of(&moments)
    }
}

/// A moment of a run: in half of the draws one of opening, where a store of an older format is migrated too.
pub fn draw_moment_of_run(draws: &mut Draws, events: &[Event], is_older: bool) -> usize {
    if !is_older && draws.once_in(2) {
        return draw_moment(draws, events);
    }
    let begun = if is_older && !draws.once_in(4) {
        first_checkpoint(events).unwrap_or(0)
    } else {
        0
    };
    begun
        + draw_moment(
            draws,
            &events[begun..opened(events).unwrap_or(events.len())],
        )
}

pub fn after_last_write(events: &[Event]) -> usize {
    events.iter().rposition(is_write).map_or(0, |last| last + 1)
}

/// The place of the first write of a log block: opening ended before it.
pub fn opened(events: &[Event]) -> Option<usize> {
    events.iter().position(is_block)
}

/// The place of the first write of a checkpoint.
fn first_checkpoint(events: &[Event]) -> Option<usize> {
    events.iter().position(|event| match &event.what {
        What::Write(write) => event.device == LOG && [512, 1_536].contains(&write.at),
        _ => false,
    })
}

/// Whether the write puts the head into the first block that ends a migration.
fn is_newest_head(write: &Write) -> bool {
    write.at == 0 && field(&write.bytes, 0, 4) == NEWEST
}

pub fn stage_of(events: &[Event], is_older: bool) -> Stage {
    if events.iter().any(is_block) {
        return Stage::Running;
    }
    let Some(begun) = first_checkpoint(events) else {
        return Stage::Opening;
    };
    let rest = &events[begun..];
    let synced = synced(rest, LOG);
    match (is_older, synced > 0) {
        (false, false) => Stage::Opening,
        (false, true) => Stage::Running,
        (true, _) if writes_of(&rest[..synced], LOG).any(is_newest_head) => Stage::Running,
        (true, _) => Stage::Migrating,
    }
}
