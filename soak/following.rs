//! Whether the followers of a run handed on the groups that the report says.

use crate::checking::{Asked, Store, ensure, is_boundary, lines_of};
use crate::crc::crc32c;
use crate::lsn::sn_of;
use crate::report::{Entry, Follow, Marks, Report};
use crate::script::Line;
use crate::texts::group_text;

/// There are as many as were asked for. Each has handed on the first groups, up to a place that is flushed, and no
/// checkpoint is above it.
pub fn check_follows(
    store: &Store,
    asked: Asked,
    report: &Report,
    start: u64,
    marks: &Marks,
) -> Result<(), String> {
    let numbers = report.follows.iter().map(|follow| follow.number);
    ensure(numbers.eq(1..=asked.followers), || {
        format!("{} followers should be told of", asked.followers)
    })?;
    let texts = texts_of(store, asked.script, report)?;
    for follow in &report.follows {
        check_place(follow, report, start, marks)?;
        check_groups(follow, report, &texts)?;
    }
    Ok(())
}

fn check_place(follow: &Follow, report: &Report, start: u64, marks: &Marks) -> Result<(), String> {
    let of_follow = |what: &str| format!("{what}: {follow:?}");
    ensure(is_boundary(report, start, follow.lsn), || {
        of_follow("no place between groups")
    })?;
    ensure(follow.lsn <= marks.flushed, || {
        of_follow("a follower above the flushed mark")
    })?;
    ensure(marks.checkpoint <= follow.lsn, || {
        of_follow("a follower below the checkpoint")
    })
}

/// It counts the groups up to its place, and has the checksum of their joined texts.
fn check_groups(follow: &Follow, report: &Report, texts: &[Vec<u8>]) -> Result<(), String> {
    let is_below = |entry: &&Entry| entry.end <= follow.lsn;
    let count = report.entries.iter().filter(is_below).count();
    ensure(follow.count == count, || {
        format!("{count} groups end at or below a follower's place: {follow:?}")
    })?;
    let crc = crc32c(&texts[..count].concat());
    ensure(follow.crc == crc, || {
        format!(
            "{crc:08x} is the checksum of what follower {} had to hand on, and not {:08x}",
            follow.number, follow.crc
        )
    })
}

/// The text of each group, in the order of their starts.
fn texts_of(store: &Store, script: &[Line], report: &Report) -> Result<Vec<Vec<u8>>, String> {
    let text = |entry: &Entry| {
        let line = lines_of(script, entry.user)[entry.number];
        let text = group_text(line, store.shape.space);
        let length = sn_of(entry.end) - sn_of(entry.start);
        ensure(text.len() as u64 == length, || {
            format!("a text of {} bytes: {entry:?}", text.len())
        })?;
        Ok(text)
    };
    report.entries.iter().map(text).collect()
}
