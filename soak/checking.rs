//! Whether the report of a run is one that the crash theorem allows, on a store of which all is known.

use crate::following::check_follows;
use crate::lsn::{BLOCK, BLOCK_HEADER, FIRST, behind, start_after};
use crate::pages::Pages;
use crate::report::{Entry, Marks, Recovered, Report, State};
use crate::script::{Line, MOST_USERS, Mode, Op, group_length};
use crate::shape::{DEFAULT_SHAPE, Shape};
use std::collections::BTreeSet;

/// A group that a store's log holds.
#[derive(Clone)]
pub struct Logged {
    pub start: u64,
    pub end: u64,
    pub ops: Vec<Op>,
}

/// What is known of a store: its sizes, its log's end, its pages, all groups since it was formatted, where its runs
/// started, and the least that its checkpoint can be.
#[derive(Clone)]
pub struct Store {
    pub shape: Shape,
    pub end: u64,
    pub pages: Pages,
    pub log: Vec<Logged>,
    pub starts: Vec<u64>,
    pub checkpoint: u64,
}

impl Store {
    /// A store that was just formatted.
    pub fn new(shape: Shape) -> Store {
        Store {
            shape,
            end: FIRST,
            pages: Pages::blank(&shape),
            log: Vec::new(),
            starts: vec![FIRST],
            checkpoint: FIRST - BLOCK_HEADER,
        }
    }

    pub fn default_sizes() -> Store {
        Store::new(DEFAULT_SHAPE)
    }

    /// What is known once opening came to its end, and maybe only then.
    pub fn opened_at(&mut self, end: u64) -> Result<(), String> {
        let start = start_after(self.end);
        if end != self.end && end != start {
            return Err(format!(
                "the log ends at {end}, and not at {} or {start}",
                self.end
            ));
        }
        if end == start {
            self.starts.push(start);
        }
        self.end = end;
        Ok(())
    }
}

/// What was asked of a run.
#[derive(Clone, Copy)]
pub struct Asked<'a> {
    pub script: &'a [Line],
    pub stops: bool,
    pub log_only: bool,
    /// Whether all that was written is read, also what wasn't synced.
    pub keeps_all: bool,
    /// How many followers there are.
    pub followers: u64,
}

pub fn ensure(holds: bool, message: impl FnOnce() -> String) -> Result<(), String> {
    if holds { Ok(()) } else { Err(message()) }
}

/// Checks the report of a run on the store, and says what is known of the store after it. Without a reading in the report
/// that is the opened store.
pub fn check(store: &Store, asked: Asked, report: &Report) -> Result<Store, String> {
    ensure(asked.stops || !report.tells_failure(), || {
        "a group is lost, a line left, or opening stopped, and no device was to stop".to_string()
    })?;
    check_left(asked.script, report)?;
    match (report.start, &report.marks) {
        (None, None) => check_stopped(store, report),
        (Some(start), Some(marks)) => {
            check_run(store, asked, report, start, marks)?;
            read_behind(store, asked, report, start, marks)
        }
        _ => Err("a start without marks, or marks without a start".to_string()),
    }
}

/// The lines of a user, in order.
pub fn lines_of(script: &[Line], user: u32) -> Vec<&Line> {
    script.iter().filter(|line| line.user == user).collect()
}

/// What is left of a user are its lines without a group. Where opening was stopped the script wasn't judged, and a user may
/// have any number.
fn check_left(script: &[Line], report: &Report) -> Result<(), String> {
    let left = |user: u32| {
        let lines = script.iter().filter(|line| line.user == user).count();
        let groups = report
            .entries
            .iter()
            .filter(|entry| entry.user == user)
            .count();
        (user, lines.wrapping_sub(groups))
    };
    let users: BTreeSet<u32> = script.iter().map(|line| line.user).collect();
    let wanted: Vec<_> = users
        .into_iter()
        .map(left)
        .filter(|(_, count)| *count > 0)
        .collect();
    ensure(report.left == wanted, || {
        format!("left should be {wanted:?}")
    })
}

/// Opening was stopped: the store is as it was, and opening's checkpoint may have been kept or not.
fn check_stopped(store: &Store, report: &Report) -> Result<Store, String> {
    ensure(report.entries.is_empty(), || {
        "groups without a start".to_string()
    })?;
    ensure(report.follows.is_empty(), || {
        "followers without a start".to_string()
    })?;
    let Some(recovered) = &report.recovered else {
        return Err("opening was stopped, and there is no crash".to_string());
    };
    ensure(recovered.count == 0, || {
        "groups came back of no run".to_string()
    })?;
    ensure(recovered.pages == store.pages.lines(), || {
        "other pages than were opened".to_string()
    })?;
    let mut known = store.clone();
    known.opened_at(recovered.end)?;
    Ok(known)
}

fn check_run(
    store: &Store,
    asked: Asked,
    report: &Report,
    start: u64,
    marks: &Marks,
) -> Result<(), String> {
    let wanted = start_after(store.end);
    ensure(start == wanted, || {
        format!("the run starts at {start}, and not at {wanted}")
    })?;
    check_entries(store, asked.script, report, start, marks)?;
    check_marks(asked, report, start, marks)?;
    check_follows(store, asked, report, start, marks)
}

/// The groups tile the log from the start on, each user's as its lines order and once, and their states are what the marks
/// and the modes say.
fn check_entries(
    store: &Store,
    script: &[Line],
    report: &Report,
    start: u64,
    marks: &Marks,
) -> Result<(), String> {
    let mut lines: Vec<_> = (0..=MOST_USERS)
        .map(|user| lines_of(script, user).into_iter())
        .collect();
    let mut counts = [0; MOST_USERS as usize + 1];
    let mut lost = [false; MOST_USERS as usize + 1];
    let mut place = start;
    for entry in &report.entries {
        let of_entry = |what: &str| format!("{what}: {entry:?}");
        let user = entry.user as usize;
        ensure((1..=MOST_USERS).contains(&entry.user), || {
            of_entry("no user")
        })?;
        ensure(!lost[user], || of_entry("a group behind a lost one"))?;
        let line = lines[user]
            .next()
            .ok_or_else(|| of_entry("more groups than lines"))?;
        ensure(entry.number == counts[user], || {
            of_entry("not the user's next")
        })?;
        ensure(entry.start == place, || {
            of_entry("not where the last one ends")
        })?;
        let end = behind(place, group_length(line, store.shape.space));
        ensure(entry.end == end, || {
            of_entry("not as long as its line's group")
        })?;
        ensure(fits_marks(entry, marks), || {
            of_entry("not what the marks say")
        })?;
        ensure(fits_mode(entry.state, line.mode), || {
            of_entry("not what its mode asks")
        })?;
        lost[user] = entry.state == State::Lost;
        counts[user] += 1;
        place = end;
    }
    Ok(())
}

fn fits_marks(entry: &Entry, marks: &Marks) -> bool {
    match entry.state {
        State::Lost => true,
        State::Flushed => entry.end <= marks.flushed,
        State::Written => marks.flushed < entry.end && entry.end <= marks.written,
        State::Copied => marks.flushed < entry.end && marks.written < entry.end,
    }
}

/// An answered commit is flushed or written where it waits for that.
fn fits_mode(state: State, mode: Mode) -> bool {
    match state {
        State::Lost | State::Flushed => true,
        State::Written => mode != Mode::Flushed,
        State::Copied => mode == Mode::AtOnce,
    }
}

pub fn is_boundary(report: &Report, start: u64, lsn: u64) -> bool {
    lsn == start || report.entries.iter().any(|entry| entry.end == lsn)
}

fn check_marks(asked: Asked, report: &Report, start: u64, marks: &Marks) -> Result<(), String> {
    for mark in [marks.copied, marks.written, marks.flushed] {
        ensure(is_boundary(report, start, mark), || {
            format!("{mark} is no place between groups")
        })?;
    }
    ensure(marks.written <= marks.copied, || {
        "written above copied".to_string()
    })?;
    ensure(marks.flushed <= marks.written, || {
        "flushed above written".to_string()
    })?;
    let checkpoint = marks.checkpoint;
    let first = start - BLOCK_HEADER;
    ensure(checkpoint.is_multiple_of(BLOCK), || {
        "a checkpoint inside a block".to_string()
    })?;
    ensure((first..=marks.flushed).contains(&checkpoint), || {
        "a checkpoint below the run's or above the flushed mark".to_string()
    })?;
    ensure(!asked.log_only || checkpoint == first, || {
        "a checkpoint of the log alone".to_string()
    })
}

/// What is known of the store after a run: the first groups of it, as many as came back.
fn read_behind(
    store: &Store,
    asked: Asked,
    report: &Report,
    start: u64,
    marks: &Marks,
) -> Result<Store, String> {
    let mut known = store.clone();
    known.opened_at(start)?;
    known.checkpoint = marks.checkpoint;
    let Some(recovered) = &report.recovered else {
        return Ok(known);
    };
    check_end(asked, report, start, marks, recovered)?;
    take_groups(&mut known, asked.script, report, recovered.end);
    ensure(recovered.pages == known.pages.lines(), || {
        format!(
            "the pages aren't those of the first {} groups",
            recovered.count
        )
    })?;
    Ok(known)
}

fn check_end(
    asked: Asked,
    report: &Report,
    start: u64,
    marks: &Marks,
    recovered: &Recovered,
) -> Result<(), String> {
    let Recovered { count, end, .. } = *recovered;
    ensure(is_boundary(report, start, end), || {
        format!("{end} is no place between groups")
    })?;
    ensure(marks.flushed <= end, || {
        format!("the log ends at {end}, below the flushed mark")
    })?;
    ensure(end <= marks.copied, || {
        format!("the log ends at {end}, above the copied mark")
    })?;
    ensure(!asked.keeps_all || marks.written <= end, || {
        format!("the log ends at {end}, below the written mark, and nothing was dropped")
    })?;
    let first = report
        .entries
        .iter()
        .filter(|entry| entry.end <= end)
        .count();
    ensure(count == first, || {
        format!("{first} groups end at or below {end}, and not {count}")
    })?;
    let reaches = |(place, entry): (usize, &Entry)| entry.state != State::Flushed || place < count;
    ensure(report.entries.iter().enumerate().all(reaches), || {
        "a flushed group isn't among those that came back".to_string()
    })
}

/// Adds the run's groups up to this end to what is known.
pub fn take_groups(known: &mut Store, script: &[Line], report: &Report, end: u64) {
    for entry in report.entries.iter().filter(|entry| entry.end <= end) {
        let line = lines_of(script, entry.user)[entry.number];
        known.pages.apply(&line.ops, entry.end);
        known.log.push(Logged {
            start: entry.start,
            end: entry.end,
            ops: line.ops.clone(),
        });
    }
    known.end = end;
}

/// Checks the report of a run without a crash beside what `recover` then reads.
pub fn check_read(
    store: &Store,
    asked: Asked,
    report: &Report,
    end: u64,
    pages: &str,
) -> Result<Store, String> {
    let mut report = report.clone();
    report.recovered = Some(Recovered {
        count: report
            .entries
            .iter()
            .filter(|entry| entry.end <= end)
            .count(),
        end,
        pages: pages.to_string(),
    });
    check(store, asked, &report)
}
