//! What the archive of a run has to hold, by the run's script and its report.

use crate::checking::{Store, ensure, lines_of};
use crate::draws::Draws;
use crate::lsn::{block_of, start_after};
use crate::pages::Pages;
use crate::report::Report;
use crate::restoring::{Reading, Whole};
use crate::script::Line;
use crate::shape::Shape;
use std::collections::BTreeSet;

/// The archive of a run, as far as the script and the report say it.
#[derive(Clone)]
pub struct Archived {
    shape: Shape,
    start: u64,
    /// The pages with which the run was opened.
    pages: Pages,
    groups: Vec<Whole>,
    /// No mark is below this one.
    pub least: u64,
    /// No mark is above this one.
    most: u64,
    /// No mark is below the block of the newest checkpoint, if it is known.
    checkpoint: u64,
}

impl Archived {
    /// The archive of a run on the store, whose mark lies somewhere up to the flushed mark. Nothing where it didn't begin.
    pub fn of(store: &Store, script: &[Line], report: &Report) -> Option<Archived> {
        let start = report.start?;
        let marks = report.marks.as_ref()?;
        let groups = report.entries.iter().map(|entry| Whole {
            ops: lines_of(script, entry.user)[entry.number].ops.clone(),
            end: entry.end,
        });
        Some(Archived {
            shape: store.shape.of_run(),
            start,
            pages: store.pages.clone(),
            groups: groups.collect(),
            least: start,
            most: marks.flushed,
            checkpoint: 0,
        })
    }

    /// The run came to an end without a failure: the mark is the flushed one.
    pub fn ended(mut self) -> Archived {
        self.least = self.most;
        self
    }

    /// The run printed its report: no checkpoint went past the archive.
    pub fn told(mut self, report: &Report) -> Archived {
        self.checkpoint = report.marks.as_ref().map_or(0, |marks| marks.checkpoint);
        self
    }

    /// The mark of the archive that a file holds, if it is this one.
    pub fn mark(&self, file: &[u8]) -> Result<u64, String> {
        let reading = Reading::of(file);
        let extent = reading.extent.ok_or("there is no archive")?;
        ensure(
            extent.start == self.start && extent.shape == self.shape,
            || format!("the archive of another run: {extent:?}"),
        )?;
        let mark = extent.mark;
        ensure((self.least..=self.most).contains(&mark), || {
            format!(
                "the archive's mark is {mark}, and not from {} to {}",
                self.least, self.most
            )
        })?;
        ensure(self.checkpoint <= block_of(mark), || {
            format!("a checkpoint at {} above the archive", self.checkpoint)
        })?;
        Ok(mark)
    }

    /// The status and the text of `restore` for an lsn, where this is the mark.
    pub fn answer(&self, lsn: u64, mark: u64) -> (i32, String) {
        if lsn < self.start || mark < lsn {
            return (10, format!("fault fit to {lsn}\n"));
        }
        let mut pages = self.pages.clone();
        let (mut count, mut end) = (0, self.start);
        for group in self.groups.iter().filter(|group| group.end <= lsn) {
            pages.apply(&group.ops, group.end);
            count += 1;
            end = group.end;
        }
        (0, format!("restored {count} {end}\n{}", pages.lines()))
    }

    /// Some lsns: ends of groups, between them, the mark, and at times one out of the archive.
    pub fn lsns(&self, draws: &mut Draws, mark: u64) -> Vec<u64> {
        let ends: Vec<u64> = self.groups.iter().map(|group| group.end).collect();
        draw_lsns(draws, self.start, mark, &ends)
    }
}

/// Some lsns from the start up to the mark, and at times one out of these.
fn draw_lsns(draws: &mut Draws, start: u64, mark: u64, ends: &[u64]) -> Vec<u64> {
    let below: Vec<u64> = ends.iter().copied().filter(|end| *end <= mark).collect();
    let mut lsns = vec![mark];
    for _ in 0..draws.within(1, 4) {
        let lsn = match draws.below(8) {
            0 => start,
            1 => start - 1,
            2 => mark + draws.one_of(&[1, 1, 512, 1 << 60]),
            3 | 4 if !below.is_empty() => draws.one_of(&below),
            5 if !below.is_empty() => draws.one_of(&below) - 1,
            _ => draws.within(start, mark),
        };
        lsns.push(lsn);
    }
    lsns
}

/// The archive of a run that spent its turns, and so printed no report: it begins with the opened pages, and its groups are
/// first lines of the users. Some lsns, and what has to come for them.
pub fn check_spent(
    draws: &mut Draws,
    store: &Store,
    script: &[Line],
    file: &[u8],
) -> Result<Vec<(u64, (i32, String))>, String> {
    let reading = Reading::of(file);
    let extent = reading.extent.ok_or("there is no archive")?;
    ensure(
        extent.start == start_after(store.end) && extent.shape == store.shape,
        || format!("the archive of another run: {extent:?}"),
    )?;
    let (pages, wholes) = reading
        .found
        .as_ref()
        .map_err(|refusal| refusal.to_string())?;
    ensure(*pages == store.pages, || {
        "the archive doesn't begin with the opened pages".to_string()
    })?;
    ensure(are_first_lines(script, wholes), || {
        "the archive holds groups of no lines".to_string()
    })?;
    let lsns = draw_lsns(draws, extent.start, extent.mark, &reading.ends());
    let answers = lsns.into_iter().map(|lsn| {
        let (status, text, _) = reading.answer(lsn);
        (lsn, (status, text))
    });
    Ok(answers.collect())
}

/// Whether the groups are first lines of the users, each user's in order: for each group one user's next line says the same.
fn are_first_lines(script: &[Line], wholes: &[Whole]) -> bool {
    let users: BTreeSet<u32> = script.iter().map(|line| line.user).collect();
    let lines: Vec<Vec<&Line>> = users.iter().map(|user| lines_of(script, *user)).collect();
    // how many lines each user may have had, since two users may say the same
    let mut states = BTreeSet::from([vec![0; lines.len()]]);
    for whole in wholes {
        let mut next = BTreeSet::new();
        for state in &states {
            for (place, lines) in lines.iter().enumerate() {
                if lines
                    .get(state[place])
                    .is_some_and(|line| line.ops == whole.ops)
                {
                    let mut moved = state.clone();
                    moved[place] += 1;
                    next.insert(moved);
                }
            }
        }
        states = next;
    }
    !states.is_empty()
}
