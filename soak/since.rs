//! What came since the last power cut: the calls, of which the next cut may take a part, and their writes.

use crate::checking::{Store, ensure, is_boundary, take_groups};
use crate::events::{DEVICES, Event, LOG, What, blocks_end, synced, writes_of};
use crate::heads::Heads;
use crate::lsn::start_after;
use crate::report::Report;
use crate::script::Line;
use crate::shape::Shape;
use std::ops::Range;

/// A run of which a cut may leave the first groups.
pub struct Run {
    /// The store that it opened.
    pub store: Store,
    pub lines: Vec<Line>,
    /// All that it would come to, also where it was cut or killed.
    pub report: Report,
    /// Whether it came to its end and printed the report.
    pub is_told: bool,
    /// Its events among those since the cut.
    pub events: Range<usize>,
}

pub enum Step {
    /// The devices were formatted to this shape, or that was begun.
    Formats(Shape),
    Runs(Run),
}

/// The calls since the last cut on a store in files, and what the cut has left.
pub struct Since {
    /// Nothing where it left no store.
    left: Option<Store>,
    files: [Vec<u8>; 3],
    pub events: Vec<Event>,
    steps: Vec<Step>,
    /// Where the events of formatting begin, and what stood in the log's first block then.
    formatting: Option<(usize, Vec<u8>)>,
}

impl Run {
    /// Its groups stay up to here, since a sync came after them or the report said that they are flushed.
    fn kept(&self, events: &[Event]) -> u64 {
        let Range { start, end } = self.events;
        let synced = blocks_end(&events[start..synced(events, LOG).clamp(start, end)]);
        let ends = self.report.entries.iter().map(|entry| entry.end);
        let kept = ends.filter(|end| *end <= synced).max().unwrap_or(0);
        let told = self.report.marks.as_ref().filter(|_| self.is_told);
        kept.max(told.map_or(0, |marks| marks.flushed))
    }

    /// The store that it leaves with this shape where the log ends here, if there is a place between its groups.
    fn upto(&self, shape: Shape, end: u64, events: &[Event]) -> Result<Option<Store>, String> {
        let start = start_after(self.store.end);
        if !is_boundary(&self.report, start, end) {
            return Ok(None);
        }
        let given = blocks_end(&events[self.events.clone()]);
        ensure(end <= given.max(start), || {
            format!("the log ends at {end}, and was given up to {given}")
        })?;
        let is_opened = start < end || self.is_told && self.report.start.is_some();
        ensure(!is_opened || shape == shape.of_run(), || {
            "a run on a store that wasn't taken to format 3".to_string()
        })?;
        let mut known = self.store.clone();
        known.shape = shape;
        known.opened_at(start)?;
        take_groups(&mut known, &self.lines, &self.report, end);
        if let Some(marks) = self.report.marks.as_ref().filter(|_| self.is_told) {
            ensure(end <= marks.copied, || {
                format!("the log ends at {end}, above the copied mark")
            })?;
            known.checkpoint = marks.checkpoint;
        }
        Ok(Some(known))
    }
}

impl Since {
    /// Nothing came since the cut that left this.
    pub fn new(left: Option<Store>, files: [Vec<u8>; 3]) -> Since {
        Since {
            left,
            files,
            events: Vec::new(),
            steps: Vec::new(),
            formatting: None,
        }
    }

    pub fn is_empty(&self) -> bool {
        self.steps.is_empty() && self.events.is_empty()
    }

    /// How many calls have changed the store, or begun to.
    pub fn count(&self) -> usize {
        self.steps.len()
    }

    /// Formatting begins, on a log device whose first block is this.
    pub fn begin_formatting(&mut self, shape: Shape, first: Vec<u8>) {
        self.formatting.get_or_insert((self.events.len(), first));
        self.steps.push(Step::Formats(shape));
    }

    pub fn add_run(&mut self, run: Run) {
        self.steps.push(Step::Runs(run));
    }

    /// Drops the events from here on: the power went before them.
    pub fn truncate(&mut self, until: usize) {
        self.events.truncate(until);
        for step in &mut self.steps {
            if let Step::Runs(run) = step {
                run.events.end = run.events.end.min(until);
            }
        }
    }

    /// The devices were formatted to the end, so that each cut leaves this store.
    pub fn end_formatting(&mut self, store: Store) {
        let bounds = DEVICES.map(|device| synced(&self.events, device));
        for device in DEVICES {
            for write in writes_of(&self.events[..bounds[device]], device) {
                write.put(&mut self.files[device]);
            }
        }
        let mut place = 0;
        self.events.retain(|event| {
            place += 1;
            bounds[event.device] < place
        });
        self.left = Some(store);
        self.steps.clear();
        self.formatting = None;
    }

    /// Formatting was begun, and the store that was there is seen still: so it came no further than to one of both heads.
    pub fn forget_formatting(&mut self) {
        self.steps.retain(|step| matches!(step, Step::Runs(_)));
        self.formatting = None;
    }

    /// What a device held when the last cut came.
    pub fn file(&self, device: usize) -> &[u8] {
        &self.files[device]
    }

    /// Whether a cut that comes now may take a write of this device from the events up to this one.
    pub fn is_pending(&self, device: usize, until: usize) -> bool {
        let events = self.events[..until].iter();
        let mut pending = events.skip(synced(&self.events, device));
        pending.any(|event| event.device == device && matches!(event.what, What::Write(_)))
    }

    /// What the events did to the heads since formatting began.
    fn heads(&self) -> Option<Heads> {
        let (begun, first) = self.formatting.as_ref()?;
        Some(Heads::of(&self.events[*begun..], first))
    }

    /// Whether formatting may have written a head, which a cut may take or not.
    pub fn may_have_head(&self) -> bool {
        self.heads().is_some_and(|heads| heads.may_be_new)
    }

    /// Checks that there may be no store.
    pub fn allow_none(&self) -> Result<(), String> {
        match self.heads() {
            Some(heads) => heads.allow_none(self.left.is_some()),
            None if self.left.is_none() => Ok(()),
            None => Err("the store is gone".to_string()),
        }
    }

    /// The store that is there, where a reading gives this shape, this end of the log and these pages.
    pub fn settled(&self, shape: Shape, end: u64, pages: &str) -> Result<Store, String> {
        let is_formats = |step: &Step| matches!(step, Step::Formats(_));
        let first = self.steps.iter().position(is_formats);
        let old = &self.steps[..first.unwrap_or(self.steps.len())];
        let old = self
            .left
            .as_ref()
            .map(|left| self.settled_on(left, old, (shape, end, pages)));
        let Some(last) = self.steps.iter().rposition(is_formats) else {
            return old.unwrap_or(Err("a store where none was".to_string()));
        };
        let (Step::Formats(new_shape), Some(heads)) = (&self.steps[last], self.heads()) else {
            return Err("no formatting".to_string());
        };
        if let Some(Ok(old)) = old
            && !heads.is_new
        {
            return Ok(old);
        }
        heads.allow_new()?;
        let new = Store::new(*new_shape);
        self.settled_on(&new, &self.steps[last + 1..], (shape, end, pages))
    }

    /// The same of runs on one store.
    fn settled_on(
        &self,
        base: &Store,
        steps: &[Step],
        (shape, end, pages): (Shape, u64, &str),
    ) -> Result<Store, String> {
        // opening was stopped, or has taken the store to format 3
        let is_shape = [base.shape, base.shape.of_run()].contains(&shape);
        ensure(is_shape, || "another shape".to_string())?;
        let mut base = base.clone();
        base.shape = shape;
        let mut found = Err(format!("{end} is no place between groups"));
        if end == base.end {
            found = with_pages(base, pages);
        }
        for step in steps {
            let Step::Runs(run) = step else {
                return Err("formatting among runs".to_string());
            };
            let kept = run.kept(&self.events);
            ensure(kept <= end, || {
                format!("the log ends at {end}, and what ends at {kept} was to stay")
            })?;
            let reached = run.upto(shape, end, &self.events).transpose();
            let reached = reached.map(|known| known.and_then(|known| with_pages(known, pages)));
            // a run that was killed in opening may have begun where a later one does
            if let Some(reached) = reached
                && (reached.is_ok() || found.is_err())
            {
                found = reached;
            }
        }
        found
    }
}

/// The store, if these are its pages.
fn with_pages(known: Store, pages: &str) -> Result<Store, String> {
    ensure(pages == known.pages.lines(), || {
        format!("the pages aren't those of the groups up to {}", known.end)
    })?;
    Ok(known)
}
