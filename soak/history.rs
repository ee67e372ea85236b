//! Calls upon calls on one store in files, and on an archive, and power cuts after or within some of them.

use crate::archived::Archived;
use crate::checking::{Asked, Store, check, check_read, ensure};
use crate::crc::SECTOR;
use crate::draws::Draws;
use crate::events::{
    ARCHIVE, Archiving, DATA, DEVICES, Event, LOG, What, archiving_of, calls_of, first_archived,
};
use crate::files::{Asking, Files, Kill, On};
use crate::layout::{HEADS, Head, is_unused};
use crate::listing::{check_dump, check_recover, read_of};
use crate::lsn::start_after;
use crate::making::{draw_full_script, draw_script, text_of};
use crate::moments::{
    Stage, after_last_write, draw_moment, draw_moment_before_sync, draw_moment_of_run, opened,
    stage_of,
};
use crate::older::{Older, older};
use crate::options::{Options, draw_archive, draw_followers, draw_own_writes, draw_turns};
use crate::program::{Call, words_of};
use crate::report::Report;
use crate::restoring::Reading;
use crate::script::{Line, MOST_BYTES, group_length, misfit};
use crate::shape::{
    DEFAULT_SHAPE, EARLY_SLOTS, MOST_EARLY_PAGES, NEWEST, SLOTS, Shape, draw_large,
};
use crate::since::{Run, Since};
use crate::tally::Tally;
use crate::tears::{Cut, draw_junk};

/// The files as the last cut left them.
const BEFORE: [&str; 3] = ["before.log", "before.data", "before.archive"];
const UNFORMATTED: &str = "fault store unformatted\n";
/// What a call ends with when a device failed.
const FAULTS: [&str; 3] = [
    "fault log device\n",
    "fault data device\n",
    "fault archive device\n",
];
const STATUSES: [i32; 3] = [6, 7, 11];
/// So many runs a store has in the mean, and so many more or fewer at the most.
pub const RUNS_OF_A_STORE: u64 = 110;
const SPREAD: u64 = 90;
/// After so many calls without a cut there is one.
const MOST_STEPS: usize = 6;
/// How many pages stores have. Many take long.
const PAGES: [u32; 16] = [1, 2, 2, 8, 8, 8, 8, 8, 9, 17, 17, 64, 64, 65, 200, 1_024];

/// A store at work.
pub struct History<'a> {
    pub files: Files<'a>,
    pub tally: Tally,
    /// Whether sectors stay whole.
    is_whole: bool,
    draws: Draws,
    /// What followers and archives alone are drawn from, so that the draws of all else stay as they are without them.
    beside: Draws,
    /// Nothing where the log device holds no store.
    store: Option<Store>,
    /// What the archive has to hold. Nothing where there is none, or one that wasn't begun to the end.
    archived: Option<Archived>,
    /// Whether each run is archived.
    all_archive: bool,
    since: Since,
    /// Whether half of its scripts are long ones, which bring a small log round.
    is_wide: bool,
    /// Whether some of its runs are in threads; else the seed says all that comes.
    has_threads: bool,
    /// How many calls of each device the last opening took.
    opening: [u64; 3],
}

/// What becomes of a call.
#[derive(Clone, Copy, PartialEq)]
enum Fate {
    /// The power is cut at its end.
    Ends,
    /// It ends, and what it wrote stays as it is.
    Stays,
    /// The power is cut somewhere in it.
    Within,
    /// The program is killed somewhere in it, and what it wrote stays as it is.
    Killed,
}

#[derive(Clone, Copy)]
struct Plan {
    fate: Fate,
    /// One write or sync fails.
    fails: bool,
    /// Devices stop.
    stops: bool,
    crashes: bool,
}

struct RunScript {
    lines: Vec<Line>,
    threads: bool,
}

impl<'a> History<'a> {
    pub fn new(files: Files<'a>, is_whole: bool, all_archive: bool, seed: u64) -> History<'a> {
        let mut draws = Draws::new(seed);
        let is_wide = draws.once_in(2);
        let has_threads = draws.once_in(4);
        History {
            files,
            tally: Tally::default(),
            is_whole,
            draws,
            beside: Draws::beside(seed),
            store: None,
            archived: None,
            all_archive,
            since: Since::new(None, [Vec::new(), Vec::new(), Vec::new()]),
            is_wide,
            has_threads,
            opening: [20, 4, 1],
        }
    }

    pub fn run(&mut self) -> Result<(), String> {
        self.files.clear()?;
        self.tally.stores += 1;
        let runs = self
            .draws
            .within(RUNS_OF_A_STORE - SPREAD, RUNS_OF_A_STORE + SPREAD);
        while self.tally.runs < runs {
            self.step()?;
        }
        Ok(())
    }

    pub fn step(&mut self) -> Result<(), String> {
        let Some(store) = self.store.clone() else {
            return self.begin();
        };
        let head = self.files.head()?;
        // what is put into the files stands there for good, so nothing may be pending
        if self.since.is_empty() && self.becomes_older(&head) {
            return self.make_older(store);
        }
        if self.since.is_empty() && head.format != 1 && self.draws.once_in(30) {
            return self.break_head(store);
        }
        // a store that a killed call has formatted isn't formatted again before a cut
        if !self.since.may_have_head() && self.draws.once_in(30) {
            return self.format();
        }
        self.run_on(Some(store))
    }

    /// Makes a store where there is none.
    fn begin(&mut self) -> Result<(), String> {
        if !is_unused(&self.files.contents[LOG]) {
            if self.draws.once_in(2) {
                self.files.copy()?;
                let call = self.files.call_on_copies("run --files")?;
                call.answers(8, UNFORMATTED)?;
                self.files.copies_are_unchanged()?;
            }
            return self.format();
        }
        if self.is_wide || self.draws.once_in(2) {
            self.format()
        } else {
            self.run_on(None)
        }
    }

    /// What `recover` prints of copies of the files, twice the same, with no byte changed.
    fn look(&mut self) -> Result<Call, String> {
        self.files.copy()?;
        let call = self.files.call_on_copies("recover --files")?;
        let workers = self.draws.within(1, 16);
        let again = format!("recover --files --workers {workers}");
        let again = self.files.call_on_copies(&again)?;
        again.answers(call.status, &call.printed)?;
        self.files.copies_are_unchanged()?;
        Ok(call)
    }

    /// Checks the listing of the store that `recover` has read, and takes it as known.
    fn take(&mut self, mut known: Store, recovered: &Call) -> Result<(), String> {
        let format = self.files.head()?.format;
        let dump = self.files.call_on_copies("dump --files")?;
        dump.has_succeeded()?;
        self.files.copies_are_unchanged()?;
        let groups = check_dump(&mut known, format, &dump.printed)?;
        check_recover(&known, &read_of(&recovered.printed)?, groups)?;
        // what no reader meets again
        let checkpoint = known.checkpoint;
        known.log.retain(|logged| checkpoint <= logged.end);
        known.starts.retain(|start| checkpoint <= *start);
        self.store = Some(known);
        Ok(())
    }

    /// The power is cut when the last call has come to a moment; its events are those from the first on.
    fn cut(&mut self, first: usize, moment: usize) -> Result<(), String> {
        let last = self.since.events.len() - first;
        self.files.told.push(format!(
            "the power is cut after {moment} of the last call's {last} events, before which {first} came since the last cut"
        ));
        self.since.truncate(first + moment);
        let is_pending = |device: &usize| self.since.is_pending(*device, first);
        self.tally.pendings += u64::from(DEVICES.iter().any(is_pending));
        for device in DEVICES {
            let cut = Cut::after(self.since.file(device), &self.since.events, device);
            let draws = match device {
                ARCHIVE => &mut self.beside,
                _ => &mut self.draws,
            };
            let (mut content, torn) = cut.torn(draws, self.is_whole);
            self.tally.torn += torn;
            let length = self.files.contents[device].len().max(content.len());
            content.resize(length, 0);
            self.files.put(device, content)?;
        }
        let call = self.look()?;
        match self.settled(&call)? {
            Some(known) => self.take(known, &call)?,
            None => self.store = None,
        }
        self.restore()?;
        self.begin_anew()
    }

    /// Checks what is restored of the archive on the copies. One that wasn't begun to the end may be anything.
    fn restore(&mut self) -> Result<(), String> {
        let file = &self.files.contents[ARCHIVE];
        let Some(archived) = self.archived.clone() else {
            if !file.is_empty() && self.beside.once_in(4) {
                let to = self.beside.one_of(&[0, 8_204, 9_000]);
                let call = self.files.call_on_copies(&restore_words(to))?;
                ensure([0, 10, 12].contains(&call.status), || {
                    format!("status {} of an archive that wasn't begun", call.status)
                })?;
            }
            return self.files.copies_are_unchanged();
        };
        let mark = archived.mark(file)?;
        for to in archived.lsns(&mut self.beside, mark) {
            let (status, text) = archived.answer(to, mark);
            let call = self.files.call_on_copies(&restore_words(to))?;
            call.answers(status, &text)?;
            self.tally.restored += 1;
        }
        self.files.copies_are_unchanged()
    }

    /// The store that `recover` has read, if it is one that may be there.
    fn settled(&self, recovered: &Call) -> Result<Option<Store>, String> {
        if recovered.answers(8, UNFORMATTED).is_ok() {
            return self.since.allow_none().map(|()| None);
        }
        recovered.has_succeeded()?;
        let read = read_of(&recovered.printed)?;
        let shape = self.files.head()?.shape;
        let known = self.since.settled(shape, read.end, read.pages)?;
        Ok(Some(known))
    }

    /// Nothing came since the last cut.
    fn begin_anew(&mut self) -> Result<(), String> {
        self.since = Since::new(self.store.clone(), self.files.contents.clone());
        self.files.told.clear();
        let keep = |device: usize| {
            let content = &self.files.contents[device];
            self.files.keep(BEFORE[device], content)
        };
        DEVICES.into_iter().try_for_each(keep)
    }

    /// Checks what is seen of the store after a call without a cut: after a run that came to its end, by its report.
    fn see(&mut self, ended: Option<(&Store, Asked, &Report)>) -> Result<(), String> {
        let call = self.look()?;
        let Some(mut known) = self.settled(&call)? else {
            self.store = None;
            return Ok(());
        };
        if let Some((store, asked, report)) = ended {
            let read = read_of(&call.printed)?;
            let shape = known.shape;
            known = check_read(store, asked, report, read.end, read.pages)?;
            known.shape = shape;
        }
        self.take(known, &call)?;
        self.restore()?;
        if !self.since.may_have_head() {
            self.since.forget_formatting();
        }
        if self.draws.once_in(4) {
            self.read_in_place()?;
        }
        Ok(())
    }

    /// One of both commands that only read, on the store itself. If it syncs the files, nothing is pending after it.
    fn read_in_place(&mut self) -> Result<(), String> {
        let words = self.draws.one_of(&["recover --files", "dump --files"]);
        let wanted = self.files.call_on_copies(words)?;
        let asking = Asking {
            words: &words_of(words),
            script: "",
            variable: None,
        };
        let (call, events) = self.files.watched(On::Files, asking)?;
        call.answers(wanted.status, &wanted.printed)?;
        only_reads(&events)?;
        self.since.events.extend(events);
        Ok(())
    }

    /// Kills a call that was made on copies with these events, and says which of them it came to. In threads the order
    /// isn't the same again: so the events up to there are taken for those of the call that is killed.
    fn kill(
        &mut self,
        asking: Asking,
        is_by_turns: bool,
        mut events: Vec<Event>,
        moment: usize,
    ) -> Result<Vec<Event>, String> {
        let Some(kill) = Kill::draw(&mut self.draws, &mut events, moment) else {
            // it writes nothing, so it might as well not have come
            return Ok(Vec::new());
        };
        self.tally.kills += 1;
        if is_by_turns {
            self.files.kill(asking, &kill, &events)?;
        } else {
            self.files.put_killed(&events)?;
        }
        Ok(events)
    }

    /// Whether the store becomes one of an older format. It mostly stays what it is.
    fn becomes_older(&mut self, head: &Head) -> bool {
        head.may_be_older() && self.draws.once_in(12)
    }

    /// Makes the store one of an older format. The next run takes it to format 3.
    fn make_older(&mut self, mut store: Store) -> Result<(), String> {
        let Older { shape, log, data } = older(&mut self.draws, &self.files.contents)?;
        self.files.put(LOG, log)?;
        self.files.put(DATA, data)?;
        store.shape = shape;
        self.take_made(store)
    }

    /// Takes the store whose files were changed, and that reads as before.
    fn take_made(&mut self, store: Store) -> Result<(), String> {
        let call = self.look()?;
        call.has_succeeded()?;
        self.take(store, &call)?;
        self.begin_anew()
    }

    /// Puts junk in the place of one head, whose other copy still stands.
    fn break_head(&mut self, store: Store) -> Result<(), String> {
        let mut log = self.files.contents[LOG].clone();
        let [first, second] = HEADS.map(|number| number * SECTOR..(number + 1) * SECTOR);
        if log[first.clone()] != log[second.clone()] {
            return Ok(());
        }
        let broken = if self.draws.once_in(2) { first } else { second };
        let junk = draw_junk(&mut self.draws, &log[broken.clone()]);
        log[broken].copy_from_slice(&junk);
        self.files.put(LOG, log)?;
        self.take_made(store)
    }

    fn draw_shape(&mut self) -> Shape {
        let draws = &mut self.draws;
        let shape = Shape {
            pages: draws.one_of(&PAGES),
            space: draws.one_of(&[0, 1, 1, 128, u32::MAX]),
            log_blocks: if self.is_wide {
                1_024
            } else {
                draws.one_of(&[1_024, 1_024, 1_025, 1_500, DEFAULT_SHAPE.log_blocks])
            },
            slots: SLOTS,
            ..DEFAULT_SHAPE
        };
        draw_large(&mut self.beside, shape)
    }

    /// Formats the devices, over a store or not, and mostly cuts the power in between.
    fn format(&mut self) -> Result<(), String> {
        let shape = self.draw_shape();
        let words = words_of(&format!("format --files {}", shape.words()));
        let asking = || Asking {
            words: &words,
            script: "",
            variable: None,
        };
        let fate = match self.draws.below(6) {
            0 if self.may_go_on() => Fate::Killed,
            1 if self.may_go_on() => Fate::Stays,
            2 => Fate::Ends,
            _ => Fate::Within,
        };
        self.count(fate);
        let head = self.files.first_block();
        let (call, events) = self.files.watched(on(fate), asking())?;
        call.answers(0, "formatted 8192\n")?;
        self.since.begin_formatting(shape, head);
        let first = self.since.events.len();
        let moment = draw_moment(&mut self.draws, &events);
        self.tally.formattings += u64::from(!fate.is_told());
        let events = match fate {
            Fate::Killed => self.kill(asking(), true, events, moment)?,
            _ => events,
        };
        self.since.events.extend(events);
        match fate {
            Fate::Killed => self.see(None),
            Fate::Within => self.cut(first, moment),
            Fate::Ends | Fate::Stays => {
                self.since.end_formatting(Store::new(shape));
                if fate == Fate::Stays {
                    return self.see(None);
                }
                self.cut(self.since.events.len(), 0)
            }
        }
    }

    /// Whether one more call may come before the next cut.
    fn may_go_on(&self) -> bool {
        self.since.count() < MOST_STEPS
    }

    fn count(&mut self, fate: Fate) {
        match fate {
            Fate::Ends => self.tally.ends += 1,
            Fate::Stays => self.tally.stays += 1,
            Fate::Within => self.tally.withins += 1,
            // counted where something is written
            Fate::Killed => {}
        }
    }

    /// The devices on which a cut that came now would find a write.
    fn pending(&self) -> Vec<usize> {
        let whole = self.since.events.len();
        let is_pending = |device: &usize| self.since.is_pending(*device, whole);
        DEVICES.into_iter().filter(is_pending).collect()
    }

    fn draw_plan(&mut self, has_store: bool) -> Plan {
        // a cut soon may take what an earlier call has written
        let most = if self.pending().is_empty() { 20 } else { 30 };
        let fate = match self.draws.below(most) {
            0..=6 => Fate::Ends,
            7..=10 if self.may_go_on() => Fate::Stays,
            11..=14 if self.may_go_on() => Fate::Killed,
            _ => Fate::Within,
        };
        // a device that fails while it is formatted ends the command
        let fails = has_store && fate != Fate::Killed && self.draws.once_in(8);
        let stops = !fails && self.draws.once_in(if fate == Fate::Ends { 2 } else { 4 });
        let crashes = fails || stops || self.draws.once_in(4);
        Plan {
            fate,
            fails,
            stops,
            crashes,
        }
    }

    /// A moment at which a run is cut or killed: at times before the first sync of a device on which an earlier call's
    /// writes are pending, or after the last write of a run that a device's failure has ended.
    fn draw_moment(&mut self, events: &[Event], is_older: bool, has_failed: bool) -> usize {
        let pending = self.pending();
        if !pending.is_empty() && !self.draws.once_in(3) {
            // the log first, if both have some
            let place = (pending.len() - 1) * usize::from(self.draws.once_in(4));
            return draw_moment_before_sync(&mut self.draws, events, pending[place]);
        }
        if has_failed && self.draws.once_in(2) {
            return after_last_write(events);
        }
        draw_moment_of_run(&mut self.draws, events, is_older)
    }

    /// One run, or a part of one. Without a store it formats the devices first.
    fn run_on(&mut self, old: Option<Store>) -> Result<(), String> {
        let store = old.clone().unwrap_or(Store::default_sizes());
        let format = old.as_ref().map(|_| self.files.head()).transpose()?;
        let is_older = format.is_some_and(|head| head.format != NEWEST);
        let script = self.draw_run_script(&store);
        let text = text_of(&mut self.draws, &script.lines);
        let plan = self.draw_plan(old.is_some());
        let Plan { fate, fails, .. } = plan;
        let options = self.draw_options(&store, &script, plan, is_older);
        let fails = fails || options.archive && self.may_fail(plan, old.is_some());
        let words = options.words();
        let failing = fails.then(|| self.draw_failing(&options));
        let asking = || Asking {
            words: &words,
            script: &text,
            variable: failing.as_ref().map(|(_, fails)| ("FAILS", fails.clone())),
        };
        let head = self.files.first_block();
        let (call, events) = self.files.watched(on(fate), asking())?;
        self.tally.runs += 1;
        let failed = failing.as_ref().map(|(device, _)| *device);
        let failed = failed.filter(|_| call.status != 0);
        if let Some(device) = failed
            && !options.archive
        {
            return self.take_unopened(&call, events, device);
        }
        let report = report_of(&call, failed)?;
        let asked = Asked {
            script: &script.lines,
            stops: options.stops() || fails,
            log_only: options.log_only,
            keeps_all: true,
            followers: options.followers,
        };
        // as printed it was read from files that lost nothing; only a run that failed while it was opened has no start
        if report.start.is_some() || failed.is_none() {
            check(&store, asked, &report)?;
        }
        self.learn(&events);
        let moment = if fate.is_told() {
            events.len()
        } else if let Some(begun) = first_archived(&events)
            && self.beside.once_in(2)
        {
            begun + draw_moment(&mut self.beside, &events[begun..])
        } else {
            self.draw_moment(&events, is_older, report.tells_failure())
        };
        let events = match fate {
            Fate::Killed => self.kill(asking(), !options.threads, events, moment)?,
            _ => events,
        };
        self.count(fate);
        self.count_run(&store.shape, &report, &options);
        let stage = stage_of(&events[..moment.min(events.len())], is_older);
        self.tally.openings += u64::from(stage != Stage::Running);
        self.tally.in_migrations += u64::from(stage == Stage::Migrating);
        if old.is_none() {
            self.since.begin_formatting(DEFAULT_SHAPE, head);
        }
        let first = self.since.events.len();
        let kept = match fate {
            Fate::Within => moment,
            _ => events.len(),
        };
        let archiving = archiving_of(&events[..kept]);
        self.since.events.extend(events);
        if archiving != Archiving::Untouched {
            let made = Archived::of(&store, &script.lines, &report);
            let made = made.filter(|_| archiving == Archiving::Begun);
            // what the archive lacks is appended after the run, also where the data device has failed
            let is_whole = failed.is_none_or(|device| device == DATA);
            self.archived = made.map(|archived| match fate.is_told() {
                true if is_whole => archived.ended().told(&report),
                true => archived.told(&report),
                false => archived,
            });
            self.count_archive(&archiving, fate, &options);
        }
        self.learn_mark(first + kept);
        self.since.add_run(Run {
            store: store.clone(),
            lines: script.lines.clone(),
            report: report.clone(),
            is_told: fate.is_told(),
            events: first..self.since.events.len(),
        });
        match fate {
            Fate::Stays if report.start.is_none() && failed.is_some() => self.see(None)?,
            Fate::Stays => self.see(Some((&store, asked, &report)))?,
            Fate::Killed => self.see(None)?,
            Fate::Ends | Fate::Within => self.cut(first, moment)?,
        }
        let Some(known) = &self.store else {
            self.tally.formattings += 1;
            return Ok(());
        };
        ensure(
            fate != Fate::Killed || old.is_none() || store.end <= known.end,
            || "a killed call has taken what was there before".to_string(),
        )?;
        let extent = Reading::of(&self.files.contents[ARCHIVE]).extent;
        let is_logged = extent.is_none_or(|extent| extent.mark <= known.end);
        ensure(archiving != Archiving::Begun || is_logged, || {
            "the archive holds what the log doesn't".to_string()
        })?;
        let dropped = report.entries.iter().filter(|entry| known.end < entry.end);
        self.tally.dropped += dropped.count() as u64;
        let ring = store.shape.ring();
        self.tally.wraps += u64::from(known.end / ring > store.end / ring);
        self.tally.migrations += u64::from(is_older && self.files.head()?.format == NEWEST);
        Ok(())
    }

    /// The archive's mark that a good sync has made stable before this event is the least that it can have.
    fn learn_mark(&mut self, until: usize) {
        let Some(archived) = &mut self.archived else {
            return;
        };
        let events = &self.since.events[..until];
        let cut = Cut::after(self.since.file(ARCHIVE), events, ARCHIVE);
        if let Some(extent) = Reading::of(cut.base()).extent {
            archived.least = archived.least.max(extent.mark);
        }
    }

    fn count_archive(&mut self, archiving: &Archiving, fate: Fate, options: &Options) {
        self.tally.archived += 1;
        self.tally.archived_threads += u64::from(options.threads);
        self.tally.archived_own += u64::from(options.own_writes);
        let is_cut = !fate.is_told();
        self.tally.archives_cut += u64::from(is_cut);
        self.tally.unbegun += u64::from(*archiving == Archiving::Unbegun);
    }

    fn count_run(&mut self, shape: &Shape, report: &Report, options: &Options) {
        self.tally.groups += report.entries.len() as u64;
        self.tally.early += u64::from(shape.slots == EARLY_SLOTS);
        self.tally.large += u64::from(shape.pages > MOST_EARLY_PAGES);
        self.tally.large_pages += u64::from(shape.is_large());
        self.tally.threads += u64::from(options.threads);
        self.tally.followed += u64::from(options.followers > 0);
        self.tally.stops += u64::from(report.tells_failure());
    }

    /// A device failed before the run, when its file was opened: nothing came of the call.
    fn take_unopened(
        &mut self,
        call: &Call,
        events: Vec<Event>,
        device: usize,
    ) -> Result<(), String> {
        call.answers(STATUSES[device], FAULTS[device])?;
        only_reads(&events)?;
        self.since.events.extend(events);
        Ok(())
    }

    fn draw_run_script(&mut self, store: &Store) -> RunScript {
        let threads = self.has_threads && self.draws.once_in(2);
        let is_wide = self.is_wide && self.draws.once_in(2);
        let draw = if threads && self.draws.once_in(2) {
            draw_full_script
        } else {
            draw_script
        };
        RunScript {
            lines: draw(&mut self.draws, &store.shape, is_wide)
                .into_iter()
                .filter(|line| group_length(line, store.shape.space) <= MOST_BYTES)
                .collect(),
            threads,
        }
    }

    fn draw_options(
        &mut self,
        store: &Store,
        script: &RunScript,
        Plan { crashes, stops, .. }: Plan,
        is_older: bool,
    ) -> Options {
        let which = self.draws.below(4);
        let start = start_after(store.end);
        let followers = draw_followers(&mut self.beside, false);
        let own_writes = draw_own_writes(&mut self.beside, false, script.threads);
        let archive = draw_archive(&mut self.beside, self.all_archive);
        let options = Options {
            crashes,
            files: true,
            log_only: self.draws.once_in(8)
                && misfit(&script.lines, &store.shape, start, true).is_none(),
            threads: script.threads,
            turns: draw_turns(&mut self.draws),
            most_turns: None,
            stop_log: (stops && which != 0).then(|| self.draw_stop(LOG, is_older)),
            stop_data: (stops && which % 3 == 0).then(|| self.draw_stop(DATA, is_older)),
            pick: None,
            followers,
            own_writes,
            archive: false,
        };
        if archive { options.archived() } else { options }
    }

    /// Whether a device fails in a run that is archived, also where its plan doesn't say so.
    fn may_fail(&mut self, plan: Plan, has_store: bool) -> bool {
        has_store && plan.fate != Fate::Killed && self.beside.once_in(4)
    }

    /// After so many calls a device stops: at the end of opening, somewhere in it, or in the run.
    fn draw_stop(&mut self, device: usize, is_older: bool) -> u64 {
        let draws = &mut self.draws;
        let opening = self.opening[device];
        match draws.below(if is_older { 6 } else { 10 }) {
            0..=2 => opening.saturating_sub(draws.below(30)) + draws.below(16),
            3 => draws.below(opening + 1),
            4 => opening + draws.below(24),
            _ => {
                let most = 2 << draws.below(8);
                opening + draws.below(most)
            }
        }
    }

    /// One write or sync of a device, which fails while all others succeed.
    fn draw_failing(&mut self, options: &Options) -> (usize, String) {
        let is_archive = options.archive && self.beside.once_in(2);
        let draws = &mut self.draws;
        let mut device = draws.one_of(&[LOG, LOG, DATA]);
        if is_archive {
            device = ARCHIVE;
        }
        let most = 2 << draws.below(7);
        let fails = format!("{device} {} {}", draws.below(most), draws.below(2));
        (device, fails)
    }

    /// How many calls opening took, where blocks were written after it.
    fn learn(&mut self, events: &[Event]) {
        if let Some(opened) = opened(events) {
            self.opening = DEVICES.map(|device| calls_of(&events[..opened], device));
        }
    }
}

impl Fate {
    /// Whether the call comes to its end, and prints its report.
    fn is_told(self) -> bool {
        matches!(self, Fate::Ends | Fate::Stays)
    }
}

/// A call that is killed is made on copies before, to learn what it does.
fn on(fate: Fate) -> On {
    match fate {
        Fate::Killed => On::Copies,
        _ => On::Files,
    }
}

/// The report of a run. One that is archived prints it before the fault of a device, and none where opening failed.
fn report_of(call: &Call, failed: Option<usize>) -> Result<Report, String> {
    let Some(device) = failed else {
        call.has_succeeded()?;
        return Report::of(&call.printed);
    };
    let text = call.printed.strip_suffix(FAULTS[device]);
    let text = text.filter(|_| call.status == STATUSES[device]);
    let text = text.ok_or_else(|| format!("status {} after a fault", call.status))?;
    match text {
        "" => Ok(Report::default()),
        text => Report::of(text),
    }
}

fn restore_words(to: u64) -> String {
    format!("restore --files --to {to}")
}

fn only_reads(events: &[Event]) -> Result<(), String> {
    let is_write = |event: &Event| matches!(event.what, What::Write(_));
    ensure(!events.iter().any(is_write), || {
        "a call that should only read has written".to_string()
    })
}
