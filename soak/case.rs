//! The call or the calls of one seed, and what they have to print.

use crate::archived::{Archived, check_spent as check_spent_archive};
use crate::chain::Chain;
use crate::checking::{Asked, Store, check, check_read, ensure};
use crate::draws::Draws;
use crate::generated;
use crate::listing::read_of;
use crate::lsn::start_after;
use crate::making::{draw_full_script, draw_script, spoil_fit, spoil_text, text_of};
use crate::options::{Options, draw_archive, draw_followers, draw_own_writes};
use crate::places::Place;
use crate::program::{Call, Program, words_of};
use crate::report::Report;
use crate::script::{Line, misfit};
use crate::shape::{DEFAULT_SHAPE, Shape, draw_large};
use crate::times::Times;
use std::fs;
use std::path::Path;

/// The file of the archive's device.
pub const ARCHIVE_FILE: &str = "redo.archive";

/// What was run.
#[derive(Clone, Copy, Default)]
pub struct Tally {
    pub calls: u64,
    pub groups: u64,
    pub crashes: u64,
    pub stops: u64,
    /// Runs in threads, those on some processors alone, and those of which a thread is refused.
    pub threads: u64,
    pub narrow: u64,
    pub refusing: u64,
    /// Runs with followers, and those whose users write for themselves.
    pub followed: u64,
    pub own: u64,
    /// Runs that are archived, those of them in threads, those whose users write for themselves, and what was restored.
    pub archived: u64,
    pub archived_threads: u64,
    pub archived_own: u64,
    pub restored: u64,
    pub chains: u64,
    /// How often a store of large pages was formatted.
    pub large_pages: u64,
    /// How often a log has gone round.
    pub rounds: u64,
    pub refused: u64,
}

impl Tally {
    pub fn add(&mut self, other: Tally) {
        self.calls += other.calls;
        self.groups += other.groups;
        self.crashes += other.crashes;
        self.stops += other.stops;
        self.threads += other.threads;
        self.narrow += other.narrow;
        self.refusing += other.refusing;
        self.followed += other.followed;
        self.own += other.own;
        self.archived += other.archived;
        self.archived_threads += other.archived_threads;
        self.archived_own += other.archived_own;
        self.restored += other.restored;
        self.chains += other.chains;
        self.large_pages += other.large_pages;
        self.rounds += other.rounds;
        self.refused += other.refused;
    }
}

/// A seed at work.
pub struct Case<'a> {
    pub program: &'a Program,
    /// The library that `threads.c` makes.
    pub refusing: &'a Path,
    pub folder: &'a Path,
    pub seed: u64,
    /// Whether each run is one in threads, of all users.
    pub all_threads: bool,
    /// Whether each run of a drawn script has followers, and users that write for themselves.
    pub all_followers: bool,
    pub all_own: bool,
    /// Whether each run in files is archived.
    pub all_archive: bool,
    pub draws: Draws,
    /// What these alone are drawn from, so that the draws of all else stay as they are without them.
    pub beside: Draws,
    pub tally: Tally,
    pub times: Times,
    /// The calls so far.
    pub calls: Vec<Call>,
}

/// What a run left.
pub enum Left {
    /// All is known of the store.
    Known(Store),
    /// The text is no script, and the devices weren't called.
    Unread,
    /// The store was opened, or not.
    Unrun,
    /// The turns were spent.
    Spent,
}

impl Case<'_> {
    pub fn run(&mut self) -> Result<(), String> {
        match self.draws.below(32) {
            // there are files in chains alone
            _ if self.all_archive => {
                self.tally.chains += 1;
                Chain::new(self).run()
            }
            0 => self.run_generated(),
            1 if self.draws.once_in(4) => self.run_format(),
            1 => self.run_words(),
            2..=4 => {
                self.tally.chains += 1;
                Chain::new(self).run()
            }
            _ => {
                let store = Store::default_sizes();
                self.run_script(&store, false, false).map(|_| ())
            }
        }
    }

    pub fn call(&mut self, words: &[String], script: &str) -> Result<Call, String> {
        let kind = words.first().map_or("", |word| word).to_string();
        self.call_with(words, script, Vec::new(), kind)
    }

    fn call_with(
        &mut self,
        words: &[String],
        script: &str,
        variables: Vec<(&'static str, String)>,
        kind: String,
    ) -> Result<Call, String> {
        let call = self.program.call(self.folder, words, script, &variables)?;
        self.tally.calls += 1;
        self.times.note(kind, call.took, self.seed);
        self.calls.push(call.clone());
        Ok(call)
    }

    /// The call of a run: in threads at a drawn place.
    fn call_run(&mut self, options: &Options, text: &str, is_wide: bool) -> Result<Call, String> {
        let place = options
            .threads
            .then(|| Place::draw(&mut self.draws, options.others()));
        let mut variables = Vec::new();
        let mut kind = options.kind(is_wide);
        if let Some(place) = place {
            variables = place.variables();
            variables.push(("LD_PRELOAD", self.refusing.display().to_string()));
            kind = format!("{kind} {}", place.kind());
            self.tally.narrow += u64::from(place.is_narrow());
            self.tally.refusing += u64::from(place.refuses());
        }
        self.call_with(&options.words(), text, variables, kind)
    }

    /// Draws a script, and runs it on this store.
    pub fn run_script(
        &mut self,
        store: &Store,
        files: bool,
        is_wide: bool,
    ) -> Result<Left, String> {
        let threads = self.all_threads || self.draws.once_in(8);
        let draw = if threads {
            draw_full_script
        } else {
            draw_script
        };
        let mut script = draw(&mut self.draws, &store.shape, is_wide);
        if self.draws.once_in(24) {
            spoil_fit(&mut self.draws, &mut script, &store.shape);
        }
        let followers = draw_followers(&mut self.beside, self.all_followers);
        let own_writes = draw_own_writes(&mut self.beside, self.all_own, threads);
        let archive = files && draw_archive(&mut self.beside, self.all_archive);
        let mut options = Options {
            followers,
            own_writes,
            ..Options::draw(&mut self.draws, files, threads, script.len(), &store.shape)
        };
        if archive {
            options = options.archived();
        }
        let before = self.archive_file();
        let mut text = text_of(&mut self.draws, &script);
        if self.draws.once_in(24) {
            let line = spoil_text(&mut self.draws, &mut text);
            let call = self.call(&options.words(), &text)?;
            self.tally.refused += 1;
            call.answers(3, &format!("fault script line {line}\n"))?;
            self.archive_stays(before)?;
            return Ok(Left::Unread);
        }
        let call = self.call_run(&options, &text, is_wide)?;
        let left = self.check_call(store, &script, &options, &call)?;
        if archive && !matches!(left, Left::Unrun) {
            self.check_archive(store, &script, &options, &call)?;
        } else {
            self.archive_stays(before)?;
        }
        if !files && !threads && self.draws.once_in(50) {
            // the turns are those of the seed, so the same call prints the same
            self.call(&options.words(), &text)?
                .answers(call.status, &call.printed)?;
        }
        Ok(left)
    }

    /// What the archive's file holds, if it is there.
    pub fn archive_file(&self) -> Option<Vec<u8>> {
        fs::read(self.folder.join(ARCHIVE_FILE)).ok()
    }

    /// Only a run that is archived writes there, and none that doesn't begin.
    pub fn archive_stays(&self, before: Option<Vec<u8>>) -> Result<(), String> {
        ensure(self.archive_file() == before, || {
            "the archive has changed".to_string()
        })
    }

    /// What is restored of a run that came to its end, or that spent its turns.
    fn check_archive(
        &mut self,
        store: &Store,
        script: &[Line],
        options: &Options,
        call: &Call,
    ) -> Result<(), String> {
        let file = self.archive_file().ok_or("there is no archive's file")?;
        self.tally.archived += 1;
        self.tally.archived_threads += u64::from(options.threads);
        self.tally.archived_own += u64::from(options.own_writes);
        let answers = if call.status == 0 {
            let report = Report::of(&call.printed)?;
            let archived = Archived::of(store, script, &report).ok_or("the run has no start")?;
            let archived = archived.ended().told(&report);
            let mark = archived.mark(&file)?;
            let lsns = archived.lsns(&mut self.beside, mark);
            let answer = |lsn| (lsn, archived.answer(lsn, mark));
            lsns.into_iter().map(answer).collect()
        } else {
            check_spent_archive(&mut self.beside, store, script, &file)?
        };
        for (lsn, (status, text)) in answers {
            let words = format!("restore --files --to {lsn}");
            self.call(&words_of(&words), "")?.answers(status, &text)?;
            self.tally.restored += 1;
        }
        self.archive_stays(Some(file))
    }

    fn check_call(
        &mut self,
        store: &Store,
        script: &[Line],
        options: &Options,
        call: &Call,
    ) -> Result<Left, String> {
        let stopped = options.stops() && call.printed.starts_with("open none\n");
        if let Some(words) = misfit(
            script,
            &store.shape,
            start_after(store.end),
            options.log_only,
        ) && !stopped
        {
            self.tally.refused += 1;
            call.answers(10, &format!("fault fit {words}\n"))?;
            return Ok(Left::Unrun);
        }
        if let Some(most) = options.most_turns
            && !options.threads
            && call.printed.starts_with("fault turns ")
        {
            self.tally.refused += 1;
            check_spent(script, most, call)?;
            return Ok(Left::Spent);
        }
        call.has_succeeded()?;
        let report = Report::of(&call.printed)?;
        if report.recovered.is_some() != options.crashes {
            return Err("`recovered` stands there in a crash and nowhere else".to_string());
        }
        self.tally.groups += report.entries.len() as u64;
        self.tally.crashes += u64::from(options.crashes);
        self.tally.stops += u64::from(report.tells_failure());
        self.tally.threads += u64::from(options.threads);
        self.tally.followed += u64::from(options.followers > 0);
        self.tally.own += u64::from(options.own_writes);
        let asked = Asked {
            script,
            stops: options.stops(),
            log_only: options.log_only,
            keeps_all: options.keeps_all(),
            followers: options.followers,
        };
        let known = check(store, asked, &report)?;
        if options.crashes || !options.files {
            return Ok(Left::Known(known));
        }
        let call = self.call(&["recover".to_string(), "--files".to_string()], "")?;
        let read = read_of(&call.printed)?;
        check_read(store, asked, &report, read.end, read.pages).map(Left::Known)
    }

    /// The script of `gen`, run and crashed.
    fn run_generated(&mut self) -> Result<(), String> {
        let seed = self.draws.number() >> self.draws.below(64);
        let users = self.draws.within(1, 16) as u32;
        let groups = self.draws.below(40);
        let script = generated::script_of(seed, users, groups);
        let text: String = script.iter().map(|line| format!("{line}\n")).collect();
        let words = format!("gen {seed} {users} {groups}");
        let call = self.call(&words_of(&words), "")?;
        call.answers(0, &text)?;
        let store = Store::default_sizes();
        let mut options = Options::draw(
            &mut self.draws,
            false,
            self.all_threads,
            script.len(),
            &store.shape,
        );
        let is_summed = self.draws.once_in(2);
        if is_summed {
            options = Options::of_generated(seed);
        } else {
            options.own_writes = draw_own_writes(&mut self.beside, self.all_own, options.threads);
        }
        let call = self.call_run(&options, &text, false)?;
        self.check_call(&store, &script, &options, &call)?;
        if is_summed {
            self.check_summary(&words, &call)
        } else {
            Ok(())
        }
    }

    /// The summary of `gen --run` is that of the same script, run by the turns of the same seed, where nothing of what was
    /// written is dropped.
    fn check_summary(&mut self, words: &str, crash: &Call) -> Result<(), String> {
        let report = Report::of(&crash.printed)?;
        let (Some(marks), Some(recovered)) = (&report.marks, &report.recovered) else {
            return Err("no marks, or nothing was read".to_string());
        };
        let groups = report.entries.len();
        let line = generated::summary(groups, marks.flushed, marks.checkpoint, &recovered.pages);
        let call = self.call(&words_of(&format!("{words} --run")), "")?;
        call.answers(0, &line)
    }

    /// Formatting in memory, where the devices are as long as the default sizes ask for.
    fn run_format(&mut self) -> Result<(), String> {
        let shape = Shape {
            pages: self.draws.one_of(&[1, 7, 8, 8, 9, 64, 65, 1_024]),
            log_blocks: self.draws.one_of(&[1_024, 2_047, 2_048, 2_048, 2_049]),
            ..DEFAULT_SHAPE
        };
        let shape = draw_large(&mut self.beside, shape);
        let call = self.call(&words_of(&format!("format {}", shape.words())), "")?;
        let (log, store) = (shape.log_length(), shape.data_length());
        if DEFAULT_SHAPE.log_length() < log {
            call.answers(10, &format!("fault fit log {log}\n"))
        } else if DEFAULT_SHAPE.data_length() < store {
            call.answers(10, &format!("fault fit store {store}\n"))
        } else {
            call.answers(0, "formatted 8192\n")
        }
    }

    /// Words that are no command.
    fn run_words(&mut self) -> Result<(), String> {
        let words = self.draws.one_of(&[
            "",
            "rum",
            "run run",
            "crash --pick",
            "crash --pick x",
            "crash --pick 18446744073709551616",
            "crash --stop-log 1 --stop-log 1",
            "run --stop-log 1",
            "run --pick 1",
            "run --followers",
            "run --followers 0",
            "crash --followers 5",
            "recover --followers 1",
            "crash --archive",
            "gen 1 1 1 --run --archive",
            "restore",
            "restore --to",
            "restore --to 18446744073709551616",
            "restore --to 1 --turns 1",
            "run --to 1",
            "gen 1 1 1 --own-writes",
            "run --max 1000000000000000001",
            "recover --turns 1",
            "dump 1",
            "gen 1 1",
            "gen 1 0 1",
            "gen 1 17 1",
            "gen 1 1 1000001",
            "gen 1 1 1 1",
            "format --page-size",
            "format --page-size 0",
            "format --page-size 8192",
            "format --page-size 65536",
            "run --page-size 4096",
            "format --pages 0",
            "format --pages 1025",
            "format --space 4294967296",
            "format --log-blocks 1023",
            "format --log-blocks 1048577",
            "--files run",
        ]);
        let call = self.call(&words_of(words), "1 f i 3\n")?;
        self.tally.refused += 1;
        call.answers(2, "fault words\n")
    }
}

/// The turns were spent while this user hadn't ended.
fn check_spent(script: &[Line], most: u64, call: &Call) -> Result<(), String> {
    let has_lines = |user: &u32| script.iter().any(|line| line.user == *user);
    let lines = (1..=16)
        .filter(has_lines)
        .map(|user| format!("fault turns {most} user {user}\n"));
    if call.status == 9 && lines.clone().any(|line| line == call.printed) {
        Ok(())
    } else {
        Err("status 9 should come, with a user that has lines".to_string())
    }
}
