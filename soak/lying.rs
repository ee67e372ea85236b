//! A store of some history, calls on it of which a read lies, and what these leave.

use crate::checking::ensure;
use crate::counts::Tally;
use crate::draws::Draws;
use crate::events::{DEVICES, LOG};
use crate::files::Files;
use crate::history::History;
use crate::layout::Head;
use crate::making::{draw_full_script, draw_script, text_of};
use crate::options::{Options, draw_turns};
use crate::program::{Call, Program, words_of};
use crate::reads::{About, Lie, Read, reads_of};
use crate::script::{MOST_BYTES, group_length};
use crate::shape::{DEFAULT_SHAPE, MOST_EARLY_PAGES, MOST_PAGES, Shape, draw_large};
use crate::unlike::prepare;
use std::fs;
use std::path::{Path, PathBuf};

const FILES: [&str; 3] = ["redo.log", "redo.data", "redo.archive"];
/// The files as the last call found them of which a read lied.
const BEFORE: [&str; 3] = ["before.log", "before.data", "before.archive"];
/// The file that `lies.c` writes.
const READS: &str = "reads";
/// A store comes from so many steps at the most, and so many calls on it lie.
const MOST_STEPS: u64 = 8;
const MOST_LIES: u64 = 4;
/// Each status of a call is one of those from 0 up to this one.
const LAST_STATUS: i32 = 10;
const UNFORMATTED: &str = "fault store unformatted\n";

#[derive(Clone, Copy, PartialEq)]
enum Command {
    Run,
    Crash,
    Recover,
    Dump,
    Format,
}

/// What both commands that only read say of the files.
#[derive(Clone, Copy, PartialEq)]
enum Found {
    Store,
    /// There is no head.
    Unformatted,
    /// The store is refused for another cause.
    Refused,
}

/// A call's command, its words, what it reads, and whether it is in threads.
struct Asked {
    command: Command,
    words: Vec<String>,
    script: String,
    threads: bool,
}

pub struct Lying<'a> {
    program: &'a Program,
    /// Where the files are on which calls lie.
    folder: PathBuf,
    /// The library that `lies.c` makes.
    lying: &'a Path,
    draws: Draws,
    pub tally: Tally,
    pub calls: Vec<String>,
}

impl<'a> Lying<'a> {
    pub fn new(program: &'a Program, folder: PathBuf, lying: &'a Path, seed: u64) -> Lying<'a> {
        Lying {
            program,
            folder,
            lying,
            draws: Draws::new(!seed),
            tally: Tally::default(),
            calls: Vec::new(),
        }
    }

    /// Makes a store by a history of the seed, and then calls that lie.
    pub fn run(&mut self, files: Files, seed: u64) -> Result<(), String> {
        let mut history = History::new(files, false, false, seed);
        history.files.clear()?;
        for _ in 0..self.draws.below(MOST_STEPS + 1) {
            let outcome = history.step();
            outcome.map_err(|message| format!("{message}\n{}", history.files.told.join("\n")))?;
        }
        prepare(&mut self.draws, &mut history.files)?;
        self.tally.calls += history.files.calls;
        fs::create_dir_all(&self.folder).map_err(|error| error.to_string())?;
        self.put(FILES, &history.files.contents)?;
        for _ in 0..self.draws.within(1, MOST_LIES) {
            self.lie()?;
        }
        Ok(())
    }

    /// One call of which a read lies, and what is there after it.
    fn lie(&mut self) -> Result<(), String> {
        let before = self.find()?;
        ensure(before != Found::Refused, || {
            "the store is refused before the call".to_string()
        })?;
        let contents = self.contents();
        let asked = self.draw_asked()?;
        let (_, reads) = self.call_told(&asked, None)?;
        self.put(FILES, &contents)?;
        self.put(BEFORE, &contents)?;
        let lie = Lie::draw(&mut self.draws, &reads, &contents);
        let (call, reads) = self.call_told(&asked, lie.as_ref())?;
        let lie = lie.filter(|_| reads.iter().any(|read| read.lied));
        self.count(&asked, &call, lie.as_ref(), before);
        ensure((0..=LAST_STATUS).contains(&call.status), || {
            "the call doesn't end with a status".to_string()
        })?;
        if matches!(asked.command, Command::Recover | Command::Dump) {
            ensure(self.contents() == contents, || {
                "a command that only reads has written".to_string()
            })?;
        }
        let after = self.find()?;
        ensure(after == Found::Store || after == before, || {
            "the store is refused from then on".to_string()
        })?;
        if after == Found::Store && self.draws.once_in(2) {
            self.run_on()?;
        }
        Ok(())
    }

    /// An honest run on the store that is there, which has to leave one.
    fn run_on(&mut self) -> Result<(), String> {
        let threads = self.draws.once_in(4);
        let script = self.draw_script(threads)?;
        let words = if threads {
            "run --files --threads"
        } else {
            "run --files"
        };
        self.call(&words_of(words), &script, &[])?.has_succeeded()?;
        ensure(self.find()? == Found::Store, || {
            "the next run leaves no store".to_string()
        })
    }

    /// What `recover` and `dump` find, which say the same.
    fn find(&mut self) -> Result<Found, String> {
        let recover = self.call(&words_of("recover --files"), "", &[])?;
        let dump = self.call(&words_of("dump --files"), "", &[])?;
        if recover.status == 8 {
            dump.answers(8, &recover.printed)?;
            return Ok(match &recover.printed[..] {
                UNFORMATTED => Found::Unformatted,
                _ => Found::Refused,
            });
        }
        recover.has_succeeded()?;
        dump.has_succeeded()?;
        Ok(Found::Store)
    }

    fn draw_asked(&mut self) -> Result<Asked, String> {
        let command = self.draws.one_of(&[
            Command::Run,
            Command::Run,
            Command::Run,
            Command::Crash,
            Command::Crash,
            Command::Crash,
            Command::Recover,
            Command::Dump,
        ]);
        let command = if self.draws.once_in(24) {
            Command::Format
        } else {
            command
        };
        let is_run = matches!(command, Command::Run | Command::Crash);
        let threads = is_run && self.draws.once_in(3);
        let words = match command {
            Command::Run | Command::Crash => self.draw_options(command, threads).words(),
            Command::Recover => {
                let workers = self.draws.within(1, 16);
                words_of(&format!("recover --files --workers {workers}"))
            }
            Command::Dump => words_of("dump --why --files"),
            Command::Format => {
                let most = self.draws.one_of(&[MOST_EARLY_PAGES, MOST_PAGES]);
                let shape = Shape {
                    pages: self.draws.within(1, most.into()) as u32,
                    log_blocks: 1_024,
                    ..DEFAULT_SHAPE
                };
                let shape = draw_large(&mut self.draws, shape);
                words_of(&format!("format --files {}", shape.words()))
            }
        };
        let script = if is_run {
            self.draw_script(threads)?
        } else {
            String::new()
        };
        Ok(Asked {
            command,
            words,
            script,
            threads,
        })
    }

    fn draw_options(&mut self, command: Command, threads: bool) -> Options {
        let draws = &mut self.draws;
        let crashes = command == Command::Crash;
        let mut draw_stop = |often: u64| {
            let most = 2 << draws.below(6);
            (crashes && draws.once_in(often)).then(|| draws.below(most))
        };
        let (stop_log, stop_data) = (draw_stop(2), draw_stop(4));
        Options {
            crashes,
            files: true,
            log_only: draws.once_in(8),
            own_writes: false,
            threads,
            archive: false,
            turns: draw_turns(draws),
            most_turns: None,
            stop_log,
            stop_data,
            pick: None,
            followers: 0,
        }
    }

    /// A script of the pages that the store has.
    fn draw_script(&mut self, threads: bool) -> Result<String, String> {
        let shape = self.shape();
        let is_wide = self.draws.once_in(4);
        let draw = if threads && self.draws.once_in(2) {
            draw_full_script
        } else {
            draw_script
        };
        let lines: Vec<_> = draw(&mut self.draws, &shape, is_wide)
            .into_iter()
            .filter(|line| group_length(line, shape.space) <= MOST_BYTES)
            .collect();
        Ok(text_of(&mut self.draws, &lines))
    }

    /// The sizes of the store, or those of one that a run makes.
    fn shape(&self) -> Shape {
        let head = Head::of_log(&self.contents()[LOG]);
        head.map_or(DEFAULT_SHAPE, |head| head.shape)
    }

    fn count(&mut self, asked: &Asked, call: &Call, lie: Option<&Lie>, before: Found) {
        let tally = &mut self.tally;
        let Some(lie) = lie else {
            tally.truths += 1;
            return;
        };
        let command = match asked.command {
            Command::Run => &mut tally.runs,
            Command::Crash => &mut tally.crashes,
            Command::Recover => &mut tally.recovers,
            Command::Dump => &mut tally.dumps,
            Command::Format => &mut tally.truths,
        };
        *command += 1;
        let about = match lie.about {
            About::Head => &mut tally.heads,
            About::Checkpoint => &mut tally.checkpoints,
            About::Tail => &mut tally.tails,
            About::Ring => &mut tally.rings,
            About::Data => &mut tally.datas,
        };
        *about += 1;
        tally.sectors += u64::from(lie.is_sector());
        tally.threads += u64::from(asked.threads);
        tally.refused += u64::from(call.status == 8);
        tally.without += u64::from(before != Found::Store);
    }

    /// A call of which each read is told, and one lies.
    fn call_told(&mut self, asked: &Asked, lie: Option<&Lie>) -> Result<(Call, Vec<Read>), String> {
        let reads = self.folder.join(READS);
        fs::write(&reads, b"").map_err(|error| error.to_string())?;
        let mut variables = vec![
            ("LD_PRELOAD", self.lying.display().to_string()),
            ("READS", reads.display().to_string()),
        ];
        variables.extend(lie.map(|lie| ("LIES", lie.words())));
        let call = self.call(&asked.words, &asked.script, &variables)?;
        let told = fs::read_to_string(reads).map_err(|error| error.to_string())?;
        Ok((call, reads_of(&told)?))
    }

    fn call(
        &mut self,
        words: &[String],
        script: &str,
        variables: &[(&'static str, String)],
    ) -> Result<Call, String> {
        let call = self.program.call(&self.folder, words, script, variables)?;
        self.tally.calls += 1;
        let cut = |line: &str| line.chars().take(160).collect::<String>();
        let shown: Vec<String> = call.shown().lines().map(cut).collect();
        self.calls.push(shown.join("\n"));
        Ok(call)
    }

    fn contents(&self) -> [Vec<u8>; 3] {
        DEVICES.map(|device| fs::read(self.folder.join(FILES[device])).unwrap_or_default())
    }

    /// Puts files of these names there, or none where nothing would be in it.
    fn put(&self, names: [&str; 3], contents: &[Vec<u8>; 3]) -> Result<(), String> {
        for device in DEVICES {
            let path = self.folder.join(names[device]);
            if contents[device].is_empty() {
                let _ = fs::remove_file(path);
            } else {
                fs::write(path, &contents[device]).map_err(|error| error.to_string())?;
            }
        }
        Ok(())
    }
}
