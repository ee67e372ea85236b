//! The files of a store and of an archive, copies of them, and calls of the program on either.

use crate::checking::ensure;
use crate::crc::SECTOR;
use crate::draws::Draws;
use crate::events::{DEVICES, Event, LOG, What, Write, events_of, writes_of};
use crate::layout::Head;
use crate::program::{Call, Program, words_of};
use std::fs;
use std::path::{Path, PathBuf};

const FILES: [&str; 3] = ["redo.log", "redo.data", "redo.archive"];
/// A folder for copies of the files, on which calls change nothing of the store.
const ASIDE: &str = "aside";
/// The file that `writes.c` writes.
const EVENTS: &str = "events";
/// How the text of a call on copies begins.
const ON_COPIES: &str = "on copies of the files";
/// The status of a call that was killed.
const KILLED: i32 = -1;

pub struct Files<'a> {
    program: &'a Program,
    folder: &'a Path,
    /// The library that `writes.c` makes.
    watching: &'a Path,
    /// What the files hold, as a call sees them.
    pub contents: [Vec<u8>; 3],
    /// What was done, to be shown where it fails a check.
    pub told: Vec<String>,
    pub calls: u64,
}

/// What a call is made on.
#[derive(Clone, Copy, PartialEq)]
pub enum On {
    Files,
    Copies,
}

/// A call's words, what it reads, and a variable for `writes.c`.
pub struct Asking<'a> {
    pub words: &'a [String],
    pub script: &'a str,
    pub variable: Option<(&'static str, String)>,
}

/// Where a call is killed: at this write of a device, after so many of its sectors.
pub struct Kill {
    device: usize,
    number: usize,
    sectors: usize,
}

impl Kill {
    /// Draws a kill at the first write that comes when so many of the events are through, and leaves the events up to
    /// there. Of a call that writes nothing there is none.
    pub fn draw(draws: &mut Draws, events: &mut Vec<Event>, moment: usize) -> Option<Kill> {
        let is_write = |event: &Event| matches!(event.what, What::Write(_));
        let next = events[moment..].iter().position(is_write);
        let place = match next {
            Some(next) => moment + next,
            None => events.iter().rposition(is_write)?,
        };
        events.truncate(place + 1);
        let Event { device, what } = events.pop()?;
        let What::Write(Write { at, mut bytes }) = what else {
            return None;
        };
        let whole = bytes.len() / SECTOR;
        let sectors = match draws.below(3) {
            0 => whole,
            1 => draws.below(whole as u64) as usize,
            _ => 0,
        };
        let number = writes_of(events, device).count();
        bytes.truncate(sectors * SECTOR);
        if sectors > 0 {
            let what = What::Write(Write { at, bytes });
            events.push(Event { device, what });
        }
        Some(Kill {
            device,
            number,
            sectors,
        })
    }
}

impl<'a> Files<'a> {
    pub fn new(program: &'a Program, folder: &'a Path, watching: &'a Path) -> Files<'a> {
        Files {
            program,
            folder,
            watching,
            contents: [Vec::new(), Vec::new(), Vec::new()],
            told: Vec::new(),
            calls: 0,
        }
    }

    /// Removes what an earlier store has left.
    pub fn clear(&mut self) -> Result<(), String> {
        fs::create_dir_all(self.folder_of(On::Copies)).map_err(|error| error.to_string())?;
        for file in FILES {
            for on in [On::Files, On::Copies] {
                let _ = fs::remove_file(self.folder_of(on).join(file));
            }
        }
        Ok(())
    }

    fn folder_of(&self, on: On) -> PathBuf {
        match on {
            On::Files => self.folder.to_path_buf(),
            On::Copies => self.folder.join(ASIDE),
        }
    }

    pub fn head(&self) -> Result<Head, String> {
        Head::of_log(&self.contents[LOG]).ok_or("the store has no head".to_string())
    }

    /// The first block of the log.
    pub fn first_block(&self) -> Vec<u8> {
        let log = &self.contents[LOG];
        log.get(..SECTOR).unwrap_or_default().to_vec()
    }

    /// Keeps a file beside the store, to be shown where it fails a check.
    pub fn keep(&self, name: &str, content: &[u8]) -> Result<(), String> {
        fs::write(self.folder.join(name), content).map_err(|error| error.to_string())
    }

    fn tell(&mut self, call: &Call, on: On) {
        self.calls += 1;
        let cut = |line: &str| line.chars().take(160).collect::<String>();
        let shown: Vec<String> = call.shown().lines().map(cut).collect();
        let mut shown = shown.join("\n");
        if on == On::Copies {
            shown = format!("{ON_COPIES}\n{shown}");
        } else {
            // those were only to see what was there before this one
            self.told.retain(|told| !told.starts_with(ON_COPIES));
        }
        self.told.push(shown);
    }

    /// A call on copies as they stand.
    pub fn call_on_copies(&mut self, words: &str) -> Result<Call, String> {
        let folder = self.folder_of(On::Copies);
        let call = self.program.call(&folder, &words_of(words), "", &[])?;
        self.tell(&call, On::Copies);
        Ok(call)
    }

    /// A call of which each write is told, on the files or on fresh copies.
    pub fn watched(&mut self, on: On, asking: Asking) -> Result<(Call, Vec<Event>), String> {
        if on == On::Copies {
            self.copy()?;
        }
        self.keep(EVENTS, b"")?;
        let events = self.folder.join(EVENTS);
        let mut variables = vec![
            ("LD_PRELOAD", self.watching.display().to_string()),
            ("EVENTS", events.display().to_string()),
        ];
        variables.extend(asking.variable);
        let folder = self.folder_of(on);
        let call = self
            .program
            .call(&folder, asking.words, asking.script, &variables)?;
        self.tell(&call, on);
        let events = fs::read(events).map_err(|error| error.to_string())?;
        let events = events_of(&events)?;
        for device in DEVICES {
            let content = self.content_after(device, &events);
            ensure(content == read(&folder, device), || {
                format!("{} holds what wasn't told", FILES[device])
            })?;
            if on == On::Files {
                self.contents[device] = content;
            }
        }
        Ok((call, events))
    }

    /// What a file holds after these events.
    fn content_after(&self, device: usize, events: &[Event]) -> Vec<u8> {
        let mut content = self.contents[device].clone();
        for write in writes_of(events, device) {
            write.put(&mut content);
        }
        content
    }

    pub fn copy(&self) -> Result<(), String> {
        let folder = self.folder_of(On::Copies);
        let put = |device: usize| put(&folder, device, &self.contents[device]);
        DEVICES.into_iter().try_for_each(put)
    }

    pub fn copies_are_unchanged(&self) -> Result<(), String> {
        let folder = self.folder_of(On::Copies);
        let is_same = |device: &usize| read(&folder, *device) == self.contents[*device];
        ensure(DEVICES.iter().all(is_same), || {
            "a command that only reads has written".to_string()
        })
    }

    pub fn put(&mut self, device: usize, content: Vec<u8>) -> Result<(), String> {
        put(self.folder, device, &content)?;
        self.contents[device] = content;
        Ok(())
    }

    /// Makes a call that is killed. It has to make the same calls of the devices as one on copies did up to there.
    pub fn kill(&mut self, asking: Asking, kill: &Kill, events: &[Event]) -> Result<(), String> {
        let Kill {
            device,
            number,
            sectors,
        } = kill;
        let asking = Asking {
            variable: Some(("KILLS", format!("{device} {number} {sectors}"))),
            ..asking
        };
        let (call, told) = self.watched(On::Files, asking)?;
        ensure(call.status == KILLED && call.printed.is_empty(), || {
            "the call wasn't killed".to_string()
        })?;
        ensure(told == events, || {
            "the call that was killed went another way".to_string()
        })
    }

    /// Puts the files as a call that was killed leaves them, which made these calls of the devices.
    pub fn put_killed(&mut self, events: &[Event]) -> Result<(), String> {
        self.told
            .push("of the last call on copies, the first part on the files".to_string());
        for device in DEVICES {
            self.put(device, self.content_after(device, events))?;
        }
        Ok(())
    }
}

/// The file of a device in a folder, or nothing.
fn read(folder: &Path, device: usize) -> Vec<u8> {
    fs::read(folder.join(FILES[device])).unwrap_or_default()
}

/// Puts a file there, or none where there was none and nothing would be in it.
fn put(folder: &Path, device: usize, content: &[u8]) -> Result<(), String> {
    let path = folder.join(FILES[device]);
    if path.exists() || !content.is_empty() {
        fs::write(path, content).map_err(|error| error.to_string())?;
    }
    Ok(())
}
