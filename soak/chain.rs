//! Calls on one store in files, of which each opens what the last one left.

use crate::case::{ARCHIVE_FILE, Case, Left};
use crate::checking::Store;
use crate::listing::{check_dump, check_recover, read_of};
use crate::program::words_of;
use crate::shape::{DEFAULT_SHAPE, NEWEST, SLOTS, Shape, draw_large};
use std::fs;

pub struct Chain<'a, 'b> {
    case: &'a mut Case<'b>,
    store: Store,
    /// Whether its devices are formatted.
    is_formatted: bool,
    /// Whether its scripts are long ones, which bring a small log round.
    is_wide: bool,
}

const FILES: [&str; 3] = ["redo.log", "redo.data", ARCHIVE_FILE];
/// How many pages its stores have.
const PAGES: [u32; 12] = [1, 2, 8, 8, 8, 9, 17, 64, 64, 65, 200, 1_024];

impl<'a, 'b> Chain<'a, 'b> {
    pub fn new(case: &'a mut Case<'b>) -> Chain<'a, 'b> {
        let is_wide = case.draws.once_in(6);
        Chain {
            case,
            store: Store::default_sizes(),
            is_formatted: false,
            is_wide,
        }
    }

    pub fn run(&mut self) -> Result<(), String> {
        self.clear();
        if self.case.draws.once_in(4) {
            self.reads_nothing()?;
        }
        if self.is_wide || !self.case.draws.once_in(3) {
            self.format()?;
        }
        for _ in 0..self.case.draws.within(2, if self.is_wide { 12 } else { 8 }) {
            if !self.is_wide && self.case.draws.once_in(16) {
                self.format()?;
            }
            if !self.step()? {
                break;
            }
        }
        self.clear();
        Ok(())
    }

    /// Removes what an earlier chain has left.
    fn clear(&self) {
        for file in FILES {
            let _ = fs::remove_file(self.case.folder.join(file));
        }
    }

    /// There is no store yet.
    fn reads_nothing(&mut self) -> Result<(), String> {
        let command = self.case.draws.one_of(&["recover --files", "dump --files"]);
        let call = self.case.call(&words_of(command), "")?;
        call.answers(8, "fault store unformatted\n")
    }

    fn format(&mut self) -> Result<(), String> {
        let draws = &mut self.case.draws;
        let shape = Shape {
            pages: draws.one_of(&PAGES),
            space: draws.one_of(&[0, 1, 1, 127, 128, 16_384, u32::MAX - 70_000, u32::MAX]),
            log_blocks: if self.is_wide {
                1_024
            } else {
                draws.one_of(&[1_024, 1_025, 1_500, DEFAULT_SHAPE.log_blocks])
            },
            slots: SLOTS,
            ..DEFAULT_SHAPE
        };
        let shape = draw_large(&mut self.case.beside, shape);
        self.case.tally.large_pages += u64::from(shape.is_large());
        let text = format!("format --files {}", shape.words());
        let call = self.case.call(&words_of(&text), "")?;
        call.answers(0, "formatted 8192\n")?;
        self.store = Store::new(shape);
        self.is_formatted = true;
        Ok(())
    }

    /// One run, and at times what it left. Says whether all is known of that.
    fn step(&mut self) -> Result<bool, String> {
        let store = self.store.clone();
        let left = self.case.run_script(&store, true, self.is_wide)?;
        // a run on devices that were unused has formatted them
        self.is_formatted |= !matches!(left, Left::Unread);
        match left {
            Left::Known(known) => self.store = known,
            Left::Unread => {}
            Left::Unrun => self.see_end()?,
            Left::Spent => {
                let call = self.case.call(&words_of("recover --files"), "")?;
                let read = read_of(&call.printed)?;
                let holds = call.status == 0 && store.end <= read.end;
                return if holds {
                    Ok(false)
                } else {
                    Err("the log has lost a part".to_string())
                };
            }
        }
        let round = self.store.shape.ring();
        self.case.tally.rounds += u64::from(self.store.end / round > store.end / round);
        if !self.case.draws.once_in(3) {
            self.read()?;
        }
        Ok(true)
    }

    /// The script didn't fit, and the store was opened or not.
    fn see_end(&mut self) -> Result<(), String> {
        let call = self.case.call(&words_of("recover --files"), "")?;
        let end = read_of(&call.printed)?.end;
        self.store.opened_at(end)
    }

    /// Both commands that only read.
    fn read(&mut self) -> Result<(), String> {
        let call = self.case.call(&words_of("dump --files"), "")?;
        if !self.is_formatted {
            return call.answers(8, "fault store unformatted\n");
        }
        call.has_succeeded()?;
        let groups = check_dump(&mut self.store, NEWEST, &call.printed)?;
        let call = self.case.call(&words_of("recover --files"), "")?;
        call.has_succeeded()?;
        check_recover(&self.store, &read_of(&call.printed)?, groups)
    }
}
