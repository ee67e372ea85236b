//! Stores whose two heads aren't alike.

use crate::crc::SECTOR;
use crate::draws::Draws;
use crate::events::{DATA, Event, LOG, What};
use crate::files::{Asking, Files, Kill, On};
use crate::layout::{HEADS, Head, are_heads_alike};
use crate::older::{Older, older};
use crate::program::words_of;
use crate::tears::draw_junk;

/// At times leaves the two heads unlike: breaks one, makes a store of an older format, or kills a call that writes them.
pub fn prepare(draws: &mut Draws, files: &mut Files) -> Result<(), String> {
    let drawn = draws.below(6);
    let head = Head::of_log(&files.contents[LOG]);
    let has_two = head.is_some_and(|head| head.format != 1);
    if drawn == 0 && has_two && are_heads_alike(&files.contents[LOG]) {
        return break_head(draws, files);
    }
    if drawn == 1 && head.is_some_and(|head| head.may_be_older()) {
        let Older { log, data, .. } = older(draws, &files.contents)?;
        files.put(LOG, log)?;
        files.put(DATA, data)?;
        if draws.once_in(2) {
            return kill(draws, files, "run --files");
        }
    }
    if drawn == 2 {
        return kill(draws, files, "format --files");
    }
    Ok(())
}

fn break_head(draws: &mut Draws, files: &mut Files) -> Result<(), String> {
    let mut log = files.contents[LOG].clone();
    let at = draws.one_of(&HEADS) * SECTOR;
    let head = &mut log[at..at + SECTOR];
    if draws.once_in(2) {
        head.fill(0);
    } else {
        let junk = draw_junk(draws, head);
        head.copy_from_slice(&junk);
    }
    files.put(LOG, log)
}

/// Kills a call just before or after it writes a head, if it writes one.
fn kill(draws: &mut Draws, files: &mut Files, words: &str) -> Result<(), String> {
    let words = words_of(words);
    let asking = || Asking {
        words: &words,
        script: "",
        variable: None,
    };
    let (_, mut events) = files.watched(On::Copies, asking())?;
    let places = HEADS.map(|number| number * SECTOR);
    let is_head = |event: &Event| match &event.what {
        What::Write(write) => event.device == LOG && places.contains(&write.at),
        _ => false,
    };
    let heads: Vec<usize> = (0..events.len())
        .filter(|number| is_head(&events[*number]))
        .collect();
    if heads.is_empty() {
        return Ok(());
    }
    let moment = draws.one_of(&heads) + draws.below(2) as usize;
    match Kill::draw(draws, &mut events, moment) {
        Some(kill) => files.kill(asking(), &kill, &events),
        None => Ok(()),
    }
}
