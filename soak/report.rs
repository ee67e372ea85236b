//! What the program prints of a run, as values. A text that isn't just what its values print is refused.

use std::fmt::Write;
use std::str::FromStr;

#[derive(Clone, Copy, Debug, PartialEq)]
pub enum State {
    Flushed,
    Written,
    Copied,
    Lost,
}

const STATES: [(State, &str); 4] = [
    (State::Flushed, "flushed"),
    (State::Written, "written"),
    (State::Copied, "copied"),
    (State::Lost, "lost"),
];

#[derive(Clone, Copy, Debug)]
pub struct Entry {
    pub start: u64,
    pub end: u64,
    pub user: u32,
    pub number: usize,
    pub state: State,
}

#[derive(Clone, Copy, Debug)]
pub struct Marks {
    pub copied: u64,
    pub written: u64,
    pub flushed: u64,
    pub checkpoint: u64,
}

/// What a follower has handed on: how many groups, up to which place, and the checksum of their joined texts.
#[derive(Clone, Copy, Debug)]
pub struct Follow {
    pub number: u64,
    pub count: usize,
    pub lsn: u64,
    pub crc: u32,
}

/// What was read after the crash: how many groups came back, where the log ends, and the lines of the pages.
#[derive(Clone, Debug)]
pub struct Recovered {
    pub count: usize,
    pub end: u64,
    pub pages: String,
}

#[derive(Clone, Debug, Default)]
pub struct Report {
    /// Nothing where opening was stopped.
    pub start: Option<u64>,
    pub entries: Vec<Entry>,
    pub left: Vec<(u32, usize)>,
    pub marks: Option<Marks>,
    pub follows: Vec<Follow>,
    pub recovered: Option<Recovered>,
}

fn number<T: FromStr>(word: &str) -> Result<T, String> {
    word.parse().map_err(|_| format!("no number: {word}"))
}

fn checksum(word: &str) -> Result<u32, String> {
    u32::from_str_radix(word, 16).map_err(|_| format!("no checksum: {word}"))
}

impl Report {
    /// The report that the text is.
    pub fn of(text: &str) -> Result<Report, String> {
        let mut report = Report::default();
        for line in text.lines() {
            report.take(line)?;
        }
        if report.print() == text {
            Ok(report)
        } else {
            Err("the report isn't laid out as a report is".to_string())
        }
    }

    fn take(&mut self, line: &str) -> Result<(), String> {
        let words: Vec<&str> = line.split(' ').collect();
        match words[..] {
            ["open", "none"] => {}
            ["open", start] => self.start = Some(number(start)?),
            ["g", start, end, user, k, state] => self.entries.push(Entry {
                start: number(start)?,
                end: number(end)?,
                user: number(user)?,
                number: number(k)?,
                state: state_of(state)?,
            }),
            ["left", user, count] => self.left.push((number(user)?, number(count)?)),
            ["marks", copied, written, flushed, checkpoint] => {
                self.marks = Some(Marks {
                    copied: number(copied)?,
                    written: number(written)?,
                    flushed: number(flushed)?,
                    checkpoint: number(checkpoint)?,
                })
            }
            ["follow", n, count, lsn, crc] => self.follows.push(Follow {
                number: number(n)?,
                count: number(count)?,
                lsn: number(lsn)?,
                crc: checksum(crc)?,
            }),
            ["recovered", count, end] => {
                self.recovered = Some(Recovered {
                    count: number(count)?,
                    end: number(end)?,
                    pages: String::new(),
                })
            }
            ["p", ..] => {
                let recovered = self.recovered.as_mut().ok_or("a page before `recovered`")?;
                recovered.pages.push_str(line);
                recovered.pages.push('\n');
            }
            _ => return Err(format!("no line of a report: {line}")),
        }
        Ok(())
    }

    fn print(&self) -> String {
        let start = self
            .start
            .map_or("none".to_string(), |start| start.to_string());
        let mut text = format!("open {start}\n");
        for Entry {
            start,
            end,
            user,
            number,
            state,
        } in &self.entries
        {
            writeln!(text, "g {start} {end} {user} {number} {}", word_of(*state)).unwrap();
        }
        for (user, count) in &self.left {
            writeln!(text, "left {user} {count}").unwrap();
        }
        if let Some(marks) = &self.marks {
            let (copied, written) = (marks.copied, marks.written);
            let (flushed, checkpoint) = (marks.flushed, marks.checkpoint);
            writeln!(text, "marks {copied} {written} {flushed} {checkpoint}").unwrap();
        }
        for Follow {
            number,
            count,
            lsn,
            crc,
        } in &self.follows
        {
            writeln!(text, "follow {number} {count} {lsn} {crc:08x}").unwrap();
        }
        if let Some(Recovered { count, end, pages }) = &self.recovered {
            write!(text, "recovered {count} {end}\n{pages}").unwrap();
        }
        text
    }

    /// Whether a device's failure shows in it.
    pub fn tells_failure(&self) -> bool {
        let is_lost = |entry: &Entry| entry.state == State::Lost;
        self.start.is_none() || !self.left.is_empty() || self.entries.iter().any(is_lost)
    }
}

fn state_of(word: &str) -> Result<State, String> {
    let found = STATES.iter().find(|(_, name)| *name == word);
    found
        .map(|(state, _)| *state)
        .ok_or(format!("no state: {word}"))
}

fn word_of(state: State) -> &'static str {
    STATES[state as usize].1
}
