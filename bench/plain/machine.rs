//! A running store as the proved program has it: the same words in one list, the same six actors, one Op a turn as a seed
//! draws them, over devices in memory.

mod advance;
mod checkpointer;
mod cleaner;
mod closer;
mod flusher;
pub mod lsn;
pub mod parts;
pub mod rounds;
pub mod threads;
mod user;
pub mod words;
mod writer;

use crate::device::Failure;
use crate::group::{changes, encode};
use crate::log::{BLOCK_HEADER, BLOCK_SIZE, Device, RING_START};
use crate::script::ScriptLine;
use crate::store::{DEFAULT, LARGE, Shape, data_length, head};
use checkpointer::Checkpointer;
use cleaner::Cleaner;
use closer::Closer;
use flusher::Flusher;
use lsn::{floor, lsn_of, sn_of};
use parts::{DataPart, LogPart};
pub use user::FREE_MARGIN;
use user::{Line, User};
use words::*;
use writer::Writer;

/// Where the first run of a store starts.
pub const START: u64 = 8_204;
const USERS: u32 = 16;

enum Actor {
    User(User),
    Writer(Writer),
    Flusher(Flusher),
    Closer(Closer),
    Cleaner(Cleaner),
    Checkpointer(Checkpointer),
}

impl Actor {
    fn next(&self) -> Op {
        match self {
            Actor::User(user) => user.next(),
            Actor::Writer(writer) => writer.next(),
            Actor::Flusher(flusher) => flusher.next(),
            Actor::Closer(closer) => closer.next(),
            Actor::Cleaner(cleaner) => cleaner.next(),
            Actor::Checkpointer(checkpointer) => checkpointer.next(),
        }
    }

    fn took(&mut self, answer: Answer) -> Turn {
        match self {
            Actor::User(user) => user.took(answer),
            Actor::Writer(writer) => writer.took(answer),
            Actor::Flusher(flusher) => flusher.took(answer),
            Actor::Closer(closer) => closer.took(answer),
            Actor::Cleaner(cleaner) => cleaner.took(answer),
            Actor::Checkpointer(checkpointer) => checkpointer.took(answer),
        }
    }
}

/// The sizes of a store, and whether its log runs alone.
#[derive(Clone, Copy)]
pub struct Sizes {
    pub shape: Shape,
    pub log_only: bool,
}

/// Those of a store that is formatted without an option, and of one of 1,024 pages of 16,384 bytes.
pub const DEFAULT_SIZES: Sizes = Sizes {
    shape: DEFAULT,
    log_only: false,
};
pub const LARGE_SIZES: Sizes = Sizes {
    shape: LARGE,
    log_only: false,
};

/// The users that have lines, and after them the other actors.
fn seat_actors(script: &[ScriptLine], sizes: Sizes) -> Vec<Actor> {
    let mut actors = Vec::new();
    let shape = sizes.shape;
    let (blocks, words) = (shape.ring_blocks as u64, PageWords::of(shape.page_size));
    for number in 1..=USERS {
        let own = script.iter().filter(|line| line.user == number);
        let lines: Vec<Line> = own.map(|line| line_of(line, sizes)).collect();
        if !lines.is_empty() {
            actors.push(Actor::User(User::new(number, lines, blocks, words)));
        }
    }
    actors.push(Actor::Writer(Writer::new(START, blocks)));
    actors.push(Actor::Flusher(Flusher::new(START)));
    if !sizes.log_only {
        actors.push(Actor::Closer(Closer::new()));
        actors.push(Actor::Cleaner(Cleaner::new(shape)));
        actors.push(Actor::Checkpointer(Checkpointer::new(START)));
    }
    actors
}

fn line_of(line: &ScriptLine, sizes: Sizes) -> Line {
    let pages = if sizes.log_only {
        Vec::new()
    } else {
        changes(&line.items, sizes.shape.page_size)
    };
    Line {
        mode: line.mode,
        bytes: encode(&line.items),
        pages,
    }
}

/// The words, both device parts, and the flush lists, each of pages with their oldest modifications.
struct Parts {
    words: Vec<u64>,
    log: LogPart<Device>,
    data: DataPart<Device>,
    lists: [Vec<(u32, u64)>; LISTS],
}

fn called(answer: Result<(), Failure>, told: u64, code: u32) -> Answer {
    match answer {
        Ok(()) => Answer::Called(told),
        Err(Failure) => Answer::Failed(code),
    }
}

/// The words as a run begins on a new store.
fn start_words(shape: Shape) -> Vec<u64> {
    let mut words = vec![0; PageWords::of(shape.page_size).count(shape.pages)];
    words[SN] = sn_of(START);
    for mark in [WRITE, FLUSHED] {
        words[mark] = START;
    }
    for tail in [WTAIL, CTAIL] {
        words[tail] = free(START);
    }
    words[CKPT] = floor(START);
    words[first(START)] = BLOCK_HEADER as u64;
    words
}

/// Bytes of the log device with so many blocks in its ring.
pub fn log_length(ring_blocks: usize) -> usize {
    RING_START + ring_blocks * BLOCK_SIZE
}

impl Parts {
    fn new(shape: Shape) -> Result<Parts, Failure> {
        let mut log = Device::new(log_length(shape.ring_blocks));
        // the second header; a sum over the device leaves out the first
        let mut block = [0; BLOCK_SIZE];
        head(&mut block, shape);
        log.write(2 * BLOCK_SIZE, &block);
        Ok(Parts {
            words: start_words(shape),
            log: LogPart::new(log, shape.ring_blocks as u64, START)?,
            data: DataPart::new(Device::new(data_length(shape)), shape),
            lists: Default::default(),
        })
    }

    fn put(&mut self, word: usize, number: u64) -> u64 {
        std::mem::replace(&mut self.words[word], number)
    }

    /// Takes a turn word, if it is free.
    fn take(&mut self, word: usize) -> bool {
        let is_free = self.words[word] == 0;
        if is_free {
            self.words[word] = 1;
        }
        is_free
    }

    fn list(&mut self, page: u32) -> &mut Vec<(u32, u64)> {
        &mut self.lists[page as usize % LISTS]
    }

    fn play(&mut self, op: Op, actor: &Actor) -> Answer {
        match op {
            Op::Load(word) => Answer::Old(self.words[word]),
            Op::Store(word, number) => Answer::Old(self.put(word, number)),
            Op::Add(word, number) => Answer::Old(self.put(word, self.words[word] + number)),
            Op::Swap(word, from, to) => {
                let old = self.words[word];
                if old == from {
                    self.words[word] = to;
                }
                Answer::Old(old)
            }
            Op::TakeDevice if !self.take(DEVICE) => Answer::Held,
            Op::TakeDevice if self.log.failed.is_some() => Answer::Broken,
            Op::TakeDevice => Answer::Taken(None),
            Op::TakeAdd(page, start) if self.take(list(page)) => {
                self.list(page).push((page, start));
                Answer::Taken(None)
            }
            Op::TakeRemove(page) if self.take(list(page)) => {
                self.list(page).retain(|listed| listed.0 != page);
                Answer::Taken(None)
            }
            Op::TakeOldest(list) if self.take(list_word(list)) => {
                Answer::Taken(self.lists[list].first().map(|listed| listed.1))
            }
            Op::TakeAdd(..) | Op::TakeRemove(_) | Op::TakeOldest(_) => Answer::Held,
            Op::WriteTo(mark) => match actor {
                Actor::Writer(writer) => {
                    called(self.log.write_to(mark, &writer.kept, &writer.firsts), 0, 1)
                }
                _ => unreachable!(),
            },
            Op::Sync => {
                let answer = self.log.sync();
                called(answer, self.log.stable, 1)
            }
            Op::Checkpoint(lsn) => called(self.log.checkpoint(lsn), 0, 1),
            Op::WriteBatch => match actor {
                Actor::Cleaner(cleaner) => {
                    called(self.data.write_batch(&cleaner.batch, &cleaner.users), 0, 2)
                }
                _ => unreachable!(),
            },
            Op::Rest => Answer::Rested,
        }
    }
}

/// The draws of a seed.
struct Draws(u64);

impl Draws {
    fn take(&mut self) -> u64 {
        self.0 = (self.0 * 1_103_515_245 + 12_345) % (1 << 31);
        self.0 / 65_536
    }
}

/// A running store.
pub struct Machine {
    parts: Parts,
    actors: Vec<Actor>,
}

/// How a run ends: each user has ended, or the turns are spent, and this is the least user that hasn't ended.
pub enum Ran {
    Done,
    Spent(u32),
}

/// How a group's commit stands at the end of a run.
#[derive(Clone, Copy)]
pub enum State {
    Lost,
    Copied,
    Written,
    Flushed,
}

/// A group of a run, with its user and its number among the user's.
pub struct Entry {
    pub user: u32,
    pub number: u64,
    pub start: u64,
    pub end: u64,
    pub state: State,
}

impl Machine {
    /// A new store as a run of the script begins on it.
    pub fn new(script: &[ScriptLine], sizes: Sizes) -> Result<Machine, Failure> {
        Ok(Machine {
            parts: Parts::new(sizes.shape)?,
            actors: seat_actors(script, sizes),
        })
    }

    fn open_user(&self) -> Option<u32> {
        self.actors.iter().find_map(|actor| match actor {
            Actor::User(user) if !user.has_ended() => Some(user.number),
            _ => None,
        })
    }

    fn turn(&mut self, seat: usize) -> Turn {
        let actor = &mut self.actors[seat];
        let answer = self.parts.play(actor.next(), actor);
        actor.took(answer)
    }

    /// Gives turns to the actors, at most so many, until each user has ended.
    pub fn run(&mut self, seed: u64, max: u64) -> Ran {
        let seats = self.actors.len() as u64;
        let mut draws = Draws(seed % (1 << 31));
        for turn in 0..max {
            if self.open_user().is_none() {
                return Ran::Done;
            }
            let seat = if turn < max / 2 {
                draws.take() % seats
            } else {
                turn % seats
            };
            self.turn(seat as usize);
        }
        self.open_user().map_or(Ran::Done, Ran::Spent)
    }

    pub fn history(&self) -> Vec<Entry> {
        history_of(&self.actors, self.marks())
    }

    /// WTAIL, WRITE, FLUSHED and CKPT.
    pub fn marks(&self) -> [u64; 4] {
        marks_in(|word| self.parts.words[word])
    }

    /// The sums of the checksums of the log device's sectors after the header, and of the data device's.
    pub fn sums(&self) -> [u64; 2] {
        [self.parts.log.sum(), self.parts.data.sum()]
    }
}

/// WTAIL, WRITE, FLUSHED and CKPT, of words that are read so.
fn marks_in(read: impl Fn(usize) -> u64) -> [u64; 4] {
    [tail_of(read(WTAIL)), read(WRITE), read(FLUSHED), read(CKPT)]
}

/// The groups of all users in lsn order.
fn history_of(actors: &[Actor], marks: [u64; 4]) -> Vec<Entry> {
    let entries = actors.iter().flat_map(|actor| entries_of(actor, marks));
    let mut entries: Vec<Entry> = entries.collect();
    entries.sort_unstable_by_key(|entry| entry.start);
    entries
}

fn entries_of(actor: &Actor, marks: [u64; 4]) -> Vec<Entry> {
    let Actor::User(user) = actor else {
        return Vec::new();
    };
    let groups = (0..).zip(user.starts.iter().zip(&user.lines));
    groups
        .map(|(number, (start, line))| {
            let end = lsn_of(*start + line.bytes.len() as u64);
            let is_answered = number < user.answered as u64;
            Entry {
                user: user.number,
                number,
                start: lsn_of(*start),
                end,
                state: state_by(is_answered, end, marks),
            }
        })
        .collect()
}

fn state_by(is_answered: bool, end: u64, [_, write, flushed, _]: [u64; 4]) -> State {
    if !is_answered {
        State::Lost
    } else if end <= flushed {
        State::Flushed
    } else if end <= write {
        State::Written
    } else {
        State::Copied
    }
}
