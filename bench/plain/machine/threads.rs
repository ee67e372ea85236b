//! The running store in threads, one for each actor, over words that they share.

use super::parts::{DataPart, LogPart};
use super::words::*;
use super::{
    Actor, Entry, START, Sizes, called, history_of, log_length, marks_in, seat_actors, start_words,
};
use crate::device::{Failure, Sectors};
use crate::script::ScriptLine;
use crate::store::data_length;
use crate::threads::backoff::Backoff;
use std::cell::UnsafeCell;
use std::sync::atomic::AtomicU64;
use std::sync::atomic::Ordering::SeqCst;
use std::thread;

/// The first words, each of which many actors use.
const HOT: usize = 8;
/// Words of a line of the cache.
const LINE: usize = 8;

struct Shared<D> {
    words: Vec<AtomicU64>,
    /// How far apart the first words stand.
    stride: usize,
    log: UnsafeCell<LogPart<D>>,
    data: UnsafeCell<DataPart<D>>,
    lists: [UnsafeCell<Vec<(u32, u64)>>; LISTS],
}

// What stands in a cell is used by the actor alone that has its turn word, and the data part by the cleaner alone.
unsafe impl<D: Send> Sync for Shared<D> {}

impl<D: Sectors> Shared<D> {
    fn word(&self, word: usize) -> &AtomicU64 {
        let at = if word < HOT {
            word * self.stride
        } else {
            word + HOT * (self.stride - 1)
        };
        &self.words[at]
    }

    fn takes(&self, word: usize) -> bool {
        self.word(word)
            .compare_exchange(0, 1, SeqCst, SeqCst)
            .is_ok()
    }

    /// The flush list of a page, whose turn word the actor has.
    #[allow(clippy::mut_from_ref)]
    fn list(&self, page: u32) -> &mut Vec<(u32, u64)> {
        unsafe { &mut *self.lists[page as usize % LISTS].get() }
    }

    /// The log part, of an actor that has DEVICE.
    #[allow(clippy::mut_from_ref)]
    fn log(&self) -> &mut LogPart<D> {
        unsafe { &mut *self.log.get() }
    }

    fn swap(&self, word: usize, from: u64, to: u64) -> u64 {
        let found = self.word(word).compare_exchange(from, to, SeqCst, SeqCst);
        found.unwrap_or_else(|found| found)
    }

    fn play(&self, op: Op, actor: &Actor) -> Answer {
        match op {
            Op::Load(word) => Answer::Old(self.word(word).load(SeqCst)),
            Op::Store(word, number) => Answer::Old(self.word(word).swap(number, SeqCst)),
            Op::Add(word, number) => Answer::Old(self.word(word).fetch_add(number, SeqCst)),
            Op::Swap(word, from, to) => Answer::Old(self.swap(word, from, to)),
            Op::TakeDevice if !self.takes(DEVICE) => Answer::Held,
            Op::TakeDevice if self.log().failed.is_some() => Answer::Broken,
            Op::TakeDevice => Answer::Taken(None),
            Op::TakeAdd(page, start) if self.takes(list(page)) => {
                self.list(page).push((page, start));
                Answer::Taken(None)
            }
            Op::TakeRemove(page) if self.takes(list(page)) => {
                self.list(page).retain(|listed| listed.0 != page);
                Answer::Taken(None)
            }
            Op::TakeOldest(list) if self.takes(list_word(list)) => {
                Answer::Taken(self.list(list as u32).first().map(|listed| listed.1))
            }
            Op::TakeAdd(..) | Op::TakeRemove(_) | Op::TakeOldest(_) => Answer::Held,
            Op::WriteTo(_) | Op::Sync | Op::Checkpoint(_) | Op::WriteBatch => self.call(op, actor),
            Op::Rest => Answer::Rested,
        }
    }

    fn call(&self, op: Op, actor: &Actor) -> Answer {
        let log = self.log();
        match (op, actor) {
            (Op::WriteTo(mark), Actor::Writer(writer)) => {
                called(log.write_to(mark, &writer.kept, &writer.firsts), 0, 1)
            }
            (Op::Sync, _) => {
                let answer = log.sync();
                called(answer, log.stable, 1)
            }
            (Op::Checkpoint(lsn), _) => called(log.checkpoint(lsn), 0, 1),
            (Op::WriteBatch, Actor::Cleaner(cleaner)) => {
                let data = unsafe { &mut *self.data.get() };
                called(data.write_batch(&cleaner.batch, &cleaner.users), 0, 2)
            }
            _ => unreachable!(),
        }
    }
}

/// How many Ops an actor takes at most between two waits where it comes to nothing.
fn ops_in_vain(actor: &Actor) -> u64 {
    match actor {
        // FAILED, a tail loaded twice, taken, and no link
        Actor::User(_) | Actor::Writer(_) | Actor::Flusher(_) | Actor::Closer(_) => 5,
        // fewer than it takes to load a page
        Actor::Cleaner(cleaner) => cleaner.page_size as u64 / 8 - 1,
        // FAILED, CTAIL, and each list taken and given
        Actor::Checkpointer(_) => 2 + 2 * LISTS as u64,
    }
}

fn play_to_end<D: Sectors>(shared: &Shared<D>, running: &AtomicU64, actor: &mut Actor) {
    let is_user = matches!(actor, Actor::User(_));
    let mut backoff = Backoff::new();
    let in_vain = ops_in_vain(actor);
    // how many Ops it has gone on since its last wait
    let mut moved = 0u64;
    loop {
        let answer = shared.play(actor.next(), actor);
        match actor.took(answer) {
            Turn::Moved => moved += 1,
            Turn::Idle if !is_user && running.load(SeqCst) == 0 => return,
            Turn::Idle => {
                if moved > in_vain {
                    backoff.reset();
                }
                moved = 0;
                backoff.snooze();
            }
            Turn::Ended | Turn::Failed(_) => {
                if is_user {
                    running.fetch_sub(1, SeqCst);
                }
                return;
            }
        }
    }
}

/// A running store that no thread plays yet.
pub struct Crew<D> {
    shared: Shared<D>,
    actors: Vec<Actor>,
}

impl<D: Sectors + Send> Crew<D> {
    /// A new store as a run of the script begins on it. With `spread` each of the words that many actors use has a line of
    /// the cache of its own.
    pub fn new(
        script: &[ScriptLine],
        sizes: Sizes,
        spread: bool,
        device: impl Fn(&str, usize) -> D,
    ) -> Result<Crew<D>, Failure> {
        let stride = if spread { LINE } else { 1 };
        let shape = sizes.shape;
        let log = device("log", log_length(shape.ring_blocks));
        let data = device("data", data_length(shape));
        let shared = Shared {
            words: spread_out(start_words(shape), stride),
            stride,
            log: UnsafeCell::new(LogPart::new(log, shape.ring_blocks as u64, START)?),
            data: UnsafeCell::new(DataPart::new(data, shape)),
            lists: Default::default(),
        };
        let actors = seat_actors(script, sizes);
        Ok(Crew { shared, actors })
    }

    /// Plays all actors to their ends, each in a thread, and says what groups there are.
    pub fn run(&mut self) -> Vec<Entry> {
        let Crew { shared, actors } = self;
        let users = actors
            .iter()
            .filter(|actor| matches!(actor, Actor::User(_)));
        let (shared, running) = (&*shared, &AtomicU64::new(users.count() as u64));
        thread::scope(|scope| {
            for actor in actors.iter_mut() {
                scope.spawn(move || play_to_end(shared, running, actor));
            }
        });
        let marks = marks_in(|word| shared.word(word).load(SeqCst));
        history_of(actors, marks)
    }
}

fn spread_out(words: Vec<u64>, stride: usize) -> Vec<AtomicU64> {
    let gaps = |(place, word)| {
        let gap = if place < HOT { stride - 1 } else { 0 };
        std::iter::once(word).chain(std::iter::repeat_n(0, gap))
    };
    words
        .into_iter()
        .enumerate()
        .flat_map(gaps)
        .map(AtomicU64::new)
        .collect()
}
