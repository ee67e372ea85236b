//! The cleaner alone, in a store of which it finds one page dirty in each round. No batch is written.

use super::START;
use super::cleaner::Cleaner;
use super::words::*;
use crate::store::Shape;

/// The page that is dirty.
const DIRTY: u32 = 700;
/// What stands in the words of its frame: the number of each times this.
const FRAME_FACTOR: u64 = 0x0101_0101_0101_0101;

pub struct Rounds {
    cleaner: Cleaner,
    words: Vec<u64>,
    /// Where that page's oldest modification stands.
    oldest: usize,
    /// How many rounds have begun, and how many pages were cleaned.
    begun: u64,
    cleaned: u64,
    /// A sum over the batches.
    sum: u64,
}

impl Rounds {
    pub fn new(shape: Shape) -> Rounds {
        let pages = PageWords::of(shape.page_size);
        let mut words = vec![0; pages.count(shape.pages)];
        words[FLUSHED] = START;
        words[pages.newest(DIRTY)] = START;
        for at in 0..shape.page_size / 8 {
            words[pages.frame(DIRTY, at)] = at as u64 % 256 * FRAME_FACTOR;
        }
        Rounds {
            cleaner: Cleaner::new(shape),
            words,
            oldest: pages.oldest(DIRTY),
            begun: 0,
            cleaned: 0,
            sum: 0,
        }
    }

    fn put(&mut self, word: usize, number: u64) -> u64 {
        std::mem::replace(&mut self.words[word], number)
    }

    /// The page is dirty again as a round begins.
    fn play(&mut self, op: Op) -> Answer {
        match op {
            Op::Load(FLUSHED) => {
                self.begun += 1;
                self.put(self.oldest, START);
                Answer::Old(self.words[FLUSHED])
            }
            Op::Load(word) => Answer::Old(self.words[word]),
            Op::Store(word, number) => Answer::Old(self.put(word, number)),
            Op::Swap(word, from, to) => {
                let old = self.words[word];
                if old == from {
                    self.words[word] = to;
                }
                Answer::Old(old)
            }
            Op::WriteBatch => {
                self.sum += sum_of(&self.cleaner);
                Answer::Called(0)
            }
            Op::TakeRemove(_) => {
                self.cleaned += 1;
                Answer::Taken(None)
            }
            _ => Answer::Rested,
        }
    }

    /// Gives the cleaner so many turns.
    pub fn run(&mut self, turns: u64) {
        for _ in 0..turns {
            let answer = self.play(self.cleaner.next());
            self.cleaner.took(answer);
        }
    }

    /// How many rounds have begun, how many pages were cleaned, and a sum over the batches.
    pub fn outcome(&self) -> String {
        format!("{} {} {:x}", self.begun, self.cleaned, self.sum)
    }
}

/// A number for a batch: of its pages, their lsns, and the first and the last of their user bytes.
fn sum_of(cleaner: &Cleaner) -> u64 {
    let ends = [cleaner.users.first(), cleaner.users.last()];
    let ends = ends.iter().flatten().map(|byte| u64::from(**byte));
    let pages = cleaner.batch.iter();
    let pages = pages.map(|(page, lsn)| u64::from(*page) + lsn);
    pages.chain(ends).sum()
}
