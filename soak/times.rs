//! How long calls took, and which of them took much longer than others of their kind.

use std::collections::BTreeMap;
use std::time::Duration;

/// A call is slow that takes so many times the median of its kind.
const SLOW: u32 = 10;
/// Of fewer calls of a kind there is no median to speak of.
const FEWEST: usize = 10;

#[derive(Default)]
pub struct Times(BTreeMap<String, Vec<(Duration, u64)>>);

impl Times {
    /// A call of this kind took so long, in the run of this seed.
    pub fn note(&mut self, kind: String, took: Duration, seed: u64) {
        self.0.entry(kind).or_default().push((took, seed));
    }

    pub fn add(&mut self, other: Times) {
        for (kind, calls) in other.0 {
            self.0.entry(kind).or_default().extend(calls);
        }
    }

    /// A line for each kind that has slow calls, with the seed of the slowest.
    pub fn slow(&self) -> Vec<String> {
        let line = |(kind, calls): (&String, &Vec<(Duration, u64)>)| {
            let mut calls = calls.clone();
            calls.sort();
            let median = calls.get(calls.len() / 2)?.0;
            let (longest, seed) = *calls.last()?;
            let is_slow = |call: &&(Duration, u64)| call.0 >= SLOW * median;
            let slow = calls.iter().filter(is_slow).count();
            (slow > 0 && calls.len() >= FEWEST).then(|| {
                format!(
                    "slow: {slow} of {} calls {kind}: {SLOW} times the median of {} ms and more, {} ms at the most, in seed {seed}",
                    calls.len(),
                    median.as_millis(),
                    longest.as_millis()
                )
            })
        };
        self.0.iter().filter_map(line).collect()
    }
}
