//! The times of runs by turns, of rounds of the cleaner, and of the parser of scripts.

use crate::machine::rounds::Rounds;
use crate::machine::{DEFAULT_SIZES, Entry, LARGE_SIZES, Machine, Ran, Sizes};
use crate::script::{Item, ScriptLine, parse};
use crate::store::LARGE;
use crate::{fastest, report};
use std::hint::black_box;
use std::time::{Duration, Instant};

const SEED: u64 = 7;
/// So many turns are taken, and the users have more lines than these come to.
const TURNS: u64 = 3_000_000;
const LARGE_TURNS: u64 = 60_000_000;
/// Turns of the cleaner alone.
const CLEANER_TURNS: u64 = 10_000_000;
/// How often the run is made; the fastest time counts.
const ROUNDS: u32 = 3;

pub fn time_turns(text: &[u8]) {
    let Ok(script) = parse(text) else {
        println!("turns: no script");
        return;
    };
    let (best, outcome) = time_run(&script, DEFAULT_SIZES, TURNS);
    report("turns", TURNS as usize, best, &outcome);
    let (best, outcome) = time_run(&script, DEFAULT_SIZES, 0);
    report("-making", text.len(), best, &outcome);
}

/// The same on a store of large pages, but for the making.
pub fn time_large_turns(text: &[u8]) {
    let Ok(script) = parse(text) else {
        println!("turns-large: no script");
        return;
    };
    let (best, outcome) = time_run(&script, LARGE_SIZES, LARGE_TURNS);
    report("turns-large", LARGE_TURNS as usize, best, &outcome);
}

/// The time of rounds of the cleaner of a store of large pages.
pub fn time_rounds() {
    let mut best = Duration::MAX;
    let mut outcome = String::new();
    for _ in 0..ROUNDS {
        let mut rounds = Rounds::new(LARGE);
        let start = Instant::now();
        black_box(&mut rounds).run(CLEANER_TURNS);
        best = best.min(start.elapsed());
        outcome = rounds.outcome();
    }
    report("round", CLEANER_TURNS as usize, best, &outcome);
}

/// The time of so many turns of the script, and what they come to. With none it is that of making the store's actors.
fn time_run(script: &[ScriptLine], sizes: Sizes, turns: u64) -> (Duration, String) {
    let mut best = Duration::MAX;
    let mut outcome = String::new();
    for _ in 0..ROUNDS {
        let start = Instant::now();
        let run = black_box(run(black_box(script), sizes, turns));
        best = best.min(start.elapsed());
        outcome = outcome_of(&run);
    }
    (best, outcome)
}

struct Run {
    machine: Machine,
    ran: Ran,
    entries: Vec<Entry>,
}

fn run(script: &[ScriptLine], sizes: Sizes, turns: u64) -> Run {
    let machine = Machine::new(script, sizes);
    let mut machine = machine.unwrap_or_else(|_| unreachable!("memory fails no call"));
    let ran = machine.run(SEED, turns);
    let entries = machine.history();
    Run {
        machine,
        ran,
        entries,
    }
}

/// The least user that hasn't ended, or 0, how many groups there are, where they end, a sum over them, the marks, and a
/// sum over each device.
fn outcome_of(run: &Run) -> String {
    let open = match run.ran {
        Ran::Done => 0,
        Ran::Spent(user) => user,
    };
    let groups = run.entries.len();
    let end = run.entries.last().map_or(0, |entry| entry.end);
    let sum = run.entries.iter().map(number_of).fold(0, u64::wrapping_add);
    let [wtail, write, flushed, ckpt] = run.machine.marks();
    let [log, data] = run.machine.sums();
    format!("{open} {groups} {end} {sum:x} {wtail} {write} {flushed} {ckpt} {log:x} {data:x}")
}

/// A number for each group, so that two runs that agree on all of them agree on the groups.
fn number_of(entry: &Entry) -> u64 {
    let fields = [
        entry.end,
        entry.number,
        u64::from(entry.user),
        entry.state as u64,
    ];
    fields.iter().fold(entry.start, |sum, field| {
        sum.wrapping_mul(31).wrapping_add(*field)
    })
}

pub fn time_parser(text: &[u8]) {
    let (best, script) = fastest(|| parse(black_box(text)));
    match script {
        Ok(script) => report("parse", text.len(), best, &tally_of(&script)),
        Err(line) => println!("parse: line {line}"),
    }
}

/// How many lines and operations there are, and a sum over their values.
fn tally_of(script: &[ScriptLine]) -> String {
    let (mut items, mut sum) = (0, 0u64);
    for line in script {
        items += line.items.len();
        sum = sum.wrapping_add(u64::from(line.user) + u64::from(line.mode));
        sum = line.items.iter().map(value_of).fold(sum, u64::wrapping_add);
    }
    format!("{} {items} {sum:x}", script.len())
}

/// A number for each operation, so that two parsers that agree on all of them agree on the operations.
fn value_of(item: &Item) -> u64 {
    match item {
        Item::Num {
            width,
            page,
            offset,
            value,
        } => value.wrapping_add(u64::from(width + page + offset)),
        Item::Text {
            page,
            offset,
            bytes,
        } => {
            let bytes: u64 = bytes.iter().map(|byte| u64::from(*byte)).sum();
            bytes + u64::from(page + offset)
        }
        Item::Init { page } => u64::from(*page),
    }
}
