//! Runs of a script in threads, timed: by the actors of a running store, by the ring written out by hand, and by a log under one
//! mutex. The actors run by turns too.

pub mod backoff;
mod locked;
mod ring;

use crate::device::{Failure, FileDevice, Sectors};
use crate::generator::Draws;
use crate::group::encode;
use crate::log::{BLOCK_SIZE, Device, RING_START};
use crate::machine::lsn::lsn_of;
use crate::machine::threads::Crew;
use crate::machine::{Entry, Machine, Sizes, log_length};
use crate::script::{ScriptLine, parse};
use crate::store::{DEFAULT, Shape};
use locked::Locked;
use ring::Ring;
use std::fmt::Write;
use std::path::Path;
use std::time::{Duration, Instant};
use std::{fs, io, thread};

/// Bytes of a group of one string besides the string.
const STRING_FRONT: u32 = 7;
const PAGES: u32 = 64;
/// The seed of the runs by turns.
const SEED: u64 = 7;
/// Blocks of the ring of a log that is written alone, and never freed, and of one with pages, as a store has it by default.
const LONG_LOG: usize = 65_534;
const LOG: usize = 2_046;

/// Lines of the users by turns, each of one string, whose group has so many bytes.
pub fn script_text(users: u32, bytes: u32, mode: &str, groups: u32) -> String {
    let mut draws = Draws(6);
    let mut text = String::new();
    for number in 0..groups {
        let length = bytes - STRING_FRONT;
        let page = draws.below(PAGES);
        let offset = 38 + draws.below(4_051 - length);
        write!(text, "{} {mode} s {page} {offset} ", 1 + number % users).unwrap();
        let byte = draws.draw() as u8;
        for _ in 0..length {
            write!(text, "{byte:02x}").unwrap();
        }
        text.push('\n');
    }
    text
}

/// What a run came to.
struct Outcome {
    took: Duration,
    groups: usize,
    end: u64,
}

/// A user's groups, each with its mode.
type Groups = Vec<(u32, Vec<u8>)>;

fn groups_of(script: &[ScriptLine]) -> Vec<Groups> {
    let own = |user| script.iter().filter(move |line| line.user == user);
    let groups = |user| {
        own(user)
            .map(|line| (line.mode, encode(&line.items)))
            .collect()
    };
    (1..=16)
        .map(groups)
        .filter(|groups: &Groups| !groups.is_empty())
        .collect()
}

/// A log that threads share.
trait Log: Sync {
    /// Logs a group, and says where it starts.
    fn log(&self, group: &[u8], mode: u32) -> Result<u64, Failure>;

    /// One user fewer is left.
    fn end_user(&self);
}

/// Where each group of a user starts, and how long it is.
type Logged = Vec<(u64, usize)>;

fn log_all(log: &impl Log, groups: &Groups) -> Result<Logged, Failure> {
    let mut logged = Vec::with_capacity(groups.len());
    for (mode, group) in groups {
        logged.push((log.log(group, *mode)?, group.len()));
    }
    Ok(logged)
}

/// Plays each user in a thread, and the others beside them.
fn play<L: Log>(
    log: &L,
    users: &[Groups],
    others: &[&(dyn Fn() -> Result<(), Failure> + Sync)],
) -> Result<Outcome, Failure> {
    let start = Instant::now();
    let mut entries: Logged = thread::scope(|scope| {
        let others: Vec<_> = others.iter().map(|other| scope.spawn(other)).collect();
        let user = |groups| {
            scope.spawn(move || {
                let logged = log_all(log, groups);
                log.end_user();
                logged
            })
        };
        let users: Vec<_> = users.iter().map(user).collect();
        let logged: Result<Vec<Logged>, Failure> =
            users.into_iter().map(|user| user.join().unwrap()).collect();
        others
            .into_iter()
            .try_for_each(|other| other.join().unwrap())?;
        Ok(logged?.concat())
    })?;
    entries.sort_unstable();
    Ok(Outcome {
        took: start.elapsed(),
        groups: entries.len(),
        end: entries
            .last()
            .map_or(0, |(start, length)| lsn_of(start + *length as u64)),
    })
}

fn run_locked<D: Sectors + Send>(users: &[Groups], device: D) -> Result<Outcome, Failure> {
    let log = Locked::new(device, LONG_LOG as u64, users.len() as u64)?;
    play(&log, users, &[&|| log.write_on()])
}

fn run_ring<D: Sectors + Send>(users: &[Groups], device: D) -> Result<Outcome, Failure> {
    let log = Ring::new(device, LONG_LOG as u64, users.len() as u64)?;
    play(&log, users, &[&|| log.write_on(), &|| log.flush_on()])
}

fn sizes_of(log_only: bool) -> Sizes {
    let shape = Shape {
        pages: PAGES as usize,
        ring_blocks: if log_only { LONG_LOG } else { LOG },
        ..DEFAULT
    };
    Sizes { shape, log_only }
}

fn outcome_of(start: Instant, entries: &[Entry]) -> Outcome {
    Outcome {
        took: start.elapsed(),
        groups: entries.len(),
        end: entries.last().map_or(0, |entry| entry.end),
    }
}

fn run_crew<D: Sectors + Send>(
    script: &[ScriptLine],
    log_only: bool,
    spread: bool,
    device: impl Fn(&str, usize) -> D,
) -> Result<Outcome, Failure> {
    let mut crew = Crew::new(script, sizes_of(log_only), spread, device)?;
    let start = Instant::now();
    let entries = crew.run();
    Ok(outcome_of(start, &entries))
}

/// By turns, on devices in memory. The making of the actors is timed too, as it is for the proved program.
fn run_by_turns(script: &[ScriptLine], log_only: bool) -> Result<Outcome, Failure> {
    let start = Instant::now();
    let mut machine = Machine::new(script, sizes_of(log_only))?;
    machine.run(SEED, u64::MAX);
    Ok(outcome_of(start, &machine.history()))
}

fn run_on<D: Sectors + Send>(
    what: &str,
    script: &[ScriptLine],
    device: impl Fn(&str, usize) -> D,
) -> Result<Outcome, Failure> {
    let log = || device("log", log_length(LONG_LOG));
    match what {
        "pages-turns" => run_by_turns(script, false),
        "steps-turns" => run_by_turns(script, true),
        "pages" => run_crew(script, false, false, device),
        "pages-spread" => run_crew(script, false, true, device),
        "steps" => run_crew(script, true, false, device),
        "steps-spread" => run_crew(script, true, true, device),
        "ring" => run_ring(&groups_of(script), log()),
        _ => run_locked(&groups_of(script), log()),
    }
}

/// A file of so many zeros, or one that grows.
fn file(name: &str, length: Option<usize>) -> FileDevice {
    let path = Path::new(name);
    let made = length.map_or_else(
        || FileDevice::growing(path),
        |length| FileDevice::new(path, length),
    );
    made.expect("a file")
}

/// Runs the script so often, on new devices in memory, in files that have their length or in files that grow, and prints how long
/// each run took.
pub fn time(what: &str, place: &str, script: &str, rounds: u32) -> io::Result<()> {
    let script = parse(&fs::read(script)?).map_err(|_| io::Error::other("no script"))?;
    for _ in 0..rounds {
        let outcome = match place {
            "files" => run_on(what, &script, |name, length| file(name, Some(length))),
            "growing" => run_on(what, &script, |name, _| file(name, None)),
            _ => run_on(what, &script, |_, length| Device::new(length)),
        };
        let outcome = outcome.map_err(|_| io::Error::other("a device failed"))?;
        println!(
            "{} {} {}",
            outcome.took.as_nanos(),
            outcome.groups,
            outcome.end
        );
    }
    Ok(())
}

/// Writes a block of 512 bytes to a file that has its length, and syncs it, so often, as many times as a user that commits alone
/// has to. Prints how long that took.
pub fn time_syncs(file: &str, count: u32) -> io::Result<()> {
    let length = log_length(LONG_LOG);
    let mut device = FileDevice::new(Path::new(file), length)?;
    let block = [7; BLOCK_SIZE];
    let start = Instant::now();
    for number in 0..count as usize {
        // forty groups of 12 bytes stand in a block
        let at = RING_START + BLOCK_SIZE * (number / 40 % LONG_LOG);
        let synced = device.write(at, &block).and_then(|()| device.sync());
        synced.map_err(|_| io::Error::other("a device failed"))?;
    }
    println!("{} {count} 0", start.elapsed().as_nanos());
    Ok(())
}
