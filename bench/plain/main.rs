//! The same work as the proved programs, in plain Rust. `plain write` leaves the bytes that both work on in the current
//! folder, and `plain time` times the work over them. `plain script` prints a script, and `plain threads` times its runs in
//! threads. `plain archive` leaves an archive and prints its mark, and `plain sums` reads one.

mod archive;
mod checksum;
mod decoder;
mod device;
mod generator;
mod group;
mod log;
mod machine;
mod opening;
mod recovering;
mod recovery;
mod script;
mod scripts;
mod store;
mod threads;
mod turning;

use decoder::{Got, Rec, decode};
use std::hint::black_box;
use std::io::Write;
use std::time::{Duration, Instant};
use std::{env, fs, io, process};

const NOISE_FILE: &str = "noise.bin";
const GROUPS_FILE: &str = "groups.bin";
const LOG_FILE: &str = "log.bin";
const DATA_FILE: &str = "data.bin";
const LARGE_LOG_FILE: &str = "large_log.bin";
const LARGE_DATA_FILE: &str = "large_data.bin";
const OPENED_LOG_FILE: &str = "opened_log.bin";
const OPENED_DATA_FILE: &str = "opened_data.bin";
const TURNS_FILE: &str = "turns.txt";
const LARGE_TURNS_FILE: &str = "large_turns.txt";
const SCRIPT_FILE: &str = "script.txt";
/// How often each work is done; the fastest time counts.
const ROUNDS: u32 = 10;

fn write() -> io::Result<()> {
    fs::write(NOISE_FILE, generator::noise())?;
    fs::write(GROUPS_FILE, generator::groups())?;
    fs::write(LOG_FILE, store::log_bytes())?;
    fs::write(DATA_FILE, store::data_bytes())?;
    fs::write(LARGE_LOG_FILE, store::large_log_bytes())?;
    fs::write(LARGE_DATA_FILE, store::large_data_bytes())?;
    fs::write(OPENED_LOG_FILE, store::opened_log_bytes())?;
    fs::write(OPENED_DATA_FILE, store::opened_data_bytes())?;
    fs::write(TURNS_FILE, scripts::turns())?;
    fs::write(LARGE_TURNS_FILE, scripts::large_turns())?;
    fs::write(SCRIPT_FILE, scripts::long())
}

fn write_logs() -> io::Result<()> {
    fs::write("small.bin", store::log_of_small())?;
    fs::write("large.bin", store::log_of_large())?;
    fs::write(DATA_FILE, store::data_bytes())
}

fn time() -> io::Result<()> {
    let noise = fs::read(NOISE_FILE)?;
    let (best, checksum) = fastest(|| checksum::crc32c(black_box(&noise)));
    report("crc32c", noise.len(), best, &format!("{checksum:08x}"));
    let stream = fs::read(GROUPS_FILE)?;
    let (best, tally) = fastest(|| decode_all(black_box(&stream)));
    report("decode", stream.len(), best, &tally);
    let mut device = log::Device::new(log::LENGTH);
    let (best, ()) = fastest(|| log::write_all(black_box(&mut device), black_box(&noise)));
    report(
        "write_to",
        log::MARK * log::MARKS,
        best,
        &format!("{:08x}", device.sum_from(0)),
    );
    recovering::time(fs::read(LOG_FILE)?, fs::read(DATA_FILE)?);
    recovering::time_large(&fs::read(LARGE_LOG_FILE)?, &fs::read(LARGE_DATA_FILE)?);
    recovering::time_opening(&fs::read(OPENED_LOG_FILE)?, &fs::read(OPENED_DATA_FILE)?);
    turning::time_turns(&fs::read(TURNS_FILE)?);
    turning::time_large_turns(&fs::read(LARGE_TURNS_FILE)?);
    turning::time_rounds();
    turning::time_parser(&fs::read(SCRIPT_FILE)?);
    Ok(())
}

/// The shortest time of all rounds, and what the last of them came to.
fn fastest<T>(mut work: impl FnMut() -> T) -> (Duration, T) {
    let mut best = Duration::MAX;
    let mut round = || {
        let start = Instant::now();
        let outcome = black_box(work());
        best = best.min(start.elapsed());
        outcome
    };
    for _ in 1..ROUNDS {
        round();
    }
    let outcome = round();
    (best, outcome)
}

/// Decodes groups until one can't be, and says how many there were, how many records, how many bytes were left, and a
/// sum over the values.
fn decode_all(stream: &[u8]) -> String {
    let mut rest = stream;
    let (mut groups, mut records, mut sum) = (0u64, 0u64, 0u64);
    while let Got::Value(group, length) = decode(rest) {
        groups += 1;
        records += group.len() as u64;
        sum = group
            .iter()
            .fold(sum, |sum, rec| sum.wrapping_add(value_of(rec)));
        rest = &rest[length..];
    }
    format!("{groups} {records} {} {sum:x}", rest.len())
}

/// A number for each record, so that two decoders that agree on all of them agree on the records.
fn value_of(rec: &Rec) -> u64 {
    match rec {
        Rec::Num {
            width,
            space,
            page,
            offset,
            value,
        } => spot(*space, *page, *offset)
            .wrapping_add(u64::from(*width))
            .wrapping_add(*value),
        Rec::Text {
            space,
            page,
            offset,
            bytes,
        } => spot(*space, *page, *offset).wrapping_add(bytes.len() as u64),
        Rec::Init { space, page } => spot(*space, *page, 0),
    }
}

fn spot(space: u32, page: u32, offset: u32) -> u64 {
    u64::from(space) + u64::from(page) + u64::from(offset)
}

fn report(name: &str, length: usize, best: Duration, outcome: &str) {
    println!("{name} {length} {} {outcome}", best.as_nanos());
}

fn number(word: &str) -> u32 {
    word.parse().unwrap_or_else(|_| usage())
}

fn usage() -> ! {
    eprintln!(
        "usage: plain write|logs|time|archive FILE small|large BYTES|sums FILE|script USERS BYTES MODE GROUPS|threads WHAT memory|files|growing SCRIPT ROUNDS|syncs FILE COUNT"
    );
    process::exit(2)
}

fn main() -> io::Result<()> {
    let words: Vec<String> = env::args().skip(1).collect();
    let words: Vec<&str> = words.iter().map(String::as_str).collect();
    match words[..] {
        ["write"] => write(),
        ["logs"] => write_logs(),
        ["time"] => time(),
        ["archive", file, kind @ ("small" | "large"), length] => {
            let (bytes, mark) = archive::archive(kind, number(length) as usize);
            println!("{mark}");
            fs::write(file, bytes)
        }
        ["sums", file] => {
            let (length, sum) = archive::sums(file)?;
            println!("{length} {sum:x}");
            Ok(())
        }
        ["script", users, bytes, mode, groups] => {
            let text = threads::script_text(number(users), number(bytes), mode, number(groups));
            io::stdout().write_all(text.as_bytes())
        }
        ["threads", what, place, script, rounds] => {
            threads::time(what, place, script, number(rounds))
        }
        ["syncs", file, count] => threads::time_syncs(file, number(count)),
        _ => usage(),
    }
}
