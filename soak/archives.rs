//! Makes archives by seeds, damages most of them, and compares what `restore` answers with a reader of its own.

mod archiving;
#[allow(dead_code)]
mod crc;
mod damaging;
mod decoding;
#[allow(dead_code)]
mod draws;
#[allow(dead_code)]
mod lsn;
#[allow(dead_code)]
mod pages;
#[allow(dead_code)]
mod program;
mod restoring;
#[allow(dead_code)]
mod script;
#[allow(dead_code)]
mod shape;
mod spoiling;
mod texts;

use archiving::Archive;
use draws::Draws;
use program::{Program, words_of};
use restoring::{LIMIT, Reading, Refusal};
use std::collections::BTreeMap;
use std::path::{Path, PathBuf};
use std::sync::Mutex;
use std::sync::atomic::{AtomicU64, Ordering};
use std::time::Instant;
use std::{env, fs, process, thread};

/// So many failures end it.
const MOST_FAILURES: u64 = 10;
/// So many calls are made side by side.
const MOST_WORKERS: usize = 2;
/// For so many lsns an archive is restored in the mean, and one that is refused whatever the lsn is.
const LSNS: u64 = 8;
const FEW_LSNS: u64 = 3;
const FILE: &str = "redo.archive";
/// The other files, which `restore` may make and doesn't call.
const OTHERS: [&str; 2] = ["redo.log", "redo.data"];

#[derive(Default)]
struct Tally {
    archives: u64,
    calls: u64,
    /// How often each answer came, by its name.
    answers: BTreeMap<&'static str, u64>,
    /// Archives of which something was restored.
    sound: u64,
    /// Archives of large pages, and those of them of which something was restored.
    large: u64,
    large_sound: u64,
}

struct Soak {
    program: Program,
    next: AtomicU64,
    last: u64,
    failures: AtomicU64,
    tally: Mutex<Tally>,
}

/// The archive of a seed, the lsns for which it is restored, and what has to come.
struct Case {
    archive: Archive,
    reading: Reading,
    lsns: Vec<u64>,
}

impl Case {
    fn of(seed: u64) -> Case {
        let mut draws = Draws::new(seed);
        let kind = draws.below(8);
        let mut beside = Draws::beside(seed);
        let mut archive = Archive::draw(&mut draws, &mut beside, kind == 1 || kind == 2);
        if kind > 1 {
            damaging::damage(&mut draws, &mut archive);
        }
        let reading = Reading::of(&archive.bytes);
        let lsns = draw_lsns(&mut draws, &archive, &reading);
        Case {
            archive,
            reading,
            lsns,
        }
    }
}

/// Lsns below the start, at it, at and beside ends of groups, at the edges of blocks, at and above the mark and the limit.
fn draw_lsns(draws: &mut Draws, archive: &Archive, reading: &Reading) -> Vec<u64> {
    let extent = reading.extent.as_ref();
    let start = extent.map_or(archive.start, |extent| extent.start);
    let mark = extent.map_or(archive.mark, |extent| extent.mark);
    let made = archive.ends();
    let found = reading.ends();
    let ends = if found.is_empty() { &made } else { &found };
    let mut lsns = vec![mark];
    let mean = if reading.is_refused() { FEW_LSNS } else { LSNS } - 1;
    for _ in 0..draws.within(mean / 2, mean + mean / 2) {
        let lsn = match draws.below(16) {
            0 => start,
            1 => start - 1,
            2 => start + 1,
            3 => mark + draws.within(1, 600),
            4 => mark - 1,
            5 => draws.one_of(&[0, 1, 8_191, 8_192, 8_203]),
            6 => draws.one_of(&[LIMIT - 1, LIMIT, LIMIT + 1, u64::MAX]),
            7 => draws.number() >> draws.below(64),
            8..=11 if !ends.is_empty() => {
                let end = draws.one_of(ends);
                end + 1 - draws.one_of(&[0, 1, 1, 2])
            }
            12 => {
                let lsn = draws.within(start, mark.max(start));
                lsn - lsn % 512 + draws.one_of(&[0, 11, 12, 508, 511])
            }
            _ => draws.within(start, mark.max(start)),
        };
        lsns.push(lsn);
    }
    lsns
}

fn name_of(refusal: Option<Refusal>) -> &'static str {
    match refusal {
        None => "restored",
        Some(Refusal::Missing) => "none",
        Some(Refusal::To(_)) => "to",
        Some(Refusal::Page(_)) => "page",
        Some(Refusal::Block(_)) => "block",
        Some(Refusal::Record(_)) => "record",
    }
}

impl Soak {
    fn run_seed(&self, seed: u64, folder: &Path) {
        let case = Case::of(seed);
        if let Err(message) = self.check(&case, folder) {
            self.failures.fetch_add(1, Ordering::Relaxed);
            let kept = env::temp_dir().join(format!("archive-{seed}-{}", process::id()));
            let _ = fs::write(&kept, &case.archive.bytes);
            println!(
                "soak/archives {seed} 1\n{message}\nthe archive is in {}",
                kept.display()
            );
        }
    }

    fn check(&self, case: &Case, folder: &Path) -> Result<(), String> {
        let path = folder.join(FILE);
        fs::write(&path, &case.archive.bytes).map_err(|error| error.to_string())?;
        let mut answers = Vec::new();
        for lsn in &case.lsns {
            let (status, text, refusal) = case.reading.answer(*lsn);
            let words = words_of(&format!("restore --files --to {lsn}"));
            let call = self.program.call(folder, &words, "", &[])?;
            answers.push(name_of(refusal));
            if call.answers(status, &text).is_err() {
                return Err(format!(
                    "--to {lsn}: status {status} should come and\n{text}and not status {} and\n{}",
                    call.status, call.printed
                ));
            }
        }
        let after = fs::read(&path).map_err(|error| error.to_string())?;
        if after != case.archive.bytes {
            return Err("`restore` has written".to_string());
        }
        for other in OTHERS {
            if fs::metadata(folder.join(other)).is_ok_and(|file| file.len() > 0) {
                return Err(format!("`restore` has written to {other}"));
            }
        }
        self.count(&answers, case.archive.shape.is_large());
        Ok(())
    }

    fn count(&self, answers: &[&'static str], is_large: bool) {
        let mut tally = self.tally.lock().unwrap();
        tally.archives += 1;
        tally.calls += answers.len() as u64;
        let is_sound = answers.contains(&"restored");
        tally.sound += u64::from(is_sound);
        tally.large += u64::from(is_large);
        tally.large_sound += u64::from(is_large && is_sound);
        for name in answers {
            *tally.answers.entry(name).or_default() += 1;
        }
    }

    /// Takes seeds until there is none.
    fn work(&self, folder: &Path) {
        loop {
            let seed = self.next.fetch_add(1, Ordering::Relaxed);
            if seed >= self.last || self.failures.load(Ordering::Relaxed) >= MOST_FAILURES {
                return;
            }
            self.run_seed(seed, folder);
        }
    }
}

fn number(word: Option<String>, default: u64) -> u64 {
    let word = word.map_or(Some(default), |word| word.parse().ok());
    word.unwrap_or_else(|| {
        eprintln!("usage: soak/archives [FIRST_SEED] [COUNT]");
        process::exit(2)
    })
}

fn program() -> PathBuf {
    let path = env::var_os("REDOLAB").map(PathBuf::from);
    let found = path.and_then(|path| path.canonicalize().ok());
    found.unwrap_or_else(|| {
        eprintln!("REDOLAB names no file; `rt run` in crates/redolab leaves the program");
        process::exit(2)
    })
}

fn main() {
    let mut words = env::args().skip(1);
    let first = number(words.next(), 1);
    let count = number(words.next(), 20_000);
    let start = Instant::now();
    let soak = Soak {
        program: Program::new(program()),
        next: AtomicU64::new(first),
        last: first.saturating_add(count),
        failures: AtomicU64::new(0),
        tally: Mutex::new(Tally::default()),
    };
    let shared = Path::new("/dev/shm");
    let top = if shared.is_dir() {
        shared.to_path_buf()
    } else {
        env::temp_dir()
    };
    let top = top.join(format!("archives-{}", process::id()));
    let processors = thread::available_parallelism().map_or(1, usize::from);
    thread::scope(|scope| {
        for worker in 0..processors.min(MOST_WORKERS) {
            let folder = top.join(worker.to_string());
            fs::create_dir_all(&folder).expect("a folder for files");
            let soak = &soak;
            scope.spawn(move || soak.work(&folder));
        }
    });
    let _ = fs::remove_dir_all(&top);
    let failures = soak.failures.load(Ordering::Relaxed);
    let tally = soak.tally.lock().unwrap();
    let answers = tally.answers.iter();
    let told: Vec<String> = answers
        .map(|(name, times)| format!("{name} {times}"))
        .collect();
    println!(
        "{} archives, {} of them restored for some lsn, {} of large pages and {} of these restored, {} calls: {}; {failures} failures, {} seconds",
        tally.archives,
        tally.sound,
        tally.large,
        tally.large_sound,
        tally.calls,
        told.join(", "),
        start.elapsed().as_secs()
    );
    process::exit(i32::from(failures > 0));
}
