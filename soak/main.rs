//! Runs scripts by seeds through the program, and checks each report against the crash theorem.

mod archived;
mod case;
mod chain;
mod checking;
#[allow(dead_code)]
mod crc;
#[allow(dead_code)]
mod decoding;
mod draws;
mod following;
mod generated;
mod listing;
mod lsn;
mod making;
mod options;
mod pages;
mod places;
mod program;
mod report;
#[allow(dead_code)]
mod restoring;
mod script;
#[allow(dead_code)]
mod shape;
mod texts;
mod times;

use case::{Case, Tally};
use draws::Draws;
use program::Program;
use std::path::{Path, PathBuf};
use std::sync::Mutex;
use std::sync::atomic::{AtomicU64, Ordering};
use std::time::Instant;
use std::{env, fs, process, thread};
use times::Times;

/// So many failures end it.
const MOST_FAILURES: u64 = 10;

struct Soak {
    program: Program,
    refusing: PathBuf,
    all_threads: bool,
    all_followers: bool,
    all_own: bool,
    all_archive: bool,
    next: AtomicU64,
    last: u64,
    failures: AtomicU64,
    tally: Mutex<Tally>,
    times: Mutex<Times>,
}

impl Soak {
    fn run_seed(&self, seed: u64, folder: &Path) {
        let mut case = Case {
            program: &self.program,
            refusing: &self.refusing,
            folder,
            seed,
            all_threads: self.all_threads,
            all_followers: self.all_followers,
            all_own: self.all_own,
            all_archive: self.all_archive,
            draws: Draws::new(seed),
            beside: Draws::beside(seed),
            tally: Tally::default(),
            times: Times::default(),
            calls: Vec::new(),
        };
        let outcome = case.run();
        self.tally.lock().unwrap().add(case.tally);
        self.times.lock().unwrap().add(case.times);
        if let Err(message) = outcome {
            self.failures.fetch_add(1, Ordering::Relaxed);
            let calls: Vec<String> = case.calls.iter().map(|call| call.shown()).collect();
            let threads = if self.all_threads { "--threads " } else { "" };
            let followers = if self.all_followers {
                "--followers "
            } else {
                ""
            };
            let own = if self.all_own { "--own-writes " } else { "" };
            let archive = if self.all_archive { "--archive " } else { "" };
            println!(
                "soak/run {threads}{followers}{own}{archive}{seed} 1\n{message}\n{}",
                calls.join("\n")
            );
        }
    }

    /// Takes seeds until there is none.
    fn work(&self, folder: &Path) {
        loop {
            let seed = self.next.fetch_add(1, Ordering::Relaxed);
            if seed >= self.last || self.failures.load(Ordering::Relaxed) >= MOST_FAILURES {
                return;
            }
            self.run_seed(seed, folder);
        }
    }
}

fn number(word: Option<String>, default: u64) -> u64 {
    let word = word.map_or(Some(default), |word| word.parse().ok());
    word.unwrap_or_else(|| {
        eprintln!(
            "usage: soak [--threads] [--followers] [--own-writes] [--archive] [FIRST_SEED] [RUNS]"
        );
        process::exit(2)
    })
}

/// What an environment variable names.
fn named(variable: &str) -> PathBuf {
    let path = env::var_os(variable).map(PathBuf::from);
    let found = path.and_then(|path| path.canonicalize().ok());
    found.unwrap_or_else(|| {
        eprintln!("{variable} names no file; `rt run` in crates/redolab leaves the program");
        process::exit(2)
    })
}

fn main() {
    let mut words = env::args().skip(1).peekable();
    let all_threads = words.next_if_eq("--threads").is_some();
    let all_followers = words.next_if_eq("--followers").is_some();
    let all_own = words.next_if_eq("--own-writes").is_some();
    let all_archive = words.next_if_eq("--archive").is_some();
    let first = number(words.next(), 1);
    let runs = number(words.next(), 1_000);
    let start = Instant::now();
    let soak = Soak {
        program: Program::new(named("REDOLAB")),
        refusing: named("REFUSING"),
        all_threads,
        all_followers,
        all_own,
        all_archive,
        next: AtomicU64::new(first),
        last: first.saturating_add(runs),
        failures: AtomicU64::new(0),
        tally: Mutex::new(Tally::default()),
        times: Mutex::new(Times::default()),
    };
    let shared = Path::new("/dev/shm");
    let top = if shared.is_dir() {
        shared.to_path_buf()
    } else {
        env::temp_dir()
    };
    let top = top.join(format!("soak-{}", process::id()));
    thread::scope(|scope| {
        for worker in 0..thread::available_parallelism().map_or(1, usize::from) {
            let folder = top.join(worker.to_string());
            fs::create_dir_all(&folder).expect("a folder for files");
            let soak = &soak;
            scope.spawn(move || soak.work(&folder));
        }
    });
    let _ = fs::remove_dir_all(&top);
    let failures = soak.failures.load(Ordering::Relaxed);
    for line in soak.times.lock().unwrap().slow() {
        println!("{line}");
    }
    let tally = soak.tally.lock().unwrap();
    println!(
        "{runs} runs, {} calls, {} groups, {} crashes, {} stops that hit, {} runs in threads, {} of them on one or two processors and {} with refused threads, {} runs with followers, {} of users that write for themselves, {} that are archived, {} of them in threads and {} of users that write for themselves, with {} restored lsns, {} chains, {} stores of large pages formatted in them, {} rounds of a log, {} refused, {failures} failures, {} seconds",
        tally.calls,
        tally.groups,
        tally.crashes,
        tally.stops,
        tally.threads,
        tally.narrow,
        tally.refusing,
        tally.followed,
        tally.own,
        tally.archived,
        tally.archived_threads,
        tally.archived_own,
        tally.restored,
        tally.chains,
        tally.large_pages,
        tally.rounds,
        tally.refused,
        start.elapsed().as_secs()
    );
    process::exit(i32::from(failures > 0));
}
