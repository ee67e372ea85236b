//! Makes reads of the two files lie, and checks that the calls end and that a store is left.

mod counts;
mod lying;
mod reads;
mod unlike;

#[allow(dead_code)]
mod archived;
mod checking;
#[allow(dead_code)]
mod crc;
#[allow(dead_code)]
mod decoding;
mod draws;
mod events;
mod files;
mod following;
mod heads;
#[allow(dead_code)]
mod history;
mod layout;
mod listing;
mod lsn;
#[allow(dead_code)]
mod making;
mod moments;
mod older;
#[allow(dead_code)]
mod options;
mod pages;
#[allow(dead_code)]
mod program;
mod report;
#[allow(dead_code)]
mod restoring;
mod script;
#[allow(dead_code)]
mod shape;
mod since;
#[allow(dead_code)]
mod tally;
mod tears;
mod texts;

use counts::Tally;
use files::Files;
use lying::Lying;
use program::Program;
use std::path::{Path, PathBuf};
use std::sync::Mutex;
use std::sync::atomic::{AtomicU64, Ordering};
use std::time::Instant;
use std::{env, fs, process, thread};

/// So many failures end it.
const MOST_FAILURES: u64 = 10;

struct Soak {
    program: Program,
    watching: PathBuf,
    lying: PathBuf,
    next: AtomicU64,
    last: u64,
    failures: AtomicU64,
    tally: Mutex<Tally>,
}

impl Soak {
    fn run_seed(&self, seed: u64, folder: &Path) {
        let files = Files::new(&self.program, folder, &self.watching);
        let lied = folder.join("lied");
        let mut lying = Lying::new(&self.program, lied.clone(), &self.lying, seed);
        let outcome = lying.run(files, seed);
        self.tally.lock().unwrap().add(lying.tally);
        if let Err(message) = outcome {
            self.failures.fetch_add(1, Ordering::Relaxed);
            println!(
                "soak/lies {seed} 1\n{message}\nits files are in {}\n{}",
                keep(&lied, seed).display(),
                lying.calls.join("\n")
            );
        }
    }

    /// Takes seeds until there is none.
    fn work(&self, folder: &Path) {
        loop {
            let seed = self.next.fetch_add(1, Ordering::Relaxed);
            if seed >= self.last || self.failures.load(Ordering::Relaxed) >= MOST_FAILURES {
                return;
            }
            self.run_seed(seed, folder);
        }
    }
}

/// Keeps the files of a store that fails a check.
fn keep(folder: &Path, seed: u64) -> PathBuf {
    let kept = env::temp_dir().join(format!("lies-{seed}-{}", process::id()));
    let _ = fs::create_dir_all(&kept);
    for entry in fs::read_dir(folder).into_iter().flatten().flatten() {
        let _ = fs::copy(entry.path(), kept.join(entry.file_name()));
    }
    kept
}

fn number(word: Option<String>, default: u64) -> u64 {
    let word = word.map_or(Some(default), |word| word.parse().ok());
    word.unwrap_or_else(|| {
        eprintln!("usage: lies [FIRST_SEED] [RUNS]");
        process::exit(2)
    })
}

/// What an environment variable names.
fn named(variable: &str) -> PathBuf {
    let path = env::var_os(variable).map(PathBuf::from);
    let found = path.and_then(|path| path.canonicalize().ok());
    found.unwrap_or_else(|| {
        eprintln!("{variable} names no file; `rt run` in crates/redolab leaves the program");
        process::exit(2)
    })
}

fn main() {
    let mut words = env::args().skip(1);
    let first = number(words.next(), 1);
    let runs = number(words.next(), 1_000);
    let start = Instant::now();
    let soak = Soak {
        program: Program::new(named("REDOLAB")),
        watching: named("WATCHING"),
        lying: named("LYING"),
        next: AtomicU64::new(first),
        last: first.saturating_add(runs),
        failures: AtomicU64::new(0),
        tally: Mutex::new(Tally::default()),
    };
    let shared = Path::new("/dev/shm");
    let top = if shared.is_dir() {
        shared.to_path_buf()
    } else {
        env::temp_dir()
    };
    let top = top.join(format!("lies-{}", process::id()));
    thread::scope(|scope| {
        for worker in 0..thread::available_parallelism().map_or(1, usize::from) {
            let folder = top.join(worker.to_string());
            fs::create_dir_all(&folder).expect("a folder for files");
            let soak = &soak;
            scope.spawn(move || soak.work(&folder));
        }
    });
    let _ = fs::remove_dir_all(&top);
    let failures = soak.failures.load(Ordering::Relaxed);
    let tally = soak.tally.lock().unwrap();
    println!(
        "{runs} runs, {} calls; a read lied in {} of `run`, {} of `crash`, {} of `recover`, {} of `dump`, {} of them in threads, {} without a store, {} times as a whole sector; {} about a head, {} about a checkpoint, {} about a tail block, {} about a block, {} about the data device; {} of these calls refused the store; in {} more no read lied; {failures} failures; {} seconds",
        tally.calls,
        tally.runs,
        tally.crashes,
        tally.recovers,
        tally.dumps,
        tally.threads,
        tally.without,
        tally.sectors,
        tally.heads,
        tally.checkpoints,
        tally.tails,
        tally.rings,
        tally.datas,
        tally.refused,
        tally.truths,
        start.elapsed().as_secs()
    );
    process::exit(i32::from(failures > 0));
}
