//! Makes runs upon runs on stores in files, cuts the power in them so that sectors tear, and checks what each cut leaves.

#[allow(dead_code)]
mod archived;
mod crc;
#[allow(dead_code)]
mod decoding;
mod events;
mod files;
mod heads;
mod history;
#[allow(dead_code)]
mod layout;
mod moments;
mod older;
mod since;
mod tally;
mod tears;

mod checking;
mod draws;
mod following;
mod listing;
mod lsn;
#[allow(dead_code)]
mod making;
#[allow(dead_code)]
mod options;
mod pages;
#[allow(dead_code)]
mod program;
mod report;
#[allow(dead_code)]
mod restoring;
mod script;
#[allow(dead_code)]
mod shape;
mod texts;

use files::Files;
use history::{History, RUNS_OF_A_STORE};
use program::Program;
use std::path::{Path, PathBuf};
use std::sync::Mutex;
use std::sync::atomic::{AtomicU64, Ordering};
use std::time::Instant;
use std::{env, fs, process, thread};
use tally::Tally;

/// So many failures end it.
const MOST_FAILURES: u64 = 10;

struct Soak {
    program: Program,
    watching: PathBuf,
    is_whole: bool,
    all_archive: bool,
    next: AtomicU64,
    last: u64,
    failures: AtomicU64,
    tally: Mutex<Tally>,
}

impl Soak {
    fn run_seed(&self, seed: u64, folder: &Path) {
        let files = Files::new(&self.program, folder, &self.watching);
        let mut history = History::new(files, self.is_whole, self.all_archive, seed);
        let outcome = history.run();
        history.tally.calls = history.files.calls;
        self.tally.lock().unwrap().add(history.tally);
        if let Err(message) = outcome {
            self.failures.fetch_add(1, Ordering::Relaxed);
            let kept = keep(folder, seed);
            let whole = if self.is_whole { "--whole " } else { "" };
            let archive = if self.all_archive { "--archive " } else { "" };
            println!(
                "soak/torn {whole}{archive}{seed} 1\n{message}\nrun {} of the store; its files are in {}\n{}",
                history.tally.runs,
                kept.display(),
                history.files.told.join("\n")
            );
        }
    }

    /// Takes seeds until there is none.
    fn work(&self, folder: &Path) {
        loop {
            let seed = self.next.fetch_add(1, Ordering::Relaxed);
            if seed >= self.last || self.failures.load(Ordering::Relaxed) >= MOST_FAILURES {
                return;
            }
            self.run_seed(seed, folder);
        }
    }
}

/// Keeps the files of a store that fails a check.
fn keep(folder: &Path, seed: u64) -> PathBuf {
    let kept = env::temp_dir().join(format!("torn-{seed}-{}", process::id()));
    let _ = fs::create_dir_all(&kept);
    for entry in fs::read_dir(folder).into_iter().flatten().flatten() {
        let _ = fs::copy(entry.path(), kept.join(entry.file_name()));
    }
    kept
}

fn usage() -> ! {
    eprintln!("usage: torn [--whole] [--archive] [FIRST_SEED] [RUNS]");
    process::exit(2)
}

fn number(word: Option<String>, default: u64) -> u64 {
    let word = word.map_or(Some(default), |word| word.parse().ok());
    word.unwrap_or_else(|| usage())
}

/// What an environment variable names.
fn named(variable: &str) -> PathBuf {
    let path = env::var_os(variable).map(PathBuf::from);
    let found = path.and_then(|path| path.canonicalize().ok());
    found.unwrap_or_else(|| {
        eprintln!("{variable} names no file; `rt run` in crates/redolab leaves the program");
        process::exit(2)
    })
}

fn main() {
    let mut words = env::args().skip(1).peekable();
    let is_whole = words.next_if_eq("--whole").is_some();
    let all_archive = words.next_if_eq("--archive").is_some();
    let first = number(words.next(), 1);
    let runs = number(words.next(), 1_000);
    let start = Instant::now();
    let soak = Soak {
        program: Program::new(named("REDOLAB")),
        watching: named("WATCHING"),
        is_whole,
        all_archive,
        next: AtomicU64::new(first),
        last: first.saturating_add(runs.div_ceil(RUNS_OF_A_STORE)),
        failures: AtomicU64::new(0),
        tally: Mutex::new(Tally::default()),
    };
    let shared = Path::new("/dev/shm");
    let top = if shared.is_dir() {
        shared.to_path_buf()
    } else {
        env::temp_dir()
    };
    let top = top.join(format!("torn-{}", process::id()));
    thread::scope(|scope| {
        for worker in 0..thread::available_parallelism().map_or(1, usize::from) {
            let folder = top.join(worker.to_string());
            fs::create_dir_all(&folder).expect("a folder for files");
            let soak = &soak;
            scope.spawn(move || soak.work(&folder));
        }
    });
    let _ = fs::remove_dir_all(&top);
    let failures = soak.failures.load(Ordering::Relaxed);
    let tally = soak.tally.lock().unwrap();
    println!(
        "{} runs on {} stores, {} calls, {} groups, {} of them dropped; {} in threads; {} on stores of format 1 or 2, {} of more than 64 pages, {} of large pages; {} with followers; {} archived, {} of them in threads, {} of users that write for themselves, {} cut or killed and {} not begun to the end, {} restored lsns; {} cuts after a run, {} within one, {} of them with writes of an earlier call pending; {} calls without a cut, {} killed; {} stops that hit; cuts and stops: {} in formatting, {} in opening, {} of them in a migration; {} migrations; {} torn sectors; {} wraps of the ring; {failures} failures; {} seconds",
        tally.runs,
        tally.stores,
        tally.calls,
        tally.groups,
        tally.dropped,
        tally.threads,
        tally.early,
        tally.large,
        tally.large_pages,
        tally.followed,
        tally.archived,
        tally.archived_threads,
        tally.archived_own,
        tally.archives_cut,
        tally.unbegun,
        tally.restored,
        tally.ends,
        tally.withins,
        tally.pendings,
        tally.stays,
        tally.kills,
        tally.stops,
        tally.formattings,
        tally.openings,
        tally.in_migrations,
        tally.migrations,
        tally.torn,
        tally.wraps,
        start.elapsed().as_secs()
    );
    process::exit(i32::from(failures > 0));
}
