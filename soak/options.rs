//! The words of a run: its turns or threads, its stops, its pick.

use crate::draws::Draws;
use crate::shape::Shape;

const MOST_FOLLOWERS: u64 = 4;

#[derive(Clone, Copy)]
pub struct Options {
    /// `crash`, and not `run`.
    pub crashes: bool,
    pub files: bool,
    pub log_only: bool,
    pub own_writes: bool,
    pub threads: bool,
    /// Whether the run is archived.
    pub archive: bool,
    pub turns: Option<u64>,
    pub most_turns: Option<u64>,
    pub stop_log: Option<u64>,
    pub stop_data: Option<u64>,
    pub pick: Option<u64>,
    /// How many followers there are; none, if 0.
    pub followers: u64,
}

impl Options {
    /// Those of a run of so many groups, on a store of this shape.
    pub fn draw(
        draws: &mut Draws,
        files: bool,
        threads: bool,
        groups: usize,
        shape: &Shape,
    ) -> Options {
        let crashes = !draws.once_in(8);
        let stops = crashes && !draws.once_in(4);
        let which = draws.below(3);
        Options {
            crashes,
            files,
            log_only: draws.once_in(6),
            own_writes: false,
            threads,
            archive: false,
            turns: draw_turns(draws),
            most_turns: draws
                .once_in(40)
                .then(|| draws.number() >> draws.within(40, 63)),
            stop_log: (stops && which != 0).then(|| draw_stop(draws, 21, 4 * groups as u64)),
            stop_data: (stops && which != 1)
                .then(|| draw_stop(draws, 2 + u64::from(shape.pages), 22)),
            pick: crashes.then(|| draw_pick(draws)).flatten(),
            followers: 0,
        }
    }

    /// A crash that drops nothing, of a run by the turns of this seed.
    pub fn of_generated(seed: u64) -> Options {
        Options {
            crashes: true,
            files: false,
            log_only: false,
            own_writes: false,
            threads: false,
            archive: false,
            turns: Some(seed),
            most_turns: None,
            stop_log: None,
            stop_data: None,
            pick: Some(u64::MAX),
            followers: 0,
        }
    }

    /// The same as a run that is archived, which has no crash and no stops.
    pub fn archived(self) -> Options {
        Options {
            crashes: false,
            archive: true,
            stop_log: None,
            stop_data: None,
            pick: None,
            ..self
        }
    }

    /// How many actors it has beside those of each run: followers, and the archiver.
    pub fn others(&self) -> u64 {
        self.followers + u64::from(self.archive)
    }

    pub fn stops(&self) -> bool {
        self.stop_log.is_some() || self.stop_data.is_some()
    }

    /// Whether the crash drops nothing that was written.
    pub fn keeps_all(&self) -> bool {
        self.files || self.pick == Some(u64::MAX)
    }

    /// What it has in common with runs that should take about as long.
    pub fn kind(&self, is_wide: bool) -> String {
        let command = if self.crashes { "crash" } else { "run" };
        let named = [
            (self.files, " --files"),
            (self.log_only, " --log-only"),
            (self.own_writes, " --own-writes"),
            (self.threads, " --threads"),
            (is_wide, " of long groups"),
            (self.stops(), " with stops"),
            (self.followers > 0, " with followers"),
            (self.archive, " with an archive"),
        ];
        let named = named.iter().filter(|(is, _)| *is);
        let named: String = named.map(|(_, name)| *name).collect();
        format!("{command}{named}")
    }

    pub fn words(&self) -> Vec<String> {
        let mut words = vec![if self.crashes { "crash" } else { "run" }.to_string()];
        let numbers = [
            ("--turns", self.turns),
            ("--max", self.most_turns),
            ("--stop-log", self.stop_log),
            ("--stop-data", self.stop_data),
            ("--pick", self.pick),
            (
                "--followers",
                (self.followers > 0).then_some(self.followers),
            ),
        ];
        for (name, number) in numbers {
            if let Some(number) = number {
                words.extend([name.to_string(), number.to_string()]);
            }
        }
        let flags = [
            ("--files", self.files),
            ("--log-only", self.log_only),
            ("--own-writes", self.own_writes),
            ("--threads", self.threads),
            ("--archive", self.archive),
        ];
        words.extend(
            flags
                .iter()
                .filter(|flag| flag.1)
                .map(|flag| flag.0.to_string()),
        );
        words
    }
}

/// A number of followers, in each draw or in one of three; else 0.
pub fn draw_followers(draws: &mut Draws, always: bool) -> u64 {
    let count = draws.within(1, MOST_FOLLOWERS);
    if always || draws.once_in(3) { count } else { 0 }
}

/// Whether users write for themselves: in each draw, or by turns in one of eight and in threads in one of three.
pub fn draw_own_writes(draws: &mut Draws, always: bool, threads: bool) -> bool {
    let drawn = draws.once_in(if threads { 3 } else { 8 });
    always || drawn
}

/// Whether a run is archived: in each draw or in one of three.
pub fn draw_archive(draws: &mut Draws, always: bool) -> bool {
    let drawn = draws.once_in(3);
    always || drawn
}

pub fn draw_turns(draws: &mut Draws) -> Option<u64> {
    match draws.below(4) {
        0 => None,
        1 => Some(draws.below(100)),
        _ => Some(draws.number()),
    }
}

/// A number of calls: in opening, just after it, in the run, or after all.
fn draw_stop(draws: &mut Draws, opening: u64, run: u64) -> u64 {
    match draws.below(10) {
        0 => draws.below(4),
        1 | 2 => draws.below(opening + 1),
        3 | 4 => opening + draws.below(8),
        9 => draws.number() >> draws.below(64),
        _ => opening + draws.below(run + 1),
    }
}

fn draw_pick(draws: &mut Draws) -> Option<u64> {
    match draws.below(8) {
        0 => None,
        1 => Some(0),
        2 => Some(u64::MAX),
        3 => Some(1 << draws.below(64)),
        4 => Some(u64::MAX >> draws.below(64)),
        5 => Some(u64::MAX << draws.below(64)),
        6 => Some(draws.one_of(&[
            0x5555_5555_5555_5555,
            0xAAAA_AAAA_AAAA_AAAA,
            0xF0F0_F0F0_F0F0_F0F0,
        ])),
        _ => Some(draws.number()),
    }
}
