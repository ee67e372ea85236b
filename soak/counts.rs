//! What was run of calls that lie, counted.

/// What was run.
#[derive(Clone, Copy, Default)]
pub struct Tally {
    pub calls: u64,
    /// Calls in which a read lied, by their command, and those in threads.
    pub runs: u64,
    pub crashes: u64,
    pub recovers: u64,
    pub dumps: u64,
    pub threads: u64,
    /// Calls that read nothing, or of which the read told the truth.
    pub truths: u64,
    /// What the lies were about, and how many were of a whole sector.
    pub heads: u64,
    pub checkpoints: u64,
    pub tails: u64,
    pub rings: u64,
    pub datas: u64,
    pub sectors: u64,
    /// Lying calls that refused the store, and those on devices without one.
    pub refused: u64,
    pub without: u64,
}

impl Tally {
    pub fn add(&mut self, other: Tally) {
        self.calls += other.calls;
        self.runs += other.runs;
        self.crashes += other.crashes;
        self.recovers += other.recovers;
        self.dumps += other.dumps;
        self.threads += other.threads;
        self.truths += other.truths;
        self.heads += other.heads;
        self.checkpoints += other.checkpoints;
        self.tails += other.tails;
        self.rings += other.rings;
        self.datas += other.datas;
        self.sectors += other.sectors;
        self.refused += other.refused;
        self.without += other.without;
    }
}
