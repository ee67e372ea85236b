//! What was run, counted.

#[derive(Clone, Copy, Default)]
pub struct Tally {
    pub stores: u64,
    pub runs: u64,
    pub calls: u64,
    pub groups: u64,
    /// Groups that a run reserved and a cut or a kill took.
    pub dropped: u64,
    pub threads: u64,
    /// Runs on stores of format 1 or 2, and of more pages than such have.
    pub early: u64,
    pub large: u64,
    /// Runs on stores of pages of 16,384 bytes.
    pub large_pages: u64,
    /// Runs with followers.
    pub followed: u64,
    /// Runs that wrote to an archive, those of them in threads, of users that write for themselves, that were cut or killed,
    /// and whose archive wasn't begun to the end.
    pub archived: u64,
    pub archived_threads: u64,
    pub archived_own: u64,
    pub archives_cut: u64,
    pub unbegun: u64,
    /// Lsns that were restored.
    pub restored: u64,
    /// Cuts at the end of a call, and within one.
    pub ends: u64,
    pub withins: u64,
    /// Cuts that found writes pending of a call before the last one.
    pub pendings: u64,
    /// Calls that ended without a cut after them, and such that were killed.
    pub stays: u64,
    pub kills: u64,
    /// Stops of a device that show in the report.
    pub stops: u64,
    /// Cuts, kills and stops in formatting, in opening, and there in the migration of a store.
    pub formattings: u64,
    pub openings: u64,
    pub in_migrations: u64,
    pub migrations: u64,
    /// Sectors that were left with bytes that no write had put there.
    pub torn: u64,
    pub wraps: u64,
}

impl Tally {
    pub fn add(&mut self, other: Tally) {
        self.stores += other.stores;
        self.runs += other.runs;
        self.calls += other.calls;
        self.groups += other.groups;
        self.dropped += other.dropped;
        self.threads += other.threads;
        self.early += other.early;
        self.large += other.large;
        self.large_pages += other.large_pages;
        self.followed += other.followed;
        self.archived += other.archived;
        self.archived_threads += other.archived_threads;
        self.archived_own += other.archived_own;
        self.archives_cut += other.archives_cut;
        self.unbegun += other.unbegun;
        self.restored += other.restored;
        self.ends += other.ends;
        self.withins += other.withins;
        self.pendings += other.pendings;
        self.stays += other.stays;
        self.kills += other.kills;
        self.stops += other.stops;
        self.formattings += other.formattings;
        self.openings += other.openings;
        self.in_migrations += other.in_migrations;
        self.migrations += other.migrations;
        self.torn += other.torn;
        self.wraps += other.wraps;
    }
}
