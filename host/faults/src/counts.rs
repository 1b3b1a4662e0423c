//! What came of the runs, for the summary.

use crate::network::Network;
use crate::nodes::Faults;

#[derive(Default)]
pub struct Counts {
    pub calls: usize,
    pub saved: usize,
    pub given_up: usize,
    pub opened: usize,
    pub never: usize,
    pub aborted: usize,
    pub spent: usize,
    pub opens_given_up: usize,
    pub clock: usize,
    /// Saves that are done although a reply said 2^64-1.
    pub told_last: usize,
    pub repaired: usize,
    /// Opens that ended done or never written after Q good nodes had executed a save, and those of them where nobody had completed it.
    pub held: usize,
    pub unfinished: usize,
    /// Opens that returned what the Byzantine client wrote.
    pub strays: usize,
    pub poisoned: usize,
    /// Replies of lying nodes that a client took.
    pub believed: usize,
    pub partitions: usize,
    pub lost: usize,
    /// Histories that the checker took for a register's, copies with an open made stale that it refused, and those on which it gave up.
    pub good: usize,
    pub stale: usize,
    pub unjudged: usize,
    pub faults: Faults,
    /// Of the histories of one seed.
    pub digest: u64,
}

impl Counts {
    /// Adds those of one run.
    pub fn take(&mut self, faults: &Faults, network: &Network) {
        let all = &mut self.faults;
        all.kills += faults.kills;
        all.midway += faults.midway;
        all.restarts += faults.restarts;
        all.damages += faults.damages;
        all.setbacks += faults.setbacks;
        all.liars += faults.liars;
        all.stuck += faults.stuck;
        all.lies += faults.lies;
        all.beside += faults.beside;
        all.together += faults.together;
        all.runs += faults.runs;
        all.cleared += faults.cleared;
        all.handed += faults.handed;
        self.lost += network.lost;
    }

    pub fn line(&self) -> String {
        let Counts { saved, given_up, clock, opened, repaired, strays, never, aborted, spent, opens_given_up, .. } =
            self;
        let Counts { held, unfinished, .. } = self;
        let Counts { told_last, poisoned, believed, partitions, lost, good, stale, unjudged, faults, .. } = self;
        let Faults { kills, midway, restarts, damages, setbacks, liars, stuck, lies, beside, handed, cleared, .. } =
            faults;
        let Faults { together, runs, .. } = faults;
        let opens = format!("opens {opened} done ({repaired} repairs begun, {strays} of the Byzantine client's)");
        let keepers = format!("{kills} kills ({midway} while serving), {restarts} restarts");
        let liars = format!("{liars} liars, {stuck} stuck at the last time ({lies} lies, {believed} of them taken)");
        [
            format!("saves {saved} done ({told_last} of them told 2^64-1), {given_up} given up, {clock} clock spent"),
            format!("{opens}, {never} never written, {aborted} aborted, {spent} spent, {opens_given_up} given up"),
            format!(
                "{held} held to what Q good nodes had executed, {unfinished} of them where nobody had completed it"
            ),
            format!(
                "{keepers}, {beside} requests beside another, {handed} locks handed over, {cleared} new files removed"
            ),
            format!("{together} requests taken together in {runs} runs"),
            format!("{damages} damages, {setbacks} set-backs, {liars}, {poisoned} poisoned saves"),
            format!("{partitions} partitions, {lost} messages lost"),
            format!("{good} histories are a register's, {stale} made stale are not, the checker gave up on {unjudged}"),
        ]
        .join("; ")
    }
}
