//! How often a read plan was checked with a pool below, at and above its peak, apart for lists with more frames than a pool can
//! have buffers; and how often a run that broke off did so at a read and at an end of a cycle.

use super::add_each;
use dockplan::reference::MAX_POOL;

const LISTS: [&str; 2] = ["up to 192 frames", "more frames"];
const POOLS: [&str; 4] = ["smaller by more", "smaller by one", "equal", "larger"];
const RUNS: [&str; 3] = [
    "broken off at a read",
    "broken off at an end of a cycle",
    "of a valid read plan",
];

/// Each pool and each run is as often as this.
const LEAST: u64 = 3_000;

#[derive(Default)]
pub struct Peaks {
    /// By list and pool.
    pools: [[u64; POOLS.len()]; LISTS.len()],
    runs: [u64; RUNS.len()],
}

impl Peaks {
    /// Counts a plan of so many frames that was checked with this pool.
    pub fn count_pool(&mut self, frames: usize, peak: usize, pool: usize) {
        let beside = if pool + 1 < peak {
            0
        } else if pool < peak {
            1
        } else if pool == peak {
            2
        } else {
            3
        };
        self.pools[usize::from(frames > MAX_POOL)][beside] += 1;
    }

    /// Counts a run.
    pub fn count_run(&mut self, broken: bool, at_an_end: bool, valid: bool) {
        add_each(&mut self.runs, &[broken && !at_an_end, at_an_end, valid].map(u64::from));
    }

    pub fn add(&mut self, other: &Peaks) {
        for (sums, counts) in self.pools.iter_mut().zip(&other.pools) {
            add_each(sums, counts);
        }
        add_each(&mut self.runs, &other.runs);
    }

    pub fn print(&self) {
        for (name, count) in self.counts() {
            println!("{name}: {count}");
        }
    }

    pub fn assert_not_rare(&self) {
        for (name, count) in self.counts() {
            assert!(count >= LEAST, "too rare: {name}: {count}");
        }
    }

    /// Everything that is counted, by name.
    fn counts(&self) -> Vec<(String, u64)> {
        let of_list = |(list, counts): (&&str, &[u64; POOLS.len()])| {
            let name = |pool| format!("read plans with a pool beside their peak, {list}, {pool}");
            POOLS.map(name).into_iter().zip(*counts).collect::<Vec<_>>()
        };
        let pools = LISTS.iter().zip(&self.pools).flat_map(of_list);
        let runs = RUNS.map(|run| format!("peaks of runs, {run}")).into_iter();
        pools.chain(runs.zip(self.runs)).collect()
    }
}
