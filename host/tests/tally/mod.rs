//! Counts of what was compared, so that a comparison of too little is seen.

mod hub;
mod joins;
mod peaks;
mod pools;
mod verdicts;

use dockplan::raw::{CheckAnswer, RunAnswer};
use hub::Hubs;
use joins::Joins;
use peaks::Peaks;
use pools::Pools;
use verdicts::Verdicts;

/// How much was compared, and how often each refusal, each verdict and each end of a run occurred.
#[derive(Default)]
pub struct Tally {
    pub tickets: u64,
    pub plans: u64,
    /// Plans for the checker alone.
    pub judged: u64,
    pub saver_calls: u64,
    pub wrapped: u64,
    /// Tickets with a small letter among their digits, and of these the accepted ones with frames.
    small_letters: u64,
    small_letters_accepted: u64,
    /// Accepted tickets of edition 02 with frames, beside their twins of edition 01.
    pub twins: u64,
    /// By the edition that the ticket's first digits say, 0 for any other, and by number. A ticket's own refusal counts
    /// once for the ticket, 0 being none.
    of_editions: [[u64; NUMBERS]; 3],
    /// By number. A ticket's own refusals are those above.
    later_refusals: [u64; NUMBERS],
    saver_refusals: [u64; NUMBERS],
    pools: Pools,
    pub verdicts: Verdicts,
    pub peaks: Peaks,
    pub joins: Joins,
    pub hubs: Hubs,
    broken: u64,
    complete: u64,
    incomplete: u64,
}

/// The numbers of the refusals of one ticket or saver, and 0. Those of two tickets and of a hub are over them.
const NUMBERS: usize = 18;

/// The refusals that a saver's calls can meet.
const OF_SAVER: [usize; 6] = [4, 5, 8, 13, 14, 15];
/// A ticket's own refusals that come before the edition decides, and those of edition 01 and of edition 02.
const OF_OTHERS: [usize; 2] = [1, 2];
const OF_EDITION_01: [usize; 8] = [1, 3, 4, 5, 6, 7, 8, 9];
const OF_EDITION_02: [usize; 9] = [1, 3, 4, 5, 6, 7, 8, 9, 17];
/// The refusals that calls on an accepted ticket can meet.
const LATER: [usize; 4] = [10, 11, 12, 16];

impl Tally {
    /// Counts a ticket with its own refusal, or 0.
    pub fn ticket(&mut self, ticket: &[u8], refusal: u8) {
        self.tickets += 1;
        let edition = match ticket.get(..2) {
            Some(b"01") => 1,
            Some(b"02") => 2,
            _ => 0,
        };
        self.of_editions[edition][usize::from(refusal)] += 1;
        self.pools.count(ticket, refusal);
    }

    /// Counts a refusal that comes after the ticket's own ones.
    pub fn later_refusal(&mut self, refusal: u8) {
        if LATER.contains(&refusal.into()) {
            self.later_refusals[usize::from(refusal)] += 1;
        }
    }

    /// Counts a ticket that differs from its upper-case text. A refused one has no frames here.
    pub fn typed(&mut self, ticket: &[u8], upper: &[u8], frames: u16) {
        self.small_letters += u64::from(ticket != upper);
        self.small_letters_accepted += u64::from(ticket != upper && frames > 0);
    }

    pub fn saver_refusal(&mut self, refusal: u8) {
        self.saver_refusals[usize::from(refusal)] += 1;
    }

    /// Counts a plan that was checked and run for an accepted ticket.
    pub fn plan(&mut self, mode: u8, plan: &[u16], checked: &CheckAnswer, run: &RunAnswer) {
        self.plans += 1;
        self.later_refusal(checked.refusal);
        self.verdicts.count(mode, plan, checked);
        if run.refusal == 0 {
            self.broken += u64::from(run.broken);
            self.complete += u64::from(run.complete);
            self.incomplete += u64::from(!run.broken && !run.complete);
        }
    }

    pub fn add(&mut self, other: &Tally) {
        self.tickets += other.tickets;
        self.plans += other.plans;
        self.judged += other.judged;
        self.saver_calls += other.saver_calls;
        self.wrapped += other.wrapped;
        self.small_letters += other.small_letters;
        self.small_letters_accepted += other.small_letters_accepted;
        self.twins += other.twins;
        self.broken += other.broken;
        self.complete += other.complete;
        self.incomplete += other.incomplete;
        for (sum, counts) in self.of_editions.iter_mut().zip(&other.of_editions) {
            add_each(sum, counts);
        }
        add_each(&mut self.later_refusals, &other.later_refusals);
        add_each(&mut self.saver_refusals, &other.saver_refusals);
        self.pools.add(&other.pools);
        self.verdicts.add(&other.verdicts);
        self.peaks.add(&other.peaks);
        self.joins.add(&other.joins);
        self.hubs.add(&other.hubs);
    }

    pub fn print(&self) {
        println!(
            "{} tickets, {} plans checked and run, {} plans for the checker alone",
            self.tickets, self.plans, self.judged
        );
        println!(
            "{} saver calls, {} tickets for the wrappers",
            self.saver_calls, self.wrapped
        );
        println!(
            "{} tickets with small letters beside their upper-case text, {} of them accepted",
            self.small_letters, self.small_letters_accepted
        );
        println!("{} tickets of edition 02 beside their twins of edition 01", self.twins);
        let [others, first, second] = &self.of_editions;
        println!("accepted: edition 01 {}, edition 02 {}", first[0], second[0]);
        for number in 1..NUMBERS {
            println!(
                "refusal {number}: edition 01 {}, edition 02 {}, other tickets {}, later {}, saver {}",
                first[number], second[number], others[number], self.later_refusals[number], self.saver_refusals[number]
            );
        }
        self.pools.print();
        self.verdicts.print();
        println!(
            "runs: {} broken off, {} complete, {} incomplete",
            self.broken, self.complete, self.incomplete
        );
        self.peaks.print();
        self.joins.print();
        self.hubs.print();
    }

    /// The comparison had enough of everything.
    pub fn assert_not_vacuous(&self) {
        assert!(
            self.tickets >= 100_000 && self.plans >= 100_000 && self.judged >= 50_000 && self.saver_calls >= 100_000
        );
        assert!(self.wrapped >= 1_000);
        assert!(self.small_letters >= 2_000 && self.small_letters_accepted >= 1_000);
        assert!(self.broken >= 1_000 && self.complete >= 1_000 && self.incomplete >= 1_000);
        let [others, first, second] = &self.of_editions;
        assert!(first[0] >= 10_000 && second[0] >= 10_000 && self.twins >= 10_000);
        often_enough("other tickets", others, &OF_OTHERS);
        often_enough("tickets of edition 01", first, &OF_EDITION_01);
        often_enough("tickets of edition 02", second, &OF_EDITION_02);
        often_enough("later calls", &self.later_refusals, &LATER);
        often_enough("savers", &self.saver_refusals, &OF_SAVER);
        self.pools.assert_not_rare();
        self.verdicts.assert_not_rare();
        self.peaks.assert_not_rare();
        self.joins.assert_not_rare();
        self.hubs.assert_not_rare();
    }
}

fn often_enough(met_by: &str, counts: &[u64; NUMBERS], numbers: &[usize]) {
    for &number in numbers {
        assert!(
            counts[number] >= 300,
            "refusal {number} is too rare for {met_by}: {}",
            counts[number]
        );
    }
}

fn add_each(sums: &mut [u64], counts: &[u64]) {
    for (sum, count) in sums.iter_mut().zip(counts) {
        *sum += count;
    }
}
