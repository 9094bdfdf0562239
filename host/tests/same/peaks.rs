//! "The buffers really needed": the peak of a read plan beside the pools that it is valid for, and the peak of a run beside
//! the pool that it was run with.

use super::same;
use crate::generate::Random;
use crate::judged::{self, with_pool, Given};
use crate::library;
use crate::tally::Tally;
use dockplan::raw::{CheckAnswer, RunAnswer, TicketAnswer, OVERFULL, VALID};
use dockplan::reference::{self, MAX_POOL};

/// "A read plan without cycle 0 or a shared card and cycle is then valid for pool m exactly when the peak of its run, on a
/// dock with a buffer for every frame, is at most m; the answer for a plan with a fault still shows 0." Where there are no
/// more frames than a pool can have buffers, a run with so large a pool is one on that dock, and its peak the same.
pub fn compare_pools(random: &mut Random, frames: usize, tally: &mut Tally) {
    let given = Given::read(random, frames);
    let plan = judged::plan_of_free_cycles(random, &given);
    let peak = reference::peak(&given.ticket, &plan).expect("a plan for an accepted ticket");
    if frames <= MAX_POOL {
        let ticket = with_pool(&given.ticket, frames);
        let run = library::run_plan(&ticket, &plan);
        same(&ticket, format_args!("peak of the run of {plan:?}"), &run.peak, &peak);
    }
    for pool in pools(random, peak.into()) {
        let ticket = with_pool(&given.ticket, pool);
        let checked = library::check(&ticket, &plan);
        let found = (checked.verdict, checked.peak);
        let expected = if usize::from(peak) <= pool {
            (VALID, peak)
        } else {
            (OVERFULL, 0)
        };
        same(&ticket, format_args!("verdict and peak of {plan:?}"), &found, &expected);
        tally.peaks.count_pool(frames, peak.into(), pool);
    }
}

/// Pools next to the peak, smaller and larger ones, and any.
fn pools(random: &mut Random, peak: usize) -> [usize; 6] {
    let any = random.between(1, MAX_POOL);
    let smaller = random.between(1, peak);
    [peak - 1, peak, peak + 1, smaller, peak + smaller, any].map(|pool| pool.clamp(1, MAX_POOL))
}

/// A run's peak is above the pool exactly where the run broke off at an end of a cycle, which found so many frames held. For
/// a valid read plan it is the checker's.
pub fn of_run(
    ticket: &[u8],
    header: &TicketAnswer,
    plan: &[u16],
    checked: &CheckAnswer,
    run: &RunAnswer,
    tally: &mut Tally,
) {
    let above = run.peak > header.pool;
    let at_an_end = reference::breaks_off_at_an_end(ticket, plan);
    let call = format_args!("a peak above the pool, in the run of {plan:?}");
    same(ticket, call, &above, &at_an_end);
    let valid = header.mode == 0 && checked.verdict == VALID;
    if valid {
        let call = format_args!("peak in the run, and in the check, of {plan:?}");
        same(ticket, call, &run.peak, &checked.peak);
    }
    tally.peaks.count_run(run.broken, at_an_end, valid);
}
