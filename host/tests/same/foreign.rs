//! The checker and the dock's run, on the library's own plans and on foreign ones.

use super::{peaks, same, with_mode};
use crate::generate::{plans, Random};
use crate::library;
use crate::tally::Tally;
use dockplan::raw::{CheckAnswer, RunAnswer, TicketAnswer, VALID};
use dockplan::reference;

/// Compares check and run_plan on plans for an accepted ticket. `own` is the library's plan for it.
pub fn compare(random: &mut Random, ticket: &[u8], header: &TicketAnswer, own: &[u16], tally: &mut Tally) {
    own_plan_is_good(ticket, header.mode, own);
    let other = plan_of_other_mode(random, ticket, own.len());
    let mut handed_in = vec![
        own.to_vec(),
        plans::foreign(random, own),
        plans::foreign(random, &other),
        other,
    ];
    if random.once_in(4) {
        handed_in.push(plans::of_wrong_length(random, own.len()));
    }
    for plan in handed_in {
        let (checked, run) = compare_plan(ticket, &plan);
        peaks::of_run(ticket, header, &plan, &checked, &run, tally);
        tally.plan(header.mode, &plan, &checked, &run);
    }
}

/// Compares the answers for a refused ticket, whatever the plan is.
pub fn compare_refused(random: &mut Random, ticket: &[u8]) {
    compare_plan(ticket, &plans::of_wrong_length(random, 3));
}

/// The library's read and save plans are correct schedules, and a read plan's run hands over every frame in T cycles.
fn own_plan_is_good(ticket: &[u8], mode: u8, own: &[u16]) {
    let length = own.iter().copied().max().unwrap_or(0);
    if mode < 2 {
        let checked = library::check(ticket, own);
        let found = (checked.verdict, checked.cycles.0);
        same(ticket, "verdict on the own plan", &found, &(VALID, length));
    }
    if mode == 0 {
        let run = library::run_plan(ticket, own);
        let found = (run.complete, run.needed.0);
        same(ticket, "run of the own plan", &found, &(true, length));
    }
}

fn plan_of_other_mode(random: &mut Random, ticket: &[u8], frames: usize) -> Vec<u16> {
    let mut plan = vec![0; frames];
    library::plan(&with_mode(ticket, random.below(3) as u8), &mut plan);
    plan
}

fn compare_plan(ticket: &[u8], plan: &[u16]) -> (CheckAnswer, RunAnswer) {
    let checked = library::check(ticket, plan);
    let expected = reference::check(ticket, plan);
    same(ticket, format_args!("check of {plan:?}"), &checked, &expected);
    let run = library::run_plan(ticket, plan);
    let expected = reference::run_plan(ticket, plan);
    same(ticket, format_args!("run of {plan:?}"), &run, &expected);
    (checked, run)
}
