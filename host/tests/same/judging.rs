//! The checker alone, on plans that are made for it.

use super::same;
use crate::generate::Random;
use crate::judged::{self, Given};
use crate::library;
use crate::tally::Tally;
use dockplan::reference;

/// Compares the verdicts on several plans for one read or save ticket of that many frames.
pub fn compare(random: &mut Random, frames: usize, plans: u64, tally: &mut Tally) {
    let given = Given::any(random, frames);
    for _ in 0..plans {
        let plan = judged::plan(random, &given);
        let checked = library::check(&given.ticket, &plan);
        let expected = reference::check(&given.ticket, &plan);
        same(&given.ticket, format_args!("check of {plan:?}"), &checked, &expected);
        tally.judged += 1;
        tally.verdicts.count(given.mode, &plan, &checked);
    }
}
