//! The checker, frame by frame, with each count as the rules define it.

use super::dock;
use super::ticket::{Ticket, READ};
use crate::raw::{CheckAnswer, Cycle, Position, NO_CYCLE, OVERFULL, SHARED_CARD, VALID};

/// "The checker answers valid with T and, for a read, the peak of the plan's run on a dock with a buffer for every
/// frame; for a save the peak is 0. Otherwise it names the lowest position at fault [...]. With a fault, T and peak
/// are 0."
pub fn check(ticket: &Ticket, plan: &[u16]) -> CheckAnswer {
    for position in 0..plan.len() {
        if let Some(verdict) = fault(ticket, plan, position) {
            return CheckAnswer {
                refusal: 0,
                verdict,
                position: Position(position as u16),
                cycles: Cycle(0),
                peak: 0,
            };
        }
    }
    CheckAnswer {
        refusal: 0,
        verdict: VALID,
        position: Position(0),
        cycles: Cycle(dock::length(plan)),
        peak: if ticket.mode == READ {
            dock::run_plan(&ticket.list, plan.len(), plan).peak
        } else {
            0
        },
    }
}

/// "Of its faults the first of: cycle 0; an earlier frame of the same card in the same cycle; too many frames in the
/// pool."
fn fault(ticket: &Ticket, plan: &[u16], position: usize) -> Option<u8> {
    if plan[position] == 0 {
        Some(NO_CYCLE)
    } else if shares_card(&ticket.list, plan, position) {
        Some(SHARED_CARD)
    } else if frames_in_pool(ticket.mode, plan, position) >= usize::from(ticket.pool) {
        Some(OVERFULL)
    } else {
        None
    }
}

/// "No card has two frames in one cycle": whether an earlier frame has this frame's card and cycle.
fn shares_card(list: &[u8], plan: &[u16], position: usize) -> bool {
    (0..position).any(|earlier| list[earlier] == list[position] && plan[earlier] == plan[position])
}

/// Read: how many "later frames have a cycle equal to or earlier than i's". Save: how many "earlier frames have a cycle
/// equal to or later than i's". Fewer than m is correct, and "a cycle 0 takes part in the comparisons of other frames
/// as the number 0".
fn frames_in_pool(mode: u8, plan: &[u16], position: usize) -> usize {
    let own = plan[position];
    if mode == READ {
        plan[position + 1..].iter().filter(|&&later| later <= own).count()
    } else {
        plan[..position].iter().filter(|&&earlier| earlier >= own).count()
    }
}
