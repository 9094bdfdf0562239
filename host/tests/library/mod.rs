//! The library's calls with slices for the pointers and counts, and with the whole answers.
//! Each pointer and count in an unsafe block are those of one slice.

use dockplan::raw::*;

pub fn parse(ticket: &[u8]) -> TicketAnswer {
    unsafe { dockplan_parse(ticket.as_ptr(), ticket.len()) }
}

pub fn line(ticket: &[u8], position: Position) -> Part {
    unsafe { dockplan_line(ticket.as_ptr(), ticket.len(), position) }
}

pub fn line_refusal(ticket: &[u8], position: Position) -> u8 {
    unsafe { dockplan_line_refusal(ticket.as_ptr(), ticket.len(), position) }
}

pub fn counts(ticket: &[u8]) -> CountsAnswer {
    unsafe { dockplan_counts(ticket.as_ptr(), ticket.len()) }
}

pub fn plan(ticket: &[u8], out: &mut [u16]) -> PlanAnswer {
    unsafe { dockplan_plan(ticket.as_ptr(), ticket.len(), out.as_mut_ptr(), out.len()) }
}

pub fn print(ticket: &[u8], out: &mut [u8]) -> usize {
    unsafe { dockplan_print(ticket.as_ptr(), ticket.len(), out.as_mut_ptr(), out.len()) }
}

pub fn join(first: &[u8], second: &[u8], out: &mut [u8]) -> JoinAnswer {
    let (one, other, ticket) = (first.as_ptr(), second.as_ptr(), out.as_mut_ptr());
    unsafe { dockplan_join(one, first.len(), other, second.len(), ticket, out.len()) }
}

pub fn hub(patterns: &[u8], cameras: &[u8], out: &mut [u8]) -> HubAnswer {
    let (pattern, list, cards) = (patterns.as_ptr(), cameras.as_ptr(), out.as_mut_ptr());
    unsafe { dockplan_hub(pattern, patterns.len(), list, cameras.len(), cards, out.len()) }
}

pub fn check(ticket: &[u8], plan: &[u16]) -> CheckAnswer {
    unsafe { dockplan_check(ticket.as_ptr(), ticket.len(), plan.as_ptr(), plan.len()) }
}

pub fn run_plan(ticket: &[u8], plan: &[u16]) -> RunAnswer {
    unsafe { dockplan_run_plan(ticket.as_ptr(), ticket.len(), plan.as_ptr(), plan.len()) }
}

pub fn saver_new(cards: u8, pool: u16) -> SaverAnswer {
    unsafe { dockplan_saver_new(cards, pool) }
}

/// The record must be one that a call gave.
pub fn saver_save(record: Saver, card: u8) -> SaverAnswer {
    unsafe { dockplan_saver_save(record, card) }
}

/// The record must be one that a call gave.
pub fn saver_close(record: Saver) -> SaverAnswer {
    unsafe { dockplan_saver_close(record) }
}
