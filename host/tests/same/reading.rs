//! The ticket's reader: parse, the lines and their refusals, and the counts.

use super::same;
use crate::generate::Random;
use crate::library;
use crate::tally::Tally;
use dockplan::raw::{Position, TicketAnswer};
use dockplan::reference;

/// Compares the reader's calls and answers what the ticket's header says.
pub fn compare(random: &mut Random, ticket: &[u8], tally: &mut Tally) -> TicketAnswer {
    let header = library::parse(ticket);
    same(ticket, "parse", &header, &reference::parse(ticket));
    tally.ticket(ticket, header.refusal);
    same(ticket, "counts", &library::counts(ticket), &reference::counts(ticket));
    for position in positions(random, header.frames) {
        compare_line(ticket, position, tally);
    }
    header
}

/// Positions below L, around L, and the largest one.
fn positions(random: &mut Random, frames: u16) -> [Position; 6] {
    let below = random.below(usize::from(frames).max(1)) as u16;
    [0, below, frames.saturating_sub(1), frames, frames + 1, u16::MAX].map(Position)
}

fn compare_line(ticket: &[u8], position: Position, tally: &mut Tally) {
    let part = library::line(ticket, position);
    let expected = reference::line(ticket, position);
    same(ticket, format_args!("line {position:?}"), &part, &expected);
    let refusal = library::line_refusal(ticket, position);
    let expected = reference::line_refusal(ticket, position);
    same(
        ticket,
        format_args!("refusal of line {position:?}"),
        &refusal,
        &expected,
    );
    tally.later_refusal(refusal);
}
