//! "A plan depends on the values alone": a ticket and the same ticket in upper case get the same answers from every call,
//! and a line that is handed back has the caller's own bytes.

use super::{answered_alike, same};
use crate::library;
use crate::tally::Tally;
use dockplan::raw::Position;

/// Compares the library's answers for a ticket and for its upper-case text; the plan is checked and run for both.
pub fn compare(ticket: &[u8], frames: u16, plan: &[u16], tally: &mut Tally) {
    let upper = in_upper_case(ticket);
    tally.typed(ticket, &upper, frames);
    same(ticket, "parse", &library::parse(ticket), &library::parse(&upper));
    answered_alike(ticket, &upper, frames, plan);
    for position in [0, frames / 2, frames].map(Position) {
        let part = library::line(ticket, position);
        same(ticket, "line", &part, &library::line(&upper, position));
        let own = dockplan::line(ticket, position).unwrap_or_default();
        same(
            ticket,
            "bytes of a line",
            &own,
            &&ticket[part.offset..part.offset + part.length],
        );
    }
}

/// The same ticket in upper case.
pub fn in_upper_case(ticket: &[u8]) -> Vec<u8> {
    ticket.iter().map(|&byte| upper(byte)).collect()
}

/// a to f become A to F, and every other byte stays.
fn upper(byte: u8) -> u8 {
    if (b'a'..=b'f').contains(&byte) {
        byte - 32
    } else {
        byte
    }
}
