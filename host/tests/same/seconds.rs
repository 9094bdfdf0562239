//! "The second has no say in the plan": an accepted ticket of edition 02 and its twin, the one of edition 01 with the
//! same mode, cards, pool and list, get the same answers from every call but for the edition. A line that is handed
//! back begins with the twin's line.

use super::{answered_alike, same};
use crate::generate::tickets::CARD_DIGITS;
use crate::library;
use crate::tally::Tally;
use dockplan::raw::{Position, TicketAnswer};

/// Compares the library's answers for an accepted ticket of edition 02 and for its twin. The plan is checked and run
/// for both.
pub fn compare(ticket: &[u8], header: &TicketAnswer, plan: &[u16], tally: &mut Tally) {
    let frames = header.frames;
    let twin = without_seconds(ticket);
    tally.twins += u64::from(frames > 0);
    let same_header = TicketAnswer { edition: 1, ..*header };
    same(ticket, "parse", &same_header, &library::parse(&twin));
    answered_alike(ticket, &twin, frames, plan);
    for position in [0, frames / 2, frames].map(Position) {
        let card = dockplan::line(ticket, position).map(card);
        same(ticket, "card of a line", &card, &dockplan::line(&twin, position));
    }
}

/// The twin: the header says edition 01, and each line has its card alone.
fn without_seconds(ticket: &[u8]) -> Vec<u8> {
    let mut lines = ticket.split_inclusive(|&byte| byte == b'\n');
    let header = lines.next().unwrap_or_default();
    let mut twin = [b"01", &header[b"02".len()..]].concat();
    for line in lines {
        twin.extend(card(line));
        twin.push(b'\n');
    }
    twin
}

/// The card of a line, at its start in every edition.
fn card(line: &[u8]) -> &[u8] {
    &line[..CARD_DIGITS]
}
