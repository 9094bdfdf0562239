//! What is said of an accepted ticket: what it asks for, its capture seconds, its frames on each card, and how many
//! cycles its plan has. All numbers are the library's.

use super::digits::long_number;
use super::place::{CARD_DIGITS, SECOND_DIGITS};
use super::shown::{count, range};
use super::{READ, SAVE, SAVE_AND_KEEP};
use crate::{Position, Ticket};

/// The lines about the frames of each card are about this long at most.
const WIDTH: usize = 100;

/// What is said of a ticket of which the library read these numbers.
pub fn lines(ticket: &[u8], read: &Ticket) -> Vec<String> {
    let mut lines = vec![asks_for(read)];
    lines.extend(seconds(ticket, read));
    if let Ok(counts) = crate::counts(ticket) {
        lines.extend(on_cards(&counts, read.cards));
    }
    lines.extend(plan_has(ticket, read));
    lines
}

fn asks_for(read: &Ticket) -> String {
    let plan = match read.mode {
        READ => "read plan",
        SAVE => "save plan",
        _ => "save and keep plan",
    };
    let edition = read.edition;
    let frames = count(read.frames.into(), "frame");
    let cards = count(read.cards.into(), "card");
    let buffers = count(read.pool.into(), "buffer");
    format!("It is of edition {edition:02X} and asks for a {plan} of {frames} on {cards}, with a pool of {buffers}.")
}

/// The first and the last capture second, which is also the largest. Edition 01 has none.
fn seconds(ticket: &[u8], read: &Ticket) -> Option<String> {
    let first = second(ticket, 0)?;
    let last = second(ticket, read.frames.checked_sub(1)?)?;
    Some(format!("Capture seconds: {}.", range(first, last, SECOND_DIGITS)))
}

/// The capture second of the frame at a position, from the line that the library hands back.
fn second(ticket: &[u8], position: u16) -> Option<u32> {
    let line = crate::line(ticket, Position(position)).ok()?;
    long_number(line.get(CARD_DIGITS..)?.get(..SECOND_DIGITS)?)
}

fn plan_has(ticket: &[u8], read: &Ticket) -> Option<String> {
    let mut plan = vec![0; read.frames.into()];
    let cycles = crate::plan(ticket, &mut plan).ok()?;
    let cycles = count(cycles.0.into(), "cycle");
    if read.mode != SAVE_AND_KEEP {
        return Some(format!("The plan has {cycles}."));
    }
    let kept = match plan.iter().filter(|&&cycle| cycle == 0).count() {
        1 => "1 frame stays".to_string(),
        kept => format!("{kept} frames stay"),
    };
    Some(format!("The plan has {cycles}. {kept} in the pool, with cycle 0."))
}

/// The frames of each card. Neighbours with the same count are said together.
fn on_cards(counts: &[u16; 32], cards: u8) -> Vec<String> {
    let counts = counts.get(..usize::from(cards)).unwrap_or_default();
    let mut groups = Vec::new();
    let mut first = 0;
    for same in counts.chunk_by(|one, next| one == next) {
        if same[0] > 0 {
            groups.push(group(first, same.len(), same[0]));
        }
        first += same.len();
    }
    if groups.is_empty() {
        return Vec::new();
    }
    let without = counts.iter().filter(|&&frames| frames == 0).count();
    let mut lines = wrapped("Frames on ", &groups);
    match without {
        0 => (),
        1 => lines.push("No frames on the other card.".to_string()),
        _ => lines.push(format!("No frames on the other {without} cards.")),
    }
    lines
}

fn group(first: usize, cards: usize, frames: u16) -> String {
    match cards {
        1 => format!("card {first}: {frames}"),
        _ => format!("cards {first} to {}: {frames} each", first + cards - 1),
    }
}

/// The groups with commas between them and a full stop at the end, in as many lines as they need.
fn wrapped(start: &str, groups: &[String]) -> Vec<String> {
    let mut lines = Vec::new();
    let mut line = start.to_string();
    for (place, group) in groups.iter().enumerate() {
        let mark = if place + 1 == groups.len() { "." } else { "," };
        if line.len() + group.len() > WIDTH {
            lines.push(line.trim_end().to_string());
            line = "  ".to_string();
        }
        line += &format!("{group}{mark} ");
    }
    lines.push(line.trim_end().to_string());
    lines
}
