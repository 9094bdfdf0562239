//! What is said of a plan file. For an accepted ticket: is it a printed plan, does it fit the ticket, what does the
//! checker say? For a refused ticket: does it say the same refusal?

use super::printed::{self, Printed};
use super::{fits, hints, keep, refused, shown, verdict, Said};
use crate::{Refusal, Ticket};

/// The checker's refusal of save and keep.
const SAVE_AND_KEEP: Refusal = Refusal(12);

/// Judges the text of a plan file for a ticket of which the library read these numbers.
pub fn judge(ticket: &[u8], read: &Ticket, text: &[u8]) -> Said {
    let (cycles, frames) = match printed::read(text) {
        Ok(Printed::Plan { cycles, frames }) => (cycles, frames),
        Ok(Printed::Refusal(number)) => return Err(wrong_refusal(number)),
        Err(place) => {
            let mut lines = vec!["It is not a printed plan.".to_string()];
            lines.extend(shown::lines(text, &place));
            lines.extend(hints::of_byte(text, &place).map(|hint| shown::hint(&hint)));
            return Err(lines);
        }
    };
    fits::all_lines(ticket, read, &frames)?;
    let plan: Vec<u16> = frames.iter().map(|frame| frame.cycle).collect();
    match crate::check(ticket, &plan) {
        Ok(verdict) => verdict::said(ticket, read, cycles, &frames, verdict),
        Err(SAVE_AND_KEEP) => keep::compare(ticket, read, text),
        Err(Refusal(number)) => Err(vec![format!("The checker refuses it by {number}.")]),
    }
}

/// A refusal's line beside an accepted ticket.
fn wrong_refusal(number: u8) -> Vec<String> {
    let name = refused::printed(number);
    vec![
        format!("It says that the ticket is refused by {number} ({name})."),
        "The library accepts the ticket.".to_string(),
    ]
}

/// What is said of a plan file beside a ticket that is refused by this number.
pub fn beside_refused(text: &[u8], refusal: u8) -> String {
    let name = refused::printed(refusal);
    match printed::read(text) {
        Ok(Printed::Refusal(number)) if number == refusal => format!("says the same refusal, {name}"),
        Ok(Printed::Refusal(number)) => format!("says another refusal, {}; {name} is right", refused::printed(number)),
        _ => format!("does not say the refusal; {name} is right"),
    }
}
