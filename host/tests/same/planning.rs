//! The plan and the print, into buffers that are exact, longer, shorter and empty. The whole buffer is compared.

use super::{lent, marked, same, MARGIN};
use crate::generate::Random;
use crate::library;
use crate::tally::Tally;
use dockplan::reference;

/// The bytes of the longest printed plan: T's line and 4,096 lines of 11 bytes.
const MOST_PRINTED: usize = 5 + 11 * 4096;

/// Compares plan and print for a ticket of that many frames, and answers the library's plan.
pub fn compare(random: &mut Random, ticket: &[u8], frames: usize, tally: &mut Tally) -> Vec<u16> {
    let longer = frames + random.between(1, 20);
    for places in [frames.saturating_sub(1), 0, longer] {
        compare_plan(ticket, places, tally);
    }
    let text = compare_print(ticket, 5 + 11 * frames);
    for places in [text, text - 1, 0, text + random.between(1, 20)] {
        compare_print(ticket, places);
    }
    if random.once_in(16) {
        compare_plan(ticket, 4096, tally);
        compare_print(ticket, MOST_PRINTED);
    }
    compare_plan(ticket, frames, tally)
}

/// Compares the plan's answer and buffer, and answers what was lent.
fn compare_plan(ticket: &[u8], places: usize, tally: &mut Tally) -> Vec<u16> {
    let mut buffer = marked(places, |place| 0xA500 + place as u16);
    let mut expected = buffer.clone();
    let answer = library::plan(ticket, lent(&mut buffer));
    let reference = reference::plan(ticket, lent(&mut expected));
    same(ticket, format_args!("plan in {places} places"), &answer, &reference);
    same(
        ticket,
        format_args!("buffer of a plan in {places} places"),
        &buffer,
        &expected,
    );
    tally.later_refusal(answer.refusal);
    buffer[MARGIN..MARGIN + places].to_vec()
}

/// Compares the print's answer and buffer, and answers the bytes of the text.
fn compare_print(ticket: &[u8], places: usize) -> usize {
    let mut buffer = marked(places, |place| 0x80 | place as u8);
    let mut expected = buffer.clone();
    let bytes = library::print(ticket, lent(&mut buffer));
    let reference = reference::print(ticket, lent(&mut expected));
    same(ticket, format_args!("print in {places} places"), &bytes, &reference);
    same(
        ticket,
        format_args!("buffer of a print in {places} places"),
        &buffer,
        &expected,
    );
    bytes
}
