//! What is said of a refused ticket: what the refusal means, its place, and the commonest cause where one applies.
//! The limits in the words are those of place.rs.

use super::place::{self, Expected, Place, HEADER_DIGITS};
use super::{hints, shown};

/// A refusal as it is printed: FF and its number in 2 digits.
pub fn printed(refusal: u8) -> String {
    format!("FF{refusal:02X}")
}

/// What is said of a ticket that the library refused by this number.
pub fn lines(ticket: &[u8], refusal: u8) -> Vec<String> {
    let Some(place) = place::find(ticket, refusal) else {
        return vec!["Its place was not found.".to_string()];
    };
    let mut lines = vec![meaning(ticket, refusal, &place)];
    lines.extend(shown::lines(ticket, &place));
    lines.extend(hint_lines(ticket, &place));
    lines
}

/// The refusal in words.
fn meaning(ticket: &[u8], refusal: u8, place: &Place) -> String {
    match place.expected {
        Expected::Field(field) => format!("The {} is not {} to {}.", field.name, field.least, field.most),
        Expected::CardBelow(_) => "A card number is not below the number of cards.".to_string(),
        Expected::SecondFrom(_) => "A capture second is lower than that of the line before.".to_string(),
        Expected::EndOfText => "Bytes follow the last line.".to_string(),
        _ if refusal == 1 => {
            let bytes = HEADER_DIGITS + 1;
            format!("The first {bytes} bytes are not {HEADER_DIGITS} digits and an end byte.")
        }
        _ => {
            let digits = place::line_digits(place::edition(ticket));
            format!("A frame line is missing, or it is not {digits} digits and an end byte.")
        }
    }
}

fn hint_lines(ticket: &[u8], place: &Place) -> Vec<String> {
    let of_byte = hints::of_byte(ticket, place);
    let hints = of_byte.into_iter().chain(hints::of_ticket(ticket, place));
    hints.map(|hint| shown::hint(&hint)).collect()
}
